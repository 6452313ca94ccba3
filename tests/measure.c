/* measure OUTPUT COMMAND ..: runs the command with its standard output in the file OUTPUT, and prints its seconds and its peak memory in KiB.
   It is small itself, since the system counts a child's memory from before its program is loaded. */
#include <fcntl.h>
#include <stdio.h>
#include <sys/resource.h>
#include <sys/time.h>
#include <sys/wait.h>
#include <unistd.h>

static double now(void) {
    struct timeval time;
    gettimeofday(&time, NULL);
    return time.tv_sec + time.tv_usec / 1e6;
}

int main(int count, char **words) {
    if (count < 3) return 2;
    double start = now();
    pid_t child = fork();
    if (child == 0) {
        int output = open(words[1], O_WRONLY | O_CREAT | O_TRUNC, 0644);
        if (output < 0 || dup2(output, 1) < 0) _exit(2);
        close(output);
        execv(words[2], words + 2);
        _exit(2);
    }
    int status;
    struct rusage used;
    if (child < 0 || wait4(child, &status, 0, &used) != child) return 2;
    printf("%.3f %ld %d\n", now() - start, used.ru_maxrss, WIFSIGNALED(status) ? WTERMSIG(status) : 0);
    return 0;
}
