/* Runs a command under ptrace and disturbs its program at its system calls. A stop is the entry or the exit of a call; the first call behind exec is 1.
   The program is the command itself, or, where the environment names a PROGRAM, the first of its processes that executes that file; all others run
   undisturbed to their end.

   kill_at kill N COMMAND ..         kills it at stop N; if it ends before, the number of its stops goes to file descriptor 9
   kill_at fail N ERRNO COMMAND ..   lets the N-th of its calls on files fail with ERRNO, without being made
   kill_at short N COMMAND ..        lets no read and no write pass more than N bytes
   kill_at list COMMAND ..           prints each call to file descriptor 9: number, first two arguments, result

   fail and short begin where the program first opens a file that is one of its own words, so that the loading of the program is left alone.

   It exits with 0 if it disturbed the program, 3 if that ended before, and 2 if ptrace is refused. */
#include <errno.h>
#include <signal.h>
#include <stdio.h>
#include <stdlib.h>
#include <string.h>
#include <sys/ptrace.h>
#include <sys/syscall.h>
#include <sys/user.h>
#include <sys/wait.h>
#include <unistd.h>

enum { DISTURBED = 0, REFUSED = 2, ENDED = 3 };

#ifndef __x86_64__
/* The registers below are those of x86-64. */
int main(void) {
    return REFUSED;
}
#else

static FILE *list;
static pid_t first; /* the command's own process; 0 once it has ended */

/* The calls that a program makes on files. */
static int on_files(long call) {
    switch (call) {
    case SYS_open: case SYS_openat: case SYS_creat: case SYS_close: case SYS_read: case SYS_readv: case SYS_pread64: case SYS_write:
    case SYS_writev: case SYS_pwrite64: case SYS_lseek: case SYS_fsync: case SYS_fdatasync: case SYS_rename: case SYS_renameat:
    case SYS_renameat2: case SYS_unlink: case SYS_unlinkat: case SYS_ftruncate: case SYS_fstat: case SYS_newfstatat: case SYS_stat:
    case SYS_statx: case SYS_link: case SYS_linkat:
        return 1;
    default:
        return 0;
    }
}

static int has_count(long call) {
    return call == SYS_read || call == SYS_write || call == SYS_pread64 || call == SYS_pwrite64;
}

/* Whether the call at its entry opens a file that is one of the command's words. */
static int opens_own(pid_t child, char **words, struct user_regs_struct *registers) {
    char path[4096] = "";
    unsigned long long at = registers->orig_rax == SYS_openat ? registers->rsi : registers->rdi;
    if (registers->orig_rax != SYS_openat && registers->orig_rax != SYS_open) return 0;
    for (size_t done = 0; done + sizeof(long) < sizeof path && !memchr(path, 0, done); done += sizeof(long)) {
        long word = ptrace(PTRACE_PEEKDATA, child, at + done, 0);
        memcpy(path + done, &word, sizeof word);
    }
    path[sizeof path - 1] = 0;
    for (char **word = words + 1; *word; word++) {
        if (!strcmp(*word, path)) return 1;
    }
    return 0;
}

/* Waits for a process to stop or to end. */
static pid_t wait_any(int *status) {
    pid_t one = waitpid(-1, status, __WALL);
    if (one == first && !WIFSTOPPED(*status)) first = 0;
    return one;
}

/* The signal that a process stopped at; 0 where it stopped for the tracer alone, as a process does that begins. */
static int signal_of(int status) {
    int at = WSTOPSIG(status);
    return status >> 16 || at == SIGSTOP || at == SIGTRAP ? 0 : at;
}

/* Goes on to the program's next stop at a call; 0 if it ended. */
static int next_stop(pid_t child) {
    int status;
    if (ptrace(PTRACE_SYSCALL, child, 0, 0) < 0) return 0;
    for (;;) {
        pid_t one = wait_any(&status);
        if (one < 0) return 0;
        if (!WIFSTOPPED(status)) {
            if (one == child) return 0;
        } else if (one != child) {
            ptrace(PTRACE_CONT, one, 0, signal_of(status));
        } else if (WSTOPSIG(status) == (SIGTRAP | 0x80)) {
            return 1;
        } else if (ptrace(PTRACE_SYSCALL, child, 0, signal_of(status)) < 0) {
            return 0;
        }
    }
}

/* Lets all processes run to their end. */
static void finish(void) {
    int status;
    while (first) {
        pid_t one = wait_any(&status);
        if (one < 0) return;
        if (WIFSTOPPED(status)) ptrace(PTRACE_CONT, one, 0, signal_of(status));
    }
}

/* Whether a process executes this file. */
static int executes(pid_t one, const char *program) {
    char link[64], path[4096];
    snprintf(link, sizeof link, "/proc/%d/exe", (int)one);
    ssize_t n = readlink(link, path, sizeof path - 1);
    if (n < 0) return 0;
    path[n] = 0;
    return !strcmp(path, program);
}

/* Goes on until a process executes this file, and holds it right behind its exec; -1 if all ended before. */
static pid_t find(const char *program) {
    int status;
    ptrace(PTRACE_CONT, first, 0, 0);
    while (first) {
        pid_t one = wait_any(&status);
        if (one < 0) return -1;
        if (!WIFSTOPPED(status)) continue;
        if (status >> 8 == (SIGTRAP | PTRACE_EVENT_EXEC << 8) && executes(one, program)) return next_stop(one) ? one : -1;
        ptrace(PTRACE_CONT, one, 0, signal_of(status));
    }
    return -1;
}

static int kill_at(pid_t child, long at) {
    long stop = 0;
    while (next_stop(child)) {
        if (++stop == at) {
            kill(child, SIGKILL);
            return DISTURBED;
        }
    }
    if (list) fprintf(list, "%ld\n", stop);
    return ENDED;
}

/* At its entry the call becomes none, at its exit its result becomes the error. */
static int fail_at(pid_t child, char **words, long at, long error) {
    long seen = 0;
    int disturbed = ENDED, begun = 0;
    struct user_regs_struct registers;
    while (next_stop(child)) {
        ptrace(PTRACE_GETREGS, child, 0, &registers);
        begun = begun || opens_own(child, words, &registers);
        int now = begun && on_files((long)registers.orig_rax) && ++seen == at;
        if (now) {
            if (list) fprintf(list, "%lld %lld\n", registers.orig_rax, registers.rdi);
            registers.orig_rax = (unsigned long long)-1;
            ptrace(PTRACE_SETREGS, child, 0, &registers);
        }
        if (!next_stop(child)) break;
        if (now) {
            ptrace(PTRACE_GETREGS, child, 0, &registers);
            registers.rax = (unsigned long long)-error;
            ptrace(PTRACE_SETREGS, child, 0, &registers);
            disturbed = DISTURBED;
        }
    }
    return disturbed;
}

static int shorten(pid_t child, char **words, unsigned long long most) {
    int disturbed = ENDED, begun = 0;
    struct user_regs_struct registers;
    while (next_stop(child)) {
        ptrace(PTRACE_GETREGS, child, 0, &registers);
        begun = begun || opens_own(child, words, &registers);
        if (begun && has_count((long)registers.orig_rax) && registers.rdx > most) {
            registers.rdx = most;
            ptrace(PTRACE_SETREGS, child, 0, &registers);
            disturbed = DISTURBED;
        }
        if (!next_stop(child)) break;
    }
    return disturbed;
}

static int list_calls(pid_t child) {
    struct user_regs_struct entry, out;
    while (next_stop(child)) {
        ptrace(PTRACE_GETREGS, child, 0, &entry);
        if (!next_stop(child)) break;
        ptrace(PTRACE_GETREGS, child, 0, &out);
        if (list) fprintf(list, "%lld %lld %lld %lld\n", entry.orig_rax, entry.rdi, entry.rsi, out.rax);
    }
    return DISTURBED;
}

/* Starts the command and holds it right behind its exec; -1 if that is refused. */
static pid_t start(char **words) {
    int status;
    pid_t child = fork();
    if (child == 0) {
        if (list) close(fileno(list));
        if (ptrace(PTRACE_TRACEME, 0, 0, 0) < 0) _exit(REFUSED);
        execv(words[0], words);
        _exit(REFUSED);
    }
    first = child;
    if (child < 0 || waitpid(child, &status, 0) != child || !WIFSTOPPED(status)) return -1;
    long options = PTRACE_O_TRACESYSGOOD | PTRACE_O_EXITKILL;
    const char *program = getenv("PROGRAM");
    if (program) options |= PTRACE_O_TRACEFORK | PTRACE_O_TRACEVFORK | PTRACE_O_TRACECLONE | PTRACE_O_TRACEEXEC;
    if (ptrace(PTRACE_SETOPTIONS, child, 0, options) < 0) return -1;
    return program ? find(program) : child;
}

static int disturb(pid_t child, char *mode, char **words, char **command) {
    if (!strcmp(mode, "kill")) return kill_at(child, atol(words[0]));
    if (!strcmp(mode, "fail")) return fail_at(child, command, atol(words[0]), atol(words[1]));
    if (!strcmp(mode, "short")) return shorten(child, command, (unsigned long long)atol(words[0]));
    return list_calls(child);
}

int main(int count, char **words) {
    if (count < 3) return REFUSED;
    char *mode = words[1];
    int before = !strcmp(mode, "list") ? 2 : !strcmp(mode, "fail") ? 4 : 3;
    if (count <= before) return REFUSED;
    list = fdopen(9, "w");
    pid_t child = start(words + before);
    if (child < 0) return REFUSED;
    int done = disturb(child, mode, words + 2, words + before);
    finish();
    return done;
}
#endif
