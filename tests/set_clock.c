/* A clock that is set while a program runs, for LD_PRELOAD: the UNIX time is the system's and as many seconds more as the file says that SET_CLOCK names. */
#include <stdio.h>
#include <stdlib.h>
#include <sys/syscall.h>
#include <time.h>
#include <unistd.h>

int clock_gettime(clockid_t clock, struct timespec *time) {
    const char *name = getenv("SET_CLOCK");
    int result = (int)syscall(SYS_clock_gettime, clock, time);
    FILE *file = name && clock == CLOCK_REALTIME ? fopen(name, "r") : NULL;
    long long more = 0;
    if (file && fscanf(file, "%lld", &more) == 1) time->tv_sec += (time_t)more;
    if (file) fclose(file);
    return result;
}
