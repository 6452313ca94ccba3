/* Another clock, for LD_PRELOAD: the UNIX time is the one that OTHER_CLOCK tells. */
#include <stdlib.h>
#include <sys/syscall.h>
#include <time.h>
#include <unistd.h>

int clock_gettime(clockid_t clock, struct timespec *time) {
    const char *second = getenv("OTHER_CLOCK");
    int result = (int)syscall(SYS_clock_gettime, clock, time);
    if (second && clock == CLOCK_REALTIME) time->tv_sec = (time_t)atoll(second);
    return result;
}
