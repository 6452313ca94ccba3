/* A slow disk, for LD_PRELOAD: each fsync takes 0.7 seconds longer, or as many milliseconds as SLOW_DISK says. */
#include <stdlib.h>
#include <sys/syscall.h>
#include <unistd.h>

int fsync(int file) {
    const char *longer = getenv("SLOW_DISK");
    usleep(1000 * (longer ? (useconds_t)atol(longer) : 700));
    return (int)syscall(SYS_fsync, file);
}
