/* A disk that is stuck, for LD_PRELOAD: fsync waits as long as there is the file that STUCK_DISK names. */
#include <stdlib.h>
#include <sys/syscall.h>
#include <unistd.h>

int fsync(int file) {
    const char *sign = getenv("STUCK_DISK");
    while (sign && access(sign, F_OK) == 0)
        usleep(10000);
    return (int)syscall(SYS_fsync, file);
}
