/* Waiting that fails, for LD_PRELOAD: epoll_wait is an error as soon as there is the file that FAIL_WAIT names. */
#include <errno.h>
#include <stdlib.h>
#include <sys/epoll.h>
#include <sys/syscall.h>
#include <unistd.h>

int epoll_wait(int epoll, struct epoll_event *events, int most, int milliseconds) {
    const char *sign = getenv("FAIL_WAIT");
    if (sign && access(sign, F_OK) == 0) {
        errno = EIO;
        return -1;
    }
    return (int)syscall(SYS_epoll_pwait, epoll, events, most, milliseconds, NULL, 8);
}
