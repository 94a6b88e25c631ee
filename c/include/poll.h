/* Of <poll.h> what c/folder uses, as it is on Linux on x86-64 with glibc. */
#ifndef LQ_POLL_H
#define LQ_POLL_H
#define POLLIN 0x001
#define POLLPRI 2
typedef unsigned long int nfds_t;
struct pollfd {
    int fd;
    short int events;
    short int revents;
};
extern int poll(struct pollfd *files, nfds_t count, int timeout);
#endif
