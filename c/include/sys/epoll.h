/* Of <sys/epoll.h> what c/folder uses, as it is on Linux on x86-64 with glibc. */
#ifndef LQ_SYS_EPOLL_H
#define LQ_SYS_EPOLL_H
#include <stdint.h>
#define EPOLL_CLOEXEC 02000000
#define EPOLLIN 0x001
#define EPOLLPRI 0x002
#define EPOLL_CTL_ADD 1
typedef union epoll_data {
    void *ptr;
    int fd;
    uint32_t u32;
    uint64_t u64;
} epoll_data_t;
struct epoll_event {
    uint32_t events;
    epoll_data_t data;
} __attribute__((packed));
extern int epoll_create1(int flags);
extern int epoll_ctl(int set, int act, int file, struct epoll_event *event);
#endif
