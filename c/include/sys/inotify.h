/* Of <sys/inotify.h> what c/folder uses, as it is on Linux on x86-64 with glibc. */
#ifndef LQ_SYS_INOTIFY_H
#define LQ_SYS_INOTIFY_H
#include <stdint.h>
#define IN_CLOEXEC 02000000
#define IN_NONBLOCK 04000
#define IN_MODIFY 0x00000002
#define IN_ATTRIB 0x00000004
#define IN_CLOSE_WRITE 0x00000008
#define IN_MOVED_FROM 0x00000040
#define IN_MOVED_TO 0x00000080
#define IN_CREATE 0x00000100
#define IN_DELETE 0x00000200
#define IN_DELETE_SELF 0x00000400
#define IN_MOVE_SELF 0x00000800
#define IN_UNMOUNT 0x00002000
#define IN_Q_OVERFLOW 0x00004000
#define IN_IGNORED 0x00008000
#define IN_ONLYDIR 0x01000000
struct inotify_event {
    int wd;
    uint32_t mask;
    uint32_t cookie;
    uint32_t len;
    char name[];
};
extern int inotify_init1(int flags);
extern int inotify_add_watch(int file, const char *path, uint32_t mask);
extern int inotify_rm_watch(int file, int watch);
#endif
