/* Of <fcntl.h> what c/folder uses, as it is on Linux on x86-64 with glibc. */
#ifndef LQ_FCNTL_H
#define LQ_FCNTL_H
#include <sys/types.h>
#define O_RDONLY 0
#define O_WRONLY 1
#define O_RDWR 2
#define O_CREAT 0100
#define O_EXCL 0200
#define O_TRUNC 01000
#define O_NONBLOCK 04000
#define O_DIRECTORY 0200000
#define O_NOFOLLOW 0400000
#define O_CLOEXEC 02000000
#define O_PATH 010000000
#define AT_FDCWD (-100)
#define AT_SYMLINK_NOFOLLOW 0x100
#define AT_NO_AUTOMOUNT 0x800
#define AT_EMPTY_PATH 0x1000
#define F_SETLK 6
#define F_WRLCK 1
#define SEEK_SET 0
struct flock {
    short int l_type;
    short int l_whence;
    off_t l_start;
    off_t l_len;
    pid_t l_pid;
};
extern int fcntl(int file, int act, ...);
extern int open(const char *path, int flags, ...);
extern int openat(int folder, const char *path, int flags, ...);
#endif
