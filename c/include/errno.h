/* Of <errno.h> what c/folder uses, as it is on Linux on x86-64 with glibc. */
#ifndef LQ_ERRNO_H
#define LQ_ERRNO_H
#define EPERM 1
#define ENOENT 2
#define EINTR 4
#define EIO 5
#define E2BIG 7
#define EAGAIN 11
#define ENOMEM 12
#define EACCES 13
#define EEXIST 17
#define ENOTDIR 20
#define ENFILE 23
#define EMFILE 24
#define ERANGE 34
#define ENAMETOOLONG 36
#define ENOSYS 38
#define ELOOP 40
#define EOPNOTSUPP 95
#define ESTALE 116
#define errno (*__errno_location())
extern int *__errno_location(void);
#endif
