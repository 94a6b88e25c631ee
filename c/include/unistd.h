/* Of <unistd.h> what c/folder uses, as it is on Linux on x86-64 with glibc. */
#ifndef LQ_UNISTD_H
#define LQ_UNISTD_H
#include <sys/types.h>
extern int close(int file);
extern int fdatasync(int file);
extern int fsync(int file);
extern int ftruncate(int file, off_t size);
extern char *getcwd(char *out, size_t room);
extern pid_t getpid(void);
extern ssize_t pwrite(int file, const void *bytes, size_t size, off_t at);
extern ssize_t read(int file, void *out, size_t room);
extern long int syscall(long int number, ...);
extern int unlinkat(int folder, const char *path, int flags);
#endif
