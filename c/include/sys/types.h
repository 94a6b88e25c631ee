/* Of <sys/types.h> what c/folder uses, as it is on Linux on x86-64 with glibc. */
#ifndef LQ_SYS_TYPES_H
#define LQ_SYS_TYPES_H
#include <stddef.h>
typedef unsigned int mode_t;
typedef long int off_t;
typedef int pid_t;
typedef long int ssize_t;
#endif
