/* Of <limits.h> what c/folder uses, as it is on Linux on x86-64 with glibc. */
#ifndef LQ_LIMITS_H
#define LQ_LIMITS_H
#define NAME_MAX 255
#define PATH_MAX 4096
#endif
