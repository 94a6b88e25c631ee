/* Of <stdio.h> what c/journal uses, as it is on Linux on x86-64 with glibc. */
#ifndef LQ_STDIO_H
#define LQ_STDIO_H
extern int renameat(int from_folder, const char *from, int to_folder, const char *to);
#endif
