/* Of <sys/syscall.h> what c/folder uses, as it is on Linux on x86-64. */
#ifndef LQ_SYS_SYSCALL_H
#define LQ_SYS_SYSCALL_H
#define SYS_uname 63
#define SYS_lgetxattr 192
#define SYS_llistxattr 195
#define SYS_getdents64 217
#define SYS_name_to_handle_at 303
#endif
