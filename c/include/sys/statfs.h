/* Of <sys/statfs.h> what c/folder uses, as it is on Linux on x86-64 with glibc. */
#ifndef LQ_SYS_STATFS_H
#define LQ_SYS_STATFS_H
struct statfs {
    long int f_type;
    long int f_bsize;
    unsigned long int f_blocks;
    unsigned long int f_bfree;
    unsigned long int f_bavail;
    unsigned long int f_files;
    unsigned long int f_ffree;
    int lq_id[2];
    long int f_namelen;
    long int f_frsize;
    long int f_flags;
    long int lq_rest[4];
};
extern int fstatfs(int file, struct statfs *out);
#endif
