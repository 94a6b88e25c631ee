/* Of <sys/stat.h> what c/folder uses, as it is on Linux on x86-64 with glibc. */
#ifndef LQ_SYS_STAT_H
#define LQ_SYS_STAT_H
#include <stdint.h>
#include <sys/types.h>
#define S_IFMT 0170000
#define S_IFDIR 0040000
#define S_IFREG 0100000
#define S_IFLNK 0120000
#define STATX_BASIC_STATS 0x7ffU
#define STATX_BTIME 0x800U
struct statx_timestamp {
    int64_t tv_sec;
    uint32_t tv_nsec;
    int32_t lq_rest;
};
struct statx {
    uint32_t stx_mask;
    uint32_t stx_blksize;
    uint64_t stx_attributes;
    uint32_t stx_nlink;
    uint32_t stx_uid;
    uint32_t stx_gid;
    uint16_t stx_mode;
    uint16_t lq_gap;
    uint64_t stx_ino;
    uint64_t stx_size;
    uint64_t stx_blocks;
    uint64_t stx_attributes_mask;
    struct statx_timestamp stx_atime;
    struct statx_timestamp stx_btime;
    struct statx_timestamp stx_ctime;
    struct statx_timestamp stx_mtime;
    uint32_t stx_rdev_major;
    uint32_t stx_rdev_minor;
    uint32_t stx_dev_major;
    uint32_t stx_dev_minor;
    uint64_t lq_rest[14];
};
extern int mkdir(const char *path, mode_t mode);
extern int statx(int folder, const char *path, int flags, unsigned int mask, struct statx *out);
#endif
