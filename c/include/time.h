/* Of <time.h> what c/folder uses, as it is on Linux on x86-64 with glibc. */
#ifndef LQ_TIME_H
#define LQ_TIME_H
#define CLOCK_REALTIME 0
#define CLOCK_MONOTONIC 1
#define CLOCK_THREAD_CPUTIME_ID 3
#define CLOCK_REALTIME_COARSE 5
typedef int clockid_t;
typedef long int time_t;
struct timespec {
    time_t tv_sec;
    long int tv_nsec;
};
extern int clock_gettime(clockid_t clock, struct timespec *out);
#endif
