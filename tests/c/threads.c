/* A handle that two threads use in turn, under a lock of theirs: one makes changes, the other is woken by what the
   library calls, reads the messages and looks at what they name. */
#define _POSIX_C_SOURCE 200809L
#include "check.h"
#include <pthread.h>
#include <sched.h>
#include <time.h>

enum { COUNT = 2000, SECONDS = 120 };

static pthread_mutex_t lock = PTHREAD_MUTEX_INITIALIZER;
static pthread_cond_t woken = PTHREAD_COND_INITIALIZER;
static lq handle;

static void wake(void *user, uint64_t slots) {
    CHECK(slots == 1);
    pthread_cond_signal(user);
}

static void *writes(void *none) {
    char name[16];
    for (int number = 0; number < COUNT; number++) {
        snprintf(name, sizeof name, "f%d", number);
        pthread_mutex_lock(&lock);
        created(&handle, LQ_ROOT, name, LQ_FILE, 1);
        pthread_mutex_unlock(&lock);
        sched_yield();
    }
    return none;
}

static void *reads(void *none) {
    lq_message message;
    lq_info info;
    struct timespec late;
    clock_gettime(CLOCK_REALTIME, &late);
    late.tv_sec += SECONDS;
    pthread_mutex_lock(&lock);
    for (int count = 0; count < COUNT;) {
        while (!lq_ready(&handle))
            if (pthread_cond_timedwait(&woken, &lock, &late)) abort(); /* it was never woken */
        while (lq_read(&handle, 1, &message) == LQ_OK) {
            OK(lq_entry(&handle, message.node, &info));
            CHECK(message.change == (uint64_t)++count && strcmp(info.name, message.name) == 0);
        }
    }
    pthread_mutex_unlock(&lock);
    return none;
}

int main(void) {
    pthread_t writer, reader;
    lq_opening opening;
    OK(lq_volume_open(&handle));
    OK(lq_query_open(&handle, TEXT("size>0"), NULL, &opening));
    OK(lq_on_ready(&handle, wake, &woken));
    if (pthread_create(&writer, NULL, writes, NULL) || pthread_create(&reader, NULL, reads, NULL))
        abort();
    pthread_join(writer, NULL);
    pthread_join(reader, NULL);
    CHECK(lq_changes(&handle) == COUNT);
    lq_volume_close(&handle);
    return done("threads");
}
