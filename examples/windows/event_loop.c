/* Windows in a loop by poll(2): each byte from a pipe is the name of a file, and the loop reads its windows wherever a
   change comes from. It writes event_loop.txt. In a clone: cc -std=c99 -Iinclude event_loop.c release/liblq.a */
#include <lq.h>
#include <poll.h>
#include <stdio.h>
#include <sys/eventfd.h>
#include <unistd.h>

/* What the library calls: it makes the loop's descriptor readable. */
static void wake(void *user, uint64_t slots) {
    (void)slots; /* the loop asks lq_ready, so that it meets all */
    eventfd_write(*(int *)user, 1);
}

/* Reads each slot that has something to read, to its end: a slot that still has something isn't told again. */
static void turn(lq *volume) {
    lq_message it;
    uint64_t slot = 1;
    for (uint64_t ready = lq_ready(volume); ready; ready >>= 1, slot++)
        while (ready & 1 && lq_read(volume, slot, &it) == LQ_OK)
            if (it.what == LQ_UPDATE) printf("window %d: %s\n", (int)slot, it.name);
}

int main(void) {
    lq volume = LQ_INIT;
    lq_opening opening;
    int pipes[2];
    char name;
    eventfd_t count;
    if (lq_volume_open(&volume) != LQ_OK || pipe(pipes) || write(pipes[1], "apple", 5) != 5) return 1;
    close(pipes[1]);
    struct pollfd set[] = {{pipes[0], POLLIN, 0}, {eventfd(0, EFD_NONBLOCK), POLLIN, 0}};
    lq_on_ready(&volume, wake, &set[1].fd);
    lq_query_open(&volume, LQ_TEXT("name==[a-l]"), 0, &opening);
    lq_query_open(&volume, LQ_TEXT("name==p"), 0, &opening);
    while (poll(set, 2, -1) > 0)
        if (set[1].revents && eventfd_read(set[1].fd, &count) == 0) turn(&volume);
        else if (read(pipes[0], &name, 1) == 1)
            lq_create(&volume, LQ_ROOT, &name, 1, LQ_FILE, 0, 0, 0); /* the second p is refused */
        else break;
    lq_volume_close(&volume);
}
