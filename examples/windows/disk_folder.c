/* A folder on disk and one window on it: what happens to its files as lines. It writes disk_folder.txt. In a clone:
   cc -std=c99 -Iinclude disk_folder.c release/liblq.a */
#define _XOPEN_SOURCE 700
#include <lq_folder.h>
#include <poll.h>
#include <stdio.h>
#include <stdlib.h>
#include <unistd.h>

/* Takes what has happened on disk, and prints what it means for the window, until all of it is told. */
static void follow(lq_folder *folder) {
    static const char *const words[] = {"", "there", "came", "left", "moved", "changed", "anew", "notice"};
    lq_folder_turned turned;
    lq_folder_line line;
    size_t got;
    do {
        struct pollfd set = {lq_folder_fd(folder), POLLIN, 0};
        if (lq_folder_turn(folder, &turned) != LQ_OK) return;
        for (uint64_t seen = 0; lq_folder_read(folder, seen, &line, 1, &got) == LQ_OK && got; seen = line.number)
            printf("%s %s\n", words[line.what], line.path);
        if (!turned.more && !turned.settled) poll(&set, 1, (int)turned.due);
    } while (!turned.settled);
}

int main(void) {
    lq volume = LQ_INIT;
    lq_folder folder = LQ_FOLDER_INIT;
    uint64_t slot;
    char docs[] = "docs-XXXXXX";
    if (!mkdtemp(docs) || chdir(docs) || lq_volume_open(&volume) != LQ_OK) return 1;
    fclose(fopen("plan.txt", "w"));
    if (lq_folder_open(&folder, &volume, LQ_TEXT("."), 0, 0) != LQ_OK) return 1;
    follow(&folder);
    lq_folder_query_open(&folder, LQ_TEXT("name==*.txt"), 0, &slot);
    follow(&folder);
    rename("plan.txt", "trip.txt");
    follow(&folder);
    remove("trip.txt");
    follow(&folder);
    lq_folder_close(&folder);
    lq_volume_close(&volume);
    return chdir("..") || rmdir(docs);
}
