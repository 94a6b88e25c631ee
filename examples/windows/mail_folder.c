/* The live folder of docs/TUTORIAL.md in C: a mail becomes an entry by `add`, whose size comes with it and whose status
   comes last. `open_folder` fills the rows from the opening's result, and `follow` keeps them right. Two messages may wait
   beside the oldest; after an overrun lq_read gives the mark, LQ_END, and the folder is opened again. It writes
   mail_folder.txt. In a clone: cc -std=c99 -Iinclude examples/windows/mail_folder.c release/liblq.a */
#include <lq.h>
#include <stdio.h>
#include <stdlib.h>
#include <string.h>

struct folder {
    const char *formula;
    uint64_t slot;
    size_t room;      /* of how many rows there is memory */
    char (*rows)[80]; /* by node: the subject of each message in the folder */
};

static void set(lq *volume, uint64_t node, const char *attr, const char *value) {
    lq_set_text(volume, node, attr, strlen(attr), value, strlen(value), 0);
}

static uint64_t add(lq *volume, const char *key, uint64_t size, const char *from, const char *subject) {
    lq_applied made = {0, 0};
    lq_create(volume, LQ_ROOT, key, strlen(key), LQ_FILE, size, 0, &made);
    set(volume, made.node, "MAIL:from", from);
    set(volume, made.node, "MAIL:subject", subject);
    set(volume, made.node, "MAIL:status", "New");
    return made.node;
}

static char *row_of(struct folder *folder, uint64_t node) {
    size_t room = folder->room;
    if (node < room) return folder->rows[node];
    folder->room = 2 * node;
    folder->rows = realloc(folder->rows, folder->room * sizeof *folder->rows);
    if (!folder->rows) abort();
    memset(folder->rows + room, 0, (folder->room - room) * sizeof *folder->rows);
    return folder->rows[node];
}

static const char *come(lq *volume, struct folder *folder, uint64_t node) {
    lq_attr subject = {0}; /* which stays so where the node was removed meanwhile */
    char *row = row_of(folder, node);
    lq_attr_named(volume, node, LQ_TEXT("MAIL:subject"), &subject);
    snprintf(row, sizeof *folder->rows, "%.79s", subject.text);
    return row;
}

static void open_folder(lq *volume, struct folder *folder) {
    lq_options options = {2, false, true, false}; /* the backlog; no `moved`; no result, but rows here; no `values` */
    lq_opening opening;
    lq_row row;
    for (size_t node = 0; node < folder->room; node++) folder->rows[node][0] = 0;
    if (lq_query_open(volume, folder->formula, strlen(folder->formula), &options, &opening) != LQ_OK) return;
    folder->slot = opening.slot;
    printf("%s:", folder->formula);
    while (lq_next(volume, opening.result, &row) == LQ_OK) printf(" [%s]", come(volume, folder, row.node));
    printf("\n");
}

static void follow(lq *volume, struct folder *folder) {
    lq_message it = {0}; /* which stays so if nothing waits */
    while (lq_read(volume, folder->slot, &it) == LQ_OK && it.what == LQ_UPDATE)
        if (it.op == LQ_ENTRY_CREATED)
            printf("+ %s\n", come(volume, folder, it.node));
        else {
            printf("- %s\n", row_of(folder, it.node));
            row_of(folder, it.node)[0] = 0;
        }
    if (it.what != LQ_END) return;
    printf("the messages end after change %d\n", (int)it.change);
    lq_finish(volume, folder->slot);
    open_folder(volume, folder);
}

int main(void) {
    lq volume = LQ_INIT;
    struct folder folder = {.formula = "MAIL:status==New"};
    if (lq_volume_open(&volume) != LQ_OK) return 1;
    uint64_t lunch = add(&volume, "1", 100, "Ann <ann@example.org>", "Lunch");
    open_folder(&volume, &folder);
    add(&volume, "2", 30000, "Bob <bob@example.org>", "Photos");
    set(&volume, lunch, "MAIL:status", "Read");
    follow(&volume, &folder);
    for (char key[] = "3"; key[0] < '8'; key[0]++) add(&volume, key, 100, "shop@example.com", "Offer");
    follow(&volume, &folder);
    free(folder.rows);
    lq_volume_close(&volume);
}
