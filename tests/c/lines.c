/* Scenarios through lq_answer, each with a handle of its own: lines SCENARIO.., each without its ending. The script is
   cut into lines as docs/SPECIFICATION.md says, and the replies have to be those of the scenario's output. */
#include "check.h"

static text file(const char *name, const char *ending) {
    text whole = {NULL, 0, 0};
    char path[4096], piece[65536];
    size_t got;
    snprintf(path, sizeof path, "%s%s", name, ending);
    FILE *from = fopen(path, "rb");
    CHECK(from != NULL);
    if (!from) return whole;
    while ((got = fread(piece, 1, sizeof piece, from)) > 0) add(&whole, piece, got);
    fclose(from);
    return whole;
}

static void scenario(const char *name) {
    text script = file(name, ".in"), wanted = file(name, ".out"), replies = {NULL, 0, 0};
    lq handle = LQ_INIT;
    OK(lq_volume_open(&handle));
    for (size_t at = 0; at < script.size;) {
        const char *line = script.at + at, *end = memchr(line, '\n', script.size - at);
        size_t size = end ? (size_t)(end - line) : script.size - at;
        OK(answer(&handle, line, size, &replies));
        at += size + 1;
    }
    lq_volume_close(&handle);
    CHECK(is_same(&replies, &wanted));
    if (!is_same(&replies, &wanted))
        fprintf(stderr, "%s: the replies differ:\n%.*s", name, (int)replies.size,
                replies.at ? replies.at : "");
    free(script.at);
    free(wanted.at);
    free(replies.at);
}

int main(int count, char **names) {
    for (int number = 1; number < count; number++) scenario(names[number]);
    return done("lines");
}
