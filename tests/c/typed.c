/* Drawn scripts by typed calls, by lines, and by both in turn on one handle: each act has the same reply. */
#include "drawn.h"

enum { SCRIPTS = 60, ACTS = 400 };

/* The tree as a fetch has it, beside the children of each folder and the path of each entry. */
static void tree(lq *handle) {
    static lq_row all[ACTS];
    lq_fetched fetched;
    lq_row child, before;
    lq_info info;
    char path[4096], walked[4096];
    lq_listing listing;
    size_t size, got, children = 0;
    OK(lq_fetch(handle, TEXT("name=*"), &fetched));
    OK(lq_take(handle, fetched.result, all, ACTS, &got));
    CHECK(got == fetched.count);
    for (size_t at = 0; at <= fetched.count; at++) {
        uint64_t folder = at < fetched.count ? all[at].node : 1;
        if (folder != 1) OK(lq_entry(handle, folder, &info));
        if (folder != 1 && info.kind == LQ_FILE) {
            WANT(lq_children(handle, folder, &listing), LQ_NOT_FOLDER);
            continue;
        }
        OK(lq_children(handle, folder, &listing));
        children += listing.count;
        for (size_t number = 0; number < listing.count; number++) {
            OK(lq_next(handle, listing.result, &child));
            CHECK(child.dir == folder);
            OK(lq_entry(handle, child.node, &info));
            CHECK(info.dir == folder && info.name_size == child.name_size &&
                  memcmp(info.name, child.name, child.name_size + 1) == 0);
            CHECK(info.kind == child.kind && info.size == child.size && info.time == child.time);
            size_t least = child.name_size < before.name_size ? child.name_size : before.name_size;
            int order = number ? memcmp(before.name, child.name, least) : -1;
            CHECK(order < 0 || (order == 0 && before.name_size < child.name_size));
            before = child;
        }
    }
    CHECK(children == fetched.count);
    for (size_t at = 0; at < fetched.count; at++) {
        size_t from = sizeof walked;
        for (uint64_t node = all[at].node; node != 1; node = info.dir) {
            OK(lq_entry(handle, node, &info));
            from -= info.name_size;
            memcpy(walked + from, info.name, info.name_size);
            walked[--from] = '/';
        }
        OK(lq_path(handle, all[at].node, &size));
        CHECK(size == sizeof walked - from && lq_text(handle, path, sizeof path) == size &&
              memcmp(path, walked + from, size) == 0 && path[size] == 0);
        uint64_t found;
        OK(lq_find_path(handle, LQ_ROOT, path, size, &found));
        CHECK(found == all[at].node);
    }
}

/* typed [SCRIPTS]: so many of them */
int main(int count, char **words) {
    const int scripts = count > 1 ? atoi(words[1]) : SCRIPTS;
    unsigned long replies = 0, refused = 0, messages = 0;
    for (int script = 0; script < scripts; script++) {
        lq typed = LQ_INIT, lines = LQ_INIT, both = LQ_INIT;
        begin_drawn((uint64_t)script);
        OK(lq_volume_open(&typed));
        OK(lq_volume_open(&lines));
        OK(lq_volume_open(&both));
        for (int number = 0; number < ACTS; number++) {
            act it = number < 7 ? first_act(number) : drawn_act();
            text line = {NULL, 0, 0}, by_line = {NULL, 0, 0}, called = {NULL, 0, 0},
                 mixed = {NULL, 0, 0};
            say_line(&line, &it);
            OK(answer(&lines, line.at, line.size, &by_line));
            reply_by_call(&typed, &it, &called);
            if (draw(2)) OK(answer(&both, line.at, line.size, &mixed));
            else reply_by_call(&both, &it, &mixed);
            CHECK(is_same(&by_line, &called) && is_same(&by_line, &mixed));
            if (!is_same(&by_line, &called) || !is_same(&by_line, &mixed))
                fprintf(stderr, "script %d, act %d: %.*s\n%.*s%.*s%.*s", script, number,
                        (int)line.size, line.at, (int)by_line.size, by_line.at, (int)called.size,
                        called.at, (int)mixed.size, mixed.at);
            replies++;
            refused += by_line.size > 8 && memcmp(by_line.at, "{\"code\":", 8) == 0;
            messages += it.word == READ && by_line.size > 40;
            free(line.at);
            free(by_line.at);
            free(called.at);
            free(mixed.at);
        }
        CHECK(lq_changes(&typed) == lq_changes(&lines) && lq_changes(&typed) == lq_changes(&both));
        tree(&both);
        lq_volume_close(&typed);
        lq_volume_close(&lines);
        lq_volume_close(&both);
    }
    printf("typed: %lu replies the same, %lu of them refusals, %lu messages\n", replies, refused,
           messages);
    CHECK(refused > replies / 10 && refused < replies * 9 / 10 && messages > replies / 50);
    return done("typed");
}
