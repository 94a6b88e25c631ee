/* Handles, the names of statuses, texts that are copied, and each change with each of its refusals. */
#include "check.h"

static char long_name[256], long_text[4097];

/* Handles begin empty, know nothing of each other, and may be closed again. */
static void handles(void) {
    lq one = LQ_INIT, other = LQ_INIT, never = LQ_INIT;
    lq_volume_close(NULL);
    lq_volume_close(&never);
    for (int round = 0; round < 3; round++) {
        OK(lq_volume_open(&one));
        OK(lq_volume_open(&other));
        CHECK(lq_changes(&one) == 0 && lq_fault_place(&one) == 0 && lq_ready(&one) == 0);
        CHECK(created(&one, 1, "a", LQ_FILE, 0) == 2 && created(&one, 1, "b", LQ_FILE, 0) == 3);
        CHECK(created(&other, 1, "a", LQ_FILE, 0) == 2);
        CHECK(lq_changes(&one) == 2 && lq_changes(&other) == 1);
        lq_volume_close(&one);
        lq_volume_close(&one);
        CHECK(lq_changes(&other) == 1);
        lq_volume_close(&other);
    }
}

/* tools/api draws the names from the constants: one of each form is here, and no two are the same. */
static void the_names_of_statuses(void) {
    static const struct {
        lq_status status;
        const char *name;
    } some[] = {{LQ_OK, "Ok"}, {LQ_NO_NODE, "NoNode"}, {LQ_NOT_UTF8, "NotUtf8"}, {LQ_OUT_OF_STEP, "OutOfStep"}};
    const char *known[1000];
    size_t count = 0;
    for (int status = 0; status < 1000; status++) {
        const char *name = lq_status_name((lq_status)status);
        for (size_t at = 0; name && at < count; at++) CHECK(strcmp(known[at], name) != 0);
        if (name) known[count++] = name;
    }
    CHECK(count >= 35);
    for (size_t at = 0; at < sizeof some / sizeof *some; at++)
        CHECK(strcmp(lq_status_name(some[at].status), some[at].name) == 0);
    CHECK(lq_version() == LQ_VERSION);
}

/* A text is copied whole or not at all, as often as it is asked for. */
static void texts_that_are_copied(void) {
    lq it = LQ_INIT;
    size_t size;
    char room[64];
    OK(lq_volume_open(&it));
    OK(lq_answer(&it, TEXT("{\"do\":\"create\",\"name\":\"a\"}"), &size));
    CHECK(size == 22);
    for (size_t given = 0; given < sizeof room; given++) {
        memset(room, 'x', sizeof room);
        CHECK(lq_text(&it, room, given) == 22);
        CHECK(given < 22 ? room[0] == 'x'
                         : memcmp(room, TEXT("{\"change\":1,\"node\":2}\n")) == 0);
        CHECK(room[22] == (given > 22 ? 0 : 'x') && room[23] == 'x');
    }
    OK(lq_answer(&it, TEXT("{\"do\":\"create\",\"name\":\"b\"}\r"), &size));
    CHECK(size == 22 && lq_changes(&it) == 2);
    OK(lq_answer(&it, TEXT("\r"), &size));
    CHECK(size == 0 && lq_text(&it, room, sizeof room) == 0);
    OK(lq_answer(&it, "", 0, &size));
    CHECK(size == 0);
    char *longest = malloc(65537);
    if (!longest) abort();
    memset(longest, ' ', 65537);
    memcpy(longest, TEXT("{\"do\":\"create\",\"name\":\"c\"}"));
    OK(lq_answer(&it, longest, 65537, &size));
    CHECK(lq_text(&it, room, sizeof room) == 31 &&
          memcmp(room, TEXT("{\"code\":30,\"error\":\"LongLine\"}\n")) == 0 &&
          lq_changes(&it) == 2);
    OK(lq_answer(&it, longest, 65536, &size));
    CHECK(size == 22 && lq_changes(&it) == 3);
    free(longest);
    lq_volume_close(&it);
}

/* Each change, each of its refusals, and arguments at the borders of their ranges. */
static void changes_and_their_refusals(void) {
    lq it = LQ_INIT;
    lq_applied out;
    OK(lq_volume_open(&it));
    OK(lq_create(&it, 1, TEXT("folder"), LQ_FOLDER, 0, 5, &out));
    CHECK(out.change == 1 && out.node == 2);
    OK(lq_create(&it, 2, TEXT("file"), LQ_FILE, INT64_MAX, INT64_MIN, &out));
    CHECK(out.change == 2 && out.node == 3);
    REFUSED(lq_create(&it, 9, TEXT("a"), LQ_FILE, 0, 0, &out), LQ_NO_NODE, out);
    REFUSED(lq_create(&it, 0, TEXT("a"), LQ_FILE, 0, 0, &out), LQ_NO_NODE, out);
    REFUSED(lq_create(&it, UINT64_MAX, TEXT("a"), LQ_FILE, 0, 0, &out), LQ_NO_NODE, out);
    REFUSED(lq_create(&it, 3, TEXT("a"), LQ_FILE, 0, 0, &out), LQ_NOT_FOLDER, out);
    REFUSED(lq_create(&it, 2, TEXT("file"), LQ_FILE, 0, 0, &out), LQ_EXISTS, out);
    REFUSED(lq_create(&it, 1, TEXT("a"), LQ_FOLDER, 1, 0, &out), LQ_IS_FOLDER, out);
    REFUSED(lq_create(&it, 1, TEXT("a"), LQ_FILE, (uint64_t)INT64_MAX + 1, 0, &out), LQ_TOO_LONG,
            out);
    REFUSED(lq_create(&it, 1, TEXT("a"), 2, 0, 0, &out), LQ_BAD_LINE, out);
    REFUSED(lq_create(&it, 1, TEXT("a"), UINT32_MAX, 0, 0, &out), LQ_BAD_LINE, out);
    REFUSED(lq_create(&it, 1, "", 0, LQ_FILE, 0, 0, &out), LQ_BAD_NAME, out);
    REFUSED(lq_create(&it, 1, long_name, 256, LQ_FILE, 0, 0, &out), LQ_BAD_NAME, out);
    REFUSED(lq_create(&it, 1, TEXT("a/b"), LQ_FILE, 0, 0, &out), LQ_BAD_NAME, out);
    REFUSED(lq_create(&it, 1, TEXT("a\0b"), LQ_FILE, 0, 0, &out), LQ_BAD_NAME, out);
    REFUSED(lq_create(&it, 1, TEXT(".."), LQ_FILE, 0, 0, &out), LQ_BAD_NAME, out);
    REFUSED(lq_create(&it, 1, TEXT("\xff"), LQ_FILE, 0, 0, &out), LQ_NOT_UTF8, out);
    REFUSED(lq_create(&it, 1, TEXT("\xff/"), 7, 0, 0, &out), LQ_NOT_UTF8, out);
    REFUSED(lq_create(&it, 9, TEXT("/"), 7, 0, 0, &out), LQ_BAD_LINE, out);
    REFUSED(lq_create(&it, 9, TEXT("/"), LQ_FILE, 0, 0, &out), LQ_BAD_NAME, out);
    OK(lq_create(&it, 1, long_name, 255, LQ_FILE, 0, 0, &out));
    CHECK(out.change == 3 && out.node == 4);
    /* of a text that is longer, as many bytes as are said */
    OK(lq_create(&it, 1, "other", 2, LQ_FILE, 7, 8, &out));
    CHECK(out.node == 5);

    REFUSED(lq_remove(&it, 77, &out), LQ_NO_NODE, out);
    REFUSED(lq_remove(&it, 1, &out), LQ_RESERVED, out);
    REFUSED(lq_remove(&it, 2, &out), LQ_NOT_EMPTY, out);
    OK(lq_remove(&it, 4, &out));
    CHECK(out.change == 5 && out.node == 4);
    REFUSED(lq_remove(&it, 4, &out), LQ_NO_NODE, out);

    REFUSED(lq_move(&it, 4, 1, TEXT("x"), false, &out), LQ_NO_NODE, out);
    REFUSED(lq_move(&it, 1, 1, TEXT("x"), false, &out), LQ_RESERVED, out);
    REFUSED(lq_move(&it, 3, 4, TEXT("x"), false, &out), LQ_NO_NODE, out);
    REFUSED(lq_move(&it, 3, 5, TEXT("x"), false, &out), LQ_NOT_FOLDER, out);
    REFUSED(lq_move(&it, 2, 2, TEXT("x"), false, &out), LQ_WOULD_LOOP, out);
    REFUSED(lq_move(&it, 3, 1, TEXT("ot"), false, &out), LQ_EXISTS, out);
    REFUSED(lq_move(&it, 3, 1, TEXT("folder"), true, &out), LQ_KIND_CLASH, out);
    created(&it, 1, "empty", LQ_FOLDER, 0);
    REFUSED(lq_move(&it, 6, 1, TEXT("folder"), true, &out), LQ_NOT_EMPTY, out);
    REFUSED(lq_move(&it, 3, 1, "", 0, true, &out), LQ_BAD_NAME, out);
    REFUSED(lq_move(&it, 3, 1, TEXT("\x80"), true, &out), LQ_NOT_UTF8, out);
    OK(lq_move(&it, 3, 1, TEXT("ot"), true, &out));
    CHECK(out.change == 7 && out.node == 3);

    REFUSED(lq_write(&it, 5, 1, 1, &out), LQ_NO_NODE, out);
    REFUSED(lq_write(&it, 1, 1, 1, &out), LQ_RESERVED, out);
    REFUSED(lq_write(&it, 2, 0, 1, &out), LQ_IS_FOLDER, out);
    REFUSED(lq_write(&it, 3, (uint64_t)INT64_MAX + 1, 1, &out), LQ_TOO_LONG, out);
    OK(lq_write(&it, 3, 0, INT64_MAX, &out));
    CHECK(out.change == 8 && out.node == 3);

    OK(lq_set_text(&it, 3, TEXT("text"), long_text, 4096, &out));
    REFUSED(lq_set_text(&it, 3, TEXT("text"), long_text, 4097, &out), LQ_TOO_LONG, out);
    REFUSED(lq_set_text(&it, 3, TEXT("text"), TEXT("\xc0\x80"), &out), LQ_NOT_UTF8, out);
    REFUSED(lq_set_text(&it, 3, TEXT("\xc0\x80"), TEXT("a"), &out), LQ_NOT_UTF8, out);
    REFUSED(lq_set_text(&it, 3, "", 0, TEXT("a"), &out), LQ_BAD_NAME, out);
    REFUSED(lq_set_text(&it, 3, long_name, 256, TEXT("a"), &out), LQ_BAD_NAME, out);
    REFUSED(lq_set_text(&it, 3, TEXT("size"), TEXT("a"), &out), LQ_RESERVED, out);
    REFUSED(lq_set_text(&it, 1, TEXT("a"), TEXT("a"), &out), LQ_RESERVED, out);
    REFUSED(lq_set_text(&it, 5, TEXT("a"), TEXT("a"), &out), LQ_NO_NODE, out);
    OK(lq_set_text(&it, 3, TEXT("none"), "", 0, &out));
    REFUSED(lq_set_int32(&it, 3, TEXT("name"), 1, &out), LQ_RESERVED, out);
    REFUSED(lq_set_int64(&it, 3, TEXT("last_modified"), 1, &out), LQ_RESERVED, out);
    REFUSED(lq_set_uint32(&it, 9, TEXT("a"), 1, &out), LQ_NO_NODE, out);
    REFUSED(lq_set_uint64(&it, 3, TEXT("a\0"), 1, &out), LQ_BAD_NAME, out);
    OK(lq_set_int32(&it, 3, TEXT("int32"), INT32_MIN, &out));
    OK(lq_set_int64(&it, 3, TEXT("int64"), INT64_MIN, &out));
    OK(lq_set_uint32(&it, 3, TEXT("uint32"), UINT32_MAX, &out));
    OK(lq_set_uint64(&it, 3, TEXT("uint64"), UINT64_MAX, &out));
    OK(lq_set_text(&it, 3, long_name, 255, TEXT("long"), &out));
    CHECK(out.change == 15 && out.node == 3);

    REFUSED(lq_unset(&it, 3, TEXT("other"), &out), LQ_NO_ATTR, out);
    REFUSED(lq_unset(&it, 3, TEXT("name"), &out), LQ_RESERVED, out);
    REFUSED(lq_unset(&it, 1, TEXT("a"), &out), LQ_RESERVED, out);
    REFUSED(lq_unset(&it, 5, TEXT("a"), &out), LQ_NO_NODE, out);
    REFUSED(lq_unset(&it, 3, "", 0, &out), LQ_BAD_NAME, out);
    REFUSED(lq_unset(&it, 3, TEXT("\xff"), &out), LQ_NOT_UTF8, out);
    OK(lq_unset(&it, 3, TEXT("none"), &out));
    CHECK(out.change == 16 && lq_changes(&it) == 16);

    lq_volume_close(&it);
}

int main(void) {
    memset(long_name, 'n', sizeof long_name);
    memset(long_text, 't', sizeof long_text);
    handles();
    the_names_of_statuses();
    texts_that_are_copied();
    changes_and_their_refusals();
    return done("changes");
}
