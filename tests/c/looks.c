/* What looks at the volume find: entries and their attributes, folders, paths, static queries. */
#include "check.h"

static char long_name[256], long_text[4097];

/* Attributes of each type, by index and by name. */
static void attributes(void) {
    lq it = LQ_INIT;
    lq_applied out;
    OK(lq_volume_open(&it));
    created(&it, 1, "in", LQ_FOLDER, 0);
    created(&it, 2, "file", LQ_FILE, 7);
    OK(lq_set_text(&it, 3, TEXT("text"), long_text, 4096, &out));
    OK(lq_set_int32(&it, 3, TEXT("int32"), INT32_MIN, &out));
    OK(lq_set_int64(&it, 3, TEXT("int64"), INT64_MIN, &out));
    OK(lq_set_uint32(&it, 3, TEXT("uint32"), UINT32_MAX, &out));
    OK(lq_set_uint64(&it, 3, TEXT("uint64"), UINT64_MAX, &out));
    OK(lq_set_text(&it, 3, long_name, 255, TEXT("long"), &out));
    static const struct {
        const char *name;
        uint32_t type;
        int64_t whole;
        uint64_t natural;
        size_t text_size;
    } wanted[] = {{"text", LQ_TYPE_TEXT, 0, 0, 4096},
                  {"int32", LQ_TYPE_INT32, INT32_MIN, 0, 0},
                  {"int64", LQ_TYPE_INT64, INT64_MIN, 0, 0},
                  {"uint32", LQ_TYPE_UINT32, 0, UINT32_MAX, 0},
                  {"uint64", LQ_TYPE_UINT64, 0, UINT64_MAX, 0}};
    lq_info info;
    lq_attr attr, named;
    OK(lq_entry(&it, 3, &info));
    CHECK(info.dir == 2 && info.node == 3 && info.size == 7 && info.time == 941000000 &&
          info.kind == LQ_FILE && info.attr_count == 6 && NAMED(info, "file"));
    for (size_t at = 0; at < 5; at++) {
        OK(lq_attr_at(&it, 3, at, &attr));
        OK(lq_attr_named(&it, 3, wanted[at].name, strlen(wanted[at].name), &named));
        for (int by_name = 0; by_name < 2; by_name++) {
            const lq_attr *seen = by_name ? &named : &attr;
            CHECK(seen->type == wanted[at].type && seen->whole == wanted[at].whole &&
                  seen->natural == wanted[at].natural);
            CHECK(seen->text_size == wanted[at].text_size &&
                  memcmp(seen->text, long_text, seen->text_size) == 0 &&
                  seen->text[seen->text_size] == 0);
            CHECK(seen->name_size == strlen(wanted[at].name) &&
                  memcmp(seen->name, wanted[at].name, seen->name_size + 1) == 0);
        }
    }
    OK(lq_attr_at(&it, 3, 5, &attr));
    CHECK(attr.name_size == 255 && memcmp(attr.name, long_name, 255) == 0 &&
          attr.name[255] == 0 && attr.text_size == 4 && memcmp(attr.text, "long", 5) == 0);
    REFUSED(lq_attr_at(&it, 3, 6, &attr), LQ_NO_ATTR, attr);
    REFUSED(lq_attr_at(&it, 3, SIZE_MAX, &attr), LQ_NO_ATTR, attr);
    REFUSED(lq_attr_at(&it, 1, 0, &attr), LQ_NO_ENTRY, attr);
    REFUSED(lq_attr_at(&it, 9, 0, &attr), LQ_NO_NODE, attr);
    REFUSED(lq_attr_named(&it, 3, TEXT("none"), &attr), LQ_NO_ATTR, attr);
    REFUSED(lq_attr_named(&it, 3, TEXT("size"), &attr), LQ_NO_ATTR, attr);
    REFUSED(lq_attr_named(&it, 3, "", 0, &attr), LQ_BAD_NAME, attr);
    REFUSED(lq_attr_named(&it, 1, TEXT("a"), &attr), LQ_NO_ENTRY, attr);
    REFUSED(lq_attr_named(&it, 9, TEXT("a"), &attr), LQ_NO_NODE, attr);
    REFUSED(lq_entry(&it, 1, &info), LQ_NO_ENTRY, info);
    REFUSED(lq_entry(&it, 0, &info), LQ_NO_NODE, info);
    REFUSED(lq_entry(&it, UINT64_MAX, &info), LQ_NO_NODE, info);
    lq_volume_close(&it);
}

/* What is found by a name and by a formula; a result stands until another is made. */
static void finds(void) {
    lq it = LQ_INIT;
    lq_fetched fetched;
    lq_row row;
    lq_applied applied;
    uint64_t node;
    size_t size;
    OK(lq_volume_open(&it));
    uint64_t folder = created(&it, 1, "f", LQ_FOLDER, 0),
             file = created(&it, 1, "file", LQ_FILE, 1);
    created(&it, folder, "a", LQ_FILE, 0);
    created(&it, folder, "ab", LQ_FILE, 0);
    OK(lq_create(&it, folder, long_name, 255, LQ_FILE, 0, 0, &applied));
    created(&it, 1, "a", LQ_FILE, 0);
    OK(lq_find(&it, folder, TEXT("a"), &node));
    CHECK(node == 4);
    OK(lq_find(&it, folder, "abc", 2, &node));
    CHECK(node == 5);
    OK(lq_find(&it, folder, long_name, 255, &node));
    CHECK(node == 6);
    REFUSED(lq_find(&it, folder, TEXT("none"), &node), LQ_NO_ENTRY, node);
    REFUSED(lq_find(&it, 99, TEXT("none"), &node), LQ_NO_NODE, node);
    REFUSED(lq_find(&it, file, TEXT("a"), &node), LQ_NOT_FOLDER, node);
    REFUSED(lq_find(&it, folder, "", 0, &node), LQ_BAD_NAME, node);
    REFUSED(lq_find(&it, folder, long_text, 256, &node), LQ_BAD_NAME, node);
    REFUSED(lq_find(&it, folder, TEXT("\xff"), &node), LQ_NOT_UTF8, node);

    REFUSED(lq_fetch(&it, TEXT("((name==a)"), &fetched), LQ_BAD_QUERY, fetched);
    CHECK(lq_fault_place(&it) == 10);
    REFUSED(lq_fetch(&it, "", 0, &fetched), LQ_BAD_QUERY, fetched);
    CHECK(lq_fault_place(&it) == 0);
    REFUSED(lq_fetch(&it, long_text, 4097, &fetched), LQ_BAD_QUERY, fetched);
    CHECK(lq_fault_place(&it) == 4096);
    REFUSED(lq_fetch(&it, TEXT("\xff"), &fetched), LQ_NOT_UTF8, fetched);
    OK(lq_fetch(&it, TEXT("size<0"), &fetched));
    CHECK(fetched.count == 0);
    REFUSED(lq_next(&it, fetched.result, &row), LQ_NO_ENTRY, row);
    OK(lq_fetch(&it, TEXT("name=a*"), &fetched));
    CHECK(fetched.count == 3 && fetched.at == 6);
    OK(lq_next(&it, fetched.result, &row));
    CHECK(row.node == 4 && row.dir == folder && NAMED(row, "a"));
    /* neither a change, nor a line, nor a refused call takes the result away */
    OK(lq_remove(&it, 5, &applied));
    OK(lq_answer(&it, TEXT("{\"do\":\"fetch\",\"query\":\"name==*\"}"), &size));
    uint64_t result = fetched.result;
    REFUSED(lq_fetch(&it, TEXT("("), &fetched), LQ_BAD_QUERY, fetched);
    OK(lq_next(&it, result, &row));
    CHECK(row.node == 5 && NAMED(row, "ab") && row.kind == LQ_GONE);
    OK(lq_next(&it, result, &row));
    CHECK(row.node == 7 && row.dir == 1 && row.kind == LQ_FILE);
    REFUSED(lq_next(&it, result, &row), LQ_NO_ENTRY, row);
    lq_volume_close(&it);
}

/* The children of a folder by name, and paths. */
static void folders(void) {
    static const char *const sorted[] = {"10", "9", "B", "a", "a b", "ab", "b", "\xc3\xb6"};
    lq it = LQ_INIT;
    lq_listing listing;
    lq_row row;
    lq_applied applied;
    uint64_t node;
    size_t size;
    char path[1024];
    OK(lq_volume_open(&it));
    OK(lq_children(&it, 1, &listing));
    CHECK(listing.count == 0);
    OK(lq_path(&it, 1, &size));
    CHECK(size == 1 && lq_text(&it, path, sizeof path) == 1 && path[0] == '/');
    uint64_t folder = created(&it, 1, "f", LQ_FOLDER, 0);
    for (size_t at = 0; at < 8; at++)
        created(&it, folder, sorted[(at * 5 + 3) % 8], at % 3 ? LQ_FILE : LQ_FOLDER, 0);
    OK(lq_children(&it, folder, &listing));
    CHECK(listing.count == 8);
    for (size_t at = 0; at < 8; at++) {
        OK(lq_next(&it, listing.result, &row));
        CHECK(row.dir == folder && strcmp(row.name, sorted[at]) == 0);
        OK(lq_find(&it, folder, sorted[at], strlen(sorted[at]), &node));
        CHECK(node == row.node);
        OK(lq_path(&it, node, &size));
        CHECK(size == 3 + row.name_size && lq_text(&it, path, sizeof path) == size);
        CHECK(memcmp(path, "/f/", 3) == 0 && strcmp(path + 3, row.name) == 0);
        CHECK(lq_text(&it, path, size - 1) == size);
    }
    REFUSED(lq_next(&it, listing.result, &row), LQ_NO_ENTRY, row);
    REFUSED(lq_children(&it, 99, &listing), LQ_NO_NODE, listing);
    REFUSED(lq_children(&it, 0, &listing), LQ_NO_NODE, listing);
    uint64_t file = created(&it, 1, "file", LQ_FILE, 1);
    REFUSED(lq_children(&it, file, &listing), LQ_NOT_FOLDER, listing);
    REFUSED(lq_path(&it, 99, &size), LQ_NO_NODE, size);
    REFUSED(lq_path(&it, UINT64_MAX, &size), LQ_NO_NODE, size);

    /* 200 folders, one in another */
    uint64_t at = 1;
    for (int depth = 0; depth < 200; depth++) {
        OK(lq_create(&it, at, TEXT("deep"), LQ_FOLDER, 0, 0, &applied));
        at = applied.node;
    }
    OK(lq_path(&it, at, &size));
    CHECK(size == 1000 && lq_text(&it, path, sizeof path) == 1000 &&
          memcmp(path + 990, "/deep/deep", 10) == 0);
    lq_volume_close(&it);
}

int main(void) {
    memset(long_name, 'n', sizeof long_name);
    memset(long_text, 't', sizeof long_text);
    attributes();
    finds();
    folders();
    return done("looks");
}
