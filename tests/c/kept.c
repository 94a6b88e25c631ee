/* A volume that is saved and loaded, and one that is copied: all of it is there and its numbers go on, whatever pieces of
   bytes are given and taken. Bytes that were cut or turned, calls of the caller's that fail or answer too much, growths of
   memory that are refused, and misuse: each is answered, and leaves what was there. tests/python/test_kept.py compares the
   bytes with the specification's. The linker puts the calls of refusals.h in place of the C library's. */
#include "acts.h"
#include "refusals.h"

static long left; /* how many growths up to the one that is refused; 0 for none */

static bool is_refused(void) {
    bool answer = left > 0 && --left == 0;
    refusals += answer;
    return answer;
}

/* ---- who takes and gives bytes ---- */

/* Bytes that a save gives or a load takes, `most` in a call; the call of number `fails`, from 1, answers `answer`. */
typedef struct bytes {
    unsigned char at[400000];
    size_t size, taken, most;
    long calls, fails;
    ptrdiff_t answer;
    lq *handle; /* what the call uses all the same */
} bytes;

static void use_again(lq *handle);

static ptrdiff_t sink(void *user, const void *from, size_t size) {
    bytes *to = user;
    if (to->handle) use_again(to->handle);
    if (++to->calls == to->fails) return to->answer;
    if (size > to->most) size = to->most;
    if (to->size + size > sizeof to->at) abort();
    memcpy(to->at + to->size, from, size);
    to->size += size;
    return (ptrdiff_t)size;
}

static ptrdiff_t source(void *user, void *to, size_t room) {
    bytes *from = user;
    if (from->handle) use_again(from->handle);
    if (++from->calls == from->fails) return from->answer;
    if (room > from->most) room = from->most;
    if (room > from->size - from->taken) room = from->size - from->taken;
    memcpy(to, from->at + from->taken, room);
    from->taken += room;
    return (ptrdiff_t)room;
}

static void begin(bytes *it, size_t most) {
    it->taken = 0;
    it->most = most;
    it->calls = it->fails = 0;
    it->handle = NULL;
}

static lq_status save(lq *handle, bytes *to, size_t most) {
    begin(to, most);
    to->size = 0;
    return lq_save(handle, sink, to);
}

static lq_status load(lq *handle, bytes *from, size_t most) {
    begin(from, most);
    return lq_load(handle, source, from);
}

/* ---- volumes ---- */

static char long_text[LQ_TEXT_SIZE];
static bytes saved, again, other;

/* A folder with a higher node than what is in it, nodes that are gone, an attribute of each type in an order of its own,
   and values that take more than one piece. */
static void make(lq *handle) {
    char name[8];
    memset(long_text, 'x', sizeof long_text);
    OK(lq_volume_open(handle));
    uint64_t low = created(handle, 1, "low", LQ_FILE, 3), high = created(handle, 1, "high", LQ_FOLDER, 0);
    uint64_t gone = created(handle, 1, "gone", LQ_FILE, 0), many = created(handle, high, "many", LQ_FILE, INT64_MAX);
    OK(lq_move(handle, low, high, TEXT("m\xc3\xb6ved"), false, NULL));
    OK(lq_remove(handle, gone, NULL));
    OK(lq_set_text(handle, low, TEXT("t"), TEXT("a\0b"), NULL));
    OK(lq_set_uint32(handle, low, TEXT("c"), UINT32_MAX, NULL));
    OK(lq_set_int32(handle, low, TEXT("a"), INT32_MIN, NULL));
    OK(lq_set_uint64(handle, low, TEXT("d"), UINT64_MAX, NULL));
    OK(lq_set_int64(handle, low, TEXT("b"), INT64_MIN, NULL));
    OK(lq_write(handle, low, 7, INT64_MIN, NULL));
    for (int at = 0; at < 40; at++)
        OK(lq_set_text(handle, many, name, (size_t)sprintf(name, "n%d", at), long_text, sizeof long_text, NULL));
    OK(lq_remove(handle, created(handle, 1, "last", LQ_FILE, 0), NULL));
}

/* A volume that is small enough for a test of each byte. */
static void make_small(lq *handle) {
    OK(lq_volume_open(handle));
    uint64_t low = created(handle, 1, "low", LQ_FILE, 3), high = created(handle, 1, "high", LQ_FOLDER, 0);
    OK(lq_move(handle, low, high, TEXT("m\xc3\xb6ved"), false, NULL));
    OK(lq_set_text(handle, low, TEXT("t"), TEXT("text"), NULL));
    OK(lq_set_int32(handle, low, TEXT("n"), -7, NULL));
}

/* All that can be seen of a volume. */
static void say_volume(text *to, lq *handle) {
    lq_fetched fetched;
    lq_row row;
    uint64_t nodes[64];
    size_t count = 0;
    OK(lq_fetch(handle, TEXT("size>=0"), &fetched));
    while (count < 64 && lq_next(handle, fetched.result, &row) == LQ_OK) nodes[count++] = row.node;
    CHECK(count == fetched.count);
    for (size_t at = 0; at < count; at++) OK(say_entry(to, handle, nodes[at]));
    say_natural(to, "changes ", lq_changes(handle));
    say(to, "\n");
}

/* The same of a change after it, and of a window. */
static void go_on(text *to, lq *handle) {
    lq_opening opening;
    lq_message message;
    lq_applied applied;
    OK(lq_query_open(handle, TEXT("size>5"), NULL, &opening));
    say_natural(to, "slot ", opening.slot);
    say_natural(to, " at ", opening.at);
    say_result(to, handle, opening.result, opening.count);
    OK(lq_create(handle, 1, TEXT("next"), LQ_FILE, 9, 1, &applied));
    say_natural(to, " node ", applied.node);
    say_natural(to, " change ", applied.change);
    OK(lq_write(handle, applied.node, 1, 1, NULL));
    while (lq_read(handle, opening.slot, &message) == LQ_OK) say_message(to, &message);
    WANT(lq_create(handle, 3, TEXT("m\xc3\xb6ved"), LQ_FILE, 0, 0, NULL), LQ_EXISTS);
    say_volume(to, handle);
}

/* Whether two volumes are the same, and go on in the same way. */
static void compare(lq *one, lq *two) {
    text ones = {NULL, 0, 0}, twos = {NULL, 0, 0};
    say_volume(&ones, one);
    say_volume(&twos, two);
    go_on(&ones, one);
    go_on(&twos, two);
    CHECK(is_same(&ones, &twos));
    free(ones.at);
    free(twos.at);
}

static bool is_same_bytes(const bytes *one, const bytes *two) {
    return one->size == two->size && memcmp(one->at, two->at, one->size) == 0;
}

/* ---- the tests ---- */

static void round_trips(void) {
    static const size_t mosts[] = {1, 2, 7, 8, 9, 4096, 65543, 65544, 65552, SIZE_MAX};
    lq volume = LQ_INIT, loaded = LQ_INIT, copy = LQ_INIT;
    make(&volume);
    OK(save(&volume, &saved, SIZE_MAX));
    CHECK(saved.size > 2 * 65536);
    for (size_t at = 0; at < sizeof mosts / sizeof *mosts; at++) {
        OK(save(&volume, &again, mosts[at]));
        CHECK(is_same_bytes(&again, &saved));
        OK(load(&loaded, &again, mosts[at]));
        OK(save(&loaded, &other, SIZE_MAX));
        CHECK(is_same_bytes(&other, &saved));
        lq_volume_close(&loaded);
    }
    OK(load(&loaded, &saved, SIZE_MAX));
    OK(lq_volume_copy(&volume, &copy));
    OK(save(&copy, &other, SIZE_MAX));
    CHECK(is_same_bytes(&other, &saved));
    compare(&volume, &loaded); /* which changes both, and the copy stays */
    OK(save(&copy, &other, SIZE_MAX));
    CHECK(is_same_bytes(&other, &saved));
    OK(save(&volume, &again, SIZE_MAX));
    OK(save(&loaded, &other, SIZE_MAX));
    CHECK(is_same_bytes(&other, &again) && !is_same_bytes(&other, &saved));
    lq_volume_close(&volume);
    OK(lq_create(&copy, 1, TEXT("alone"), LQ_FILE, 0, 0, NULL));
    lq_volume_close(&loaded);
    lq_volume_close(&copy);
    /* a volume with the root alone */
    OK(lq_volume_open(&volume));
    OK(save(&volume, &again, 5));
    OK(load(&loaded, &again, 5));
    CHECK(again.size == 16 + 8 + 32 && lq_changes(&loaded) == 0 && created(&loaded, 1, "a", LQ_FILE, 0) == 2);
    lq_volume_close(&volume);
    lq_volume_close(&loaded);
}

/* A load that is refused, after which the handle is closed and can be opened; its results count on. */
static void refused(bytes *from, uint32_t status, const char *reason, uint64_t place) {
    static lq handle = LQ_INIT;
    uint64_t results = handle.result;
    WANT(load(&handle, from, SIZE_MAX), status);
    WANT(lq_remove(&handle, 2, NULL), LQ_MISUSE);
    CHECK(lq_changes(&handle) == 0 && handle.result >= results);
    const char *said = lq_fault_reason(&handle);
    if (reason) CHECK(said && strcmp(said, reason) == 0 && lq_fault_place(&handle) == place);
    else CHECK(said != NULL && lq_fault_place(&handle) <= from->size);
}

/* Each cut, and each byte turned in each bit and whole. */
static void cuts_and_turns(void) {
    lq volume = LQ_INIT;
    make_small(&volume);
    OK(save(&volume, &saved, SIZE_MAX));
    lq_volume_close(&volume);
    size_t whole = saved.size;
    for (saved.size = 0; saved.size < whole; saved.size++) refused(&saved, LQ_BAD_SAVE, "Cut", saved.size);
    for (size_t at = 0; at < whole; at++)
        for (int turn = 0; turn < 9; turn++) {
            unsigned char with = turn < 8 ? (unsigned char)(1 << turn) : 255;
            saved.at[at] ^= with;
            refused(&saved, LQ_BAD_SAVE, at < 8 ? "NoHead" : at < 16 ? "Checksum" : NULL, 0);
            saved.at[at] ^= with;
        }
    saved.at[saved.size++] = 0;
    refused(&saved, LQ_BAD_SAVE, "BytesAfter", whole);
    saved.size = whole;
    OK(load(&volume, &saved, SIZE_MAX));
    CHECK(!lq_fault_reason(&volume) && lq_fault_place(&volume) == 0 && lq_fault_node(&volume) == 0);
    lq_volume_close(&volume);
}

/* CRC-32C, a bit at a time. */
static uint32_t checksum(const unsigned char *from, size_t size) {
    uint32_t sum = UINT32_MAX;
    for (size_t at = 0; at < size; at++) {
        sum ^= from[at];
        for (int bit = 0; bit < 8; bit++) sum = sum & 1 ? sum >> 1 ^ 0x82F63B78U : sum >> 1;
    }
    return ~sum;
}

static void versions(void) {
    lq volume = LQ_INIT;
    CHECK(checksum((const unsigned char *)"123456789", 9) == 0xE3069283U);
    make_small(&volume);
    OK(save(&volume, &saved, SIZE_MAX));
    CHECK(memcmp(saved.at, "lqvolume\1\0\0\0", 12) == 0);
    for (unsigned version = 0; version < 256; version++) {
        saved.at[8] = (unsigned char)version;
        uint32_t sum = checksum(saved.at, 12);
        for (int byte = 0; byte < 4; byte++) saved.at[12 + byte] = (unsigned char)(sum >> 8 * byte);
        if (version != 1) refused(&saved, LQ_OTHER_VERSION, "OtherVersion", 8);
    }
    lq_volume_close(&volume);
}

/* Each call of the caller's fails in turn, or answers more than was asked for. */
static void faults(void) {
    static const struct {
        ptrdiff_t answer;
        bool is_load;
        uint32_t status;
    } rows[] = {{-1, false, LQ_SYSTEM},          {0, false, LQ_SYSTEM},  {PTRDIFF_MIN, false, LQ_SYSTEM},
                {PTRDIFF_MAX, false, LQ_MISUSE}, {-1, true, LQ_SYSTEM},  {PTRDIFF_MIN, true, LQ_SYSTEM},
                {PTRDIFF_MAX, true, LQ_MISUSE},  {0, true, LQ_BAD_SAVE}};
    lq volume = LQ_INIT, loaded = LQ_INIT;
    make_small(&volume);
    OK(save(&volume, &saved, SIZE_MAX));
    for (size_t at = 0; at < sizeof rows / sizeof *rows; at++)
        for (long fails = 1;; fails++) {
            bytes *it = rows[at].is_load ? &saved : &again;
            lq_volume_close(&loaded);
            begin(it, 13);
            if (!rows[at].is_load) it->size = 0;
            it->fails = fails;
            it->answer = rows[at].answer;
            lq_status status = rows[at].is_load ? lq_load(&loaded, source, it) : lq_save(&volume, sink, it);
            if (it->calls < fails) {
                OK(status);
                break;
            }
            /* the last call of a load, at the end, may say so */
            if (status == LQ_OK && rows[at].answer == 0) break;
            WANT(status, rows[at].status);
            CHECK(it->calls == fails);
            if (rows[at].status != LQ_BAD_SAVE) CHECK(!lq_fault_reason(&loaded));
            else CHECK(strcmp(lq_fault_reason(&loaded), "Cut") == 0 && lq_fault_place(&loaded) == it->taken);
        }
    lq_volume_close(&loaded);
    compare(&volume, (OK(load(&loaded, &saved, 3)), &loaded)); /* a save that failed has changed nothing */
    lq_volume_close(&loaded);
    lq_volume_close(&volume);
}

/* A call of the caller's that uses the handle of the save or load that it is called by. */
static void use_again(lq *handle) {
    lq_applied applied;
    lq_info info;
    REFUSED(lq_create(handle, 1, TEXT("within"), LQ_FILE, 0, 0, &applied), LQ_MISUSE, applied);
    REFUSED(lq_entry(handle, 2, &info), LQ_MISUSE, info);
    WANT(lq_volume_open(handle), LQ_MISUSE);
    WANT(lq_save(handle, sink, &again), LQ_MISUSE);
    WANT(lq_load(handle, source, &again), LQ_MISUSE);
    WANT(lq_volume_copy(handle, handle), LQ_MISUSE);
    lq_volume_close(handle);
    CHECK(lq_changes(handle) == 0 && !lq_fault_reason(handle));
    lq own = LQ_INIT; /* another handle works */
    OK(lq_volume_open(&own));
    WANT(lq_volume_copy(&own, handle), LQ_MISUSE);
    CHECK(created(&own, 1, "a", LQ_FILE, 0) == 2);
    lq_volume_close(&own);
}

static void within(void) {
    lq volume = LQ_INIT, loaded = LQ_INIT;
    make_small(&volume);
    begin(&saved, 50);
    saved.size = 0;
    saved.handle = &volume;
    OK(lq_save(&volume, sink, &saved));
    begin(&saved, 50);
    saved.handle = &loaded;
    OK(lq_load(&loaded, source, &saved));
    compare(&volume, &loaded);
    lq_volume_close(&loaded);
    lq_volume_close(&volume);
}

/* Each growth of memory refused in turn. */
static void memory(void) {
    lq volume = LQ_INIT, loaded = LQ_INIT, copy = LQ_INIT;
    make(&volume);
    OK(save(&volume, &saved, SIZE_MAX));
    long before = live;
    unsigned long unindexed = 0;
    for (int call = 0; call < 3; call++) {
        lq *made = call == 2 ? &copy : &loaded;
        for (long which = 1;; which++) {
            left = which;
            lq_status status = call == 0   ? save(&volume, &again, SIZE_MAX)
                               : call == 1 ? load(made, &saved, SIZE_MAX)
                                           : lq_volume_copy(&volume, made);
            bool was_met = left == 0;
            left = 0;
            if (!was_met) {
                OK(status);
                break;
            }
            if (call > 0 && status == LQ_OK) { /* an entry of many attributes goes without the index of their names */
                OK(save(made, &again, SIZE_MAX));
                CHECK(is_same_bytes(&again, &saved));
                lq_volume_close(made);
                CHECK(live == before && ++unindexed < 16);
                continue;
            }
            WANT(status, LQ_NO_MEMORY);
            CHECK(live == before);
            if (call == 0) CHECK(again.size == 0);
            else CHECK(!lq_fault_reason(made) && lq_remove(made, 2, NULL) == LQ_MISUSE);
        }
        if (call == 0) CHECK(is_same_bytes(&again, &saved));
        else lq_volume_close(made);
        CHECK(live == before);
    }
    CHECK(refusals > 30);
    lq_volume_close(&volume);
}

static void misuse(void) {
    lq volume = LQ_INIT, closed = LQ_INIT, elsewhere;
    make_small(&volume);
    OK(save(&volume, &saved, SIZE_MAX));
    begin(&saved, SIZE_MAX);
    WANT(lq_save(NULL, sink, &again), LQ_MISUSE);
    WANT(lq_save(&closed, sink, &again), LQ_MISUSE);
    WANT(lq_save(&volume, NULL, &again), LQ_MISUSE);
    elsewhere = volume;
    WANT(lq_save(&elsewhere, sink, &again), LQ_MISUSE);
    WANT(lq_load(NULL, source, &saved), LQ_MISUSE);
    WANT(lq_load(&volume, source, &saved), LQ_MISUSE);
    WANT(lq_load(&closed, NULL, &saved), LQ_MISUSE);
    WANT(lq_load_as(&closed, LQ_VERSION + 1, source, &saved), LQ_MISUSE);
    WANT(lq_load_as(&closed, LQ_VERSION - 1000, source, &saved), LQ_MISUSE);
    CHECK(saved.calls == 0);
    WANT(lq_volume_copy(NULL, &closed), LQ_MISUSE);
    WANT(lq_volume_copy(&closed, &closed), LQ_MISUSE);
    WANT(lq_volume_copy(&volume, NULL), LQ_MISUSE);
    WANT(lq_volume_copy(&volume, &volume), LQ_MISUSE);
    CHECK(!lq_fault_reason(NULL) && lq_fault_node(NULL) == 0 && !lq_fault_reason(&volume));
    /* a handle that was closed counts its results on */
    lq_fetched first, second;
    OK(lq_fetch(&volume, TEXT("size>=0"), &first));
    lq_volume_close(&volume);
    saved.at[20] ^= 1;
    WANT(load(&volume, &saved, SIZE_MAX), LQ_BAD_SAVE);
    saved.at[20] ^= 1;
    OK(load(&volume, &saved, SIZE_MAX));
    OK(lq_fetch(&volume, TEXT("size>=0"), &second));
    CHECK(second.result > first.result);
    lq_volume_close(&volume);
}

int main(void) {
    round_trips();
    cuts_and_turns();
    versions();
    faults();
    within();
    memory();
    misuse();
    CHECK(live == 0);
    return done("kept");
}
