/* Windows: live queries whose messages become lines. */
#include "folder.h"

enum { UNTOLD_TIME = 300 }; /* milliseconds: the longest that a write isn't told */

static lq_options options_of(const window *w)
{
    return (lq_options){.moved = true, .no_result = true, .values = w->has_values};
}

/* ---- all of them ---- */

void windows_changed(folder *f)
{
    if (!f->slots) return;
    for (uint64_t ready = lq_ready(f->handle) & f->slots, i = 0; ready; ready >>= 1, i++)
        if (ready & 1) touch_changed(f, f->windows[i]);
}

void windows_move(folder *f, uint64_t node)
{
    for (uint64_t left = f->slots, i = 0; left; left >>= 1, i++)
        if (left & 1) touch_tree(f, f->windows[i], node);
}

void windows_looked(folder *f)
{
    for (uint64_t left = f->slots, i = 0; left; left >>= 1, i++)
        if (left & 1) touch_end(f, f->windows[i]);
}

/* Takes the messages of changes that others made: none is about a row of the folder. */
void windows_drain(folder *f)
{
    lq_message message;
    for (uint64_t ready = lq_ready(f->handle) & f->slots, i = 0; ready; ready >>= 1, i++)
        while (ready & 1 && lq_read(f->handle, i + 1, &message) == LQ_OK)
            if (message.what != LQ_UPDATE) f->windows[i]->is_overrun = true;
}

/* ---- a query that has ended, and memory that was refused ---- */

/* Opens a query in just this slot: others are put into the free ones below it meanwhile. */
static bool open_in_slot(folder *f, const window *w)
{
    lq_options options = options_of(w);
    lq_opening opening = {.slot = 0};
    uint64_t others = 0;
    while (opening.slot != w->slot) {
        if (opening.slot) others |= UINT64_C(1) << (opening.slot - 1);
        if (lq_query_open(f->handle, w->formula, w->formula_size, &options, &opening) != LQ_OK) break;
    }
    for (uint64_t i = 0; others; others >>= 1, i++)
        if (others & 1) lq_drop(f->handle, i + 1);
    return opening.slot == w->slot;
}

/* Gives a window its rows, and with `is_told` lines for what is there. */
static void set_rows(window *w, row_list *rows, bool is_told)
{
    node_set_free(&w->rows);
    free(w->there);
    w->rows = rows->set;
    w->there = is_told ? rows->nodes : NULL;
    w->there_count = is_told ? rows->count : 0;
    w->there_next = 0;
    if (!is_told) free(rows->nodes);
}

/* Finds all that matches, and puts the line that what was told holds no more. */
static bool tell_anew(folder *f, window *w)
{
    row_list rows;
    bool is_done = rows_find(f, w, &rows) && rows_sort(f, &rows)
                   && line_put(f, LQ_LINE_ANEW, w->slot, 0, (line_text){0});
    if (!is_done) {
        rows_free(&rows);
        return false;
    }
    set_rows(w, &rows, true);
    w->untold_count = 0;
    node_set_clear(&w->waiting);
    w->is_anew = false;
    return true;
}

void windows_mend(folder *f)
{
    for (size_t i = 0; i < LQ_SLOTS; i++) {
        window *w = f->windows[i];
        if (!w || (!w->is_overrun && !w->is_anew)) continue;
        if (w->is_overrun) {
            lq_drop(f->handle, w->slot);
            w->is_overrun = !open_in_slot(f, w);
        }
        if (w->is_overrun || (w->is_anew && !tell_anew(f, w))) f->trouble.no_memory = true;
    }
}

/* ---- lines that were put off ---- */

static bool is_open(const folder *f, uint64_t node)
{
    uint32_t slot = slot_of_node(f, node);
    return slot != NONE && entry_in(f, slot)->flags & IS_BEING_WRITTEN;
}

/* The line of a write, unless the row has gone. */
static bool tell_write(folder *f, window *w, uint64_t node)
{
    w->paths.size = 0;
    if (!node_set_has(&w->rows, node)) return true;
    if (!path_add(f, node, &w->paths)) return false;
    return line_put(f, LQ_LINE_CHANGED, w->slot, node, (line_text){.path = w->paths.at, .path_size = w->paths.size});
}

static void tell_writes(folder *f, window *w)
{
    size_t kept = 0;
    int64_t time = now();
    for (size_t i = 0; i < w->untold_count && !w->is_anew; i++) {
        untold it = w->untold[i];
        int64_t due = it.since + UNTOLD_TIME * MILLISECOND;
        if (time < due && is_open(f, it.node)) {
            f->due = least(f->due, due);
            w->untold[kept++] = it;
            continue;
        }
        node_set_take(&w->waiting, it.node);
        if (!tell_write(f, w, it.node)) w->is_anew = f->trouble.no_memory = true;
    }
    w->untold_count = kept;
    w->paths.size = 0;
}

void windows_tell(folder *f)
{
    for (uint64_t left = f->slots, i = 0; left; left >>= 1, i++)
        if (left & 1 && f->windows[i]->untold_count) tell_writes(f, f->windows[i]);
}

/* ---- lines of what was there ---- */

/* Puts lines while there are few. False: more are to come. */
static bool fill(folder *f, window *w)
{
    while (w->there_next < w->there_count) {
        if (f->lines.end - f->lines.start > LINES_SIZE) return false;
        uint64_t node = w->there[w->there_next];
        w->paths.size = 0;
        if (!path_add_row(f, node, &w->paths)
            || !line_put(f, LQ_LINE_THERE, w->slot, node,
                         (line_text){.path = w->paths.at, .path_size = w->paths.size})) {
            f->trouble.no_memory = true;
            return false;
        }
        w->there_next++;
    }
    free(w->there);
    w->there = NULL;
    w->there_next = w->there_count = 0;
    w->paths.size = 0;
    return true;
}

bool windows_fill(folder *f)
{
    bool is_full = true;
    for (uint64_t left = f->slots, i = 0; left && is_full; left >>= 1, i++)
        if (left & 1 && f->windows[i]->there_count) is_full = fill(f, f->windows[i]);
    return !is_full;
}

/* ---- opening and closing ---- */

/* Whether a word of a formula, as it is without `\`, begins what only the folder gives. */
static bool names(const char *word, size_t size, const char *end, bool is_whole)
{
    size_t end_size = strlen(end);
    return (is_whole ? size == end_size : size > end_size) && memcmp(word + size - end_size, end, end_size) == 0;
}

/* Reads the next word or quoted text of a formula into `word`, and answers the place after it. */
static size_t next_word(const char *formula, size_t size, size_t at, char *word, size_t *word_size)
{
    static const char between[] = " \t\n\r()!&|=<>";
    *word_size = 0;
    while (at < size && memchr(between, formula[at], sizeof between - 1)) at++;
    char quote = at < size && (formula[at] == '"' || formula[at] == '\'') ? formula[at++] : 0;
    while (at < size && (quote ? formula[at] != quote : !memchr(" \t\n\r()!&|=<>\"'", formula[at], 14))) {
        if (formula[at] == '\\' && at + 1 < size) at++;
        word[(*word_size)++] = formula[at++];
    }
    return at + (quote && at < size);
}

/* Sets the attributes that a formula names and no entry has yet; but a formula that is refused sets nothing. */
static lq_status begin_named(folder *f, const char *formula, size_t size)
{
    char word[LQ_FORMULA_SIZE];
    bool wants_kind = false, wants_iname = false, wants_numbers = false;
    size_t word_size;
    lq_fetched tried;
    if (size > LQ_FORMULA_SIZE) return LQ_OK; /* the opening refuses it */
    for (size_t at = 0; at < size;) {
        at = next_word(formula, size, at, word, &word_size);
        wants_kind |= !f->has_kind && names(word, word_size, "kind", true);
        wants_iname |= !f->has_iname && names(word, word_size, "iname", true);
        wants_numbers |= !f->has_numbers && names(word, word_size, ":number", false);
    }
    if (!wants_kind && !wants_iname && !wants_numbers) return LQ_OK;
    lq_status status = lq_fetch(f->handle, formula, size, &tried);
    if (status != LQ_OK) return status;
    f->trouble.no_memory = false;
    if (wants_kind) begin_kind(f);
    if (wants_iname) begin_iname(f);
    if (wants_numbers) begin_numbers(f);
    return f->trouble.no_memory ? LQ_NO_MEMORY : LQ_OK;
}

/* Fills a window whose query has just been opened. */
static bool window_begin(folder *f, window *w, const lq_opening *opening, bool is_told)
{
    row_list rows;
    if (!rows_take(f, opening->result, opening->count, &rows) || (is_told && !rows_sort(f, &rows))) {
        rows_free(&rows);
        return false;
    }
    set_rows(w, &rows, is_told);
    fill(f, w);
    return true;
}

static window *window_new(const char *formula, size_t size, bool has_values)
{
    window *w = calloc(1, sizeof *w);
    if (!w || !(w->formula = malloc(size + 1))) {
        free(w);
        return NULL;
    }
    memcpy(w->formula, formula, size);
    w->formula_size = size;
    w->has_values = has_values;
    return w;
}

lq_status window_open(folder *f, const char *formula, size_t size, lq_folder_query_options options, uint64_t *slot)
{
    lq_opening opening;
    lq_status status = begin_named(f, formula, size);
    if (status != LQ_OK) return status;
    window *w = window_new(formula, size, options.values);
    if (!w) return LQ_NO_MEMORY;
    lq_options asked = options_of(w);
    status = lq_query_open(f->handle, formula, size, &asked, &opening);
    if (status != LQ_OK) {
        free(w->formula);
        free(w);
        return status;
    }
    w->slot = opening.slot;
    f->windows[w->slot - 1] = w;
    f->slots |= UINT64_C(1) << (w->slot - 1);
    if (!window_begin(f, w, &opening, !options.no_there)) {
        window_free(f, w->slot);
        return LQ_NO_MEMORY;
    }
    *slot = w->slot;
    return LQ_OK;
}

void windows_give_back(folder *f)
{
    for (size_t i = 0; i < LQ_SLOTS; i++) {
        window *w = f->windows[i];
        if (!w) continue;
        free(w->touches);
        w->touches = NULL;
        w->touch_count = w->touch_room = 0;
        bytes_free(&w->paths);
        node_set_free(&w->touched);
    }
}

void window_free(folder *f, uint64_t slot)
{
    window *w = f->windows[slot - 1];
    f->windows[slot - 1] = NULL;
    f->slots &= ~(UINT64_C(1) << (slot - 1));
    lq_drop(f->handle, slot);
    lines_forget(f, slot);
    node_set_free(&w->rows);
    node_set_free(&w->touched);
    node_set_free(&w->waiting);
    bytes_free(&w->paths);
    free(w->touches);
    free(w->untold);
    free(w->there);
    free(w->formula);
    free(w);
}
