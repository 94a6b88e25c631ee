/* Drawn acts: names, formulas, numbers and texts within their limits and beyond, on a small tree and few slots. */
#ifndef DRAWN_H
#define DRAWN_H

#include "acts.h"

static uint64_t drawn_state;

/* A drawn number below a bound, by the generator of Park and Miller. */
static inline uint64_t draw(uint64_t bound) {
    drawn_state = drawn_state * 48271 % 2147483647;
    return drawn_state % bound;
}

#define ONE_OF(list) ((list) + draw(sizeof(list) / sizeof *(list)))

typedef struct piece {
    const char *at;
    size_t size;
} piece;

static char long_name[300], long_text[5000], long_formula[5000];

/* Begins a sequence of acts. */
static inline void begin_drawn(uint64_t seed) {
    memset(long_name, 'n', sizeof long_name);
    memset(long_text, 'x', sizeof long_text);
    memcpy(long_text, TEXT("name==\""));
    memset(long_formula, ' ', sizeof long_formula);
    memcpy(long_formula, TEXT("name==*.txt"));
    drawn_state = 1 + seed % 2147483646;
}

static inline piece drawn_name(void) {
    static const piece few[] = {{TEXT("a")},     {TEXT("b.txt")}, {TEXT("c.txt")}, {TEXT("d")},
                                {TEXT("e.txt")}, {TEXT("f")},     {TEXT("g")},
                                {long_name, 255}};
    const piece odd[] = {{TEXT("")},
                         {TEXT(".")},
                         {TEXT("..")},
                         {TEXT("a/b")},
                         {TEXT("a\0b")},
                         {TEXT("quote\"back\\slash")},
                         {TEXT("tab\tline\n\x01\x1f\x7f")},
                         {TEXT("sch\xc3\xb6n")},
                         {TEXT("\xff")},
                         {TEXT("\xc3")},
                         {long_name, 255},
                         {long_name, 256},
                         {long_name, 254}};
    return draw(20) ? *ONE_OF(few) : *ONE_OF(odd);
}

static inline piece drawn_formula(void) {
    static const piece good[] = {{TEXT("name==*.txt")},
                                 {TEXT("size>100")},
                                 {TEXT("size>100&&size<=5000")},
                                 {TEXT("PRIO==3")},
                                 {TEXT("!(name==a||name==\"b*\")")},
                                 {TEXT("last_modified>=0")},
                                 {TEXT("TAG==\"[a-c]?*\"")},
                                 {TEXT("name=*")},
                                 {TEXT("PRIO<0||NUM>18446744073709551614")},
                                 {long_formula, 4096}};
    static const piece bad[] = {{TEXT("")},         {TEXT("size>")},      {TEXT("name==[b-a]")},
                                {TEXT("(name==a")}, {TEXT("name==\xff")}, {TEXT("a\0b==c")},
                                {long_text, 4096},  {long_formula, 4097}};
    return draw(8) ? *ONE_OF(good) : *ONE_OF(bad);
}

/* What each sequence begins with: folders, files, and queries that are told of much. */
static inline act first_act(int number) {
    static const piece names[] = {{TEXT("a")},
                                  {TEXT("d")},
                                  {TEXT("b.txt")},
                                  {TEXT("c.txt")},
                                  {TEXT("e.txt")}},
                       query = {TEXT("name=*")};
    act it = {0};
    it.word = number < 5 ? CREATE : OPEN;
    it.dir = number == 4 ? 2 : 1;
    it.kind = number < 2 ? LQ_FOLDER : LQ_FILE;
    it.name = names[number % 5].at;
    it.name_size = names[number % 5].size;
    it.text = query.at;
    it.text_size = query.size;
    it.backlog = 200;
    it.flag = number % 2;
    it.values = number / 2 % 2;
    return it;
}

static inline act drawn_act(void) {
    static const word often[] = {CREATE, CREATE, MOVE,   MOVE,   MOVE,  WRITE, WRITE,
                                 WRITE,  SET,    SET,    SET,    READ,  READ,  READ,
                                 READ,   READ,   READ,   REMOVE, UNSET, OPEN,  HANG_UP,
                                 CLOSE,  FINISH, RESULT, FIND,   ENTRY, FETCH};
    static const uint64_t sizes[] = {0, 1, 100, 101, 200, 5000, 5001, INT64_MAX},
                          wide[] = {(uint64_t)INT64_MAX + 1, UINT64_MAX};
    static const int64_t times[] = {0, 1, -1, 941000000, INT64_MAX, INT64_MIN};
    static const uint64_t backlogs[] = {64, 64, 8, 3, 1, 0, 65536},
                          bad_backlogs[] = {65537, UINT64_MAX};
    static const uint32_t types[] = {LQ_TYPE_TEXT, LQ_TYPE_INT32, LQ_TYPE_INT64, LQ_TYPE_UINT32, LQ_TYPE_UINT64};
    static const piece attrs[] = {{TEXT("PRIO")}, {TEXT("TAG")}, {TEXT("NUM")}, {TEXT("a b\"c")}},
                       bad_attrs[] = {{TEXT("name")}, {TEXT("")}, {TEXT("x\0")}};
    static const piece texts[] = {{TEXT("")},  {TEXT("abc")},  {TEXT("b\x01")},
                                  {TEXT("3")}, {TEXT("a\0b")}, {TEXT("\xc3\xb6")}};
    act it = {0};
    it.word = *ONE_OF(often);
    const bool is_attr = it.word == SET || it.word == UNSET,
               is_slot = it.word >= READ && it.word <= RESULT;
    piece named = !is_attr ? drawn_name() : draw(9) ? *ONE_OF(attrs) : *ONE_OF(bad_attrs);
    piece given = it.word != SET ? drawn_formula()
                  : draw(6)      ? *ONE_OF(texts)
                                 : (piece){long_text, 4095 + (size_t)draw(3)};
    it.node = is_slot    ? draw(20) ? 1 + draw(3) : draw(66)
                 : draw(50) ? 1 + draw(12)
                         : UINT64_MAX - draw(2);
    it.dir = draw(3) ? 1 : draw(20) ? 2 + draw(draw(2) ? 2 : 8) : 0;
    it.name = named.at;
    it.name_size = named.size;
    it.text = given.at;
    it.text_size = given.size;
    it.size = draw(20) ? *ONE_OF(sizes) : *ONE_OF(wide);
    it.time = *ONE_OF(times);
    it.kind = draw(2) ? LQ_FILE : LQ_FOLDER;
    if (it.word == CREATE && it.kind == LQ_FOLDER && draw(9)) it.size = 0;
    it.type = *ONE_OF(types);
    it.number = draw(2) ? (int64_t)draw(5) : *ONE_OF(times);
    if (it.type == LQ_TYPE_INT32) it.number = (int32_t)it.number;
    if (it.type == LQ_TYPE_UINT32) it.number = (int64_t)(uint32_t)it.number;
    it.backlog = draw(9) ? *ONE_OF(backlogs) : *ONE_OF(bad_backlogs);
    it.flag = draw(2);
    it.values = draw(2);
    return it;
}

#endif
