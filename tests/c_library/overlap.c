/* What each function of the header writes must lie apart from all else that it writes, and from
 * what it reads: each pair of blocks that overlap is refused, and nothing is written; blocks side
 * by side are not. With an argument the program prints the names of the functions that it calls. */
#include "exports.h"

#include <assert.h>
#include <stdio.h>
#include <string.h>

/* The size of a block of many values, which each of their types divides. */
enum { MANY = 2640 };
enum { MOST = 9, APART = 8192, MEMBERS = 2, ROWS = 320, STEP = 8 };

/* A function of the header with its blocks: it calls an export, or it is called here. */
struct call {
    const char *name;
    const struct export *export;
    uint32_t (*by_hand)(const struct region *r);
    size_t count, sizes[MOST];
    bool is_read[MOST];
};

#define BYTES(k) r[k].at, r[k].size

/* The members' values and states are blocks of their own. */
static uint32_t take_members(const struct region *r) {
    struct kohiblad_member *members = r[3].at;
    for (int j = 0; j < MEMBERS; j++) {
        struct kohiblad_member member = { KOHIBLAD_COLUMN_INT64, 0, r[5 + 2 * j].at,
                                          r[6 + 2 * j].at, { 0, 0, 0 } };
        memcpy(&members[j], &member, sizeof member);
    }
    return kohiblad_take_members(BYTES(0), r[1].at, ROWS + 1, BYTES(2), 1, 0, members, MEMBERS,
                                 r[4].at, r[4].size / sizeof(struct kohiblad_place));
}

static uint32_t fault_words(const struct region *r) {
    return kohiblad_fault_words(BYTES(0), 1, 0, BYTES(1)).status;
}

static uint32_t text_of_extension(const struct region *r) {
    static const uint8_t day[] = "2026-11-29";
    struct kohiblad_extension_value date = kohiblad_extension_of_text(day, sizeof day - 1);
    return kohiblad_text_of_extension(date, BYTES(0), r[1].at);
}

/* The functions that call no export of their name. */
static const struct call others[] = {
    { "take_members", NULL, take_members, 9,
      { MANY, (ROWS + 1) * sizeof(size_t), MANY, MEMBERS * sizeof(struct kohiblad_member), MANY,
        ROWS * sizeof(int64_t), ROWS, ROWS * sizeof(int64_t), ROWS },
      { true, true, true, false, false, false, false, false, false } },
    { "fault_words", NULL, fault_words, 2, { MANY, MANY },
      { true, false, false, false, false, false, false, false, false } },
    { "text_of_extension", NULL, text_of_extension, 2, { MANY, sizeof(size_t) }, { false } },
};

enum { EXPORTS = sizeof exports / sizeof *exports, OTHERS = sizeof others / sizeof *others };

static struct call call_at(size_t i) {
    if (i >= EXPORTS) return others[i - EXPORTS];
    struct call it = { exports[i].name, &exports[i], NULL, 0, { 0 }, { false } };
    for (; it.count < MOST_REGIONS && exports[i].regions[it.count].role != NOTHING; it.count++) {
        enum role role = exports[i].regions[it.count].role;
        it.is_read[it.count] = role == READ;
        it.sizes[it.count] = role == READ || role == VALUES ? MANY
            : exports[i].regions[it.count].each;
    }
    return it;
}

static uint64_t memory[MOST * APART / sizeof(uint64_t)];

static uint32_t answer_of(const struct call *it, const struct region *regions) {
    if (it->by_hand) return it->by_hand(regions);
    struct arguments arguments;
    arguments.depth = 1;
    memcpy(arguments.regions, regions, sizeof arguments.regions);
    uint32_t status = it->export->call(&arguments);
    if (status == KOHIBLAD_OVERLAP)
        for (size_t i = 0; i < sizeof memory / sizeof *memory; i++) assert(memory[i] == 0);
    return status;
}

/* The blocks of a call, apart from each other. */
static void lay_out(const struct call *it, struct region *regions) {
    memset(memory, 0, sizeof memory);
    for (size_t k = 0; k < it->count; k++) {
        regions[k].at = (uint8_t *)memory + k * APART + APART / 2;
        regions[k].size = it->sizes[k];
    }
}

/* Two blocks of a call where one begins so many bytes before the other ends, or side by side. */
static uint32_t answer_over(const struct call *it, size_t first, size_t second, size_t common) {
    struct region regions[MOST];
    lay_out(it, regions);
    regions[second].at = (uint8_t *)regions[first].at + regions[first].size - common;
    return answer_of(it, regions);
}

static void test_pair(const struct call *it, size_t first, size_t second) {
    if (it->is_read[first] && it->is_read[second]) return;
    size_t least = it->sizes[first] < it->sizes[second] ? it->sizes[first] : it->sizes[second];
    size_t commons[] = { STEP, least, it->sizes[first] };
    for (int k = 0; k < 3; k++) {
        uint32_t status = answer_over(it, first, second, commons[k]);
        if (status == KOHIBLAD_OVERLAP) continue;
        printf("%s: blocks %zu and %zu share %zu bytes, and the status is %u\n", it->name, first,
               second, commons[k], status);
        assert(0);
    }
    assert(answer_over(it, first, second, 0) != KOHIBLAD_OVERLAP);
}

int main(int count, char **words) {
    (void)words;
    for (size_t i = 0; i < EXPORTS + OTHERS; i++) {
        struct call it = call_at(i);
        struct region regions[MOST] = { { NULL, 0 } };
        if (count > 1) {
            bool writes = false;
            for (size_t k = 0; k < it.count; k++) writes |= !it.is_read[k];
            if (writes) printf("kohiblad_%s\n", it.name);
            continue;
        }
        lay_out(&it, regions);
        assert(answer_of(&it, regions) != KOHIBLAD_OVERLAP);
        for (size_t first = 0; first < it.count; first++)
            for (size_t second = 0; second < it.count; second++)
                if (first != second) test_pair(&it, first, second);
    }
    return 0;
}
