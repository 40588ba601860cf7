/* Compares each constant of include/wuzhamben.h with what the functions do: a fault by a call that ends with it, a kind by an effect that no
 * other kind has, the answers and the sizes of a report at their edges. Prints a line for each comparison that fails or, if none does, how
 * many constants agree. It is C11 and C++17. */
#include "wuzhamben.h"
#include <stdio.h>
#include <string.h>

#define CLIENTS 0x55555555u /* the domain register in which each field is 1 */

/* A constant's name, and its value. */
#define NAMED(constant) #constant, constant

/* One page of memory, and a track for two contexts: their rows, then the global one. */
struct state {
    uint8_t memory[4096];
    uint32_t track[3 * 1024];
    uint32_t registers[4];
};

static const char *names[64];
static size_t constants, failed;

/* Counts a constant, if it is a new one. */
static void count(const char *name) {
    size_t i;
    for (i = 0; i < constants; i++)
        if (strcmp(names[i], name) == 0) return;
    names[constants++] = name;
}

/* Compares something that a call for a constant gave with what it should be, and says whether it is. */
static int compare(const char *name, const char *what, uint64_t found, uint64_t expected) {
    count(name);
    if (found == expected) return 1;
    printf("%s: %s is 0x%llx, not 0x%llx\n", name, what, (unsigned long long)found, (unsigned long long)expected);
    failed++;
    return 0;
}

static int compare_at(const char *name, const char *what, size_t at, uint64_t found, uint64_t expected) {
    char place[80];
    if (found == expected) return 1;
    snprintf(place, sizeof place, "%s 0x%zx", what, at);
    return compare(name, place, found, expected);
}

/* Compares all that a call left: memory, track and registers, each up to the first difference. */
static void compare_states(const char *name, const struct state *found, const struct state *expected) {
    size_t i;
    for (i = 0; i < 4096; i++)
        if (!compare_at(name, "the byte at", i, found->memory[i], expected->memory[i])) break;
    for (i = 0; i < 3 * 1024; i++)
        if (!compare_at(name, "track word", i, found->track[i], expected->track[i])) break;
    for (i = 0; i < 4; i++)
        if (!compare_at(name, "register", i, found->registers[i], expected->registers[i])) break;
}

static int same_states(const struct state *one, const struct state *other) {
    return memcmp(one->memory, other->memory, sizeof one->memory) == 0 &&
           memcmp(one->track, other->track, sizeof one->track) == 0 &&
           memcmp(one->registers, other->registers, sizeof one->registers) == 0;
}

static void put(struct state *state, size_t at, uint32_t word) {
    size_t i;
    for (i = 0; i < 4; i++) state->memory[at + i] = (uint8_t)(word >> (8 * i));
}

static uint64_t step(struct state *state, uint32_t kind, uint32_t a, uint32_t b, uint32_t c) {
    const uint32_t operation[4] = {kind, a, b, c};
    return machine_step(operation, 4, state->registers, 4, state->memory, sizeof state->memory, state->track, 3 * 1024);
}

/* A read that ends with each fault, under a root and a domain register, and the status code as a number. Where the walk alone ends with it,
 * walk_image has the same answer. */
static const struct {
    const char *name;
    uint32_t constant, code, root, domains, address, size;
    int by_the_walk;
} faults[] = {
    {NAMED(WUZHAMBEN_ALIGNMENT), 0x1, 0, CLIENTS, 0x1, 2, 0},
    {NAMED(WUZHAMBEN_NO_MAPPING_1), 0x5, 0, CLIENTS, 0x300000, 4, 1},
    {NAMED(WUZHAMBEN_NO_MAPPING_2), 0x7, 0, CLIENTS, 0x1000, 4, 1},
    {NAMED(WUZHAMBEN_ACCESS_OUTSIDE), 0x8, 0, CLIENTS, 0x3000, 4, 0},
    {NAMED(WUZHAMBEN_DOMAIN_SECTION), 0x9, 0, 0, 0x100000, 4, 0},
    {NAMED(WUZHAMBEN_DOMAIN_PAGE), 0xb, 0, 0, 0x0, 4, 0},
    {NAMED(WUZHAMBEN_WALK_OUTSIDE_1), 0xc, 0x1000, CLIENTS, 0x0, 4, 1},
    {NAMED(WUZHAMBEN_PERMISSION_SECTION), 0xd, 0, CLIENTS, 0x100000, 4, 0},
    {NAMED(WUZHAMBEN_WALK_OUTSIDE_2), 0xe, 0, CLIENTS, 0x200000, 4, 1},
    {NAMED(WUZHAMBEN_PERMISSION_PAGE), 0xf, 0, CLIENTS, 0x2000, 4, 0},
};

static void compare_faults(void) {
    static struct state state;
    uint64_t answer;
    size_t i;
    put(&state, 0x0, 0x401);    /* a table */
    put(&state, 0x4, 0x2);      /* a section without rights */
    put(&state, 0x8, 0x1001);   /* a table behind memory */
    put(&state, 0x400, 0x32);   /* page 0 at 0, AP 3 */
    put(&state, 0x408, 0x2);    /* page 2 at 0, without rights */
    put(&state, 0x40c, 0x1032); /* page 3 behind memory, AP 3 */
    for (i = 0; i < sizeof faults / sizeof *faults; i++) {
        memset(state.track, 0, sizeof state.track);
        memset(state.registers, 0, sizeof state.registers);
        state.registers[0] = faults[i].root;
        state.registers[3] = faults[i].domains;
        answer = step(&state, WUZHAMBEN_READ, faults[i].address, faults[i].size, 0);
        compare(faults[i].name, "the answer of a read", answer, WUZHAMBEN_FAULT + faults[i].constant);
        compare(faults[i].name, "the answer of a read", answer, UINT64_C(0x100000000) + faults[i].code);
        compare("WUZHAMBEN_FAULT", "an answer less its code", answer - faults[i].code, WUZHAMBEN_FAULT);
        if (!faults[i].by_the_walk) continue;
        answer = walk_image(state.memory, sizeof state.memory, faults[i].root, faults[i].address);
        compare(faults[i].name, "the answer of a walk", answer, WUZHAMBEN_FAULT + faults[i].constant);
        compare(faults[i].name, "the answer of a walk", answer, UINT64_C(0x100000000) + faults[i].code);
    }
}

/* The first four words of each row of a track; the others are 0. The words of pages 0 and 1 are those of their entries, the odd ones stand
 * for two entries or more. */
#define ROWS_BEFORE {{0x602, 0, 5, 7}, {0, 0, 9, 0xb}, {0, 0x6c2, 0xd, 0xf}}
#define NOTED_IN_1 {{0x602, 0, 5, 7}, {0x602, 0, 9, 0xb}, {0, 0x6c2, 0xd, 0xf}}
#define ALL_FLUSHED {{0x602, 0, 0, 0}, {0, 0, 0, 0}, {0, 0x6c2, 0, 0}}
#define PAGE_2_FLUSHED {{0x602, 0, 0, 7}, {0, 0, 0, 0xb}, {0, 0x6c2, 0, 0xf}}
#define CONTEXT_1_FLUSHED {{0x602, 0, 5, 7}, {0, 0, 0, 0}, {0, 0x6c2, 0xd, 0xf}}
#define PAGE_2_OF_1_FLUSHED {{0x602, 0, 5, 7}, {0, 0, 0, 0xb}, {0, 0x6c2, 0, 0xf}}

/* The word of data before, and with its second byte stored. */
#define DATA 0x44332211u
#define STORED 0x44335511u

static const uint32_t rows_before[3][4] = ROWS_BEFORE;

/* Operations, by the constant and by the number of their kind, with the answer and what they leave: the registers, the word of data and the
 * rows. */
static const struct {
    const char *name;
    uint32_t kind, number, a, b, c;
    uint64_t answer;
    uint32_t registers[4], data, rows[3][4];
} kinds[] = {
    {NAMED(WUZHAMBEN_READ), 0, 0x801, 1, 0x55, 0x22, {0, 0, 0, CLIENTS}, DATA, ROWS_BEFORE},
    {NAMED(WUZHAMBEN_READ), 0, 0x1800, 4, 0, DATA, {0, 0, 0, CLIENTS}, DATA, ROWS_BEFORE},
    {NAMED(WUZHAMBEN_WRITE), 1, 0x801, 1, 0x55, 0, {0, 0, 0, CLIENTS}, STORED, ROWS_BEFORE},
    {NAMED(WUZHAMBEN_ROOT), 2, 0x80, 1, 0, 0, {0x80, 0, 0, CLIENTS}, DATA, ROWS_BEFORE},
    {NAMED(WUZHAMBEN_ASID), 3, 1, 0, 0, 0, {0, 1, 0, CLIENTS}, DATA, NOTED_IN_1},
    {NAMED(WUZHAMBEN_MODE), 4, 1, 0, 0, 0, {0, 0, 1, CLIENTS}, DATA, ROWS_BEFORE},
    {NAMED(WUZHAMBEN_ALL), 5, 0x2abc, 1, 0, 0, {0, 0, 0, CLIENTS}, DATA, ALL_FLUSHED},
    {NAMED(WUZHAMBEN_ADDR), 6, 0x2abc, 1, 0, 0, {0, 0, 0, CLIENTS}, DATA, PAGE_2_FLUSHED},
    {NAMED(WUZHAMBEN_CTX), 7, 1, 1, 0, 0, {0, 0, 0, CLIENTS}, DATA, CONTEXT_1_FLUSHED},
    {NAMED(WUZHAMBEN_ADDRCTX), 8, 0x2abc, 1, 0, 0, {0, 0, 0, CLIENTS}, DATA, PAGE_2_OF_1_FLUSHED},
    {NAMED(WUZHAMBEN_FETCH), 9, 0x800, 1, 0, DATA, {0, 0, 0, CLIENTS}, DATA, ROWS_BEFORE},
    {NAMED(WUZHAMBEN_FETCH), 9, 0x1800, 4, 0, UINT64_C(0x10000000f), {0, 0, 0, CLIENTS}, DATA, ROWS_BEFORE},
    {NAMED(WUZHAMBEN_DOMAIN), 10, 1, 0, 0, 0, {0, 0, 0, 1}, DATA, ROWS_BEFORE},
};

/* A state with these registers, data and rows. Pages 0 and 1 are mapped to the memory with AP 3: page 0 is own, page 1 global, with XN. */
static void fill(struct state *state, const uint32_t registers[4], uint32_t data, const uint32_t rows[3][4]) {
    size_t row;
    memset(state, 0, sizeof *state);
    put(state, 0x0, 0x401);
    put(state, 0x400, 0x832);
    put(state, 0x404, 0x33);
    put(state, 0x800, data);
    for (row = 0; row < 3; row++) memcpy(state->track + 1024 * row, rows[row], sizeof rows[row]);
    memcpy(state->registers, registers, sizeof state->registers);
}

/* Each operation has its effect, and with the same fields no other kind has it, nor a number behind the last. */
static void compare_kinds(void) {
    static const uint32_t registers[4] = {0, 0, 0, CLIENTS};
    static struct state before, expected, found;
    uint64_t answer;
    uint32_t other;
    size_t i;
    fill(&before, registers, DATA, rows_before);
    for (i = 0; i < sizeof kinds / sizeof *kinds; i++) {
        compare(kinds[i].name, "the constant", kinds[i].kind, kinds[i].number);
        fill(&expected, kinds[i].registers, kinds[i].data, kinds[i].rows);
        found = before;
        answer = step(&found, kinds[i].kind, kinds[i].a, kinds[i].b, kinds[i].c);
        compare(kinds[i].name, "the answer", answer, kinds[i].answer);
        compare_states(kinds[i].name, &found, &expected);
        for (other = 0; other <= 11; other++) {
            if (other == kinds[i].kind) continue;
            found = before;
            answer = step(&found, other, kinds[i].a, kinds[i].b, kinds[i].c);
            if (answer != kinds[i].answer || !same_states(&found, &expected)) continue;
            printf("%s: kind %u has its effect, and the constant is %u\n", kinds[i].name, (unsigned)other,
                   (unsigned)kinds[i].kind);
            failed++;
        }
    }
}

static void compare_refusals(void) {
    static const uint32_t registers[4] = {0, 0, 0, CLIENTS};
    static struct state state;
    const char *name = "WUZHAMBEN_REFUSAL";
    uint64_t answer;
    fill(&state, registers, DATA, rows_before);
    answer = step(&state, WUZHAMBEN_READ, 0x800, 3, 0);
    compare(name, "the answer of a read of three bytes", answer, WUZHAMBEN_REFUSAL + 7);
    compare(name, "the answer of a read of three bytes", answer, UINT64_C(0x200000007));
    answer = walk_image(state.memory, sizeof state.memory, 0, 0x400000);
    compare(name, "the answer of a walk behind the window", answer, WUZHAMBEN_REFUSAL + 8);
    compare(name, "the answer of a walk behind the window", answer, UINT64_C(0x200000008));
    answer = machine_start(state.memory, sizeof state.memory, state.track, 3 * 1024, 1, state.registers, 4);
    compare(name, "the answer of a start at root 1", answer, WUZHAMBEN_REFUSAL + 10);
    compare(name, "the answer of a start at root 1", answer, UINT64_C(0x20000000a));
}

/* Words that are no operation or no registers: a kind behind the last, or one word less or more. Nothing changes by them. */
static void compare_no_calls(void) {
    static const uint32_t registers[4] = {0, 0, 0, CLIENTS};
    static const uint32_t all[5] = {WUZHAMBEN_ALL, 0, 0, 0, 0};
    static struct state before, state;
    const char *name = "WUZHAMBEN_NO_CALL";
    uint32_t five[5] = {0, 0, 0, CLIENTS, 0};
    uint64_t answer;
    size_t words;
    fill(&before, registers, DATA, rows_before);
    state = before;
    answer = step(&state, WUZHAMBEN_DOMAIN + 1, 0, 0, 0);
    compare(name, "the answer to a kind behind the last", answer, WUZHAMBEN_NO_CALL);
    compare(name, "the answer to a kind behind the last", answer, UINT64_C(0x300000000));
    for (words = 3; words <= 5; words += 2) {
        answer = machine_step(all, words, state.registers, 4, state.memory, sizeof state.memory, state.track, 3 * 1024);
        compare_at(name, "the answer with words of the operation", words, answer, WUZHAMBEN_NO_CALL);
        answer = machine_step(all, 4, five, words, state.memory, sizeof state.memory, state.track, 3 * 1024);
        compare_at(name, "the answer with words of registers", words, answer, WUZHAMBEN_NO_CALL);
        answer = machine_start(state.memory, sizeof state.memory, state.track, 3 * 1024, 0, five, words);
        compare_at(name, "the answer of a start with words of registers", words, answer, WUZHAMBEN_NO_CALL);
    }
    compare_states(name, &state, &before);
}

/* Lengths of a track and of a buffer, and what list_report answers: the length of the report, or that there is none. */
static const struct {
    const char *name, *what;
    size_t track, out;
    uint64_t answer;
} reports[] = {
    {"WUZHAMBEN_REPORT_LIMIT", "the answer at the limit", WUZHAMBEN_REPORT_TRACK, WUZHAMBEN_REPORT_LIMIT, 33},
    {"WUZHAMBEN_REPORT_LIMIT", "the answer above the limit", WUZHAMBEN_REPORT_TRACK, WUZHAMBEN_REPORT_LIMIT + 1, 33},
    {"WUZHAMBEN_REPORT_LIMIT", "the answer below the limit", WUZHAMBEN_REPORT_TRACK, WUZHAMBEN_REPORT_LIMIT - 1,
     WUZHAMBEN_NO_CALL},
    {"WUZHAMBEN_REPORT_TRACK", "the answer at this length", WUZHAMBEN_REPORT_TRACK, WUZHAMBEN_REPORT_LIMIT, 33},
    {"WUZHAMBEN_REPORT_TRACK", "the answer below this length", WUZHAMBEN_REPORT_TRACK - 1, WUZHAMBEN_REPORT_LIMIT,
     WUZHAMBEN_NO_CALL + 1},
    {"WUZHAMBEN_REPORT_TRACK", "the answer above this length", WUZHAMBEN_REPORT_TRACK + 1, WUZHAMBEN_REPORT_LIMIT,
     WUZHAMBEN_NO_CALL + 1},
};

static void compare_reports(void) {
    static const char list[] = "op,a,b,c\nmode,1,0,0\n", report[] = "line,op,answer,value\n2,mode,ok,0\n";
    static uint8_t image[4096], bytes[sizeof list], out[WUZHAMBEN_REPORT_LIMIT + 1];
    static uint32_t track[WUZHAMBEN_REPORT_TRACK + 1];
    uint64_t answer;
    size_t i, at, length;
    memcpy(bytes, list, sizeof list);
    for (i = 0; i < sizeof reports / sizeof *reports; i++) {
        memset(out, '-', sizeof out);
        memset(track, 0x7f, sizeof track);
        answer = list_report(image, sizeof image, bytes, sizeof list - 1, track, reports[i].track, out, reports[i].out);
        compare(reports[i].name, reports[i].what, answer, reports[i].answer);
        /* Without a report buffer and track are as they were; with one the track is empty, as no page is mapped. */
        length = reports[i].answer < WUZHAMBEN_NO_CALL ? sizeof report - 1 : 0;
        for (at = 0; at < sizeof out; at++)
            if (!compare_at(reports[i].name, "the buffer's byte", at, out[at], (uint8_t)(at < length ? report[at] : '-'))) break;
        for (at = 0; at < reports[i].track; at++)
            if (!compare_at(reports[i].name, "the report's track word", at, track[at], length ? 0 : 0x7f7f7f7f)) break;
    }
}

int main(void) {
    compare_faults();
    compare_kinds();
    compare_refusals();
    compare_no_calls();
    compare_reports();
    if (failed) return 1;
    printf("all %zu constants agree\n", constants);
    return 0;
}
