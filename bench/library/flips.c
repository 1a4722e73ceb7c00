// Replies from broken blocks: of a table with each single bit flipped, with each word exchanged for some others, and cut to each number of words.
// The words are files of controllers. What a call gets stands between pages that can't be touched, the block and the counts in memory that can
// only be read, so that a read or write beside them ends the program. A cut block has to be refused. Another one has to be refused, or replied to
// as a plain walk of its words does. But where there are moves, none may be written.
#define _GNU_SOURCE
#include "mpc.h"

#include <stdbool.h>
#include <stdio.h>
#include <stdlib.h>
#include <string.h>
#include <sys/mman.h>
#include <unistd.h>

enum { LINE = 12, INPUTS = 3, MOST_STATES = 120, MOST_FILE = 1 << 20, SECONDS = 300 };

typedef unsigned __int128 wide;

static void fail(const char *why) {
    fprintf(stderr, "flips: %s\n", why);
    exit(1);
}

// ---- memory between pages that can't be touched
struct cage {
    char *pages;
    size_t size; // of the pages between
};

static struct cage caged(size_t bytes) {
    size_t page = (size_t)sysconf(_SC_PAGESIZE), size = (bytes + page) / page * page;
    char *pages = mmap(NULL, size + 2 * page, PROT_NONE, MAP_PRIVATE | MAP_ANONYMOUS, -1, 0);
    if (pages == MAP_FAILED) fail("mmap");
    return (struct cage){pages + page, size};
}

static void allow(struct cage cage, int how) {
    if (mprotect(cage.pages, cage.size, how) != 0) fail("mprotect");
}

// Copies words to the end of the cage or to its beginning, in memory that can only be read then.
static const uint64_t *put(struct cage cage, const uint64_t *words, size_t count, bool at_end) {
    char *place = at_end ? cage.pages + cage.size - 8 * count : cage.pages;
    allow(cage, PROT_READ | PROT_WRITE);
    memcpy(place, words, 8 * count);
    allow(cage, PROT_READ);
    return (const uint64_t *)place;
}

// ---- tables and their states
struct reply {
    uint32_t answer;
    mpc_fraction moves[INPUTS];
};

struct table {
    uint64_t *words;
    size_t count, n, p, state_count;
    const uint64_t *states; // n counts each, in a cage
    struct reply *replies;  // of the whole block
};

static struct table load(const char *path) {
    uint8_t *text = malloc(MOST_FILE);
    FILE *file = fopen(path, "rb");
    if (file == NULL || text == NULL) fail(path);
    size_t size = fread(text, 1, MOST_FILE, file);
    fclose(file);
    uint64_t count;
    if (mpc_table_size(text, size, &count) != MPC_DONE) fail("mpc_table_size");
    struct table table = {.words = malloc(8 * count), .count = count};
    if (table.words == NULL || mpc_table_load(text, size, 1, table.words, count, &count) != MPC_DONE) fail("mpc_table_load");
    free(text);
    table.n = table.words[2];
    table.p = table.words[3];
    return table;
}

// States that lie spread over the grid, all of a small one, and then some beside it.
static void spread(struct table *table) {
    size_t n = table->n, grid = 1;
    const uint64_t *limits = table->words + 4;
    for (size_t i = 0; i < n; i++) grid *= limits[i] + 1;
    size_t step = grid / MOST_STATES + 1, count = (grid + step - 1) / step;
    uint64_t *states = calloc((count + 2 * n) * n, sizeof *states);
    if (states == NULL) fail("memory");
    for (size_t k = 0; k < count; k++) {
        size_t rest = k * step;
        for (size_t i = 0; i < n; i++) {
            states[k * n + i] = rest % (limits[i] + 1);
            rest /= limits[i] + 1;
        }
    }
    for (size_t k = 0; k < 2 * n; k++) states[(count + k) * n + k / 2] = k % 2 == 0 ? limits[k / 2] + 1 : UINT64_MAX;
    table->state_count = count + 2 * n;
    size_t words = table->state_count * n;
    table->states = put(caged(8 * words), states, words, true);
    table->replies = calloc(table->state_count, sizeof *table->replies);
    if (table->replies == NULL) fail("memory");
    free(states);
}

// ---- a plain walk of any words
// A line's number i, of two words or of one.
static __int128 number_at(const uint64_t *line, bool is_wide, size_t i) {
    return is_wide ? (__int128)((wide)line[2 * i + 1] << 64 | line[2 * i]) : (int64_t)line[i];
}

// `start + k·t` by the numbers k of a line from 2 on, in two words or in one.
static __int128 sum_of(const uint64_t *line, bool is_wide, __int128 start, const uint64_t *counts, size_t n) {
    wide sum = (wide)start;
    for (size_t i = 0; i < n; i++) sum += (wide)number_at(line, is_wide, 2 + i) * counts[i];
    return is_wide ? (__int128)sum : (int64_t)(uint64_t)sum;
}

// Whether the row of a split's line holds.
static bool holds(const uint64_t *line, bool is_wide, const uint64_t *counts, size_t n) {
    return sum_of(line, is_wide, 0, counts, n) <= number_at(line, is_wide, 1);
}

static bool are_there(size_t count, uint64_t start, size_t size) {
    return size <= count && start <= count - size;
}

// The reply of the words, by their layout, where they have one.
static struct reply walked(const uint64_t *words, size_t count, const uint64_t *counts, size_t n, size_t p) {
    struct reply reply = {.answer = MPC_BAD_BLOCK};
    bool is_wide = words[11] != 1;
    size_t size = is_wide ? LINE : LINE / 2;
    uint64_t start = LINE, most = words[10] < count ? words[10] : count;
    for (size_t i = 0; i < n; i++) {
        if (counts[i] > words[4 + i]) return (struct reply){.answer = MPC_OUTSIDE};
    }
    for (uint64_t turn = 0; are_there(count, start, size) && words[start] != 0; turn++) {
        if (turn >= most) return reply;
        start = holds(words + start, is_wide, counts, n) ? start + size : words[start];
    }
    if (!are_there(count, start, size)) return reply;
    if (words[start + 1] == 0) return (struct reply){.answer = MPC_INFEASIBLE};
    start = words[start + 2];
    if (!are_there(count, start, size * p)) return reply;
    for (size_t i = 0; i < p; i++) {
        const uint64_t *form = words + start + size * i;
        wide num = (wide)sum_of(form, is_wide, number_at(form, is_wide, 1), counts, n), den = (wide)number_at(form, is_wide, 0);
        reply.moves[i] = (mpc_fraction){(uint64_t)num, (uint64_t)(num >> 64), (uint64_t)den, (uint64_t)(den >> 64)};
    }
    reply.answer = MPC_DONE;
    return reply;
}

// ---- trials
struct tally {
    unsigned long blocks, refused, same, other;
};

static bool are_same(const struct reply *x, const struct reply *y) {
    return x->answer == y->answer && memcmp(x->moves, y->moves, sizeof x->moves) == 0;
}

// The library's reply, whose moves stand right before a page that can't be touched. Without an answer they are 0, as they were.
static struct reply asked(const uint64_t *words, size_t count, const uint64_t *counts, const struct table *table, struct cage cage) {
    size_t size = table->p * sizeof(mpc_fraction);
    char *moves = cage.pages + cage.size - size;
    struct reply reply = {0};
    memset(moves, 0, size);
    reply.answer = mpc_reply(words, count, counts, table->n, (mpc_fraction *)moves, table->p);
    memcpy(reply.moves, moves, size);
    return reply;
}

// Tries a block at all states. One that is cut has to be refused.
static void try_block(const uint64_t *words, size_t count, const struct table *table, struct cage moves, struct tally *tally) {
    const struct reply refusal = {.answer = MPC_BAD_BLOCK};
    tally->blocks++;
    for (size_t k = 0; k < table->state_count; k++) {
        const uint64_t *counts = table->states + k * table->n;
        struct reply reply = asked(words, count, counts, table, moves);
        if (are_same(&reply, &refusal)) {
            tally->refused++;
            continue;
        }
        if (count < table->count) fail("a cut block has a reply");
        struct reply walk = walked(words, count, counts, table->n, table->p);
        if (!are_same(&reply, &walk)) fail("a block has another reply than its words");
        ++*(are_same(&walk, &table->replies[k]) ? &tally->same : &tally->other);
    }
}

static void try_word(const struct table *table, size_t place, uint64_t word, struct cage cage, struct cage moves, struct tally *tally) {
    uint64_t was = table->words[place], *words = malloc(8 * table->count);
    if (words == NULL) fail("memory");
    memcpy(words, table->words, 8 * table->count);
    words[place] = word;
    if (word != was) try_block(put(cage, words, table->count, place % 2 == 0), table->count, table, moves, tally);
    free(words);
}

static void print_tally(const char *what, const struct tally *tally) {
    printf("%s: %lu blocks, %lu replies refused, %lu as of the whole block, %lu others\n", what, tally->blocks, tally->refused, tally->same, tally->other);
}

static void try_table(const char *path) {
    struct table table = load(path);
    spread(&table);
    struct cage cage = caged(8 * table.count), moves = caged(INPUTS * sizeof(mpc_fraction));
    allow(moves, PROT_READ | PROT_WRITE);
    struct tally whole = {0}, flipped = {0}, exchanged = {0}, cut = {0};
    for (size_t k = 0; k < table.state_count; k++) table.replies[k] = walked(table.words, table.count, table.states + k * table.n, table.n, table.p);
    try_block(put(cage, table.words, table.count, true), table.count, &table, moves, &whole);
    if (whole.same != table.state_count) fail("a whole block is refused");
    const uint64_t others[] = {0, 1, 2, UINT64_MAX, 1ULL << 63, table.words[8], table.words[8] - 1, table.count, table.count / LINE};
    for (size_t place = 0; place < table.count; place++) {
        for (int bit = 0; bit < 64; bit++) try_word(&table, place, table.words[place] ^ 1ULL << bit, cage, moves, &flipped);
        for (size_t k = 0; k < sizeof others / sizeof *others; k++) try_word(&table, place, others[k], cage, moves, &exchanged);
        try_block(put(cage, table.words, place, true), place, &table, moves, &cut);
    }
    printf("%s: %zu words, %zu states\n", strrchr(path, '/') == NULL ? path : strrchr(path, '/') + 1, table.count, table.state_count);
    print_tally("  a bit flipped", &flipped);
    print_tally("  a word exchanged", &exchanged);
    print_tally("  cut", &cut);
    free(table.words);
    free(table.replies);
}

int main(int count, char **words) {
    alarm(SECONDS);
    for (int i = 1; i < count; i++) try_table(words[i]);
    return 0;
}
