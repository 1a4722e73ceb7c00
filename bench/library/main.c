// Replies at random counts by the proved library and by a plain C walk of the same table: equal answers and moves first, then the nanoseconds of a
// reply. The words are a controller's file, the number of states, and files for the lines of counts and of replies, of which the second has what
// `mpc reply` has to write for the first.
#define _POSIX_C_SOURCE 200809L
#include "mpc.h"
#include "plain.h"

#include <stdio.h>
#include <stdlib.h>
#include <time.h>

enum { GOES = 7 };

static void fail(const char *why) {
    fprintf(stderr, "library: %s\n", why);
    exit(2);
}

static void *room(size_t size) {
    void *found = malloc(size + 1);
    if (found == NULL) fail("memory");
    return found;
}

static char *read_file(const char *path, size_t *size) {
    FILE *file = fopen(path, "rb");
    if (file == NULL || fseek(file, 0, SEEK_END) != 0) fail(path);
    *size = (size_t)ftell(file);
    rewind(file);
    char *text = room(*size);
    if (fread(text, 1, *size, file) != *size) fail(path);
    text[*size] = 0;
    fclose(file);
    return text;
}

static uint64_t *load(const char *file, size_t size, uint64_t *words) {
    const uint8_t *bytes = (const uint8_t *)file;
    if (mpc_table_size(bytes, size, words) != MPC_DONE) fail("mpc_table_size");
    uint64_t count = *words;
    uint64_t *block = room(8 * count);
    if (mpc_table_load(bytes, size, 1, block, count, words) != MPC_DONE) fail("mpc_table_load");
    return block;
}

// ---- counts and replies, in lists of one entry a state
struct states {
    size_t count;
    uint64_t *counts; // n a state
};

static uint64_t draw(uint64_t *seed) {
    *seed ^= *seed << 13;
    *seed ^= *seed >> 7;
    *seed ^= *seed << 17;
    return *seed;
}

static struct states drawn(const struct table *table, size_t count) {
    struct states states = {count, room(count * table->n * sizeof *states.counts)};
    uint64_t seed = 0x9e3779b97f4a7c15;
    for (size_t i = 0; i < count * table->n; i++) states.counts[i] = draw(&seed) % (table->limits[i % table->n] + 1);
    return states;
}

// The seconds that this thread has run, so that other programs count little.
static double seconds(void) {
    struct timespec time;
    clock_gettime(CLOCK_THREAD_CPUTIME_ID, &time);
    return (double)time.tv_sec + 1e-9 * (double)time.tv_nsec;
}

typedef enum answer plain_call(const struct table *, const uint64_t *, struct move *);

// A run over all states gives a number that depends on each answer and move, so that none is left out.
static uint64_t run_plain(plain_call *call, const struct table *table, const struct states *states) {
    struct move moves[INPUTS] = {{0, 1}};
    uint64_t sum = 0;
    for (size_t i = 0; i < states->count; i++) {
        sum += (uint64_t)call(table, states->counts + i * table->n, moves) + (uint64_t)moves[0].num;
    }
    return sum;
}

static uint64_t run_proved(const uint64_t *block, uint64_t words, const struct states *states) {
    const size_t n = block[2], p = block[3];
    mpc_fraction moves[INPUTS] = {{0, 0, 1, 0}};
    uint64_t sum = 0;
    for (size_t i = 0; i < states->count; i++) {
        uint32_t answer = mpc_reply(block, words, states->counts + i * n, n, moves, p);
        sum += (uint64_t)(answer == MPC_DONE ? MOVES : answer == MPC_INFEASIBLE ? INFEASIBLE : OUTSIDE) + moves[0].num_low;
    }
    return sum;
}

// ---- the texts of replies
static void print_number(FILE *file, wide number) {
    char digits[40];
    int count = 0;
    if (number < 0) fputc('-', file);
    do {
        digits[count++] = (char)('0' + (number % 10 < 0 ? -(number % 10) : number % 10));
        number /= 10;
    } while (number != 0);
    while (count > 0) fputc(digits[--count], file);
}

static void print_fraction(FILE *file, wide num, wide den) {
    wide common = divisor(num < 0 ? -num : num, den);
    print_number(file, num / common);
    if (den / common == 1) return;
    fputc('/', file);
    print_number(file, den / common);
}

// Writes the lines of a state for `mpc reply`, and tests that the plain walk gives the library's answer and moves.
static void compare(const uint64_t *block, uint64_t words, const struct table *table, const uint64_t *counts, FILE *asked, FILE *replied) {
    mpc_fraction moves[INPUTS];
    struct move plain[INPUTS], brief[INPUTS];
    uint32_t answer = mpc_reply(block, words, counts, table->n, moves, table->p);
    enum answer by_plain = plain_reply(table, counts, plain);
    if (by_plain != (answer == MPC_DONE ? MOVES : answer == MPC_INFEASIBLE ? INFEASIBLE : OUTSIDE)) fail("another answer");
    if (table->is_short && short_reply(table, counts, brief) != by_plain) fail("another answer in 64 bits");
    for (uint32_t i = 0; i < table->n; i++) fprintf(asked, "%s%llu", i > 0 ? " " : "", (unsigned long long)counts[i]);
    fputc('\n', asked);
    if (answer == MPC_INFEASIBLE) fputs("infeasible", replied);
    for (uint32_t i = 0; answer == MPC_DONE && i < table->p; i++) {
        if (plain[i].num != mpc_num(&moves[i]) || plain[i].den != mpc_den(&moves[i])) fail("another move");
        if (table->is_short && (brief[i].num != plain[i].num || brief[i].den != plain[i].den)) fail("another move in 64 bits");
        if (i > 0) fputc(' ', replied);
        print_fraction(replied, plain[i].num, plain[i].den);
    }
    fputc('\n', replied);
}

// ---- times
static void keep_least(double *least, double begun) {
    double taken = seconds() - begun;
    if (*least == 0 || taken < *least) *least = taken;
}

static void print_times(const uint64_t *block, uint64_t words, const struct table *table, const struct states *states) {
    double proved = 0, plain = 0, brief = 0, begun;
    for (int go = 0; go < GOES; go++) {
        begun = seconds();
        uint64_t sum = run_proved(block, words, states);
        keep_least(&proved, begun);
        begun = seconds();
        if (run_plain(plain_reply, table, states) != sum) fail("another sum");
        keep_least(&plain, begun);
        if (!table->is_short) continue;
        begun = seconds();
        if (run_plain(short_reply, table, states) != sum) fail("another sum in 64 bits");
        keep_least(&brief, begun);
    }
    double each = 1e9 / (double)states->count;
    printf(" %u | %u | %llu | %llu | %.0f |", table->node_count, table->law_count, (unsigned long long)block[10], (unsigned long long)block[11], each * proved);
    printf(" %.0f | %.2f |", each * plain, proved / plain);
    if (table->is_short) {
        printf(" %.0f | %.2f |\n", each * brief, proved / brief);
    } else {
        printf("  |  |\n");
    }
}

int main(int count, char **words) {
    if (count != 5) fail("a controller's file, a number of states and two files are wanted");
    size_t size;
    char *file = read_file(words[1], &size);
    uint64_t block_words;
    uint64_t *block = load(file, size, &block_words);
    struct table table = plain_read(file);
    struct states states = drawn(&table, strtoul(words[2], NULL, 10));
    FILE *asked = fopen(words[3], "w"), *replied = fopen(words[4], "w");
    if (asked == NULL || replied == NULL) fail("the files of counts and replies");
    for (size_t i = 0; i < states.count; i++) compare(block, block_words, &table, states.counts + i * table.n, asked, replied);
    if (fclose(asked) != 0 || fclose(replied) != 0) fail("the files of counts and replies");
    print_times(block, block_words, &table, &states);
    return 0;
}
