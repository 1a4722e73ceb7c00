// Calls each function of the library once and more, as its header declares it. The words are the files of examples/cart: its plant, and the
// controller that `mpc compile` writes for it. A table that was loaded from there is compared with replies without a table, state by state.
#include "mpc.h"

#include <stdbool.h>
#include <stdio.h>
#include <stdlib.h>
#include <string.h>

enum { ROOM = 1 << 14, POSITIONS = 21, SPEEDS = 17 };

struct text {
    uint8_t bytes[ROOM];
    uint64_t size;
};

static unsigned long tried, failed;

static void hold(bool holds, const char *what) {
    tried++;
    if (holds) return;
    failed++;
    printf("calls: FAILED: %s\n", what);
}

static struct text read_file(const char *path) {
    struct text read;
    FILE *file = fopen(path, "rb");
    if (file == NULL) {
        fprintf(stderr, "calls: %s\n", path);
        exit(2);
    }
    read.size = fread(read.bytes, 1, ROOM, file);
    fclose(file);
    return read;
}

static bool is_text(const struct text *text, const char *wanted) {
    return text->size == strlen(wanted) && memcmp(text->bytes, wanted, text->size) == 0;
}

static bool is_filled(const uint8_t *bytes, uint64_t count) {
    for (uint64_t i = 0; i < count; i++) {
        if (bytes[i] != 0x5a) return false;
    }
    return true;
}

// A text with room for so many bytes, all of which are 0x5a.
static struct text filled(void) {
    struct text text;
    memset(text.bytes, 0x5a, ROOM);
    text.size = 12345;
    return text;
}

static void try_compile(const struct text *plant, const struct text *file) {
    struct text made = filled();
    hold(mpc_compile(plant->bytes, plant->size, 4, made.bytes, ROOM, &made.size) == MPC_DONE, "compile");
    hold(made.size == file->size && memcmp(made.bytes, file->bytes, file->size) == 0, "the file of `mpc compile`");
    hold(is_filled(made.bytes + made.size, ROOM - made.size), "nothing behind the text");
    made = filled();
    hold(mpc_compile(plant->bytes, plant->size, 32, made.bytes, file->size, &made.size) == MPC_DONE, "room for the text alone");
    made = filled();
    hold(mpc_compile(plant->bytes, plant->size, 1, made.bytes, file->size - 1, &made.size) == MPC_TOO_SMALL, "too small by a byte");
    hold(made.size == file->size && is_filled(made.bytes, ROOM), "its size, and nothing written");
    hold(mpc_compile(plant->bytes, plant->size, 0, made.bytes, ROOM, &made.size) == MPC_USAGE && made.size == 0, "no worker");
    hold(mpc_compile(plant->bytes, plant->size, 33, made.bytes, ROOM, &made.size) == MPC_USAGE && made.size == 0, "33 workers");
    hold(mpc_compile(plant->bytes, plant->size - 3, 1, made.bytes, ROOM, &made.size) == MPC_BAD_PLANT, "a plant that is cut");
    hold(is_text(&made, "bad plant NotJson\n"), "its line");
}

static void try_checks(const struct text *file) {
    struct text made = filled(), broken = *file;
    hold(mpc_check(file->bytes, file->size, made.bytes, ROOM, &made.size) == MPC_DONE && is_text(&made, "accepted\n"), "check");
    hold(mpc_safe(file->bytes, file->size, made.bytes, ROOM, &made.size) == MPC_UNSAFE && is_text(&made, "unsafe leaf 5 low 1\n"), "safe");
    hold(mpc_check(file->bytes, file->size - 1, made.bytes, ROOM, &made.size) == MPC_BAD_FILE, "a file that is cut");
    hold(mpc_safe(file->bytes, 4, made.bytes, ROOM, &made.size) == MPC_BAD_FILE && is_text(&made, "bad file Truncated 1\n"), "its line");
    // (the last line but one is a certificate, and ends in a digit)
    broken.bytes[file->size - 6] = broken.bytes[file->size - 6] == '1' ? '2' : '1';
    hold(mpc_check(broken.bytes, broken.size, made.bytes, ROOM, &made.size) == MPC_REFUSED, "a certificate that is changed");
    uint64_t words, block[1];
    hold(mpc_table_load(broken.bytes, broken.size, 1, block, 1, &words) == MPC_REFUSED && words == 0, "it isn't loaded");
    hold(mpc_table_load(broken.bytes, broken.size, 0, block, 1, &words) == MPC_TOO_SMALL, "it is read where nothing is checked");
}

static uint64_t *load(const struct text *file, uint64_t *words) {
    uint64_t size = 0;
    hold(mpc_table_size(file->bytes, file->size, words) == MPC_DONE && *words % 6 == 0, "table_size");
    hold(mpc_table_size(file->bytes, file->size - 1, &size) == MPC_BAD_FILE && size == 0, "no size of a file that is cut");
    uint64_t *block = malloc(8 * *words);
    if (block == NULL) exit(2);
    memset(block, 0x5a, 8 * *words);
    hold(mpc_table_load(file->bytes, file->size, 1, block, *words - 1, &size) == MPC_TOO_SMALL, "too small by a word");
    hold(size == *words && is_filled((const uint8_t *)block, 8 * *words), "its size, and nothing written");
    hold(mpc_table_load(file->bytes, file->size, 1, block, *words, &size) == MPC_DONE && size == *words, "table_load");
    hold(block[0] == mpc_layout_version() && block[1] == *words && block[2] == 2 && block[3] == 1, "the head's sizes");
    hold(block[4] == POSITIONS - 1 && block[5] == SPEEDS - 1 && *words == 12 + 6 * block[11] * (block[8] + block[9]), "the head's counts");
    return block;
}

static bool are_equal(const mpc_fraction *x, const mpc_fraction *y) {
    // (the numbers of the cart are short)
    return mpc_num(x) * mpc_den(y) == mpc_num(y) * mpc_den(x) && mpc_den(x) > 0 && mpc_den(y) > 0;
}

static void try_states(const struct text *plant, const uint64_t *block, uint64_t words) {
    for (uint64_t k = 0; k < POSITIONS * SPEEDS; k++) {
        const uint64_t counts[2] = {k % POSITIONS, k / POSITIONS};
        mpc_fraction by_table = {0, 0, 1, 0}, alone = by_table;
        uint32_t answer = mpc_reply(block, words, counts, 2, &by_table, 1);
        hold(answer == MPC_DONE || answer == MPC_INFEASIBLE, "a reply at each state of the grid");
        hold(mpc_solve(plant->bytes, plant->size, counts, 2, &alone, 1) == answer && are_equal(&by_table, &alone), "the same without a table");
    }
    const uint64_t outside[2] = {POSITIONS, 0}, braked[2] = {10, 4};
    mpc_fraction moves[2] = {{0, 0, 1, 0}, {0, 0, 1, 0}};
    hold(mpc_reply(block, words, outside, 2, moves, 1) == MPC_OUTSIDE, "outside");
    hold(mpc_solve(plant->bytes, plant->size, outside, 2, moves, 1) == MPC_OUTSIDE, "outside, without a table");
    hold(mpc_reply(block, words, braked, 1, moves, 1) == MPC_BAD_BLOCK, "a block of another number of coordinates");
    hold(mpc_reply(block, words, braked, 2, moves, 2) == MPC_BAD_BLOCK, "a block of another number of inputs");
    hold(mpc_solve(plant->bytes, plant->size, braked, 1, moves, 1) == MPC_OTHER_SIZES, "another number of counts");
    hold(mpc_solve(plant->bytes, plant->size, braked, 2, moves, 2) == MPC_OTHER_SIZES, "another number of moves");
    hold(mpc_solve(plant->bytes, 5, braked, 2, moves, 1) == MPC_BAD_PLANT, "no plant");
    hold(mpc_reply(block, words, braked, 2, moves, 1) == MPC_DONE, "a reply");
    hold(mpc_num(moves) * 609005 == mpc_den(moves) * (mpc_int128)255519, "its move");
    hold(mpc_value(moves) > 0.41956 && mpc_value(moves) < 0.41957, "its move as a double");
}

int main(int count, char **words) {
    if (count != 3) return 2;
    struct text plant = read_file(words[1]), file = read_file(words[2]);
    hold(mpc_version() == 1, "version");
    try_compile(&plant, &file);
    try_checks(&file);
    uint64_t size;
    uint64_t *block = load(&file, &size);
    try_states(&plant, block, size);
    free(block);
    printf("%lu passed, %lu failed\n", tried - failed, failed);
    return failed != 0;
}
