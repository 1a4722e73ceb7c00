// A cart in a closed loop, by the proved library: at each of 200 samples the measured position and speed are rounded to the grid of cart.json, the
// table replies with the force, and that moves a cart which is simulated in doubles. The word is the path of cart.json.
#include "mpc.h"

#include <stdio.h>
#include <stdlib.h>

enum { SAMPLES = 200, SHOWN = 20, STATES = 2, INPUTS = 1 };

// The grid of cart.json.
static const double LOW[STATES] = {-5.0, -2.0};
static const double STEP = 1.0 / 1024;

// The bytes of a file.
struct text {
    uint8_t *bytes;
    uint64_t size;
};

static void fail(const char *what, uint32_t answer) {
    fprintf(stderr, "loop: %s: %u\n", what, (unsigned)answer);
    exit(1);
}

static void *room(uint64_t size) {
    void *found = malloc(size);
    if (found == NULL) fail("memory", MPC_NO_MEMORY);
    return found;
}

static struct text read_file(const char *path) {
    enum { MOST = 1 << 16 };
    FILE *file = fopen(path, "rb");
    if (file == NULL) fail(path, 0);
    struct text read = {room(MOST), 0};
    read.size = fread(read.bytes, 1, MOST, file);
    fclose(file);
    return read;
}

// The file of the plant's controller, which is made again where the first guess at its size is too small.
static struct text compile(struct text plant) {
    uint64_t guess = 1 << 10;
    for (;;) {
        struct text file = {room(guess), 0};
        uint32_t answer = mpc_compile(plant.bytes, plant.size, 1, file.bytes, guess, &file.size);
        if (answer == MPC_DONE) return file;
        if (answer != MPC_TOO_SMALL) fail("mpc_compile", answer);
        free(file.bytes);
        guess = file.size;
    }
}

// The table of a controller's file, which is checked on the way. Its words are counted.
static uint64_t *load(struct text file, uint64_t *words) {
    uint32_t answer = mpc_table_size(file.bytes, file.size, words);
    if (answer != MPC_DONE) fail("mpc_table_size", answer);
    uint64_t count = *words;
    uint64_t *block = room(8 * count);
    answer = mpc_table_load(file.bytes, file.size, 1, block, count, words);
    if (answer != MPC_DONE) fail("mpc_table_load", answer);
    return block;
}

// The count of the grid's value that is nearest to what was measured. What lies below the grid, or is no number, gets a count above each limit,
// so that the reply is MPC_OUTSIDE, as it is for what lies above.
static uint64_t nearest(double measured, double low) {
    double steps = (measured - low) / STEP + 0.5;
    return steps >= 0.0 && steps < 1e18 ? (uint64_t)steps : UINT64_MAX;
}

static double force_at(const uint64_t *block, uint64_t words, double position, double speed) {
    const uint64_t counts[STATES] = {nearest(position, LOW[0]), nearest(speed, LOW[1])};
    mpc_fraction force;
    uint32_t answer = mpc_reply(block, words, counts, STATES, &force, INPUTS);
    if (answer != MPC_DONE) fail("mpc_reply", answer);
    return mpc_value(&force);
}

int main(int count, char **words) {
    if (count != 2) fail("the path of a plant's file is wanted", MPC_USAGE);
    struct text plant = read_file(words[1]);
    struct text file = compile(plant);
    uint64_t size;
    uint64_t *block = load(file, &size);
    free(plant.bytes);
    free(file.bytes);

    double position = -3.0, speed = -1.0;
    printf("sample  position  speed    force\n");
    for (int sample = 0; sample <= SAMPLES; sample++) {
        double force = force_at(block, size, position, speed);
        if (sample % SHOWN == 0) printf("%6d  %8.4f  %7.4f  %7.4f\n", sample, position, speed, force);
        position += 0.25 * speed;
        speed = 0.95 * speed + 0.25 * force;
    }
    free(block);
    return 0;
}
