// A controller's table in plain C, read and walked by the rules of docs/file_formats.md.
#ifndef PLAIN_H
#define PLAIN_H

#include <stdbool.h>
#include <stdint.h>

enum { STATES = 4, INPUTS = 3 };

typedef __int128 wide;

// A row `a·t <= b` on the counts t: its other side stands at the place `other`, and the side where it holds right behind it. At a leaf `other` is
// 0, and `law` is its law, from 1, or 0.
struct node {
    wide b, a[STATES];
    uint32_t other, law;
};

// The numerators of an input's move, the constant first, and their denominator.
struct form {
    wide den, k[1 + STATES];
};

// The same where all numbers on the way to a reply fit 64 bits.
struct short_node {
    int64_t b, a[STATES];
    uint32_t other, law;
};

struct short_form {
    int64_t den, k[1 + STATES];
};

struct table {
    uint32_t n, p, node_count, law_count;
    uint64_t limits[STATES];
    struct node *nodes;
    struct form *forms; // p for each law
    bool is_short;
    struct short_node *short_nodes;
    struct short_form *short_forms;
};

enum answer { MOVES, INFEASIBLE, OUTSIDE };

struct move {
    wide num, den;
};

// The greatest common divisor of two numbers, of which neither is below 0.
wide divisor(wide x, wide y);

// Reads a controller's file of version 3, which `mpc check` accepts.
struct table plain_read(const char *text);

// The reply at counts, in 128 bits, or in 64 where the table is short.
enum answer plain_reply(const struct table *table, const uint64_t *counts, struct move *moves);
enum answer short_reply(const struct table *table, const uint64_t *counts, struct move *moves);

#endif
