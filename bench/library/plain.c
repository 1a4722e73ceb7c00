// The table of a controller's file in plain C.
#include "plain.h"

#include <stdio.h>
#include <stdlib.h>
#include <string.h>

// ---- the words of the file
struct text {
    const char *at;
};

static void fail(const char *why) {
    fprintf(stderr, "plain: %s\n", why);
    exit(2);
}

// The next line's first word, where it is this one.
static bool takes(struct text *text, const char *word) {
    size_t size = strlen(word);
    if (strncmp(text->at, word, size) != 0 || (text->at[size] != ' ' && text->at[size] != '\n')) {
        return false;
    }
    text->at += size;
    return true;
}

static void take(struct text *text, const char *word) {
    if (!takes(text, word)) {
        fail(word);
    }
}

static void end_line(struct text *text) {
    if (*text->at++ != '\n') {
        fail("the end of a line");
    }
}

static void skip_line(struct text *text) {
    const char *end = strchr(text->at, '\n');
    if (end == NULL) {
        fail("the end of a line");
    }
    text->at = end + 1;
}

static wide digits(struct text *text) {
    wide value = 0;
    while ('0' <= *text->at && *text->at <= '9') {
        value = 10 * value + (*text->at++ - '0');
    }
    return value;
}

// The next number of the line, behind its blank.
static wide number(struct text *text) {
    if (*text->at++ != ' ') {
        fail("a number");
    }
    bool is_negative = *text->at == '-';
    text->at += is_negative;
    wide value = digits(text);
    return is_negative ? -value : value;
}

static struct move fraction(struct text *text) {
    struct move read = {number(text), 1};
    if (*text->at == '/') {
        text->at++;
        read.den = digits(text);
    }
    return read;
}

static uint32_t count_of(struct text *text, const char *word) {
    take(text, word);
    uint32_t count = (uint32_t)number(text);
    end_line(text);
    return count;
}

static void *room(size_t count, size_t size) {
    void *found = calloc(count + 1, size);
    if (found == NULL) {
        fail("memory");
    }
    return found;
}

// ---- the parts of the table
wide divisor(wide x, wide y) {
    while (y != 0) {
        wide rest = x % y;
        x = y;
        y = rest;
    }
    return x;
}

// The line of a form, over its least common denominator.
static struct form form_line(struct text *text, uint32_t n) {
    struct move read[1 + STATES];
    struct form form = {.den = 1};
    take(text, "form");
    for (uint32_t i = 0; i <= n; i++) {
        read[i] = fraction(text);
        form.den = form.den / divisor(form.den, read[i].den) * read[i].den;
    }
    for (uint32_t i = 0; i <= n; i++) {
        form.k[i] = form.den / read[i].den * read[i].num;
    }
    end_line(text);
    return form;
}

static void read_laws(struct table *table, struct text *text) {
    uint32_t form_count = count_of(text, "forms");
    struct form *forms = room(form_count, sizeof *forms);
    for (uint32_t i = 0; i < form_count; i++) {
        forms[i] = form_line(text, table->n);
    }
    table->law_count = count_of(text, "laws");
    table->forms = room((size_t)table->law_count * table->p, sizeof *table->forms);
    for (uint32_t j = 0; j < table->law_count; j++) {
        take(text, "law");
        skip_line(text);
        take(text, "move");
        for (uint32_t i = 0; i < table->p; i++) {
            table->forms[j * table->p + i] = forms[(uint32_t)number(text) - 1];
        }
        skip_line(text);
        if (takes(text, "mult")) {
            skip_line(text);
        }
    }
    free(forms);
}

static struct node plane_line(struct text *text, uint32_t n) {
    struct node plane = {0};
    take(text, "plane");
    for (uint32_t i = 0; i < n; i++) {
        plane.a[i] = number(text);
    }
    plane.b = number(text);
    end_line(text);
    return plane;
}

// The nodes in preorder. A split whose second side is still to come is open.
static void read_nodes(struct table *table, struct text *text, const struct node *planes) {
    size_t capacity = 64, open_count = 0;
    table->nodes = room(capacity, sizeof *table->nodes);
    uint32_t *open = room(capacity, sizeof *open);
    while (!takes(text, "end")) {
        if (table->node_count == capacity) {
            capacity *= 2;
            table->nodes = realloc(table->nodes, capacity * sizeof *table->nodes);
            open = realloc(open, capacity * sizeof *open);
            if (table->nodes == NULL || open == NULL) {
                fail("memory");
            }
        }
        uint32_t place = table->node_count++;
        if (takes(text, "split")) {
            table->nodes[place] = planes[(uint32_t)number(text) - 1];
            end_line(text);
            open[open_count++] = place;
            continue;
        }
        struct node leaf = {0};
        if (takes(text, "leaf")) {
            leaf.law = (uint32_t)number(text);
        } else {
            take(text, "none");
        }
        table->nodes[place] = leaf;
        skip_line(text);
        while (takes(text, "cert")) {
            skip_line(text);
        }
        if (open_count > 0) {
            table->nodes[open[--open_count]].other = place + 1;
        }
    }
    free(open);
}

// ---- in 64 bits
// Whether `start + k·t` stays within 63 bits at all counts of the grid, whatever the signs.
static bool stays_short(const struct table *table, wide start, const wide *k) {
    const wide most = INT64_MAX;
    wide far = start < 0 ? -start : start;
    for (uint32_t i = 0; i < table->n && far <= most; i++) {
        wide size = k[i] < 0 ? -k[i] : k[i];
        far = size > most ? size : far + size * (wide)table->limits[i];
    }
    return far <= most;
}

static bool is_short(const struct table *table) {
    for (uint32_t i = 0; i < table->node_count; i++) {
        if (!stays_short(table, table->nodes[i].b, table->nodes[i].a)) {
            return false;
        }
    }
    for (uint32_t i = 0; i < table->law_count * table->p; i++) {
        const struct form *form = &table->forms[i];
        if (form->den > INT64_MAX || !stays_short(table, form->k[0], form->k + 1)) {
            return false;
        }
    }
    return true;
}

static void shorten(struct table *table) {
    uint32_t form_count = table->law_count * table->p;
    table->short_nodes = room(table->node_count, sizeof *table->short_nodes);
    table->short_forms = room(form_count, sizeof *table->short_forms);
    for (uint32_t i = 0; i < table->node_count; i++) {
        const struct node *node = &table->nodes[i];
        struct short_node *into = &table->short_nodes[i];
        *into = (struct short_node){.b = (int64_t)node->b, .other = node->other, .law = node->law};
        for (uint32_t k = 0; k < table->n; k++) {
            into->a[k] = (int64_t)node->a[k];
        }
    }
    for (uint32_t i = 0; i < form_count; i++) {
        table->short_forms[i].den = (int64_t)table->forms[i].den;
        for (uint32_t k = 0; k <= table->n; k++) {
            table->short_forms[i].k[k] = (int64_t)table->forms[i].k[k];
        }
    }
}

struct table plain_read(const char *file) {
    struct table table = {0};
    struct text text = {file};
    take(&text, "mpc");
    if (number(&text) != 3) {
        fail("a file of version 3");
    }
    end_line(&text);
    take(&text, "size");
    table.n = (uint32_t)number(&text);
    table.p = (uint32_t)number(&text);
    skip_line(&text);
    uint32_t coordinates = 0;
    while (strncmp(text.at, "forms ", 6) != 0) {
        if (takes(&text, "grid")) {
            fraction(&text);
            fraction(&text);
            table.limits[coordinates++] = (uint64_t)number(&text);
        }
        skip_line(&text);
    }
    read_laws(&table, &text);
    uint32_t plane_count = count_of(&text, "planes");
    struct node *planes = room(plane_count, sizeof *planes);
    for (uint32_t i = 0; i < plane_count; i++) {
        planes[i] = plane_line(&text, table.n);
    }
    take(&text, "tree");
    end_line(&text);
    read_nodes(&table, &text, planes);
    free(planes);
    table.is_short = is_short(&table);
    if (table.is_short) {
        shorten(&table);
    }
    return table;
}

// ---- replies
static bool is_outside(const struct table *table, const uint64_t *counts) {
    for (uint32_t i = 0; i < table->n; i++) {
        if (counts[i] > table->limits[i]) {
            return true;
        }
    }
    return false;
}

// The reply over nodes and forms of one width.
#define REPLY(number, nodes_of, forms_of, node_type, form_type)                                              \
    const uint32_t n = table->n, p = table->p;                                                               \
    if (is_outside(table, counts)) {                                                                         \
        return OUTSIDE;                                                                                      \
    }                                                                                                        \
    const node_type *node = table->nodes_of;                                                                 \
    while (node->other != 0) {                                                                               \
        number sum = 0;                                                                                      \
        for (uint32_t i = 0; i < n; i++) {                                                                   \
            sum += node->a[i] * (number)counts[i];                                                           \
        }                                                                                                    \
        node = sum <= node->b ? node + 1 : table->nodes_of + node->other;                                    \
    }                                                                                                        \
    if (node->law == 0) {                                                                                    \
        return INFEASIBLE;                                                                                   \
    }                                                                                                        \
    const form_type *form = table->forms_of + (size_t)(node->law - 1) * p;                                   \
    for (uint32_t i = 0; i < p; i++, form++) {                                                               \
        number num = form->k[0];                                                                             \
        for (uint32_t k = 0; k < n; k++) {                                                                   \
            num += form->k[1 + k] * (number)counts[k];                                                       \
        }                                                                                                    \
        moves[i] = (struct move){num, form->den};                                                            \
    }                                                                                                        \
    return MOVES;

enum answer plain_reply(const struct table *table, const uint64_t *counts, struct move *moves) {
    REPLY(wide, nodes, forms, struct node, struct form)
}

enum answer short_reply(const struct table *table, const uint64_t *counts, struct move *moves) {
    REPLY(int64_t, short_nodes, short_forms, struct short_node, struct short_form)
}
