// Times the terminal beside a small C implementation and libvterm, with memories of 48 and of 96 rows. Prints ratios, over 1 where the terminal is the faster, and its nanoseconds.
#include "plain.h"
#include <stdarg.h>
#include <stdio.h>
#include <stdlib.h>
#include <string.h>
#include <time.h>
#include <vterm.h>

// The calls of the static libraries, for memories of 48 and of 96 rows; `bench_decisions` is `bench_host` by the plain reader. A slice is a pointer, then a length; `changed` is two words, the rows that changed since the
// fresh terminal, or since the form was painted.
#define CALLS(rows)                                                                                                                      \
    size_t bench_host_##rows(uint8_t *chars, size_t nc, uint8_t *attrs, size_t na, const uint8_t *bytes, size_t nb, uint8_t *reply,      \
                             size_t nr, uint64_t *changed, size_t nw);                                                                   \
    __typeof__(bench_host_##rows) bench_decisions_##rows;                                                                                \
    uint64_t bench_lines_##rows(uint8_t *chars, size_t nc, uint8_t *attrs, size_t na, const uint8_t *bytes, size_t nb, uint8_t *reply,   \
                                size_t nr, uint64_t *changed, size_t nw);                                                                \
    uint8_t bench_posts_##rows(uint8_t *chars, size_t nc, uint8_t *attrs, size_t na, const uint8_t *form, size_t nf, uint8_t *reply,     \
                               size_t nr, uint64_t *changed, size_t nw, size_t field, const uint8_t *text, size_t nt, size_t times);     \
    uint8_t bench_keys_##rows(uint8_t *chars, size_t nc, uint8_t *attrs, size_t na, const uint8_t *form, size_t nf, uint8_t *reply,      \
                              size_t nr, uint64_t *changed, size_t nw, uint16_t code, uint16_t other, size_t times);                     \
    size_t bench_blocks_##rows(uint8_t *chars, size_t nc, uint8_t *attrs, size_t na, const uint8_t *form, size_t nf, uint8_t *reply,     \
                               size_t nr, uint64_t *changed, size_t nw, size_t times);
CALLS(48)
CALLS(96)

enum { RUNS = 9, LINES = 50000, PLACES = 250000, POSTS = 60000, KEYS = 60000, ROUND = 120007, BLOCKS = 3000, STREAMS = 2000 };
enum { MOST_CELLS = 96 * COLUMNS, FORMS = 3, SIZES = 2 };

struct memory { uint8_t chars[MOST_CELLS], attrs[MOST_CELLS]; uint64_t changed[2]; };
struct stream { uint8_t *bytes; size_t count; };

static const size_t FIELDS[FORMS] = {6, 60, 600}, APART[FORMS] = {3, 60, 600};

static struct memory ours, theirs;
static uint64_t damaged[2]; // by libvterm's own record
static uint8_t reply[2 * MOST_CELLS], their_reply[2 * MOST_CELLS];

// The number of rows in use, and what goes with it.
static struct {
    size_t rows, cells, room;
    __typeof__(bench_host_48) *host, *decisions;
    __typeof__(bench_lines_48) *lines;
    __typeof__(bench_posts_48) *posts;
    __typeof__(bench_keys_48) *keys;
    __typeof__(bench_blocks_48) *blocks;
    const struct plain_calls *plain;
    struct lent lent;
    VTerm *vterm;
    VTermScreen *vscreen;
} sizes[SIZES], *at;
#define OURS ours.chars, at->cells, ours.attrs, at->cells
#define REPLY reply, at->room, ours.changed, 2

// The processor time of this process, so that other processes count little.
static double now(void) {
    struct timespec t;
    clock_gettime(CLOCK_PROCESS_CPUTIME_ID, &t);
    return t.tv_sec + t.tv_nsec * 1e-9;
}

static void expect(int holds, const char *what) {
    if (holds) return;
    fprintf(stderr, "bench: not so: %s\n", what);
    exit(1);
}

static int by_size(const void *a, const void *b) {
    double x = *(const double *)a, y = *(const double *)b;
    return (x > y) - (x < y);
}

static double median(double *xs) {
    qsort(xs, RUNS, sizeof *xs, by_size);
    return xs[RUNS / 2];
}

// ---- streams
static void add(struct stream *s, const char *format, ...) {
    va_list args;
    va_start(args, format);
    s->count += vsprintf((char *)s->bytes + s->count, format, args);
    va_end(args);
}

static struct stream begin(size_t room) {
    struct stream s = {malloc(room), 0};
    expect(s.bytes != NULL, "memory for a stream");
    return s;
}

// A printable character, a different one for each place.
static char letter(size_t n) { return (char)(33 + n * 7 % 94); }

// Lines of so many characters, CR, LF, each line one letter on from the one before it, or all alike; a last character shows where the cursor is.
static struct stream line_stream(size_t length, size_t step) {
    struct stream s = begin(LINES * (length + 2) + 16);
    for (size_t n = 0; n < LINES; n++) {
        for (size_t i = 0; i < length; i++) s.bytes[s.count++] = letter(n * step + i);
        add(&s, "\r\n");
    }
    add(&s, "X");
    return s;
}

// A place and eight characters, again and again, in ESC & a or in libvterm's own addressing; a last character shows where the cursor is.
static struct stream place_stream(int own) {
    struct stream s = begin(PLACES * 20 + 16);
    for (size_t n = 0; n < PLACES; n++) {
        int row = n * 31 % at->rows, col = n * 17 % 72;
        if (own) add(&s, "\033[%d;%dH", row + 1, col + 1);
        else add(&s, "\033&a%dc%dR", col, row);
        for (size_t i = 0; i < 8; i++) s.bytes[s.count++] = letter(n + i);
    }
    add(&s, "X");
    return s;
}

// Fields of two cells, then format on: the first at cell 0, the second `apart` cells on, and after it one every three cells, 26 in a row.
static struct stream form_stream(size_t fields, size_t apart) {
    struct stream s = begin(fields * 32 + 16);
    size_t cell = 0;
    for (size_t n = 0; n < fields; n++) {
        add(&s, "\033&a%zuc%zuR\033[\033&a+2C\033]", cell % COLUMNS, cell / COLUMNS);
        cell += n == 0 ? apart : 3;
        if (cell % COLUMNS > 75) cell = (cell / COLUMNS + 1) * COLUMNS;
    }
    add(&s, "\033W\033H");
    return s;
}

// Few letters, blanks, CR and LF, and places near the memory's end: much of it writes what is there already.
static void random_stream(struct stream *s) {
    size_t parts = 1 + rand() % (rand() % 4 == 0 ? 2000 : 200), letters = 1 + rand() % 3;
    s->count = 0;
    for (size_t n = 0; n < parts; n++) switch (rand() % 20) {
        case 0: add(s, "\n"); break;
        case 1: add(s, "\r"); break;
        case 2: add(s, "%50s", ""); break;
        case 3: add(s, "\033&a%dc%dR", 60 + rand() % 20, (int)at->rows - 1 - rand() % (rand() % 3 == 0 ? (int)at->rows : 2)); break;
        default: add(s, "%c", " ab"[rand() % letters]);
        }
}

// ---- the lines
// The seconds of one round, of all three; libvterm's are 0 where it takes no part.
struct round { double ours, plain, vterm; };

static void print_head(void) {
    printf("%-34s", "their time / ours");
    for (int k = 0; k < SIZES; k++) printf("  %2zu rows: plain C libvterm       ours", sizes[k].rows);
    printf("   96 / 48\n");
}

// Medians of the ratios of each round, and of our time; `parts` is how many units a round has.
static void print_line(const char *name, struct round r[RUNS][SIZES], size_t parts, const char *unit) {
    double xs[RUNS];
    printf("%-34s", name);
    for (int k = 0; k < SIZES; k++) {
        for (int i = 0; i < RUNS; i++) xs[i] = r[i][k].plain / r[i][k].ours;
        printf("  %17.2f", median(xs));
        for (int i = 0; i < RUNS; i++) xs[i] = r[i][k].vterm / r[i][k].ours;
        double vterm = median(xs);
        if (vterm > 0) printf("%9.2f", vterm);
        else printf("%9s", "");
        for (int i = 0; i < RUNS; i++) xs[i] = r[i][k].ours;
        printf("%8.1f ns", median(xs) / parts * 1e9);
    }
    for (int i = 0; i < RUNS; i++) xs[i] = r[i][1].ours / r[i][0].ours;
    printf("   %7.2f  %s\n", median(xs), unit);
}

// A line of the first table: rounds in which both numbers of rows take turns.
#define LINE(name, parts, unit, once)                         \
    do {                                                      \
        struct round r[RUNS][SIZES];                          \
        for (int i = 0; i < RUNS; i++)                        \
            for (int k = 0; k < SIZES; k++) {                 \
                at = &sizes[k];                               \
                r[i][k] = once;                               \
            }                                                 \
        print_line(name, r, parts, unit);                     \
    } while (0)

// The seconds of one run of each stream, from a fresh terminal.
static double run_ours(__typeof__(bench_host_48) *host, struct stream s) {
    double start = now();
    size_t taken = host(OURS, s.bytes, s.count, REPLY);
    double end = now();
    expect(taken == s.count, "the whole stream is taken");
    return end - start;
}

static double run_plain(struct stream s) {
    struct plain t;
    size_t written;
    double start = now();
    at->plain->fresh(&t, &at->lent);
    t.changed[0] = t.changed[1] = 0;
    int number = at->plain->host(&t, &at->lent, s.bytes, s.count, &written, 1);
    double end = now();
    expect(number == 0, "the plain C takes the whole stream");
    memcpy(theirs.changed, t.changed, sizeof t.changed);
    return end - start;
}

// What libvterm tells of the rows it wrote to.
static int note_damage(VTermRect rect, void *user) {
    (void)user;
    for (int row = rect.start_row; row < rect.end_row; row++) damaged[row / 64] |= (uint64_t)1 << row % 64;
    return 1;
}

// In parts, as libvterm lays out what it reads on the stack; after each it tells what it wrote to.
static double run_vterm(struct stream s, size_t size) {
    double start = now();
    vterm_screen_reset(at->vscreen, 1);
    vterm_screen_flush_damage(at->vscreen);
    damaged[0] = damaged[1] = 0;
    for (size_t from = 0; from < s.count; from += size) {
        size_t part = s.count - from < size ? s.count - from : size;
        expect(vterm_input_write(at->vterm, (const char *)s.bytes + from, part) == part, "libvterm takes the whole stream");
        vterm_screen_flush_damage(at->vscreen);
    }
    return now() - start;
}

static int vterm_agrees(void) {
    for (int row = 0; row < (int)at->rows; row++)
        for (int col = 0; col < COLUMNS; col++) {
            VTermScreenCell cell;
            vterm_screen_get_cell(at->vscreen, (VTermPos){.row = row, .col = col}, &cell);
            uint32_t c = cell.chars[0] == 0 ? 32 : cell.chars[0];
            if (c != ours.chars[row * COLUMNS + col]) return 0;
        }
    return (ours.changed[0] & ~damaged[0]) == 0 && (ours.changed[1] & ~damaged[1]) == 0;
}

static void expect_same(void) {
    int same = memcmp(ours.chars, theirs.chars, at->cells) == 0 && memcmp(ours.attrs, theirs.attrs, at->cells) == 0;
    expect(same, "both memories are the same as the plain C's");
    expect(memcmp(ours.changed, theirs.changed, sizeof ours.changed) == 0, "the rows that changed are the plain C's");
}

// Random streams, of which no time is taken.
static void compare_streams(void) {
    struct stream s = begin(2000 * 50 + 16);
    for (size_t n = 0; n < STREAMS; n++) {
        random_stream(&s);
        run_plain(s);
        run_ours(at->host, s);
        expect_same();
        run_ours(at->decisions, s);
        expect_same();
    }
    free(s.bytes);
}

// One stream through all three, ours by one of the two readers; `own` is the same in libvterm's addressing.
static struct round stream_round(__typeof__(bench_host_48) *host, struct stream s, struct stream own) {
    struct round r = {run_ours(host, s), run_plain(s), run_vterm(own, 4096)};
    expect_same();
    expect(vterm_agrees(), "the characters are the same as libvterm's, and it tells of each row that changed");
    return r;
}

// Lines of 80 bytes, each with a report behind it; libvterm tells what it wrote to as often.
static struct round report_round(struct stream s) {
    struct plain t;
    struct round r = {0};
    size_t sum;
    s.count -= s.count % 80;
    double start = now();
    size_t count = at->lines(OURS, s.bytes, s.count, REPLY);
    r.ours = now() - start;
    start = now();
    at->plain->fresh(&t, &at->lent);
    t.changed[0] = t.changed[1] = 0;
    int number = at->plain->lines(&t, &at->lent, s.bytes, s.count, &sum);
    r.plain = now() - start;
    expect(number == 0 && count == sum, "the reports of the plain C tell of as many rows");
    memcpy(theirs.changed, t.changed, sizeof t.changed);
    r.vterm = run_vterm(s, 80);
    expect_same();
    expect(vterm_agrees(), "the characters are the same as libvterm's");
    return r;
}

// The seconds of painting the form, which each of our calls on it does first; the plain C then has the same form, and the cursor at its first field.
static double paint(struct stream form, struct plain *t) {
    double start = now();
    at->blocks(OURS, form.bytes, form.count, REPLY, 0);
    double end = now();
    theirs = ours;
    *t = (struct plain){.format = true};
    expect(ours.changed[0] == 0 && ours.changed[1] == 0, "nothing has changed since the form was painted");
    return end - start;
}

static struct round post_round(struct stream form, size_t field) {
    const uint8_t text[] = {'T', '1'};
    struct plain t;
    struct round r = {0};
    double painting = paint(form, &t), start = now();
    int number = at->posts(OURS, form.bytes, form.count, REPLY, field, text, sizeof text, POSTS);
    r.ours = now() - start - painting;
    expect(number == 0, "the post is done");
    start = now();
    number = at->plain->posts(&t, &at->lent, field, text, sizeof text, POSTS);
    r.plain = now() - start;
    expect(number == 0, "the plain C's post is done");
    memcpy(theirs.changed, t.changed, sizeof t.changed);
    expect_same();
    return r;
}

// Two keys in turn, `times` in all; then a character shows where the cursor is.
static struct round key_round(struct stream form, uint16_t code, uint16_t other, size_t times) {
    const uint8_t shown[] = {'X'};
    struct plain t;
    struct round r = {0};
    size_t written;
    double painting = paint(form, &t), start = now();
    int number = at->keys(OURS, form.bytes, form.count, REPLY, code, other, times);
    r.ours = now() - start - painting;
    expect(number == 0, "the key is done");
    start = now();
    number = at->plain->keys(&t, &at->lent, code, other, times);
    r.plain = now() - start;
    expect(number == 0, "the plain C's key is done");
    at->plain->host(&t, &at->lent, shown, sizeof shown, &written, 1);
    memcpy(theirs.changed, t.changed, sizeof t.changed);
    expect_same();
    return r;
}

static struct round block_round(struct stream form) {
    const uint8_t ask[] = {27, 'd', 17};
    struct plain t;
    struct round r = {0};
    size_t others;
    double painting = paint(form, &t), start = now();
    size_t count = at->blocks(OURS, form.bytes, form.count, REPLY, BLOCKS);
    r.ours = now() - start - painting;
    start = now();
    int number = at->plain->host(&t, &at->lent, ask, sizeof ask, &others, BLOCKS);
    r.plain = now() - start;
    expect(number == 0 && count == others && memcmp(reply, their_reply, count) == 0, "both blocks are the same");
    memcpy(theirs.changed, t.changed, sizeof t.changed);
    expect_same();
    return r;
}

// Back tab and tab in turn between the first two fields, by how far apart they are and how many more fields there are.
static void show_distances(void) {
    printf("\nback tab and tab in turn between two fields, %zu rows, ns a key\n%-14s", at->rows, "cells apart");
    for (int f = 0; f < FORMS; f++) printf(" %6zu fields", FIELDS[f]);
    printf("\n");
    for (int a = 0; a < FORMS; a++) {
        printf("%-14zu", APART[a]);
        for (int f = 0; f < FORMS; f++) {
            struct stream form = form_stream(FIELDS[f], APART[a]);
            double ns[RUNS];
            for (int i = 0; i < RUNS; i++) ns[i] = key_round(form, TAB, BACK_TAB, KEYS).ours / KEYS * 1e9;
            printf(" %13.1f", median(ns));
        }
        printf("\n");
    }
}

static void prepare(size_t rows) {
    static const VTermScreenCallbacks callbacks = {.damage = note_damage};
    at->rows = rows;
    at->cells = rows * COLUMNS;
    at->room = 2 * at->cells;
    at->lent = (struct lent){theirs.chars, at->cells, theirs.attrs, at->cells, their_reply, at->room};
    at->vterm = vterm_new(rows, COLUMNS);
    vterm_set_utf8(at->vterm, 0);
    at->vscreen = vterm_obtain_screen(at->vterm);
    vterm_screen_set_callbacks(at->vscreen, &callbacks, NULL);
    vterm_screen_set_damage_merge(at->vscreen, VTERM_DAMAGE_SCROLL);
}

#define PREPARE(i, count)                 \
    do {                                  \
        at = &sizes[i];                   \
        at->host = bench_host_##count;    \
        at->decisions = bench_decisions_##count; \
        at->lines = bench_lines_##count;  \
        at->posts = bench_posts_##count;  \
        at->keys = bench_keys_##count;    \
        at->blocks = bench_blocks_##count; \
        at->plain = &plain_##count;       \
        prepare(count);                   \
    } while (0)

int main(void) {
    struct stream text = line_stream(78, 1), alike = line_stream(78, 0), empty = line_stream(0, 0), form[FORMS], places[SIZES], own[SIZES];
    PREPARE(0, 48);
    PREPARE(1, 96);
    for (int k = 0; k < SIZES; k++) {
        at = &sizes[k];
        places[k] = place_stream(0);
        own[k] = place_stream(1);
        compare_streams();
    }
    for (int f = 0; f < FORMS; f++) form[f] = form_stream(FIELDS[f], 3);
    print_head();
    LINE("text that scrolls", text.count, "a byte", stream_round(at->host, text, text));
    LINE("  by the plain reader", text.count, "a byte", stream_round(at->decisions, text, text));
    LINE("text, a report a line", text.count, "a byte", report_round(text));
    LINE("the same line, a report a line", alike.count, "a byte", report_round(alike));
    LINE("empty lines that scroll", LINES, "a line", stream_round(at->host, empty, empty));
    LINE("cursor addressing", PLACES, "a place with eight characters", stream_round(at->host, places[k], own[k]));
    LINE("  by the plain reader", PLACES, "a place with eight characters", stream_round(at->decisions, places[k], own[k]));
    LINE("post into field 0 of 600", POSTS, "a post", post_round(form[2], 0));
    LINE("post into field 500 of 600", POSTS, "a post", post_round(form[2], 500));
    LINE("tab, 600 fields", ROUND, "a key", key_round(form[2], TAB, TAB, ROUND));
    LINE("back tab, 600 fields", ROUND, "a key", key_round(form[2], BACK_TAB, BACK_TAB, ROUND));
    LINE("back tab, 60 fields", ROUND, "a key", key_round(form[1], BACK_TAB, BACK_TAB, ROUND));
    LINE("back tab, 6 fields", ROUND, "a key", key_round(form[0], BACK_TAB, BACK_TAB, ROUND));
    LINE("tab and back tab, 3 cells apart", KEYS, "a key", key_round(form[2], TAB, BACK_TAB, KEYS));
    LINE("clear display, 600 fields", BLOCKS, "a key", key_round(form[2], CLEAR_DISPLAY, CLEAR_DISPLAY, BLOCKS));
    LINE("block transfer of 600 fields", BLOCKS, "a block", block_round(form[2]));
    for (at = sizes; at < sizes + SIZES; at++) show_distances();
    return 0;
}
