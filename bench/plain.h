// What the benchmark times, in straightforward C: text with CR and LF that scrolls, `ESC & a` with `c` and `r`, `ESC d` with DC1, and posts, tab, back tab and
// clear display on a form. The state stands behind a pointer. Each call makes the tests that the rules ask for, in their order, and answers their numbers; each
// byte, key and post notes the rows in which a cell differs after it from before it, and no other.
#include <stdbool.h>
#include <stddef.h>
#include <stdint.h>

enum { COLUMNS = 80, TAB = 262, BACK_TAB = 263, CLEAR_DISPLAY = 264 };

struct plain {
    size_t row, col, top;
    bool format, insert, lock;
    uint8_t pending; // 0 none, 4 block
    uint8_t reading; // 0 plain, 1 after ESC, 2 after ESC &, 3 in ESC & a
    uint8_t sign;    // 0 none, 1 plus, 2 minus
    bool digit;
    int value;
    uint64_t changed[2]; // one bit a row, row 0 the lowest of the first word
};

// The lent buffers.
struct lent {
    uint8_t *chars;
    size_t chars_size;
    uint8_t *attrs;
    size_t attrs_size;
    uint8_t *reply;
    size_t reply_size;
};

struct plain_calls {
    // A fresh terminal; all its rows have changed.
    void (*fresh)(struct plain *t, const struct lent *m);
    // A host stream, `times` times; the number of the last, and in `written` how many bytes it sent.
    int (*host)(struct plain *t, const struct lent *m, const uint8_t *bytes, size_t count, size_t *written, size_t times);
    // The lines of 80 bytes of a host stream, with a report behind each; the number of the last, and in `sum` how many rows the reports tell of in all.
    int (*lines)(struct plain *t, const struct lent *m, const uint8_t *bytes, size_t count, size_t *sum);
    // A post, `times` times; the number of the last.
    int (*posts)(struct plain *t, const struct lent *m, size_t field, const uint8_t *text, size_t count, size_t times);
    // Two keys in turn, `times` keys in all; the number of the last. Of the keys it knows tab, back tab and clear display, with format on.
    int (*keys)(struct plain *t, const struct lent *m, int code, int other, size_t times);
};

// plain.c, compiled for memories of 48 and of 96 rows.
extern const struct plain_calls plain_48, plain_96;
