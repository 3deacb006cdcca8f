// What the benchmark times, in straightforward C: a switch on the reading state, memcmp row by row and then memmove to scroll, and plain scans of the attributes.
// It is compiled once for each number of rows, with ROWS and with PLAIN, the name of its calls.
#include "plain.h"
#include <string.h>

enum { CELLS = ROWS * COLUMNS, LAST = (ROWS - 1) * COLUMNS };
#define BITS(count) ((count) >= 64 ? UINT64_MAX : ((uint64_t)1 << (count) % 64) - 1)
static const uint64_t ALL[2] = {BITS(ROWS), ROWS > 64 ? BITS(ROWS - 64) : 0};
static const uint8_t NO_ATTRS[COLUMNS];

static bool is_sized(const struct lent *m) { return m->chars_size == CELLS && m->attrs_size == CELLS; }

static bool is_good(const struct plain *t) {
    if (t->col >= COLUMNS || t->top > ROWS - 24 || t->row < t->top || t->row > t->top + 23) return false;
    if (t->pending > 4 || t->reading > 6 || t->sign > 2 || t->value < 0 || t->value > 999) return false;
    if ((t->changed[0] & ~ALL[0]) != 0 || (t->changed[1] & ~ALL[1]) != 0) return false;
    if (t->digit) return t->reading == 3;
    return t->value == 0 && (t->reading == 3 || t->sign == 0);
}

static bool is_barred(const struct plain *t) { return t->lock || t->pending != 0; }

static void go(struct plain *t, size_t row, size_t col) {
    t->row = row;
    t->col = col;
    if (row < t->top) t->top = row;
    if (row > t->top + 23) t->top = row - 23;
}

static void note(struct plain *t, size_t row) { t->changed[row / 64] |= (uint64_t)1 << row % 64; }

static bool starts(uint8_t attr, int last) {
    int mark = attr % 16;
    return mark >= 1 && mark <= last;
}

static size_t field_end(const uint8_t *attrs, size_t cell) {
    size_t end = cell / COLUMNS * COLUMNS + COLUMNS;
    for (size_t i = cell + 1; i < end; i++)
        if (starts(attrs[i], 5)) return i;
    return end;
}

// ---- host bytes
static void move_up(uint8_t *memory, uint8_t blank) {
    memmove(memory, memory + COLUMNS, LAST);
    memset(memory + LAST, blank, COLUMNS);
}

static bool is_blank(const uint8_t *chars) {
    for (size_t i = 0; i < COLUMNS; i++)
        if (chars[i] != 32) return false;
    return true;
}

// The last cell gets its character, then all rows move up.
static void scroll(struct plain *t, const struct lent *m, uint8_t end) {
    uint8_t *c = m->chars, *a = m->attrs;
    if (t->changed[0] == ALL[0] && t->changed[1] == ALL[1]) {
        c[CELLS - 1] = end;
        move_up(c, 32);
        move_up(a, 0);
        return;
    }
    if (!is_blank(c + LAST) || memcmp(a + LAST, NO_ATTRS, COLUMNS) != 0) note(t, ROWS - 1);
    c[CELLS - 1] = end;
    for (size_t row = 0; row < ROWS - 1; row++, c += COLUMNS, a += COLUMNS)
        if (c[0] != c[COLUMNS] || memcmp(c, c + COLUMNS, COLUMNS) != 0 || memcmp(a, a + COLUMNS, COLUMNS) != 0) note(t, row);
    memmove(m->chars, m->chars + COLUMNS, CELLS - COLUMNS);
    memset(m->chars + CELLS - COLUMNS, 32, COLUMNS);
    memmove(m->attrs, m->attrs + COLUMNS, CELLS - COLUMNS);
    memset(m->attrs + CELLS - COLUMNS, 0, COLUMNS);
}

static void feed_line(struct plain *t, const struct lent *m) {
    if (t->row < ROWS - 1) go(t, t->row + 1, t->col);
    else scroll(t, m, m->chars[CELLS - 1]);
}

static void type(struct plain *t, const struct lent *m, uint8_t b) {
    uint8_t *cell = &m->chars[t->row * COLUMNS + t->col];
    if (t->col < COLUMNS - 1) {
        if (*cell != b) note(t, t->row);
        *cell = b;
        t->col++;
    } else if (t->row < ROWS - 1) {
        if (*cell != b) note(t, t->row);
        *cell = b;
        go(t, t->row + 1, 0);
    } else {
        scroll(t, m, b);
        t->col = 0;
    }
}

static void clear_number(struct plain *t) {
    t->sign = 0;
    t->digit = false;
    t->value = 0;
}

static size_t aim(const struct plain *t, size_t from, int last) {
    int to = t->sign == 0 ? t->value : t->sign == 1 ? (int)from + t->value : (int)from - t->value;
    return to < 0 ? 0 : to > last ? last : to;
}

static void address(struct plain *t, uint8_t b) {
    switch (b) {
    case '0': case '1': case '2': case '3': case '4': case '5': case '6': case '7': case '8': case '9':
        t->digit = true;
        t->value = t->value * 10 + (b - '0');
        if (t->value > 999) t->value = 999;
        return;
    case '+':
    case '-':
        if (t->sign != 0 || t->digit) break;
        t->sign = b == '+' ? 1 : 2;
        return;
    case 'c':
    case 'C':
        go(t, t->row, aim(t, t->col, COLUMNS - 1));
        break;
    case 'r':
    case 'R':
        go(t, aim(t, t->row, ROWS - 1), t->col);
        break;
    }
    clear_number(t);
    t->reading = b == 'c' || b == 'r' ? 3 : 0;
}

static size_t measure_block(const struct lent *m) {
    size_t sent = 1;
    for (size_t i = 0; i < CELLS; i++)
        if (starts(m->attrs[i], 4)) sent += field_end(m->attrs, i) - i + (sent != 1);
    return sent;
}

static size_t send_block(const struct lent *m, uint8_t *reply) {
    size_t sent = 0;
    for (size_t i = 0; i < CELLS; i++) {
        if (!starts(m->attrs[i], 4)) continue;
        size_t length = field_end(m->attrs, i) - i;
        if (sent != 0) reply[sent++] = 31;
        memcpy(reply + sent, m->chars + i, length);
        sent += length;
    }
    reply[sent++] = 30;
    return sent;
}

// DC1: the pending block; false where it does not fit. A reply is at most two bytes a cell, so with that room it is not measured.
static bool trigger(struct plain *t, const struct lent *m, size_t *written) {
    size_t room = m->reply_size - *written;
    if (t->pending != 4) return true;
    if (room < 2 * CELLS && room < measure_block(m)) return false;
    *written += send_block(m, m->reply + *written);
    t->pending = 0;
    return true;
}

static bool take(struct plain *t, const struct lent *m, uint8_t b, size_t *written) {
    if (b == 27) {
        clear_number(t);
        t->reading = 1;
        return true;
    }
    switch (t->reading) {
    case 0:
        if (b >= 32 && b <= 126) type(t, m, b);
        else if (b == 10) feed_line(t, m);
        else if (b == 13) t->col = 0;
        else if (b == 17) return trigger(t, m, written);
        break;
    case 1:
        if (b == 'd') t->pending = 4;
        t->reading = b == '&' ? 2 : 0;
        break;
    case 2:
        t->reading = b == 'a' ? 3 : 0;
        break;
    case 3:
        address(t, b);
        break;
    }
    return true;
}

static int host(struct plain *t, const struct lent *m, const uint8_t *bytes, size_t count, size_t *written) {
    *written = 0;
    if (!is_sized(m)) return 1;
    if (!is_good(t)) return 2;
    for (size_t i = 0; i < count; i++)
        if (!take(t, m, bytes[i] % 128, written)) return 7;
    return 0;
}

static void fresh(struct plain *t, const struct lent *m) {
    *t = (struct plain){.changed = {ALL[0], ALL[1]}};
    memset(m->chars, 32, CELLS);
    memset(m->attrs, 0, CELLS);
}

// How many rows changed, and the first of them or the number of rows; then none has.
static int report(struct plain *t, size_t *count, size_t *first) {
    *count = 0;
    *first = ROWS;
    if (!is_good(t)) return 2;
    if (t->changed[1] != 0) *first = 64 + __builtin_ctzll(t->changed[1]);
    if (t->changed[0] != 0) *first = __builtin_ctzll(t->changed[0]);
    *count = __builtin_popcountll(t->changed[0]) + __builtin_popcountll(t->changed[1]);
    t->changed[0] = t->changed[1] = 0;
    return 0;
}

static int lines(struct plain *t, const struct lent *m, const uint8_t *bytes, size_t count, size_t *sum) {
    size_t written, rows, first;
    int number = 0;
    *sum = 0;
    for (; count >= 80; count -= 80, bytes += 80) {
        number = host(t, m, bytes, 80, &written);
        report(t, &rows, &first);
        *sum += rows;
    }
    return number;
}

static int hosts(struct plain *t, const struct lent *m, const uint8_t *bytes, size_t count, size_t *written, size_t times) {
    int number = 0;
    for (size_t n = 0; n < times; n++) number = host(t, m, bytes, count, written);
    return number;
}

// ---- posts
static bool allows(int mark, uint8_t b) {
    bool letter = (b >= 'A' && b <= 'Z') || (b >= 'a' && b <= 'z');
    bool digit = (b >= '0' && b <= '9') || b == '+' || b == '-' || b == '.' || b == ',';
    if (b < 32 || b > 126) return false;
    return mark == 1 || b == 32 || (mark == 2 ? letter : digit);
}

static int post(struct plain *t, const struct lent *m, size_t field, const uint8_t *text, size_t count) {
    if (!is_sized(m)) return 1;
    if (!is_good(t)) return 2;
    if (is_barred(t)) return 4;
    if (!t->format) return 8;
    for (size_t i = 0; i < CELLS; i++) {
        if (!starts(m->attrs[i], 3) || field-- != 0) continue;
        size_t room = field_end(m->attrs, i) - i;
        if (count > room) return 10;
        for (size_t n = 0; n < count; n++)
            if (!allows(m->attrs[i] % 16, text[n])) return 6;
        bool differ = memcmp(m->chars + i, text, count) != 0;
        for (size_t n = count; n < room; n++)
            if (m->chars[i + n] != 32) differ = true;
        if (differ) note(t, i / COLUMNS);
        memcpy(m->chars + i, text, count);
        memset(m->chars + i + count, 32, room - count);
        return 0;
    }
    return 9;
}

static int posts(struct plain *t, const struct lent *m, size_t field, const uint8_t *text, size_t count, size_t times) {
    int number = 0;
    for (size_t n = 0; n < times; n++) number = post(t, m, field, text, count);
    return number;
}

// ---- keys
static size_t next_start(const uint8_t *attrs, size_t cell) {
    for (size_t i = cell + 1; i < CELLS; i++)
        if (starts(attrs[i], 3)) return i;
    for (size_t i = 0; i <= cell; i++)
        if (starts(attrs[i], 3)) return i;
    return cell;
}

static size_t prev_start(const uint8_t *attrs, size_t cell) {
    for (size_t i = cell; i > 0; i--)
        if (starts(attrs[i - 1], 3)) return i - 1;
    for (size_t i = CELLS; i > cell; i--)
        if (starts(attrs[i - 1], 3)) return i - 1;
    return cell;
}

// With format on: what stands in unprotected cells from the cursor on goes, marks stay.
static void clear_display(struct plain *t, const struct lent *m) {
    size_t cell = t->row * COLUMNS + t->col;
    int kind = 0;
    for (size_t i = t->row * COLUMNS; i < CELLS; i++) {
        if (i % COLUMNS == 0) kind = 0;
        if (starts(m->attrs[i], 5)) kind = m->attrs[i] % 16;
        if (i < cell || kind < 1 || kind > 3) continue;
        if (m->chars[i] != 32 || m->attrs[i] >= 16) note(t, i / COLUMNS);
        m->chars[i] = 32;
        m->attrs[i] %= 16;
    }
}

static int key(struct plain *t, const struct lent *m, int code) {
    if (!is_sized(m)) return 1;
    if (!is_good(t)) return 2;
    if (code != TAB && code != BACK_TAB && code != CLEAR_DISPLAY) return 3;
    if (is_barred(t)) return 4;
    if (code == CLEAR_DISPLAY) {
        clear_display(t, m);
        return 0;
    }
    size_t cell = t->row * COLUMNS + t->col;
    cell = code == TAB ? next_start(m->attrs, cell) : prev_start(m->attrs, cell);
    go(t, cell / COLUMNS, cell % COLUMNS);
    return 0;
}

static int keys(struct plain *t, const struct lent *m, int code, int other, size_t times) {
    int number = 0;
    for (size_t n = 0; n < times; n++) number = key(t, m, n % 2 == 0 ? code : other);
    return number;
}

const struct plain_calls PLAIN = {fresh, hosts, lines, posts, keys};
