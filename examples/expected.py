#!/usr/bin/env python3
"""Prints what the programs `session`, `show` and `tags` print, computed by the reference model.

    expected.py session [48] [plain]   [FILE..]
    expected.py show [48] [host] [raw] [FILE..]
    expected.py show [48] changes      [FILE..]
    expected.py tags                   [[48] FILE..]

A FILE holds session records, or with `host` one host stream, for `tags` calls of two readers; without a FILE it is standard input. The terminal has 96 rows, or with `48` as many, of `tags`
for the files behind the word. The word `plain` changes nothing: it is for the reader of host bytes that `session` takes.
"""

import sys

sys.dont_write_bytecode = True

from model import COLUMNS, OWNERS, RECORD, SHORT_RECORD, Terminal, run, run_host, run_record, run_tags

PENDING = ["none", "absolute cursor", "window cursor", "status", "block"]
MARGIN = " " * 7


def session_lines(terminal, results):
    for number, (answer, reply) in enumerate(results):
        yield "%d %d %d" % (number, answer, len(reply))
    yield "end %d %d %d" % (terminal.row, terminal.col, terminal.top)


def tags_lines(data, rows):
    """A line a call, with what a reader reads between bars; nothing where the owner table is short."""
    if len(data) < OWNERS:
        return
    terminal, results = run_tags(data, rows)
    for number, (answer, sent, is_text) in enumerate(results):
        text = " |%s|" % bytes(sent).decode("latin-1") if is_text else ""
        yield "%d %d %d%s" % (number, answer, len(sent), text)
    yield "end %d %d %d" % (terminal.row, terminal.col, terminal.top)


def words_of(bits):
    """Two words of sixteen hexadecimal digits: rows 0 to 63 and the rows from 64 on, the first row the lowest bit."""
    number = sum(2 ** row for row, is_set in enumerate(bits) if is_set)
    return "%016x %016x" % (number % 2 ** 64, number // 2 ** 64)


def raw_lines(terminal, replies):
    t = terminal
    for number, reply in enumerate(replies):
        yield ("reply %d %s" % (number, bytes(reply).hex())).rstrip()
    yield "state row %d col %d top %d format %d insert %d lock %d pending %d reading %d sign %d digit %d value %d tabs %s bits %s" % (
        t.row, t.col, t.top, t.format, t.insert, t.lock, t.pending, t.reading, t.sign, t.digit, t.value,
        "".join("1" if tab else "0" for tab in t.tabs), words_of(t.bits))
    for row in range(t.rows):
        cells = slice(row * COLUMNS, (row + 1) * COLUMNS)
        yield "chars %d %s" % (row, bytes(t.chars[cells]).hex())
        yield "attrs %d %s" % (row, bytes(t.attrs[cells]).hex())


def changes_lines(data, rows):
    """For each record its number and answer, then the report behind it: how many rows it changed, the first of them, and all of them. A short part has no line."""
    terminal = Terminal(rows)
    terminal.report()
    for number in range(len(data) // RECORD):
        answer, reply = run_record(terminal, data[number * RECORD:(number + 1) * RECORD])
        changed = [row for row in range(rows) if terminal.bits[row]]
        refusal, count, first = terminal.report()
        yield " ".join(str(n) for n in [number, answer, count, first] + changed)


def face(terminal, cell):
    character = terminal.chars[cell]
    if character == 32 and terminal.unprotected_at(cell):
        return "_"
    return chr(character) if 32 <= character <= 126 else "?"


def kind_letter(terminal, cell):
    field = terminal.field_at(cell)
    return " aldt"[field[2]] if field else " "


def enhancement_letter(terminal, cell):
    return " ABCDEFGHIJKLMNO"[terminal.attrs[cell] >> 4]


def left_out(terminal, row):
    cells = slice(row * COLUMNS, (row + 1) * COLUMNS)
    blank = terminal.chars[cells] == [32] * COLUMNS and terminal.attrs[cells] == [0] * COLUMNS
    return blank and row != terminal.row


def blank_rows_line(count):
    return MARGIN + ("(1 blank row)" if count == 1 else "(%d blank rows)" % count)


def picture_lines(terminal):
    t = terminal
    on = lambda flag: "on" if flag else "off"
    yield "cursor: row %d, column %d" % (t.row, t.col)
    yield "window: rows %d to %d" % (t.top, t.top + 23)
    yield "format mode %s, insert mode %s, host lock %s" % (on(t.format), on(t.insert), on(t.lock))
    yield "pending transfer: " + PENDING[t.pending]
    yield "tab stops: " + (" ".join(str(col) for col in range(COLUMNS) if t.tabs[col]) or "none")
    yield "fields: a any character, l letters, d digits, t transmit-only; _ is a blank of an unprotected field, ? no printable character"
    yield "enhancements: A to O, the letter that sets each; B is inverse video"
    yield ""
    yield (MARGIN + "".join("%d         " % tens for tens in range(COLUMNS // 10))).rstrip()
    yield MARGIN + "0123456789" * (COLUMNS // 10)
    count = 0
    for row in range(t.rows):
        if left_out(t, row):
            count += 1
            continue
        if count > 0:
            yield blank_rows_line(count)
            count = 0
        cells = range(row * COLUMNS, (row + 1) * COLUMNS)
        shown = "> " if t.top <= row <= t.top + 23 else "  "
        yield shown + "%2d  |" % row + "".join(face(t, cell) for cell in cells) + "|"
        kinds = "".join(kind_letter(t, cell) for cell in cells)
        if kinds.strip():
            yield MARGIN + kinds
        enhancements = "".join(enhancement_letter(t, cell) for cell in cells)
        if enhancements.strip():
            yield MARGIN + enhancements
        if row == t.row:
            yield MARGIN + "".join("^" if col == t.col else " " for col in range(COLUMNS))
    if count > 0:
        yield blank_rows_line(count)


def short_part_lines(results, size):
    if results and results[-1][0] == SHORT_RECORD:
        yield "12: the input ends inside record %d, after %d of %d bytes" % (len(results) - 1, size % RECORD, RECORD)


def lines(program, words, data):
    """What one file gives."""
    rows, raw = 48 if "48" in words else 96, "raw" in words
    if "changes" in words:
        return changes_lines(data, rows)
    if "host" in words:
        terminal = Terminal(rows)
        answer, reply = run_host(terminal, data)
        return raw_lines(terminal, [reply]) if raw else picture_lines(terminal)
    terminal, results = run(data, rows)
    if program == "session":
        return session_lines(terminal, results)
    if raw:
        return raw_lines(terminal, [reply for answer, reply in results if answer != SHORT_RECORD])
    return list(short_part_lines(results, len(data))) + list(picture_lines(terminal))


def file_lines(program, words, names):
    """What the files give, one after the other, each from a fresh terminal; of several each has its name before it."""
    for name in names:
        try:
            with open(name, "rb") as file:
                data = file.read()
        except OSError as reason:
            print("%s: %s" % (name, reason.strerror), file=sys.stderr)
            continue
        if len(names) > 1:
            yield "== " + name
        yield from lines(program, words, data)


def tags_of_files(words):
    """What the files give; the word 48 holds for those behind it."""
    rows = 96
    several = len([word for word in words if word != "48"]) > 1
    for word in words:
        if word == "48":
            rows = 48
            continue
        try:
            with open(word, "rb") as file:
                data = file.read()
        except OSError as reason:
            print("%s: %s" % (word, reason.strerror), file=sys.stderr)
            continue
        if several:
            yield "== " + word
        yield from tags_lines(data, rows)


def main(program, words):
    if program == "tags":
        has_file = any(word != "48" for word in words)
        found = tags_of_files(words) if has_file else tags_lines(sys.stdin.buffer.read(), 48 if words else 96)
        for line in found:
            print(line)
        return
    asked = [word for word in words if word in (["48", "plain"] if program == "session" else ["48", "host", "raw", "changes"])]
    names = [word for word in words if word not in asked]
    if "changes" in asked and ("host" in asked or "raw" in asked):
        sys.exit(__doc__)
    found = file_lines(program, asked, names) if names else lines(program, asked, sys.stdin.buffer.read())
    for line in found:
        print(line)


if __name__ == "__main__":
    if sys.argv[1:2] not in (["session"], ["show"], ["tags"]) or any(word.startswith("-") for word in sys.argv[2:]):
        sys.exit(__doc__)
    main(sys.argv[1], sys.argv[2:])
