"""A second, independent implementation of document 01, with what document 02 changes, from which the tests' expected outputs are computed.

Plain lists and ifs, no sharing with the Rattle code. `Terminal(rows)` has the six calls:

    host(data, room)                        -> answer, bytes taken, reply bytes
    key(code, room)                         -> answer, reply bytes
    post(field, text)                       -> answer
    post_as(owners, reader, field, text)    -> answer
    read_back(owners, reader, field, room)  -> answer, the field's characters
    report()                                -> answer, how many rows have changed, the first of them

and `run` runs the records of a session from a fresh terminal, `run_tags` the calls of host, operator and two readers. `expected.py` prints what the programs print.
"""

COLUMNS = 80
RECORD = 84
OWNERS = 256
CALL = 1 + RECORD

ESC = 27
NONE, ABSOLUTE, WINDOW, STATUS, BLOCK = 0, 1, 2, 3, 4
PLAIN, AFTER_ESC, AFTER_AND, ADDRESS, ENHANCE, OTHER_GROUP, AFTER_PAREN = 0, 1, 2, 3, 4, 5, 6
NO_SIGN, PLUS, MINUS = 0, 1, 2

DONE, BAD_SIZE, BAD_STATE, BAD_KEY, LOCKED, NO_TARGET, NOT_ALLOWED = 0, 1, 2, 3, 4, 5, 6
NO_ROOM, FORMAT_OFF, NO_FIELD, TOO_LONG, BAD_RECORD, SHORT_RECORD, NOT_OWNER = 7, 8, 9, 10, 11, 12, 13


def held(number, low, high):
    """The number, or the nearest end of low to high."""
    return max(low, min(high, number))


def owns(owners, reader, number):
    """Whether the reader is 1 or 2 and the table gives it the field; fields above 255 have no owner."""
    if reader != 1 and reader != 2:
        return False
    return number <= 255 and owners[number] == reader


def allowed(kind, character):
    """Whether an unprotected field of this mark takes the character."""
    if character < 32 or character > 126:
        return False
    letter = ord("A") <= character <= ord("Z") or ord("a") <= character <= ord("z")
    in_a_weight = chr(character) in "0123456789+-.,"
    if kind == 2:
        return letter or character == 32
    if kind == 3:
        return in_a_weight or character == 32
    return True


class Terminal:
    def __init__(self, rows):
        self.rows = rows
        self.cells = rows * COLUMNS
        self.last_top = rows - 24
        self.reply_room = 2 * self.cells
        self.bits = [True] * rows
        self.fresh()

    def fresh(self):
        """All as at the start, but for the rows' bits: a hard reset keeps them."""
        self.chars = [32] * self.cells
        self.attrs = [0] * self.cells
        self.row = self.col = self.top = 0
        self.format = self.insert = self.lock = False
        self.pending = NONE
        self.tabs = [False] * COLUMNS
        self.go_on(PLAIN)

    def good(self):
        """Whether the state is good."""
        if not (0 <= self.row < self.rows and 0 <= self.col < COLUMNS and 0 <= self.top <= self.last_top):
            return False
        if not (self.top <= self.row <= self.top + 23):
            return False
        if not (0 <= self.pending <= 4 and 0 <= self.reading <= 6):
            return False
        if not (0 <= self.sign <= 2 and 0 <= self.value <= 999):
            return False
        if not self.digit and self.value != 0:
            return False
        if self.reading != ADDRESS and (self.sign != NO_SIGN or self.digit or self.value != 0):
            return False
        return len(self.bits) == self.rows

    def entry(self):
        """Answers 1 and 2, which every call tests first; else 0."""
        if len(self.chars) != self.cells or len(self.attrs) != self.cells:
            return BAD_SIZE
        if not self.good():
            return BAD_STATE
        return DONE

    # Rows that changed

    def memory(self):
        """What each row holds, copied."""
        rows = []
        for first in range(0, self.cells, COLUMNS):
            rows.append((self.chars[first:first + COLUMNS], self.attrs[first:first + COLUMNS]))
        return rows

    def note(self, before):
        """Adds the rows in which a character or an attribute byte is another one than before."""
        after = self.memory()
        for row in range(self.rows):
            if after[row] != before[row]:
                self.bits[row] = True

    def report(self):
        if not self.good():
            return BAD_STATE, 0, self.rows
        count, first = self.bits.count(True), self.rows
        if True in self.bits:
            first = self.bits.index(True)
        self.bits = [False] * self.rows
        return DONE, count, first

    # Fields

    def cursor(self):
        return self.row * COLUMNS + self.col

    def mark(self, cell):
        """1 to 5, or 0 where there is no mark."""
        nibble = self.attrs[cell] % 16
        return nibble if nibble <= 5 else 0

    def field_at(self, cell):
        """(start, end, kind) of the field that holds the cell, end not included; None where there is none."""
        first = cell - cell % COLUMNS
        start = cell
        while start > first and self.mark(start) == 0:
            start -= 1
        kind = self.mark(start)
        if kind == 0 or kind == 5:
            return None
        end = cell + 1
        while end < first + COLUMNS and self.mark(end) == 0:
            end += 1
        return start, end, kind

    def unprotected_at(self, cell):
        """The unprotected field that holds the cell, else None."""
        field = self.field_at(cell)
        if field is None or field[2] == 4:
            return None
        return field

    def fields(self, last_kind):
        """All fields of marks 1 to last_kind in reading order."""
        return [self.field_at(cell) for cell in range(self.cells) if 1 <= self.mark(cell) <= last_kind]

    def next_start(self, cell):
        """The first unprotected field start after the cell, else the first of all, else None."""
        starts = [field[0] for field in self.fields(3)]
        for start in starts:
            if start > cell:
                return start
        return starts[0] if starts else None

    def previous_start(self, cell):
        """The last unprotected field start before the cell, else the last of all, else None."""
        starts = [field[0] for field in self.fields(3)]
        for start in reversed(starts):
            if start < cell:
                return start
        return starts[-1] if starts else None

    def target(self):
        """Where text goes with format on: a cell, or None."""
        if self.unprotected_at(self.cursor()):
            return self.cursor()
        return self.next_start(self.cursor())

    # Moves

    def move(self, row, col):
        """The cursor goes there; the top moves by the least amount that shows it."""
        self.row, self.col = row, col
        if row < self.top:
            self.top = row
        if row > self.top + 23:
            self.top = row - 23

    def move_to_cell(self, cell):
        self.move(cell // COLUMNS, cell % COLUMNS)

    def up(self):
        self.move(max(self.row - 1, 0), self.col)

    def down(self):
        self.move(min(self.row + 1, self.rows - 1), self.col)

    def left(self):
        self.move_to_cell(max(self.cursor() - 1, 0))

    def right(self):
        self.move_to_cell(min(self.cursor() + 1, self.cells - 1))

    def column_0(self):
        self.move(self.row, 0)

    def line_feed(self):
        if self.row < self.rows - 1:
            self.move(self.row + 1, self.col)
        elif not self.format:
            self.remove_row(0)

    def home(self, last_kind=3):
        self.top = 0
        fields = self.fields(last_kind) if self.format else []
        self.move_to_cell(fields[0][0] if fields else 0)

    def home_down(self):
        row = 0
        for cell in range(self.cells):
            if self.chars[cell] != 32:
                row = cell // COLUMNS + 1
        self.move(min(row, self.rows - 1), 0)

    def roll(self, rows):
        if 0 <= self.top + rows <= self.last_top:
            self.top += rows
            self.row += rows

    def roll_up(self):
        self.roll(1)

    def roll_down(self):
        self.roll(-1)

    def next_page(self):
        self.roll(min(24, self.last_top - self.top))

    def previous_page(self):
        self.roll(-min(24, self.top))

    def tab(self):
        if self.format:
            start = self.next_start(self.cursor())
            if start is not None:
                self.move_to_cell(start)
            return
        for col in range(self.col + 1, COLUMNS):
            if self.tabs[col]:
                self.move(self.row, col)
                return
        if self.row < self.rows - 1:
            self.move(self.row + 1, 0)

    def back_tab(self):
        if self.format:
            start = self.previous_start(self.cursor())
            if start is not None:
                self.move_to_cell(start)
            return
        for col in reversed(range(self.col)):
            if self.tabs[col]:
                self.move(self.row, col)
                return
        self.column_0()

    # Edits

    def remove_row(self, row):
        """The rows below move up, with attributes; the last becomes blank with attributes 0."""
        cell = row * COLUMNS
        for memory, blank in (self.chars, 32), (self.attrs, 0):
            del memory[cell:cell + COLUMNS]
            memory.extend([blank] * COLUMNS)

    def add_row(self, row):
        """A blank row enters here, the rows below move down, with attributes; the last is lost."""
        cell = row * COLUMNS
        for memory, blank in (self.chars, 32), (self.attrs, 0):
            memory[cell:cell] = [blank] * COLUMNS
            del memory[self.cells:]

    def write(self, cell, end, character):
        """The character at the cell; insert mode first shifts the characters up to the end."""
        if self.insert:
            self.chars[cell + 1:end] = self.chars[cell:end - 1]
        self.chars[cell] = character

    def text(self, character):
        if not self.format:
            self.write(self.cursor(), (self.row + 1) * COLUMNS, character)
            if self.cursor() == self.cells - 1:
                self.line_feed()
                self.column_0()
            else:
                self.right()
            return
        cell = self.target()
        if cell is None:
            return
        start, end, kind = self.field_at(cell)
        if not allowed(kind, character):
            return
        self.write(cell, end, character)
        if cell + 1 < end:
            self.move_to_cell(cell + 1)
        else:
            self.move_to_cell(self.next_start(cell))

    def clear(self, end):
        """Clears from the cursor up to the end: everything with format off; with format on the unprotected cells,
        which keep their marks and lose their enhancements, the blank ones too."""
        for cell in range(self.cursor(), end):
            if not self.format:
                self.chars[cell] = 32
                self.attrs[cell] = 0
            elif self.unprotected_at(cell):
                self.chars[cell] = 32
                self.attrs[cell] -= self.attrs[cell] // 16 * 16

    def clear_display(self):
        self.clear(self.cells)

    def edit_end(self):
        """Where clear line and delete character stop: the row's end, with format on that of the cursor's
        unprotected field; None where they do nothing."""
        if not self.format:
            return (self.row + 1) * COLUMNS
        field = self.unprotected_at(self.cursor())
        return field[1] if field else None

    def clear_line(self):
        end = self.edit_end()
        if end is not None:
            self.clear(end)

    def delete_character(self):
        end = self.edit_end()
        if end is not None:
            cell = self.cursor()
            self.chars[cell:end] = self.chars[cell + 1:end] + [32]

    def insert_row(self):
        if not self.format:
            self.add_row(self.row)
            self.column_0()

    def delete_row(self):
        if not self.format:
            self.remove_row(self.row)
            self.column_0()

    # Marks, flags, tabs, resets

    def set_mark(self, mark):
        if not self.format:
            cell = self.cursor()
            self.attrs[cell] = self.attrs[cell] // 16 * 16 + mark

    def turn_mark(self, mark):
        if 1 <= self.mark(self.cursor()) <= 3:
            self.set_mark(mark)

    def set_enhancement(self, enhancement):
        if not self.format:
            cell = self.cursor()
            self.attrs[cell] = 16 * enhancement + self.attrs[cell] % 16

    def soft_reset(self):
        self.pending = NONE
        self.lock = self.insert = False

    # Replies

    def reply(self):
        """What DC1 sends."""
        if self.pending == ABSOLUTE:
            return list(b"\x1b&a%03dc%03dR\r" % (self.col, self.row))
        if self.pending == WINDOW:
            return list(b"\x1b&a%03dc%03dY\r" % (self.col, self.row - self.top))
        if self.pending == STATUS:
            return [ESC, 92, 48 + self.format + 2 * self.insert + 4 * self.lock] + [48] * 6 + [13]
        if self.pending == BLOCK and self.format:
            sent = []
            for start, end, kind in self.fields(4):
                if sent:
                    sent.append(31)
                sent += self.chars[start:end]
            return sent + [30]
        if self.pending == BLOCK:
            sent = self.chars[self.row * COLUMNS:(self.row + 1) * COLUMNS]
            while sent and sent[-1] == 32:
                sent.pop()
            return sent + [13]
        return []

    # Host bytes

    def go_on(self, reading):
        """The next reading state, with the number clear."""
        self.reading = reading
        self.sign, self.digit, self.value = NO_SIGN, False, 0

    def host(self, data, room):
        if self.entry() != DONE:
            return self.entry(), 0, []
        sent = []
        for taken, byte in enumerate(data):
            byte = byte % 128
            answer = []
            if self.reading == PLAIN and byte == 5:
                answer = [6]
            if self.reading == PLAIN and byte == 17:
                answer = self.reply()
            if len(sent) + len(answer) > room:
                return NO_ROOM, taken, sent
            sent += answer
            before = self.memory()
            self.read(byte)
            self.note(before)
        return DONE, len(data), sent

    def read(self, byte):
        if byte == ESC:
            self.go_on(AFTER_ESC)
        elif self.reading == PLAIN:
            self.read_plain(byte)
        elif self.reading == AFTER_ESC:
            self.read_after_esc(byte)
        elif self.reading == AFTER_AND:
            if byte == ord("a"):
                self.go_on(ADDRESS)
            elif byte == ord("d"):
                self.go_on(ENHANCE)
            elif ord("a") <= byte <= ord("z"):
                self.go_on(OTHER_GROUP)
            else:
                self.go_on(PLAIN)
        elif self.reading == ADDRESS:
            self.read_address(byte)
        elif self.reading == ENHANCE:
            if 64 <= byte <= 79:
                self.set_enhancement(byte - 64)
            self.go_on(PLAIN)
        elif self.reading == OTHER_GROUP:
            if 64 <= byte <= 90 or byte < 32:
                self.go_on(PLAIN)
        elif self.reading == AFTER_PAREN:
            self.go_on(PLAIN)

    def read_plain(self, byte):
        if byte == 8:
            self.left()
        if byte == 9:
            self.tab()
        if byte == 10:
            self.line_feed()
        if byte == 13:
            self.column_0()
        if byte == 17:
            self.pending = NONE
        if 32 <= byte <= 126:
            self.text(byte)

    def read_after_esc(self, byte):
        if byte == ord("&"):
            self.go_on(AFTER_AND)
            return
        if byte == ord(")"):
            self.go_on(AFTER_PAREN)
            return
        self.go_on(PLAIN)
        letter = chr(byte)
        if letter == "A":
            self.up()
        if letter == "B":
            self.down()
        if letter == "C":
            self.right()
        if letter == "D":
            self.left()
        if letter == "G":
            self.column_0()
        if letter == "H":
            self.home(3)
        if letter == "h":
            self.home(4)
        if letter == "F":
            self.home_down()
        if letter == "I":
            self.tab()
        if letter == "i":
            self.back_tab()
        if letter == "J":
            self.clear_display()
        if letter == "K":
            self.clear_line()
        if letter == "L":
            self.insert_row()
        if letter == "M":
            self.delete_row()
        if letter == "P":
            self.delete_character()
        if letter == "Q":
            self.insert = True
        if letter == "R":
            self.insert = False
        if letter == "S":
            self.roll_up()
        if letter == "T":
            self.roll_down()
        if letter == "U":
            self.next_page()
        if letter == "V":
            self.previous_page()
        if letter == "W":
            self.format = True
        if letter == "X":
            self.format = False
        if letter == "1":
            self.tabs[self.col] = True
        if letter == "2":
            self.tabs[self.col] = False
        if letter == "3":
            self.tabs = [False] * COLUMNS
        if letter == "[":
            self.set_mark(1)
        if letter == "{":
            self.set_mark(4)
        if letter == "]":
            self.set_mark(5)
        if letter == "6":
            self.turn_mark(2)
        if letter == "7":
            self.turn_mark(3)
        if letter == "8":
            self.turn_mark(1)
        if letter == "a":
            self.pending = ABSOLUTE
        if letter == "`":
            self.pending = WINDOW
        if letter == "^":
            self.pending = STATUS
        if letter == "d":
            self.pending = BLOCK
        if letter == "b":
            self.lock = False
        if letter == "c":
            self.lock = True
        if letter == "g":
            self.soft_reset()
        if letter == "E":
            self.fresh()

    def read_address(self, byte):
        letter = chr(byte)
        if letter in "+-" and self.sign == NO_SIGN and not self.digit:
            self.sign = PLUS if letter == "+" else MINUS
        elif letter in "0123456789":
            self.digit = True
            self.value = min(999, 10 * self.value + byte - ord("0"))
        elif letter in "cryCRY":
            self.address(letter.lower())
            self.go_on(ADDRESS if letter in "cry" else PLAIN)
        else:
            self.go_on(PLAIN)

    def address(self, letter):
        here = self.col if letter == "c" else self.row
        if self.sign == PLUS:
            place = here + self.value
        elif self.sign == MINUS:
            place = here - self.value
        elif letter == "y":
            place = self.top + held(self.value, 0, 23)
        else:
            place = self.value
        if letter == "c":
            self.move(self.row, held(place, 0, COLUMNS - 1))
        else:
            self.move(held(place, 0, self.rows - 1), self.col)

    # Keys and posts

    def key(self, code, room):
        if self.entry() != DONE:
            return self.entry(), []
        before = self.memory()
        answer, sent = self.press(code, room)
        self.note(before)
        return answer, sent

    def press(self, code, room):
        is_text = 32 <= code <= 126
        if not is_text and not 256 <= code <= 273:
            return BAD_KEY, []
        if self.lock or self.pending != NONE:
            return LOCKED, []
        if is_text:
            if self.format:
                cell = self.target()
                if cell is None:
                    return NO_TARGET, []
                if not allowed(self.field_at(cell)[2], code):
                    return NOT_ALLOWED, []
            self.text(code)
            return DONE, []
        if code == 273:
            if room < 1:
                return NO_ROOM, []
            self.pending = BLOCK
            return DONE, [18]
        if code == 256:
            self.up()
        if code == 257:
            self.down()
        if code == 258:
            self.right()
        if code == 259:
            self.left()
        if code == 260:
            self.home()
        if code == 261:
            self.home_down()
        if code == 262:
            self.tab()
        if code == 263:
            self.back_tab()
        if code == 264:
            self.clear_display()
        if code == 265:
            self.clear_line()
        if code == 266:
            self.insert = not self.insert
        if code == 267:
            self.delete_character()
        if code == 268:
            self.column_0()
        if code == 269:
            self.roll_up()
        if code == 270:
            self.roll_down()
        if code == 271:
            self.next_page()
        if code == 272:
            self.previous_page()
        return DONE, []

    def post(self, number, text):
        if self.entry() != DONE:
            return self.entry()
        before = self.memory()
        answer = self.put(number, text, True)
        self.note(before)
        return answer

    def put(self, number, text, is_owner):
        if self.lock or self.pending != NONE:
            return LOCKED
        if not self.format:
            return FORMAT_OFF
        fields = self.fields(3)
        if number >= len(fields):
            return NO_FIELD
        if not is_owner:
            return NOT_OWNER
        start, end, kind = fields[number]
        if len(text) > end - start:
            return TOO_LONG
        for byte in text:
            if not allowed(kind, byte):
                return NOT_ALLOWED
        self.chars[start:end] = list(text) + [32] * (end - start - len(text))
        return DONE

    # Two readers on one form

    def post_as(self, owners, reader, number, text):
        if len(owners) != OWNERS:
            return BAD_SIZE
        if self.entry() != DONE:
            return self.entry()
        before = self.memory()
        answer = self.put(number, text, owns(owners, reader, number))
        self.note(before)
        return answer

    def read_back(self, owners, reader, number, room):
        if len(owners) != OWNERS:
            return BAD_SIZE, []
        if self.entry() != DONE:
            return self.entry(), []
        if not self.format:
            return FORMAT_OFF, []
        fields = self.fields(3)
        if number >= len(fields):
            return NO_FIELD, []
        if not owns(owners, reader, number):
            return NOT_OWNER, []
        start, end, kind = fields[number]
        if room < end - start:
            return NO_ROOM, []
        return DONE, self.chars[start:end]


def run_record(terminal, record):
    """(answer, reply bytes) of one record of a session."""
    if len(record) < RECORD:
        return SHORT_RECORD, []
    kind, length, number = chr(record[0]), record[1], record[2] + 256 * record[3]
    data = record[4:]
    if kind not in "HKP" or length > 80 or any(data[length:]):
        return BAD_RECORD, []
    if kind == "H" and number != 0 or kind == "K" and length != 0:
        return BAD_RECORD, []
    if kind == "K":
        return terminal.key(number, terminal.reply_room)
    if kind == "P":
        return terminal.post(number, data[:length]), []
    return run_host(terminal, data[:length])


def run_host(terminal, data):
    """(answer of the last call, all reply bytes): goes on with an emptied reply buffer until all is taken."""
    replies = []
    while True:
        answer, taken, sent = terminal.host(data, terminal.reply_room)
        replies += sent
        data = data[taken:]
        if answer != NO_ROOM:
            return answer, replies


def run(session, rows):
    """(terminal, [(answer, reply bytes) of each record]) of a session file's bytes, from a fresh terminal of so many rows."""
    terminal = Terminal(rows)
    results = []
    for first in range(0, len(session), RECORD):
        results.append(run_record(terminal, session[first:first + RECORD]))
    return terminal, results


def run_call(terminal, owners, call):
    """(answer, bytes sent or read, whether they were read) of one call of host, operator or a reader: the reader's number, 0 for none, and a session record, of kind R for a reading."""
    if len(call) < CALL:
        return SHORT_RECORD, [], False
    reader, record = call[0], call[1:]
    if reader == 0:
        answer, reply = run_record(terminal, record)
        return answer, reply, False
    kind, length, field, data = chr(record[0]), record[1], record[2] + 256 * record[3], record[4:]
    if kind == "P" and length <= 80 and not any(data[length:]):
        return terminal.post_as(owners, reader, field, data[:length]), [], False
    if kind == "R" and length <= 80 and not any(data):
        answer, text = terminal.read_back(owners, reader, field, length)
        return answer, text, answer == DONE
    return BAD_RECORD, [], False


def run_tags(data, rows):
    """(terminal, [result of each call]) of a file of calls behind an owner table, from a fresh terminal of so many rows."""
    terminal = Terminal(rows)
    owners = data[:OWNERS]
    results = []
    for first in range(OWNERS, len(data), CALL):
        results.append(run_call(terminal, owners, data[first:first + CALL]))
    return terminal, results
