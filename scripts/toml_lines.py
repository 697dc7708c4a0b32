"""Reads a TOML document and keeps where everything stands in it, so that a mistake can be shown.

It reads what `btb` reads, which is TOML 1.1: one byte order mark is skipped, integers have at most 64 bits with their sign,
and a key has at most 80 parts, as arrays and inline tables stand at most 80 deep in one another. Python's own `tomllib` is of
TOML 1.0, and tells no places.
"""
import bisect
import math
import re

DEEPEST = 80
BYTE_ORDER_MARK = b"\xef\xbb\xbf"

BLANKS = re.compile(rb"[ \t]*")
LINES = re.compile(rb"(?:[ \t\n]++|\r\n)*+")
BLANKS_AND_COMMENTS = re.compile(rb"(?:[ \t\n]++|\r\n|#[\t\x20-\x7e\x80-\xff]*+)*+")
BARE_KEY = re.compile(rb"[A-Za-z0-9_-]+")
BARE_VALUE = re.compile(rb"[A-Za-z0-9_+.:-]+(?: (?=[0-9])[A-Za-z0-9_+.:-]*)?")
PLAIN = {  # the bytes that stand for themselves in a text, by its quote and whether it may have several lines
    (b'"', False): re.compile(rb"[\t\x20-\x21\x23-\x5b\x5d-\x7e\x80-\xff]*"),
    (b'"', True): re.compile(rb"[\t\n\x20-\x21\x23-\x5b\x5d-\x7e\x80-\xff]*"),
    (b"'", False): re.compile(rb"[\t\x20-\x26\x28-\x7e\x80-\xff]*"),
    (b"'", True): re.compile(rb"[\t\n\x20-\x26\x28-\x7e\x80-\xff]*"),
}
ESCAPES = {b"b": b"\x08", b"e": b"\x1b", b"f": b"\x0c", b"n": b"\n", b"r": b"\r", b"t": b"\t", b'"': b'"', b"\\": b"\\"}
HEX_DIGITS = {b"x": 2, b"u": 4, b"U": 8}


class NotToml(Exception):
    """The bytes are no document. Reading stopped at the offset `at`."""

    def __init__(self, at, why):
        super().__init__(why)
        self.at, self.why = at, why


class Moment:
    """A date, a time, or both."""


class Value:
    """What stands in a document: a dict or list of Values, a str, int, float, bool or Moment.

    `at` is the offset at which it begins, and `key` that of its key: of a table under a header, that of the header.
    """

    def __init__(self, content, at, key=None):
        self.content, self.at, self.key = content, at, at if key is None else key


class Lines:
    """The lines of a document, to tell an offset's line and column, each from 1. A column is a character."""

    def __init__(self, data):
        self.data = data
        self.starts = [0] + [found.end() for found in re.finditer(rb"\n", data)]

    def place(self, at):
        line = bisect.bisect_right(self.starts, at)
        start = self.starts[line - 1]
        before = self.data[start:at].removeprefix(BYTE_ORDER_MARK if start == 0 else b"")
        return line, len(before.decode("utf-8", "replace")) + 1


def parse(data):
    """The document as the Value of its top table, or NotToml."""
    try:
        data.decode("utf-8")
    except UnicodeDecodeError as wrong:
        raise NotToml(wrong.start, "this byte is no text in UTF-8") from None
    reader = Reader(data)
    reader.eat(BYTE_ORDER_MARK)
    return reader.document()


# ---- tables while they are read

class OpenTable:
    """A table that still takes keys. Its origin is what made it: the document, a header that only passes through it
    (implicit), a dotted key, its own header, or braces."""

    def __init__(self, origin, at):
        self.origin, self.at, self.nodes = origin, at, {}

    def close(self):
        return Value({key: node if isinstance(node, Value) else node.close() for key, node in self.nodes.items()}, self.at)


class OpenTables:
    """An array of tables, each under a header `[[..]]`, of which the last one takes keys."""

    def __init__(self, at):
        self.at, self.tables = at, []

    def add(self, at):
        self.tables.append(OpenTable("element", at))
        return self.tables[-1]

    def close(self):
        return Value([table.close() for table in self.tables], self.at)


class Reader:
    """Goes through the bytes once, from the offset `at` on."""

    def __init__(self, data):
        self.data, self.at, self.lines = data, 0, Lines(data)

    def fail(self, why, at=None):
        raise NotToml(self.at if at is None else at, why)

    def take(self, pattern, why=None):
        found = pattern.match(self.data, self.at)
        if not found:
            self.fail(why)
        self.at = found.end()
        return found.group()

    def sees(self, piece):
        return self.data.startswith(piece, self.at)

    def eat(self, piece):
        seen = self.sees(piece)
        if seen:
            self.at += len(piece)
        return seen

    def byte(self):
        return self.data[self.at:self.at + 1]

    def line_of(self, node):
        return self.lines.place(node.key if isinstance(node, Value) else node.at)[0]

    # ---- headers and pairs

    def document(self):
        root = current = OpenTable("root", self.at)
        while True:
            self.take(BLANKS_AND_COMMENTS)
            if self.at == len(self.data):
                return root.close()
            at = self.at
            if self.eat(b"[["):
                path, last = self.header()
                if not self.eat(b"]"):
                    self.fail("a header of an array of tables ends with `]]`")
                current = self.add_to_array(self.along_header(root, path, at), last, at)
            elif self.eat(b"["):
                path, last = self.header()
                current = self.add_table(self.along_header(root, path, at), last, at)
            else:
                self.pair(current, DEEPEST)
            self.take(BLANKS)
            if self.at < len(self.data) and self.byte() not in b"#\n\r":
                self.fail("nothing but a comment may follow here on the line")

    def header(self):
        self.take(BLANKS)
        key = self.key()
        if not self.eat(b"]"):
            self.fail("a header ends with `]`")
        return key

    def pair(self, table, depth):
        at = self.at
        path, last = self.key()
        if not self.eat(b"="):
            self.fail("a `=` has to follow the key")
        self.take(BLANKS)
        value = self.value(depth)
        table = self.along_dots(table, path, at)
        if last in table.nodes:
            self.fail(f"the key `{last}` came before, in line {self.line_of(table.nodes[last])}", at)
        table.nodes[last] = Value(value.content, value.at, at)

    def key(self):
        parts = []
        while len(parts) < DEEPEST:
            quoted = self.byte() in (b'"', b"'")
            parts.append(self.text(False) if quoted else self.take(BARE_KEY, "a key has to stand here").decode())
            self.take(BLANKS)
            if not self.eat(b"."):
                return parts[:-1], parts[-1]
            self.take(BLANKS)
        self.fail(f"a key has at most {DEEPEST} parts")

    # ---- values

    def value(self, depth):
        at = self.at
        if depth == 0 and self.byte() in (b"[", b"{"):
            self.fail(f"arrays and tables in braces stand at most {DEEPEST} deep in one another")
        if self.eat(b"["):
            items = []
            self.until(b"]", lambda: items.append(self.value(depth - 1)), "array")
            return Value(items, at)
        if self.eat(b"{"):
            table = OpenTable("braces", at)
            self.until(b"}", lambda: self.pair(table, depth - 1), "table")
            return table.close()
        if self.byte() in (b'"', b"'"):
            return Value(self.quoted(), at)
        word = self.take(BARE_VALUE, "a value has to stand here").decode()
        try:
            return Value(scalar(word), at)
        except ValueError as why:
            told = word if len(word) <= 40 else word[:40] + ".."
            self.fail(f"`{told}` is no value: {why}", at)

    def until(self, closing, read, what):
        line = self.lines.place(self.at)[0]
        while True:
            self.take(BLANKS_AND_COMMENTS)
            if self.eat(closing):
                return
            read()
            self.take(BLANKS_AND_COMMENTS)
            if not self.eat(b",") and not self.sees(closing):
                self.fail(f"a `,` or a `{closing.decode()}` has to follow in the {what} that begins in line {line}")

    def quoted(self):
        quote = self.byte()
        if not self.sees(quote * 3):
            return self.text(False)
        self.at += 2
        return self.text(True)

    def text(self, several_lines):
        """A text from its opening quote on, of three the last."""
        start, quote = self.at, self.byte()
        self.at += 1
        if several_lines and not self.eat(b"\n"):
            self.eat(b"\r\n")
        out = bytearray()
        while True:
            out += self.take(PLAIN[quote, several_lines])
            if self.sees(quote * 3) and several_lines:
                return (out + self.last_quotes(quote)).decode("utf-8")
            if self.eat(quote):
                if not several_lines:
                    return out.decode("utf-8")
                out += quote
            elif self.eat(b"\\"):
                out += self.escape(several_lines)
            elif several_lines and self.eat(b"\r\n"):
                out += b"\r\n"
            elif self.at == len(self.data) or not several_lines and self.byte() in b"\r\n":
                self.fail("the text that begins here has no closing quote" + (" in its line" if not several_lines else ""), start)
            else:
                self.fail("a text has no such character as it stands")

    def last_quotes(self, quote):
        """The three quotes that end a text of several lines, and what one or two quotes before them write."""
        many = 3
        while self.sees(quote * (many + 1)):
            many += 1
        if many > 5:
            self.fail("too many quotes end this text")
        self.at += many
        return quote * (many - 3)

    def escape(self, several_lines):
        """What the bytes after a backslash stand for."""
        start = self.at
        self.take(BLANKS)
        if several_lines and (self.sees(b"\n") or self.sees(b"\r\n")):
            self.take(LINES)
            return b""
        self.at = start + 1
        letter = self.data[start:start + 1]
        if letter in ESCAPES:
            return ESCAPES[letter]
        if letter not in HEX_DIGITS:
            self.fail("a backslash begins no such escape; in quotes '..' it stands for itself", start - 1)
        many = HEX_DIGITS[letter]
        code = int(self.take(re.compile(rb"[0-9A-Fa-f]{%d}" % many), f"{many} hexadecimal digits have to follow"), 16)
        if 0xD800 <= code < 0xE000 or code > 0x10FFFF:
            self.fail("there is no character with this number", start - 1)
        return chr(code).encode("utf-8")

    # ---- which table a key is in

    def along_header(self, table, path, at):
        """A header passes through any table that is no value, and into the last one of an array of tables."""
        for key in path:
            node = table.nodes.setdefault(key, OpenTable("implicit", at))
            if isinstance(node, Value):
                self.fail(f"`{key}` is a value, in line {self.line_of(node)}, which no header can add to", at)
            table = node.tables[-1] if isinstance(node, OpenTables) else node
        return table

    def along_dots(self, table, path, at):
        """A dotted key passes through no table that a header made."""
        for key in path:
            node = table.nodes.setdefault(key, OpenTable("dotted", at))
            if not isinstance(node, OpenTable) or node.origin not in ("implicit", "dotted"):
                self.fail(f"`{key}` came before, in line {self.line_of(node)}, and a dotted key can't add to it", at)
            node.origin = "dotted"
            table = node
        return table

    def add_table(self, table, key, at):
        node = table.nodes.setdefault(key, OpenTable("implicit", at))
        if not isinstance(node, OpenTable) or node.origin != "implicit":
            came = f"`{key}` came before, in line {self.line_of(node)}"
            self.fail(f"{came}: where there are several, each has the header `[[{key}]]`", at)
        node.origin, node.at = "header", at
        return node

    def add_to_array(self, table, key, at):
        node = table.nodes.setdefault(key, OpenTables(at))
        if not isinstance(node, OpenTables):
            came = f"`{key}` came before, in line {self.line_of(node)}"
            self.fail(f"{came}: where there are several, each has the header `[[{key}]]`", at)
        return node.add(at)


# ---- truth values, numbers, dates and times; ValueError says why a word is none

def scalar(word):
    if word in ("true", "false"):
        return word == "true"
    if re.match(r"[0-9]+[-:]", word):
        return moment(word)
    if re.match(r"[+-]?[0-9]", word) or word.lstrip("+-") in ("inf", "nan"):
        return number(word)
    raise ValueError("a text stands in quotes")


def number(word):
    radix = {"0x": 16, "0o": 8, "0b": 2}.get(word[:2], 10)
    digit = "[0-9A-Fa-f]" if radix == 16 else "[0-9]"
    if re.search(f"(?<!{digit})_|_(?!{digit})", word):
        raise ValueError("a `_` stands between two digits")
    word = word.replace("_", "")
    if radix != 10:
        digits = {16: "[0-9A-Fa-f]+", 8: "[0-7]+", 2: "[01]+"}[radix]
        if not re.fullmatch(digits, word[2:]):
            raise ValueError(f"its digits are none of radix {radix}")
        return within(int(word[2:], radix), 2**63 - 1)
    sign = -1 if word.startswith("-") else 1
    word = word[1:] if word[0] in "+-" else word
    if word in ("inf", "nan"):
        return sign * float(word)
    found = re.fullmatch(r"(0|[1-9][0-9]*)(\.[0-9]+)?([eE][+-]?[0-9]+)?", word)
    if not found:
        zero = re.fullmatch(r"0[0-9]+", word)
        raise ValueError("a number has no zero before its digits" if zero else "it is no number, and a text stands in quotes")
    if found[2] or found[3]:
        if not math.isfinite(float(word)):
            raise ValueError("it is too large")
        return sign * float(word)
    return sign * within(int(word) if len(word) <= 19 else 2**64, 2**63 - (sign == 1))


def within(value, most):
    if value > most:
        raise ValueError("an integer has at most 64 bits, one of them for its sign")
    return value


DATE = r"([0-9]{4})-([0-9]{2})-([0-9]{2})"
TIME = r"([0-9]{2}):([0-9]{2})(?::([0-9]{2})(?:\.[0-9]+)?)?"
OFFSET = r"(?:[Zz]|[+-]([0-9]{2}):([0-9]{2}))"
NO_MOMENT = "it is no date or time"


def moment(word):
    found = re.fullmatch(TIME, word)
    if found:
        return clock(*found.groups())
    found = re.fullmatch(f"{DATE}(?:[Tt ]{TIME}({OFFSET})?)?", word)
    if not found:
        raise ValueError(NO_MOMENT)
    year, month, day, hour, minute, second, _, off_hour, off_minute = found.groups()
    year, month, day = int(year), int(month), int(day)
    leap = year % 4 == 0 and (year % 100 != 0 or year % 400 == 0)
    days = [31, 29 if leap else 28, 31, 30, 31, 30, 31, 31, 30, 31, 30, 31]
    if not 1 <= month <= 12 or not 1 <= day <= days[month - 1]:
        raise ValueError(NO_MOMENT)
    if int(off_hour or 0) > 23 or int(off_minute or 0) > 59:
        raise ValueError(NO_MOMENT)
    return clock(hour or 0, minute or 0, second)


def clock(hour, minute, second):
    if int(hour) > 23 or int(minute) > 59 or int(second or 0) > 60:
        raise ValueError(NO_MOMENT)
    return Moment()
