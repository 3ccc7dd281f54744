"""Words of scripts and reports: numbers, bytes, and how values are told."""


class BadWord(Exception):
    """A word that is none of its form."""


class Some:
    """An option that has a value; None stands for one that has none."""

    __slots__ = ("value",)

    def __init__(self, value):
        self.value = value


U32, U64 = 2**32 - 1, 2**64 - 1


def read_number(word, most):
    """Decimal, or 0o and octal digits; no needless leading zero."""
    digits, base, allowed = (word[2:], 8, b"01234567") if word[:2] == b"0o" else (word, 10, b"0123456789")
    if not digits or any(digit not in allowed for digit in digits):
        raise BadWord
    if len(digits) > 1 and digits[:1] == b"0":
        raise BadWord
    if len(digits) > 30:
        raise BadWord
    number = int(digits, base)
    if number > most:
        raise BadWord
    return number


def read_switch(word):
    """The word 0 or 1."""
    if word not in (b"0", b"1"):
        raise BadWord
    return word == b"1"


def stands_for_itself(byte):
    """Whether a byte is written as itself: visible ASCII, but for the percent sign."""
    return 0x21 <= byte <= 0x7E and byte != 0x25


def read_bytes(word):
    """A byte word; each list of bytes has one spelling."""
    if word == b"%-":
        return b""
    if not word:
        raise BadWord
    read, place = bytearray(), 0
    while place < len(word):
        byte = word[place]
        if byte != 0x25:
            if not stands_for_itself(byte):
                raise BadWord
            read.append(byte)
            place += 1
            continue
        digits = word[place + 1:place + 3]
        if len(digits) < 2 or any(digit not in b"0123456789abcdef" for digit in digits):
            raise BadWord
        meant = int(digits, 16)
        if stands_for_itself(meant):
            raise BadWord
        read.append(meant)
        place += 3
    return bytes(read)


BYTE_TEXTS = [chr(byte) if stands_for_itself(byte) else f"%{byte:02x}" for byte in range(256)]


def write_bytes(data):
    """The byte word of a list of bytes."""
    if not data:
        return "%-"
    return "".join([BYTE_TEXTS[byte] for byte in data])


def text_of(value):
    """A value's text: its name where it has one, then its fields, parted by spaces."""
    if isinstance(value, str):
        return value
    if isinstance(value, bool):
        return "1" if value else "0"
    if isinstance(value, int):
        return str(value)
    if isinstance(value, (bytes, bytearray)):
        return write_bytes(value)
    if value is None:
        return "-"
    if isinstance(value, Some):
        return "+ " + text_of(value.value)
    if isinstance(value, tuple):
        return " ".join([text_of(part) for part in value])
    if isinstance(value, list):
        return " ".join([str(len(value))] + [text_of(part) for part in value])
    raise TypeError(value)


class Words:
    """The words of a line, read from the left."""

    def __init__(self, words):
        self.words = words
        self.place = 0

    def word(self):
        if self.place >= len(self.words):
            raise BadWord
        self.place += 1
        return self.words[self.place - 1]

    def number(self, most):
        return read_number(self.word(), most)

    def u32(self):
        return self.number(U32)

    def u64(self):
        return self.number(U64)

    def switch(self):
        return read_switch(self.word())

    def bytes(self):
        return read_bytes(self.word())

    def option(self, read):
        """A dash, or a plus and what read takes."""
        mark = self.word()
        if mark == b"-":
            return None
        if mark != b"+":
            raise BadWord
        return Some(read())

    def listed(self, read):
        """A length and that many items."""
        length = self.u64()
        if length > len(self.words):
            raise BadWord
        return [read() for _ in range(length)]

    def end(self):
        if self.place != len(self.words):
            raise BadWord
