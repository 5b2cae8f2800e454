"""Reads bytes, numbers and vectors of the binary format."""


class Unreadable(Exception):
    """The bytes are no module that the tools can read."""


class Vectors(Unreadable):
    """The bytes have a vector type or a vector instruction."""


class Reader:
    """Reads from a place in some bytes up to their end. `floats` has the places of the floating-point types and constants so far."""

    def __init__(self, data):
        self.data, self.at, self.floats = data, 0, []

    def is_at_end(self):
        """Returns whether all bytes have been read."""
        return self.at == len(self.data)

    def take(self, count):
        """Reads this many bytes."""
        if count > len(self.data) - self.at:
            raise Unreadable(f"unexpected end at offset {len(self.data)}")
        self.at += count
        return self.data[self.at - count : self.at]

    def byte(self):
        """Reads a byte."""
        return self.take(1)[0]

    def peek(self):
        """Returns the next byte without reading it."""
        following = self.byte()
        self.at -= 1
        return following

    def number(self):
        """Reads an unsigned LEB128 number of at most ten bytes."""
        value = 0
        for shift in range(0, 70, 7):
            byte = self.byte()
            value |= (byte & 0x7F) << shift
            if byte < 0x80:
                return value
        raise Unreadable(f"a number of more than ten bytes ends at offset {self.at}")

    def signed(self):
        """Reads a signed LEB128 number of at most ten bytes."""
        start = self.at
        value = self.number()
        bits = 7 * (self.at - start)
        return value - (1 << bits) if value >> (bits - 1) else value

    def sized(self):
        """Reads bytes that their number precedes."""
        return self.take(self.number())

    def vector(self, read):
        """Reads the items of a vector, each by calling `read` with this reader."""
        return [read(self) for _ in range(self.number())]
