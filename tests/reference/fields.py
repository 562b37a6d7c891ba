"""Fields of a binary format. Numbers are little endian, unless another order is given."""


class Cut(Exception):
    """A field's bytes are not all there."""


class Fields:
    """The fields of some bytes, taken one after another."""

    def __init__(self, data, order="little"):
        self.data, self.place, self.order = data, 0, order

    def left(self):
        return len(self.data) - self.place

    def take(self, size):
        if size > self.left():
            raise Cut
        self.place += size
        return self.data[self.place - size : self.place]

    def number(self, size=4):
        return int.from_bytes(self.take(size), self.order)

    def with_length(self, size=4):
        """Bytes after their length, which takes so many bytes."""
        return self.take(self.number(size))


def number(value, size=4):
    return value.to_bytes(size, "little")


def with_length(data):
    return number(len(data)) + data
