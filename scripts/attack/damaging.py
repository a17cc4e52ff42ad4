"""Damages a file by the fields that its format has: changes, swaps, cuts and repeats them."""
from attack.image_fields import Image, as_bytes, fields_of


class Damaged:
    """A file with its fields, from which damaged ones are made."""

    def __init__(self, data):
        self.data, self.order = data, Image(data).order
        self.fields = (fields_of(data) if data[:4] == b"\x7fELF" else [(at, 1) for at in range(len(data))]) or [(0, 1)]

    def damaged(self, pick):
        data = bytearray(self.data)
        for _ in range(pick.choice(TIMES)):
            pick.choice(WAYS)(data, self.field, self.order, pick)
        return bytes(data)

    def field(self, data, pick):
        """A field that the damaged file still has."""
        for _ in range(8):
            at, width = pick.choice(self.fields)
            if at + width <= len(data):
                return at, width
        return 0, min(1, len(data))


TIMES = [1, 1, 1, 2, 3, 8]


def changed(data, field, order, pick):
    at, width = field(data, pick)
    if not width:
        return
    most = (1 << 8 * width) - 1
    number = int.from_bytes(data[at:at + width], "big" if order == ">" else "little")
    wanted = pick.choice([0, 1, most, most >> 1, (most >> 1) + 1, number + 1, number - 1, 2 * number, len(data), pick.randrange(most + 1),
                          number ^ (1 << pick.randrange(8 * width))])
    data[at:at + width] = as_bytes(wanted, width, order)


def swapped(data, field, order, pick):
    (one, width), (other, _) = field(data, pick), field(data, pick)
    if max(one, other) + width <= len(data):
        data[one:one + width], data[other:other + width] = data[other:other + width], data[one:one + width]


def cut(data, field, order, pick):
    at, width = field(data, pick)
    del data[at + pick.randrange(width + 1):]


def repeated(data, field, order, pick):
    at, _ = field(data, pick)
    part = data[at:at + pick.choice([1, 4, 24, 64])]
    if pick.random() < 0.5:
        data[at:at] = part * pick.choice([1, 2, 50])
    else:
        data[at + len(part):at + 2 * len(part)] = part


def from_elsewhere(data, field, order, pick):
    """A number of one field, written over another one, as an offset or a count that fits the file."""
    (one, width), (other, _) = field(data, pick), field(data, pick)
    data[other:other + width] = data[one:one + width]


WAYS = [changed] * 6 + [swapped, cut, repeated, from_elsewhere]
