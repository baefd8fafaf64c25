"""Transformed glyf tables, built glyph by glyph."""


def be(value, size):
    return (value % (1 << 8 * size)).to_bytes(size, 'big')


def u16(value):
    return be(value, 2)


def packed(value):
    """The shortest spelling of a packed number."""
    if value < 253:
        return bytes([value])
    if value < 506:
        return bytes([255, value - 253])
    if value < 762:
        return bytes([254, value - 506])
    return b'\xfd' + u16(value)


def step(dx, dy, on=True):
    """The flag and the data of a point, in the rows that hold any step."""
    row = 124 + (dx >= 0) + 2 * (dy >= 0)
    return (row if on else row | 0x80, u16(abs(dx)) + u16(abs(dy)))


def box(*sides):
    return b''.join(map(u16, sides))


MORE, INSTRUCTED = 0x20, 0x100


def component(flags, index=0, args=b'\0\0', scales=b''):
    return u16(flags) + u16(index) + args + scales


STREAMS = ('contours', 'counts', 'flags', 'data', 'components', 'boxes', 'instructions')


class Table:
    def __init__(self):
        self.streams = {name: b'' for name in STREAMS}
        self.bits = []

    def put(self, **pieces):
        for name, piece in pieces.items():
            self.streams[name] += piece

    def boxed(self, sides):
        self.bits.append(sides is not None)
        self.put(boxes=sides or b'')
        return self

    def empty(self, sides=None):
        self.put(contours=u16(0))
        return self.boxed(sides)

    def simple(self, counts, points, instructions=b'', sides=None, length=None):
        """`counts` are spelled numbers, or plain ones; `length` spells that of the instructions."""
        self.put(contours=u16(len(counts)))
        for count in counts:
            self.put(counts=count if isinstance(count, bytes) else packed(count))
        for flag, data in points:
            self.put(flags=bytes([flag]), data=data)
        self.put(data=length or packed(len(instructions)), instructions=instructions)
        return self.boxed(sides)

    def composite(self, components, instructions=None, sides=box(0, 0, 0, 0)):
        self.put(contours=u16(-1), components=b''.join(components))
        if instructions is not None:
            self.put(data=packed(len(instructions)), instructions=instructions)
        return self.boxed(sides)

    def bitmap(self):
        bitmap = bytearray(4 * ((len(self.bits) + 31) // 32))
        for i, bit in enumerate(self.bits):
            bitmap[i // 8] |= bit << (7 - i % 8)
        return bytes(bitmap)

    def pieces(self):
        """The seven streams, in their order."""
        pieces = dict(self.streams)
        pieces['boxes'] = self.bitmap() + pieces['boxes']
        return [pieces[name] for name in STREAMS]

    def bytes(self):
        return assembled(len(self.bits), self.pieces())


def assembled(count, pieces, index_format=0):
    return be(0, 4) + u16(count) + u16(index_format) + b''.join(be(len(p), 4) for p in pieces) + b''.join(pieces)
