#!/usr/bin/env python3
"""Writes commands on random tables from a seed, for the program `replay`.

    tools/sample.py SEED COUNT > commands

Of the tables a part is whole, and the others have turned bits, a stream that is cut short, a false size in the header,
a bad glyph, or too little room.
"""

import random
import sys

from tables import INSTRUCTED, MORE, Table, assembled, box, component, packed, u16


def data_size(row):
    return 1 if row < 84 else 2 if row < 120 else 3 if row < 124 else 4


class Source(random.Random):
    def chance(self, p):
        return self.random() < p

    def sides(self):
        return box(*(self.randint(-32768, 32767) for _ in range(4)))

    def spelled(self, value):
        return b'\xfd' + u16(value) if self.chance(0.1) else packed(value)

    def point(self):
        """Rows 124 and above with small steps, so that most positions stay inside 16 bits."""
        row = self.randrange(128)
        data = bytearray(self.randbytes(data_size(row)))
        if row >= 124:
            data[0] &= 0x0F
            data[2] &= 0x0F
        return row | self.choice([0, 0x80]), bytes(data)

    def simple(self, table):
        counts = [self.choice([1, 1, 2, 3, 5]) for _ in range(self.randint(1, 3))] + [0] * self.chance(0.1)
        hints = self.randbytes(self.choice([0, 0, 1, 7]))
        table.simple([self.spelled(n) for n in counts], [self.point() for _ in range(sum(counts))], hints,
                     self.sides() if self.chance(0.3) else None, self.spelled(len(hints)))

    def composite(self, table, boxed=True):
        parts, instructed = [], False
        count = self.choice([1, 1, 2, 4])
        for k in range(count):
            flags = self.getrandbits(16) & ~MORE & ~(0 if self.chance(0.3) else INSTRUCTED)
            flags |= MORE if k + 1 < count else 0
            instructed = instructed or bool(flags & INSTRUCTED)
            scales = 1 if flags & 0x08 else 2 if flags & 0x40 else 4 if flags & 0x80 else 0
            parts.append(component(flags, self.getrandbits(16), self.randbytes(4 if flags & 1 else 2),
                                   self.randbytes(2 * scales)))
        table.composite(parts, self.randbytes(self.choice([0, 2])) if instructed else None,
                        self.sides() if boxed else None)

    def glyphs(self, table, count):
        for _ in range(count):
            make = self.choices([self.simple, self.composite, lambda t: t.empty()], [5, 3, 2])[0]
            make(table)
        return table


def turned(source, table):
    data = bytearray(table.bytes())
    for _ in range(source.randint(1, 3)):
        data[source.randrange(len(data))] ^= 1 << source.randrange(8)
    return bytes(data)


def cut(source, table):
    pieces = table.pieces()
    k = source.randrange(7)
    pieces[k] = pieces[k][:source.randint(0, len(pieces[k]))]
    return assembled(len(table.bits), pieces)


def false_size(source, table):
    data = bytearray(table.bytes())
    at = source.choice([5] + list(range(11, 36, 4)))
    data[at] = (data[at] + source.choice([1, -1, 4, 100])) % 256
    return bytes(data)


def bad_glyph(source, table):
    what = source.randrange(3)
    if what == 0:
        table.empty(source.sides())
    elif what == 1:
        source.composite(table, boxed=False)
    else:
        table.simple([1], [(source.randint(124, 127), u16(source.choice([32767, 32768, 32769])) + u16(0))])
    return source.glyphs(table, source.randrange(2)).bytes()


def room(source, table):
    """Mostly as many places as the table could fill."""
    pieces = [len(piece) for piece in table.pieces()]
    lengths = [len(table.bits), pieces[1], pieces[2], pieces[4] // 6, pieces[6], 0, 0]
    if source.chance(0.2):
        lengths = [source.randint(0, length) for length in lengths]
    return 'room ' + ' '.join(map(str, lengths))


def main():
    source = Source(sys.argv[1])
    for i in range(int(sys.argv[2])):
        table = source.glyphs(Table(), source.choice([0, 1, 2, 3, 5]))
        print('# random table %d' % i)
        print(room(source, table))
        make = source.choice([lambda s, t: t.bytes()] * 3 + [turned, turned, cut, false_size, bad_glyph])
        print('unpack', make(source, table).hex())
        print('glyphs')
        if source.chance(0.2):
            print('glyph', source.randrange(6))
        if source.chance(0.2):
            print('lists')
        if source.chance(0.1):
            print('strike')
            print('glyphs')


if __name__ == '__main__':
    main()
