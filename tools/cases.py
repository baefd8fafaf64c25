#!/usr/bin/env python3
"""Writes the commands of hand-made cases, for the program `replay`.

    tools/cases.py > commands
    tools/cases.py --check ANSWERS     holds a file of answers to what is expected here

What is expected of an answer is all of it, its first line, or how that begins. Where nothing is expected, the answer
is only shown.
"""

import itertools
import sys

from tables import INSTRUCTED, MORE, STREAMS, Table, assembled, be, box, component, packed, step, u16

COMMANDS = []  # (line, what is expected of its answer or None); comments are lines too

ROOMY = '8 16 64 16 64 4 4'
DOT = [step(0, 0)]


def say(line, expected=None):
    COMMANDS.append((line, expected))


def case(name, room=ROOMY):
    say('# ' + name)
    say('room ' + room, 'ok')


def unpack(table, expected=None):
    if isinstance(table, Table):
        table = table.bytes()
    say('unpack ' + (table.hex() or '-'), expected)


def one(name, table, expected):
    """A table of its own, and what its glyphs are if it is accepted."""
    case(name)
    unpack(table, expected)
    if expected.startswith('ok'):
        say('glyphs')


WORKED = bytes.fromhex(
    '0000' '0000' '0002' '0000' '00000004' '00000001' '00000003' '00000004' '00000000' '00000004' '00000000'
    '00000001' '03' '148b17' '03032500' '00000000')


def worked():
    case('The worked table: points are positions and not steps, and off-curve points count', '4 8 8 4 8 4 4')
    unpack(WORKED, 'ok 2')
    line = 'simple box -1 -4 5 2 ends 2 points -1,-4,1;2,-4,0;5,2,1 instructions -'
    say('glyphs', 'ok 2\nempty\n' + line)
    say('glyph 0', 'ok 1\nempty')
    say('glyph 1', 'ok 1\n' + line)
    say('glyph 2', 'absent')
    say('lists')
    say('strike', 'ok')
    say('glyphs', 'ok 0')
    say('glyph 0', 'absent')
    say('lists')
    case('The worked table, cut short at every byte')
    for length in range(len(WORKED)):
        unpack(WORKED[:length], 'refused 1 65535')
    unpack(WORKED, 'ok 2')


def false_readings():
    case('Steps that come back to the start: positions that are left as steps would end at -9,-9')
    unpack(Table().simple([3], [step(9, 0), step(0, 9), step(-9, -9)]), 'ok 1')
    say('glyph 0', 'ok 1\nsimple box 0 0 9 9 ends 2 points 9,0,1;9,9,1;0,0,1 instructions -')
    case('The off-curve points reach furthest: a box over the others would be 0 0 5 0')
    unpack(Table().simple([4], [step(0, 0), step(3, 20, False), step(2, -20), step(-7, -3, False)]), 'ok 1')
    say('glyph 0', 'ok 1\nsimple box -2 -3 5 20 ends 3 points 0,0,1;3,20,0;5,0,1;-2,-3,0 instructions -')
    case('A box of the table is kept, however wrong')
    unpack(Table().simple([1], DOT, sides=box(7, 8, -9, -32768)), 'ok 1')
    say('glyph 0', 'ok 1\nsimple box 7 8 -9 -32768 ends 0 points 0,0,1 instructions -')
    case('The box of a glyph without one, behind a glyph with one, and points that start at 0,0 again')
    unpack(Table().simple([1], [step(5, 5)], sides=box(1, 2, 3, 4)).simple([1], [step(1, 1)]), 'ok 2')
    say('glyphs')


def full_table():
    """A glyph of each kind, with all that it can have."""
    parts = [component(0x0001 | MORE, 2, u16(300) + u16(65535)),
             component(0x0080 | INSTRUCTED, 1, b'\x05\xfc', u16(1) + u16(-2) + u16(3) + u16(-4))]
    return (Table().empty()
            .simple([1, 2], [step(1, 2), step(3, 4, False), step(-9, -9)], b'\x0a\x0b', box(1, 2, 3, 4))
            .composite(parts, b'\x0c\x0d\x0e', box(-1, -2, -3, -4)))


FULL = '\n'.join((
    'ok 3', 'empty',
    'simple box 1 2 3 4 ends 0;2 points 1,2,1;4,6,0;-5,-3,1 instructions 0a0b',
    'composite box -1 -2 -3 -4 components 0021:2:300,65535:-;0180:1:5,252:1,-2,3,-4 instructions 0c0d0e'))


def cut_streams():
    case('Every stream, cut short at every byte; the whole table at the end')
    table = full_table()
    for k, piece in enumerate(table.pieces()):
        for length in range(len(piece)):
            pieces = table.pieces()
            pieces[k] = piece[:length]
            in_bitmap = STREAMS[k] == 'boxes' and length < 4
            unpack(assembled(3, pieces), 'refused 2 65535' if in_bitmap else 'refused 1')
    unpack(table, 'ok 3')
    say('glyphs', FULL)
    say('lists')


def outside():
    case('A stream that passes the end of the table, by one byte and by far')
    for k in range(7):
        for more in (1, 0xFFFFFFFF - len(full_table().pieces()[k])):
            table = bytearray(full_table().bytes())
            at = 8 + 4 * k
            table[at:at + 4] = be(int.from_bytes(table[at:at + 4], 'big') + more, 4)
            unpack(bytes(table), 'refused 1 65535')
    case('A bitmap of eight bytes in four')
    unpack(assembled(33, [u16(0) * 33, b'', b'', b'', b'', bytes(4), b'']), 'refused 1 65535')
    case('A bitmap of eight bytes that reaches into the instructions')
    unpack(assembled(33, [u16(0) * 33, b'', b'', b'', b'', bytes(4), bytes(4)]), 'refused 2 65535')


def short_reads():
    """Faults of number 1, each in the second glyph."""
    def second(name, table):
        one('The end of ' + name, table, 'refused 1 1')

    def after_empty(contours, *streams):
        pieces = [u16(0) + contours] + list(streams)
        return assembled(2, pieces[:5] + [bytes(4)] + pieces[5:])

    second('the contour counts', after_empty(b'\0', b'', b'', b'', b'', b''))
    second('the point counts', after_empty(u16(2), b'\1', b'', b'', b'', b''))
    second('the point counts, inside a number of two bytes', after_empty(u16(1), b'\xff', b'', b'', b'', b''))
    second('the point counts, inside a number of three bytes', after_empty(u16(1), b'\xfd\0', b'', b'', b'', b''))
    second('the flags', after_empty(u16(1), b'\2', b'\0', b'\0\0\0', b'', b''))
    for row, size in ((0, 1), (84, 2), (120, 3), (124, 4)):
        second('the data of row %d' % row, after_empty(u16(1), b'\1', bytes([row]), bytes(size - 1), b'', b''))
    second('the data, before the length of the instructions', after_empty(u16(1), b'\1', b'\0', b'\0', b'', b''))
    second('the data, inside that length', after_empty(u16(1), b'\1', b'\0', b'\0\xfe', b'', b''))
    second('the instructions', after_empty(u16(1), b'\1', b'\0', b'\0\2', b'', b'\7'))
    parts = component(0x0009, 0, bytes(4), bytes(2))
    for length in range(len(parts)):
        second('a component, %d bytes in' % length, after_empty(u16(-1), b'', b'', b'', parts[:length], b''))
    second('the components, which have to go on', after_empty(u16(-1), b'', b'', b'', component(MORE), b''))
    boxed = Table().empty().simple([1], DOT, sides=b'')
    boxed.put(boxes=bytes(7))
    second('a box', boxed)
    second('a composite\'s box', Table().empty().composite([component(0)], sides=bytes(7)))


def bad_values():
    short_boxes = assembled(1, [u16(0), b'', b'', b'', b'', bytes(3), b''])
    one('Boxes shorter than their bitmap', short_boxes + b'\0', 'refused 2 65535')
    one('That the bitmap passes the end of the table is met first', short_boxes, 'refused 1 65535')
    for count in (-2, -32768):
        one('A contour count of %d' % count, assembled(1, [u16(count), b'', b'', b'', b'', bytes(4), b'']), 'refused 2 0')
    one('An empty glyph with a box', Table().empty().empty(box(0, 0, 0, 0)), 'refused 2 1')
    one('A first contour without points', Table().simple([0, 1], DOT), 'refused 2 0')
    one('A later contour without points', Table().simple([1, 0, 2, 0], DOT * 3), 'ok 1')
    one('65536 points', Table().simple([65535, 1], []), 'refused 2 0')
    one('65535 points, of which the flags are missing', Table().simple([65534, 1], []), 'refused 1 0')
    one('A step of -32768 to the left', Table().simple([1], [step(-32768, 0)]), 'ok 1')
    one('A step of -32768 down', Table().simple([1], [step(0, -32768)]), 'ok 1')
    one('A step of 32767 both ways', Table().simple([1], [step(32767, 32767)]), 'ok 1')
    for dx, dy in ((32768, 0), (0, 32768), (-32769, 0), (0, -32769), (65535, 0), (0, -65535)):
        one('A step of %d,%d' % (dx, dy), Table().simple([1], [step(dx, dy)]), 'refused 2 0')
    for x, y in ((1, 0), (0, 1)):
        one('A position past 32767 by a step of %d,%d' % (x, y),
            Table().simple([2], [step(32767 * x, 32767 * y), step(x, y)]), 'refused 2 0')
        one('A position past -32768 by a step of %d,%d' % (-x, -y),
            Table().simple([2], [step(-32768 * x, -32768 * y), step(-x, -y)]), 'refused 2 0')
        one('From one end to the other, along %d,%d' % (x, y),
            Table().simple([3], [step(-32768 * x, -32768 * y)] + [step(32767 * x, 32767 * y)] * 2), 'ok 1')


def bad_boxes():
    one('A composite glyph without a box', Table().empty().composite([component(0)], sides=None), 'refused 3 1')
    one('Its instructions are read first', Table().composite([component(INSTRUCTED)], sides=None), 'refused 1 0')
    one('Its components are read first', Table().composite([component(MORE)], sides=None), 'refused 1 0')


def rooms():
    need = [3, 2, 3, 2, 5]
    table = full_table()
    for k, name in enumerate(('record', 'end', 'point', 'component', 'instruction byte')):
        short = list(need)
        short[k] -= 1
        case('One %s too few' % name, ' '.join(map(str, short)) + ' 0 0')
        unpack(table, 'refused 5 65535')
        say('glyphs', 'ok 0')
        say('lists')
    case('Just enough room', ' '.join(map(str, need)) + ' 0 0')
    unpack(table, 'ok 3')
    say('glyphs', FULL)
    say('lists')
    case('A fault in the last glyph is met before the lists', '0 0 0 0 0 0 0')
    unpack(full_table().empty(box(0, 0, 0, 0)), 'refused 2 3')
    unpack(WORKED, 'refused 5 65535')
    case('No places, no glyphs', '0 0 0 0 0 0 0')
    unpack(Table(), 'ok 0')
    say('glyphs', 'ok 0')
    say('lists', 'ok 6\nends -\npoints -\ncomponents -\ninstructions -\nfull -\ntail -')


def numbers():
    case('Packed numbers: 506 points and their instructions, in three forms', '3 3 1518 0 1518 0 0')
    table = Table()
    for count in (b'\xff\xfd', b'\xfe\x00', b'\xfd\x01\xfa'):
        table.simple([count], [(0, b'\0')] * 506, bytes(506), length=count)
    unpack(table, 'ok 3')
    say('glyph 0')
    say('glyph 1')
    say('glyph 2')
    case('The limits of the forms, as lengths of instructions', '8 8 8 0 5000 0 0')
    forms = [b'\x00', b'\xfd\x00\x00', b'\xfc', b'\xff\x00', b'\xff\xff', b'\xfe\xff', b'\xfd\x02\xfa']
    table = Table()
    for form, length in zip(forms, (0, 0, 252, 253, 508, 761, 762)):
        table.simple([1], [(0, b'\0')], bytes(length), length=form)
    unpack(table, 'ok 7')
    say('glyphs')


def surplus():
    case('Bytes behind what is read, in every stream and behind the table')
    table = full_table()
    for k in range(8):
        pieces = table.pieces()
        if k < 7:
            pieces[k] += b'\xff\xff'
        unpack(assembled(3, pieces) + (b'\xff' if k == 7 else b''), 'ok 3')
        say('glyphs', FULL)
    case('The first four bytes and the index format say nothing of the glyphs')
    unpack(b'\xff\xff\xff\xff' + WORKED[4:6] + b'\xff\xff' + WORKED[8:], 'ok 2')
    say('glyphs')
    case('Bits of the bitmap behind the last glyph')
    unpack(WORKED[:48] + b'\x3f\xff\xff\xff', 'ok 2')
    case('A box bit in the last byte of a bitmap of eight', '64 0 0 0 0 0 0')
    table = Table()
    for _ in range(63):
        table.empty()
    unpack(table, 'ok 63')
    unpack(table.empty(box(0, 0, 0, 0)), 'refused 2 63')


def components():
    case('Arguments: numbers and shifts, in a byte and in two')
    for flags, args in ((0, b'\xfc\x04'), (2, b'\xfc\x04'), (1, b'\xff\xfc\x00\x04'), (3, b'\xff\xfc\x00\x04')):
        unpack(Table().composite([component(flags, 7, args)]), 'ok 1')
        say('glyph 0')
    case('Scales: none, one, two and four; the first of several marks decides')
    raw = [u16(16384), u16(-32768), u16(1), u16(-1)]
    for flags, count in ((0, 0), (0x08, 1), (0x40, 2), (0x80, 4), (0x48, 1), (0x88, 1), (0xC0, 2), (0xC8, 1)):
        unpack(Table().composite([component(flags, 65535, b'\0\0', b''.join(raw[:count]))]), 'ok 1')
        say('glyph 0')
    case('Bits of the flags outside 1fef are not kept')
    for flags in (0x0010, 0xE010, 0xFE14, 0xF614):
        unpack(Table().composite([component(flags, 1)], b'\x01' if flags & INSTRUCTED else None), 'ok 1')
        say('glyph 0')
    case('Instructions that the middle part alone calls for')
    parts = [component(MORE, 1), component(MORE | INSTRUCTED, 2), component(0, 3)]
    unpack(Table().composite(parts, b'\xab\xcd').simple([1], DOT, b'\xef'), 'ok 2')
    say('glyphs')
    case('None that any part calls for, and none though one calls for them')
    unpack(Table().composite([component(0)]).composite([component(INSTRUCTED)], b''), 'ok 2')
    say('glyphs')


def sequences():
    case('A second table over a first, and refused tables between')
    unpack(full_table(), 'ok 3')
    unpack(WORKED[:51], 'refused 1 65535')
    unpack(Table().empty().composite([component(0)], sides=None), 'refused 3 1')
    say('glyphs', FULL)
    say('lists')
    unpack(WORKED, 'ok 2')
    say('glyphs')
    say('lists')
    say('glyph 2', 'absent')
    unpack(Table(), 'ok 0')
    say('glyphs', 'ok 0')
    say('lists')
    say('strike', 'ok')
    say('lists')
    case('New room is empty')
    say('glyphs', 'ok 0')
    say('lists')


def mistakes():
    case('Lines that are no commands change nothing')
    unpack(WORKED, 'ok 2')
    for line, word in (('unpick', 'command'), ('Unpack 00', 'command'),
                       ('unpack', 'arguments'), ('unpack 00 00', 'arguments'),
                       ('unpack 0', 'bytes'), ('unpack 0g', 'bytes'), ('unpack 0A', 'bytes'), ('unpack --', 'bytes'),
                       ('unpack 0x00', 'bytes'), ('glyph', 'arguments'), ('glyph 1 1', 'arguments'), ('glyph -1', 'number'),
                       ('glyph +1', 'number'), ('glyph one', 'number'), ('glyph 4294967296', 'number'),
                       ('glyphs 1', 'arguments'), ('lists 1', 'arguments'), ('strike 1', 'arguments'),
                       ('room 1 2 3 4 5 6', 'arguments'), ('room 1 2 3 4 5 6 7 8', 'arguments'),
                       ('room 1 2 3 4 5 6 x', 'number'), ('room 1 2 3 4 5 6 4294967296', 'number'),
                       ('room 1 2 3 4 5 6 33554433', 'room')):
        say(line, 'error ' + word)
    say('')
    say('   ')
    say('glyph 4294967295', 'absent')
    say('  glyph   1  ', 'ok 1')
    say('glyphs', 'ok 2')


def before_room():
    say('# Before any room there is none')
    say('glyphs', 'ok 0')
    say('lists', 'ok 6\nends -\npoints -\ncomponents -\ninstructions -\nfull -\ntail -')
    unpack(Table(), 'ok 0')
    unpack(WORKED, 'refused 5 65535')
    unpack(b'', 'refused 1 65535')


def answers(path):
    """What a file of answers has for each command."""
    with open(path, encoding='utf-8') as file:
        lines = iter(file.read().splitlines())
    for line, expected in COMMANDS:
        words = line.split()
        if words and not line.startswith('#'):
            answer = [next(lines)]
            head = answer[0].split()
            if words[0] in ('glyphs', 'glyph', 'lists') and head[0] == 'ok':
                answer += itertools.islice(lines, int(head[1]))
            yield line, expected, answer


def check(path):
    wrong = 0
    for line, expected, answer in answers(path):
        whole = '\n'.join(answer)
        if expected is not None and expected not in (answer[0], whole) and not answer[0].startswith(expected + ' '):
            print('%s\n  expected %s\n  found    %s' % (line, expected, whole))
            wrong += 1
    print('%d of %d answers that are expected here are other' % (
        wrong, sum(expected is not None for _, expected in COMMANDS)))
    return 1 if wrong else 0


def main():
    for part in (before_room, worked, false_readings, cut_streams, outside, short_reads, bad_values, bad_boxes, rooms,
                 numbers, surplus, components, sequences, mistakes):
        part()
    if len(sys.argv) == 3 and sys.argv[1] == '--check':
        return check(sys.argv[2])
    for line, _ in COMMANDS:
        print(line)
    return 0


if __name__ == '__main__':
    sys.exit(main())
