"""Makes crates/probe/stdin (questions) and crates/probe/stdout (what they are to be answered), and by vectors_walk.py the same for trial and dump.

    python3 audit/vectors.py

The answers come from audit/model.py, which was written from document 01 alone, and never from the
program. A question is `OP N AT END BYTES`; OPERATIONS below has the letters. First the samples of
01 that concern the bit layer and the operand layer, then edges, then random questions.
"""

import random
import re

import model
import vectors_walk

TOP = 2 ** 64 - 1
INPUT_LIMIT = 60_000        # bytes of stdin, so that the file stays small
RANDOM_QUESTIONS = 600
SEED = 20_240_101


# ---------------------------------------------------------------- answers, by the model

def refused_or(show):
    def text(answer):
        return 'refused %d' % answer[1] if answer[0] == 'refused' else show(answer)
    return text


value_at = refused_or(lambda a: '%d at %d' % (a[1], a[2]))
value_only = refused_or(lambda a: '%d' % a[1])
place_only = refused_or(lambda a: 'at %d' % a[2])
parts = refused_or(lambda a: 'part %d %d then %d' % (a[1].at, a[1].end, a[2]))
range_at = refused_or(lambda a: '%d..%d at %d' % (a[1] + (a[2],)))


def digits(data):
    return data.hex() or '-'


def bytes_only(answer):
    return '-' if answer[0] == 'refused' else digits(answer[1])


def cursor(call, show):
    return lambda n, at, end, data: show(call(model.Cursor(at, end), data, n))


def scalar(kind):
    return lambda n, at, end, data: value_at(model.scalar(data, model.Cursor(at, end), (kind, n)))


def typed(kind, show):
    def answer(n, at, end, data):
        whole = len(data) // 8 * 8
        store = [int.from_bytes(data[k:k + 8], 'little') for k in range(0, whole, 8)]
        return show(model.typed(kind, store, at, end))
    return answer


def header(n, at, end, data):
    parsed = model.parse(data)
    if parsed == 1:
        return 'refused 1'
    magic, magic2, version, offset, size, cpu = parsed[0]
    return 'magic=%08x version=%d offset=%d size=%d cpu=%d magic2=%08x' % (
        magic, version, offset, size, cpu, magic2)


def stream(n, at, end, data):
    parsed = model.parse(data)
    return '-' if parsed == 1 else digits(bytes(parsed[1]))


OPERATIONS = {
    'r': cursor(lambda c, s, n: c.read(s, n), value_at),
    'p': cursor(lambda c, s, n: c.peek(s, n), value_only),
    'v': cursor(lambda c, s, n: c.read_vbr(s, n), value_at),
    'a': cursor(lambda c, s, n: c.align32(s), place_only),
    's': cursor(lambda c, s, n: c.skip_bytes(s, n), place_only),
    'b': cursor(lambda c, s, n: c.read_bytes(s, n), bytes_only),
    't': cursor(lambda c, s, n: c.take_slice(s, n), parts),
    'l': cursor(lambda c, s, n: c.unconsumed_bit_len(s), str),
    'e': cursor(lambda c, s, n: c.is_at_end(s), lambda so: 'yes' if so else 'no'),
    'i': lambda n, at, end, data: str(model.signed(n)),
    'f': scalar('fixed'), 'w': scalar('vbr'), 'c': scalar('char6'), 'k': scalar('literal'),
    'h': header, 'm': stream,
    'o': lambda n, at, end, data: digits(model.blob(data, at, n)),
    '1': typed('u8', value_at), '2': typed('u16', value_at), '4': typed('u32', value_at),
    '8': typed('u64', value_at), 'z': typed('bool', value_at), 'g': typed('i64', value_at),
    'n': typed('range', range_at),
}

QUESTION = re.compile(r'(.) ([0-9]+) ([0-9]+) ([0-9]+) (-|(?:[0-9A-Fa-f]{2}){1,256})', re.ASCII)


def reply(line):
    """A line of stdout for a line of stdin."""
    if line == '' or line[0] == '#':
        return line
    match = QUESTION.fullmatch(line)
    if not match or match[1] not in OPERATIONS or any(int(match[k]) > TOP for k in (2, 3, 4)):
        return line + ' -> ?'
    data = b'' if match[5] == '-' else bytes.fromhex(match[5])
    return line + ' -> ' + OPERATIONS[match[1]](int(match[2]), int(match[3]), int(match[4]), data)


# ---------------------------------------------------------------- what questions are made of

LINES = []


def note(text):
    LINES.append('# ' + text)


def ask(op, n=0, at=0, end=None, data=b''):
    LINES.append('%s %d %d %d %s' % (op, n, at, len(data) if end is None else end, digits(data)))


def pack(*fields):
    """Bytes of fields (value, width), the first one lowest, the last byte filled up with 0."""
    number, width = 0, 0
    for v, w in fields:
        number, width = number + (v << width), width + w
    return number.to_bytes((width + 7) // 8, 'little')


def vbr_chunks(width, count, top=None):
    """`count` chunks of ones, the last one `top` (all its value bits by default) and without "more"."""
    ones = 2 ** (width - 1) - 1
    last = ones if top is None else top
    return [(ones + 2 ** (width - 1), width)] * (count - 1) + [(last, width)]


def numbers(*values):
    return b''.join(v.to_bytes(8, 'little') for v in values)


def wrapper(offset, size, length, version=0, cpu=7):
    """An input of `length` bytes that begins with a wrapper's header."""
    head = b''.join(v.to_bytes(4, 'little') for v in (0x0B17C0DE, version, offset, size, cpu))
    return (head + bytes(range(0xA0, 0xA0 + 60)))[:length]


TEN = bytes.fromhex('5ac396e10f7bd2843db1')
EIGHT = bytes.fromhex('0123456789abcdef')
RAW = bytes.fromhex('4243c0de')


# ---------------------------------------------------------------- 01, "Bench samples"

def samples():
    note('01, bench samples: vbr4 chunks 1011, 0011: 27')
    ask('v', 4, data=pack((0b1011, 4), (0b0011, 4)))
    note('01, bench samples: vbr6 31 in one chunk')
    ask('v', 6, data=pack((0b011111, 6)))
    note('01, bench samples: vbr6 32 as 100000, 000001')
    ask('v', 6, data=pack((0b100000, 6), (0b000001, 6)))
    for v, s in ((0, '0'), (1, '-9223372036854775808'), (2, '1'), (3, '-1'), (TOP, '-9223372036854775807')):
        note('01, bench samples: signed %d: %s' % (v, s))
        ask('i', v)
    note('01, bench samples: Fixed width 1 passes')
    ask('f', 1, data=EIGHT)
    note('01, bench samples: Fixed width 32 passes')
    ask('f', 32, data=EIGHT)
    note('01, bench samples: Fixed width 0 (7 in a definition; the operand itself: 3)')
    ask('f', 0, data=EIGHT)
    note('01, bench samples: Fixed width 33 (7 in a definition; the operand itself: a read of 33 bits)')
    ask('f', 33, data=EIGHT)
    for width in (1, 32, 0, 33):
        note('the same widths of VBR: %d' % width)
        ask('w', width, data=EIGHT)
    note('01, bench samples: vbr5, sixteen chunks 10000 then 00000: 3')
    ask('v', 5, data=pack(*[(0b10000, 5)] * 16, (0, 5)))
    ask('w', 5, data=pack(*[(0b10000, 5)] * 16, (0, 5)))
    note('01, bench samples: empty input: 1')
    ask('h')
    note('01, bench samples: 42 43 C0 DE: accepted')
    ask('h', data=RAW)
    note('01, bench samples: with one 00 behind, with four: the header of each')
    ask('h', data=RAW + bytes(1))
    ask('h', data=RAW + bytes(4))
    note('01, bench samples: the header of the dumped input')
    ask('h', data=bytes.fromhex('4243C0DE210C0000010000000B020100'))
    ask('m', data=bytes.fromhex('4243C0DE210C0000010000000B020100'))


# ---------------------------------------------------------------- edges

def bit_edges():
    note('zero length')
    for op in 'rpvasbtlefwck':
        for n, end in ((0, 0), (1, 0), (1, TOP)):
            ask(op, n, end=end)
    note('one byte short of each size, and just enough')
    for size in (1, 2, 4, 8):
        for op in 'rp':
            ask(op, 8 * size, data=EIGHT[:size - 1])
            ask(op, 8 * size, data=EIGHT[:size])
        for op in 'sbt':
            ask(op, size, data=EIGHT[:size - 1])
            ask(op, size, data=EIGHT[:size])
    note('places: one before the end, at it, one past it, near 2^64')
    for at in (63, 64, 65, TOP - 64, TOP - 63, TOP - 1, TOP):
        for op, n in (('r', 1), ('r', 64), ('p', 1), ('v', 2), ('a', 0), ('l', 0), ('e', 0), ('f', 2), ('c', 0), ('k', 5)):
            ask(op, n, at, data=EIGHT)
    for at in (56, 64, 72, TOP - 63, TOP - 7):
        for op in 'sb':
            for n in (0, 1, 8):
                ask(op, n, at, data=EIGHT)
    note('ends: 0, before the end of the slice, at it, past it, 2^64 - 1')
    for end in (0, 3, 4, 5, 7, 8, 9, TOP):
        for op, n in (('r', 32), ('r', 64), ('v', 8), ('s', 4), ('b', 4), ('t', 4), ('l', 0)):
            ask(op, n, 0, end, EIGHT)
        ask('a', 0, 33, end, EIGHT)
        ask('e', 0, 64, end, EIGHT)
    note('n bits at each place in a byte, over ten bytes')
    for at in range(8):
        for n in (0, 1, 63, 64, 65, TOP):
            ask('r', n, at, 10, TEN)
    for at in (0, 7):
        for n in (0, 1, 63, 64, 65, TOP):
            ask('p', n, at, 10, TEN)
    note('64 bits and the last that are there')
    for at in (15, 16, 17, 72, 73, 79, 80):
        ask('r', 64, at, 10, TEN)
        ask('r', 80 - at if at < 80 else 1, at, 10, TEN)


def vbr_edges():
    note('VBR widths 0, 1, 2, 31, 32, 33 and far above')
    for width in (0, 1, 2, 31, 32, 33, 64, 65, 256, 2 ** 32 + 6, TOP):
        ask('v', width, 3, 10, TEN)
    note('VBR width 1: no value bits')
    for data in ('00', 'ff', 'ff7f', 'fffeff', 'ffffffffffffffffffffffffffffffff', 'ffffffffffffffffffffff0f'):
        ask('v', 1, data=bytes.fromhex(data))
    for width in (2, 3, 4, 5, 6, 7, 8, 9, 16, 17, 22, 31, 32):
        count = -(-64 // (width - 1))
        spare = count * (width - 1) - 64
        note('VBR width %d: 64 value bits; a bit past bit 63; a chunk short; a chunk more, there and not' % width)
        ask('v', width, data=pack(*vbr_chunks(width, count, 2 ** (width - 1 - spare) - 1)))
        if spare:
            ask('v', width, data=pack(*vbr_chunks(width, count, 2 ** (width - 1) - 2 ** (width - 1 - spare))))
            ask('v', width, data=pack(*vbr_chunks(width, count)))
        ask('v', width, data=pack(*vbr_chunks(width, count - 1)))
        ask('v', width, data=pack(*vbr_chunks(width, count + 1, 0)))
        more = pack(*vbr_chunks(width, count + 1, 1))
        ask('v', width, data=more[:(width * count + 7) // 8])
    note('VBR: zero chunks behind a value are no fault; a number that the end cuts off')
    ask('v', 6, data=pack((0b100111, 6), (0b100000, 6), (0, 6)))
    ask('v', 6, data=pack((0b100111, 6), (0b100000, 6)))
    ask('v', 6, 1, 1, data=pack((0b1111111, 7)))


def move_edges():
    note('align: at 0, 1, 31, 32, 33, near the end, at the end')
    for data in (EIGHT, EIGHT[:7], EIGHT[:5], EIGHT[:4]):
        for at in (0, 1, 31, 32, 33, 40, 56, 63, 64):
            ask('a', 0, at, data=data)
    note('skip and bytes: off the byte boundary, of 0 bytes, of 2^64 - 1 bytes, past 2^64')
    for op in 'sb':
        for n, at in ((0, 1), (1, 7), (TOP, 9), (0, 0), (0, 64), (0, 72), (0, TOP), (0, TOP - 7), (8, 0), (9, 0), (7, 8), (8, 8), (3, 24),
                      (TOP, 0), (TOP, 8), (TOP, 64), (TOP // 8, 0), (TOP // 8 + 1, 0), (TOP // 8 + 1, 8), (2 ** 61, 0), (1, TOP - 7), (8, TOP - 63)):
            ask(op, n, at, data=EIGHT)
    note('take_slice: off 32 bits, short, whole, none')
    for n, at in ((0, 8), (4, 16), (TOP, 31), (0, 0), (4, 0), (8, 0), (9, 0), (4, 32), (5, 32), (0, 64), (0, 96), (1, 64), (3, 32), (TOP, 0), (TOP, 32),
                  (2 ** 61, 0), (0, TOP - 31), (4, TOP - 31)):
        ask('t', n, at, data=EIGHT)
    for end in (3, 4, 6, TOP):
        ask('t', 4, 0, end, EIGHT)


def scalar_edges():
    note('Char6: all 64 letters')
    for v in range(64):
        ask('c', 0, 2, data=pack((1, 2), (v, 6)))
    note('Char6: N has no effect; five bits are too few')
    ask('c', TOP, data=pack((63, 6)))
    ask('c', 0, 3, data=b'\xff')
    note('literal: any number, at any place')
    for n, at in ((0, 0), (TOP, 0), (5, 9), (TOP, TOP)):
        ask('k', n, at, data=b'\x00')
    note('Fixed and VBR as read and vbr have them')
    for op in 'fw':
        for n in (0, 1, 2, 31, 32, 33, 64, 65, TOP):
            ask(op, n, 5, data=TEN)
    note('signed: around 0, 2^63 and 2^64')
    for n in (4, 5, 6, 7, 2 ** 63 - 2, 2 ** 63 - 1, 2 ** 63, 2 ** 63 + 1, TOP - 2, TOP - 1, 2 ** 32, 2 ** 32 + 1):
        ask('i', n)


def header_edges():
    note('header: 0 to 4 bytes, of another magic and of the wrapper magic')
    for data in (RAW, wrapper(20, 4, 4)):
        for length in range(5):
            for op in 'hm':
                ask(op, data=data[:length])
    note('header: other magics')
    for data in ('00000000', 'ffffffff', 'dec0170b', '0b17c0de', 'dec0170a00', '4243c0de0102030405'):
        for op in 'hm':
            ask(op, data=bytes.fromhex(data))
    note('wrapper of 19, 20, 23, 24 bytes')
    for length in (5, 19, 20, 23, 24):
        for op in 'hm':
            ask(op, data=wrapper(20, 4, length))
    for offset, size, length in ((0, 20, 20), (16, 4, 20), (0, 4, 19)):
        for op in 'hm':
            ask(op, data=wrapper(offset, size, length))
    note('wrapper: offset below 20, at 20, behind; size 0, 3, 4, to the end, past it; both near 2^32')
    for offset, size in ((0, 4), (0, 24), (0, 28), (4, 8), (19, 4), (19, 9), (20, 0), (20, 3), (20, 4), (20, 5), (20, 8), (20, 9), (21, 7), (21, 8),
                         (24, 4), (24, 3), (25, 4), (28, 0), (28, 4), (29, 4), (2 ** 32 - 1, 4), (20, 2 ** 32 - 1), (2 ** 32 - 4, 4),
                         (2 ** 32 - 1, 2 ** 32 - 1), (2 ** 32 - 16, 32)):
        for op in 'hm':
            ask(op, data=wrapper(offset, size, 28, 3, 2 ** 32 - 1))
    note('wrapper around a wrapper: magic2 is no header')
    ask('h', data=wrapper(20, 8, 20) + bytes.fromhex('dec0170b01020304'))
    ask('m', data=wrapper(20, 8, 20) + bytes.fromhex('dec0170b01020304'))
    note('blobs (place AT, length N): at the start, in the stream, to its end, past it, none, near 2^64')
    for data in (RAW + EIGHT, wrapper(20, 8, 30)):
        for n, at in ((0, 0), (1, 0), (8, 0), (9, 0), (4, 0), (4, 4), (5, 4), (3, 4), (0, 8), (1, 8), (0, 9), (0, TOP), (1, TOP), (TOP, 0), (TOP, 1),
                      (TOP, TOP), (4, TOP - 3), (5, TOP - 3), (2 ** 63, 2 ** 63)):
            ask('o', n, at, data=data)
    note('blobs of a refused header')
    for n, at in ((0, 0), (1, 0)):
        ask('o', n, at, data=wrapper(20, 8, 27))
        ask('o', n, at)


def typed_edges():
    limits = {'1': 2 ** 8, '2': 2 ** 16, '4': 2 ** 32, '8': 2 ** 64, 'z': 2, 'g': 2 ** 64}
    note('typed operands: at each limit')
    for op, limit in limits.items():
        for v in sorted({0, 1, 2, 3, 255, 256, 65535, 65536, 2 ** 32 - 1, 2 ** 32, 2 ** 63, 2 ** 63 + 1, limit - 1, min(limit, TOP), TOP}):
            if v <= 3 or abs(v - limit) <= 1 or v == TOP or op == 'g':
                ask(op, 0, 0, 1, numbers(v))
    note('typed operands: none left, place outside the store, at > end, a rest of fewer than eight bytes')
    store = numbers(1, 0, 1)
    for op in '1248zgn':
        for at, end in ((0, 3), (2, 3), (3, 3), (0, 0), (1, 1), (2, 1), (3, 4), (3, TOP), (2, TOP), (TOP, TOP), (TOP - 1, TOP), (TOP, 0), (2 ** 32, TOP)):
            ask(op, 0, at, end, store)
        ask(op, 0, 0, 1)
        ask(op, 0, 0, 1, store[:7])
        ask(op, 0, 1, 2, store[:15])
    note('range: one operand left, by the list and by the store')
    ask('n', 0, 0, 1, numbers(1, 2))
    ask('n', 0, 1, 2, numbers(1, 2))
    ask('n', 0, 1, 3, numbers(1, 2))
    ask('n', 0, 1, TOP, numbers(1, TOP))
    note('range: sums 2^64 - 1 and 2^64, and far above')
    for start, length in ((0, 0), (5, 6), (TOP, 0), (0, TOP), (1, TOP), (TOP, 1), (1, TOP - 1), (2 ** 63, 2 ** 63 - 1), (2 ** 63, 2 ** 63), (TOP, TOP)):
        ask('n', 0, 0, 2, numbers(start, length))
    note('a list in the midst of a store')
    for op in '1248zgn':
        ask(op, 0, 1, 3, numbers(TOP, 1, 70000, 300))


def line_edges():
    note('lines that are no question, an empty line, and a comment with no space')
    LINES.extend(['', '#', '#r 1 0 1 ff', ' ', '?', 'r', 'r 1', 'r 1 0', 'r 1 0 1', 'r 1 0 1 ', 'r 1 0 1 f', 'r 1 0 1 fff', 'r 1 0 1 0g', 'r 1 0 1 ff ',
                  ' r 1 0 1 ff', 'r  1 0 1 ff', 'r 1 0 1  ff', 'r 1 0 1 ff ff', 'rr 1 0 1 ff', 'x 1 0 1 ff', 'R 1 0 1 ff', 'r -1 0 1 ff', 'r +1 0 1 ff',
                  'r 1 0 1 --', 'r 1 0 1 -f', 'r 0x1 0 1 ff', 'r 1a 0 1 ff', 'r 1 / 1 ff', 'r 1 : 1 ff', 'r 1 0 1 ff\t', 'r\t1 0 1 ff', 'r 1 0 1 G0', 'r 1 0 1 @0',
                  'r 1 0 1 0`', 'r 1 0 1 /0', 'r 1 0 1 0:', '- 1 0 1 ff', '0 1 0 1 ff', '3 1 0 1 ff', '5 0 0 1 0000000000000000', 'r 1 0 18446744073709551616 ff',
                  'r 18446744073709551616 0 1 ff', 'r 1 18446744073709551620 1 ff', 'r 1 0 99999999999999999999 ff', 'r 1 0 100000000000000000000 ff'])
    note('lines that are: upper case digits, zeros before a number, the largest number')
    LINES.extend(['r 8 0 1 FF', 'r 16 0 2 aBcD', 'r 0008 000 0001 ff', 'r 1 0 00000000000000000000000000018446744073709551615 ff',
                  'r 00000000000000000000000000018446744073709551616 0 1 ff'])
    note('256 bytes, and one more')
    LINES.append('l 0 0 256 ' + '5a' * 256)
    LINES.append('l 0 0 257 ' + '5a' * 257)
    LINES.append('b 256 0 256 ' + bytes(range(256)).hex())
    LINES.append('8 0 31 32 ' + numbers(*range(100, 132)).hex())


# ---------------------------------------------------------------- random questions

def random_place(rng, size, unit):
    """A place in units, mostly on or near what `size` of them have."""
    pick = rng.random()
    if pick < 0.75:
        return rng.randrange(size + 1)
    if pick < 0.95:
        return max(0, size + rng.randrange(-unit, unit + 1))
    return rng.choice((TOP, TOP - rng.randrange(1, 130), 2 ** 32, 2 ** 61 + rng.randrange(9)))


def random_number(rng):
    width = rng.choice((1, 2, 7, 8, 9, 15, 16, 17, 31, 32, 33, 63, 64))
    return rng.randrange(2 ** width)


def random_cursor(rng, op):
    length = rng.randrange(13)
    data = bytes(rng.choice((0, 0x80, 0xff, rng.randrange(256))) for _ in range(length))
    at = random_place(rng, 8 * length, 8)
    if op in 'sbt':
        grid = rng.choice((8, 32, 32, 32) if op == 't' else (1, 8, 8, 8))
        at = at // grid * grid
        n = random_place(rng, length, 2)
    else:
        n = rng.choice((rng.randrange(1, 12), rng.randrange(1, 33), rng.randrange(66), random_place(rng, 64, 4)))
    return n, at, rng.choice((length, length, length, TOP, rng.randrange(14))), data


def random_header(rng, op):
    length = rng.randrange(40)
    if rng.random() < 0.3:
        data = bytes(rng.randrange(256) for _ in range(rng.randrange(10)))
    else:
        offset = rng.randrange(0, 34)
        size = rng.choice((max(0, length - offset), rng.randrange(16), 4))
        data = wrapper(offset, size, length, random_number(rng) % 2 ** 32, random_number(rng) % 2 ** 32)
    left = max(0, len(data) - 4)
    at = rng.randrange(min(left, 8) + 2)
    n = rng.choice((rng.randrange(5), max(0, left - at), TOP - rng.randrange(9)))
    return (n, at, 0, data) if op == 'o' else (0, 0, 0, data)


def random_typed(rng, op):
    count = rng.randrange(1, 4)
    store = [random_number(rng) % rng.choice((2, 2 ** 8, 2 ** 16, 2 ** 64)) for _ in range(count)]
    data = numbers(*store) + bytes(rng.choice((0, 0, 3)))
    end = random_place(rng, count, 1)
    return 0, rng.choice((0, 0, max(0, count - 2), count - 1, random_place(rng, count, 1))), rng.choice((count, count, end)), data


def random_questions(rng):
    note('%d random questions' % RANDOM_QUESTIONS)
    letters = list(OPERATIONS)
    for k in range(RANDOM_QUESTIONS):
        op = letters[k % len(letters)]
        if op == 'i':
            ask(op, random_number(rng))
            continue
        make = random_header if op in 'hmo' else random_typed if op in '1248zgn' else random_cursor
        n, at, end, data = make(rng, op)
        ask(op, n, at, end, data)


def main():
    samples()
    bit_edges()
    vbr_edges()
    move_edges()
    scalar_edges()
    header_edges()
    typed_edges()
    line_edges()
    random_questions(random.Random(SEED))
    questions = ''.join(line + '\n' for line in LINES)
    assert len(questions) <= INPUT_LIMIT, '%d bytes of questions' % len(questions)
    vectors_walk.write('probe', questions.encode(), ''.join(reply(line) + '\n' for line in LINES).encode())
    vectors_walk.main()


if __name__ == '__main__':
    main()
