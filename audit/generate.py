"""Inputs for runs of the walk, from a seed: whole logs written bit by bit, with the faults that 01 names.

cases(seed, count) yields (data, skips, events_size, operands_size). As a program: generate.py SEED COUNT
prints how often each status comes by the model, and the sizes of the inputs.
"""

import collections
import random
import sys

import model

NUMBERS = (8, 8, 8, 9, 9, 10, 1, 200)                           # block numbers of a sound log
ODD_NUMBERS = (0, 4294967295, 4294967294, 2 ** 32, 2 ** 32 + 8, 2 ** 63 + 9, 2 ** 64 - 1)
ODD_WIDTHS = (0, 1, 1, 2, 32, 33, 64, 65, 255, 256, 259, 2 ** 40)  # abbreviation widths of blocks
ODD_COUNTS = (7, 40, 300, 2 ** 20, 2 ** 33, 2 ** 60, 2 ** 63, 2 ** 64 - 1)
SCALARS = ('literal', 'fixed', 'fixed', 'vbr', 'vbr', 'char6')


class Bits:
    """A growing list of bits; a field's first bit is its lowest."""

    def __init__(self):
        self.bits = []

    def put(self, value, width):
        self.bits += [value >> k & 1 for k in range(width)]

    def vbr(self, value, width, chunks=1):
        """The number in chunks, padded with empty ones up to `chunks`."""
        while True:
            low, value = value % 2 ** (width - 1), value >> (width - 1)
            chunks -= 1
            more = chunks > 0 or (value > 0 and width > 1)
            self.put(low + (2 ** (width - 1) if more else 0), width)
            if not more:
                return

    def pad(self, bit=0):
        self.bits += [bit] * (-len(self.bits) % 32)

    def bytes(self):
        self.bits += [0] * (-len(self.bits) % 8)
        return bytes(sum(self.bits[k + j] << j for j in range(8)) for k in range(0, len(self.bits), 8))


class Maker:
    """One log. `faults` is the chance of a fault at each point where one can be made."""

    def __init__(self, rng, faults, items):
        self.rng, self.faults, self.items = rng, faults, items
        self.shared = {}    # block number: abbreviations, as far as the maker knows

    def chance(self, p):
        return self.rng.random() < p

    def fault(self, share=1.0):
        return self.chance(self.faults * share)

    def value(self, bits=64):
        """A number below 2^bits, mostly small, at times at the edge."""
        n = self.rng.choice((1, 2, 4, 6, 8, 12, 16, 32, 33, 63, 64))
        v = 2 ** n - 1 if self.chance(0.15) else self.rng.getrandbits(n)
        return v % 2 ** bits

    def number(self):
        return self.rng.choice(ODD_NUMBERS[1:] if self.fault(0.6) else NUMBERS)

    def width(self):
        return self.rng.choice(ODD_WIDTHS) if self.fault() else self.rng.choice((3, 3, 3, 4, 4, 5, 5, 6, 8, 32))

    def vbr(self, b, value, width):
        if self.fault(0.4):     # overlong: empty chunks, up to and past the shift of 64
            last = 64 // max(1, width - 1)
            b.vbr(value, width, self.rng.choice((2, 3, last, last + 1, last + 2)))
        elif self.fault(0.1):   # a chunk that carries bits past bit 63
            b.vbr(self.rng.getrandbits(68), width)
        else:
            b.vbr(value, width)

    # ------------------------------------------------------------------- abbreviations

    def scalar(self):
        kind = self.rng.choice(SCALARS)
        if kind == 'literal':
            return (kind, self.value() if self.chance(0.3) else self.rng.randrange(6))
        if kind == 'char6':
            return (kind, 0)
        low = self.rng.randint(1, 32) if self.chance(0.5) else self.rng.choice((1, 2, 3, 4, 6, 7, 8))
        return (kind, low)

    def abbreviation(self):
        """A list of scalars, with an array and its element, or a blob, at the end."""
        operands = [self.scalar() for _ in range(self.rng.choice((1, 1, 1, 2, 2, 3, 4)))]
        if self.chance(0.06):
            operands = []
        tail = self.rng.randrange(5)
        if tail in (0, 1):
            operands += [('array', 0), ('char6', 0) if self.chance(0.25) else self.scalar()]
        if tail == 2:
            operands += [('blob', 0)]
        return operands

    def put_operand(self, b, operand):
        kind, number = operand
        if kind == 'literal':
            b.put(1, 1)
            self.vbr(b, number, 8)
            return
        code = {'fixed': 1, 'vbr': 2, 'array': 3, 'char6': 4, 'blob': 5}[kind]
        b.put(0, 1)
        b.put(self.rng.choice((0, 3, 5, 6, 7)) if self.fault(0.3) else code, 3)
        if kind in ('fixed', 'vbr'):
            wrong = (0, 0, 33, 33, 64, 255, 256, 300, 2 ** 63)
            self.vbr(b, self.rng.choice(wrong) if self.fault(0.5) else number, 5)

    def define(self, b, operands):
        if self.fault(0.5):     # a payload in the wrong place, in or behind another payload, alone
            operands = self.rng.choice((
                operands + [('array', 0), ('blob', 0)], operands + [('array', 0), ('array', 0)],
                operands + [('array', 0)], [('blob', 0)] + operands, operands + [('blob', 0), ('blob', 0)],
                [('array', 0), ('char6', 0)] + operands, operands + [('array', 0), ('array', 0), ('char6', 0)],
                [('array', 0), ('fixed', 8)], [('blob', 0)], []))
        count = len(operands)
        if self.fault(0.3):
            count = self.rng.choice((0, count + 1, max(0, count - 1), 31, 32, 33, 2 ** 20, 2 ** 64 - 1))
        self.vbr(b, count, 5)
        for operand in operands:
            self.put_operand(b, operand)
        return operands

    def put_value(self, b, operand):
        kind, number = operand
        if kind == 'fixed':
            b.put(self.value(number), number)
        if kind == 'vbr':
            self.vbr(b, 0 if number == 1 else self.value(), number)
        if kind == 'char6':
            b.put(self.rng.randrange(64), 6)

    def use(self, b, number, width, operands):
        b.put(number, width)
        for index, (kind, _) in enumerate(operands):
            if kind == 'array':
                length = self.rng.choice((0, 0, 1, 2, 3, 5))
                self.vbr(b, self.rng.choice(ODD_COUNTS) if self.fault(0.3) else length, 6)
                for _ in range(length):
                    self.put_value(b, operands[-1])
                return
            if kind == 'blob':
                length = self.rng.choice((0, 1, 3, 4, 5, 8))
                self.vbr(b, self.rng.choice(ODD_COUNTS) if self.fault(0.3) else length, 6)
                b.pad(1 if self.chance(0.2) else 0)
                for _ in range(length):
                    b.put(self.rng.getrandbits(8), 8)
                b.pad(1 if self.chance(0.2) else 0)
                return
            self.put_value(b, operands[index])

    # ------------------------------------------------------------------- blocks

    def record(self, b, width, code, values):
        b.put(3, width)
        self.vbr(b, code, 6)
        self.vbr(b, self.rng.choice(ODD_COUNTS) if self.fault(0.3) else len(values), 6)
        for v in values:
            self.vbr(b, v, 6)

    def enter(self, b, outer, number, width, body):
        """An ENTER_SUBBLOCK of the outer width, with the body's bits behind it."""
        b.put(1, outer)
        self.vbr(b, number, 8)
        self.vbr(b, width, 4)
        b.pad()
        words = len(body.bits) // 32
        if self.fault(0.5):
            words = self.rng.choice((0, max(0, words - 1), words + 1, words + 2, 2 ** 30, 2 ** 32 - 1))
        b.put(words, 32)
        b.bits += body.bits

    def finish(self, b, width, end=None):
        """Ends a body: END_BLOCK, or a fault; at times with bytes left behind END_BLOCK."""
        how = end or ('end' if not self.fault() else self.rng.choice(('none', 'cut', 'ones')))
        if how == 'end':
            b.put(0, width)
            b.pad()
            if self.chance(0.12):
                for _ in range(self.rng.choice((1, 1, 2))):
                    b.put(self.rng.getrandbits(32), 32)
        if how == 'cut':        # the last item loses its end
            del b.bits[len(b.bits) // 32 * 32:]
        b.pad(1 if how == 'ones' else 0)

    def body(self, number, width, depth):
        b, local = Bits(), []
        shared = list(self.shared.get(number, ()))      # as they stood at the entry
        width = min(width, 32) or 1
        for _ in range(self.rng.choice((0, 1, 1, 2, 2, 3, 4))):
            if self.items <= 0:
                break
            self.item(b, number, width, depth, shared, local)
        if self.fault(0.3):     # nothing but whole words, and no END_BLOCK
            self.enter(b, width, 8, 3, Bits())
            return b
        self.finish(b, width)
        return b

    def item(self, b, number, width, depth, shared, local):
        self.items -= 1
        known = shared + local
        fits = [k for k in range(len(known)) if k + 4 < 2 ** width]
        choice = self.rng.random()
        if width == 1 or choice < 0.16 and depth < 4:
            self.block(b, width, depth)
        elif choice < 0.20:
            self.block_info(b, width)
        elif choice < 0.42:
            operands = self.abbreviation()
            b.put(2, width)
            local.append(self.define(b, operands))
        elif width > 2 and self.fault(0.5):             # an undefined number
            b.put(min(4 + len(known) + self.rng.choice((0, 0, 1, 3)), 2 ** width - 1), width)
        elif choice < 0.82 and fits:
            k = self.rng.choice(fits)
            self.use(b, k + 4, width, known[k])
        else:
            self.record(b, width, self.value(), [self.value() for _ in range(self.rng.choice((0, 1, 1, 2, 3)))])

    def block(self, b, outer, depth):
        number, width = self.number(), self.width()
        self.enter(b, outer, number, width, self.body(number, width, depth + 1))

    def block_info(self, b, outer):
        width, body, setbid = self.width(), Bits(), None
        w = min(width, 32) or 1
        if not self.fault():
            setbid = self.rng.choice(NUMBERS + (0,))
            self.record(body, w, 1, [setbid])
        for _ in range(self.rng.choice((0, 1, 1, 2, 3)) if w > 1 else 0):
            choice = self.rng.randrange(8)
            letters = [self.rng.choice((65, 97, 195, 169, 255)) for _ in range(self.rng.choice((0, 1, 3)))]
            if self.fault():
                letters.append(self.rng.choice((256, 2 ** 40)))
            if choice < 4:
                body.put(2, w)
                operands = self.define(body, self.abbreviation())
                self.shared.setdefault(setbid, []).append(operands)
            elif choice == 4:
                self.record(body, w, 2, letters)
            elif choice == 5:
                self.record(body, w, 3, [self.value()] + letters)
            elif choice == 6:
                setbid = self.rng.choice(NUMBERS)
                self.record(body, w, 1, [setbid])
            if self.fault(1.5):
                self.info_fault(body, w)
        self.finish(body, w)
        self.enter(b, outer, 0, width, body)

    def info_fault(self, body, w):
        choice = self.rng.randrange(8)
        if choice == 0:
            self.record(body, w, self.rng.choice((0, 4, 31, 256, 257, 2 ** 32 + 1)), [1])
        elif choice == 1:
            self.record(body, w, 1, self.rng.choice(([], [8, 9], [2 ** 32], [2 ** 32], [2 ** 32 + 8])))
        elif choice == 2:
            self.record(body, w, 3, [])
        elif choice == 3:
            body.put(1, w)
        elif choice == 4:
            body.put(min(self.rng.choice((4, 5, 7)), 2 ** w - 1), w)
        else:                   # a record whose operands run past the body
            body.put(3, w)
            body.vbr(choice - 4, 6)
            body.vbr(self.rng.choice((1, 1, 2, 9)), 6)
            body.pad(1)

    def stream(self):
        b = Bits()
        local = []
        while self.items > 0:
            self.item(b, 4294967295, 2, 0, [], local)
        if self.chance(0.3):
            b.put(0, 2)         # END_BLOCK at the top level, and what is unread behind it
            b.pad()
            if self.chance(0.5):
                b.put(self.rng.getrandbits(24), 24)
        elif len(b.bits) % 32:
            b.pad()
        return b.bytes()


# ----------------------------------------------------------------------- kinds of inputs

def plain(rng):
    return Maker(rng, 0, rng.randint(1, 7)).stream()


def faulty(rng):
    return Maker(rng, rng.choice((0.02, 0.05, 0.1, 0.25)), rng.randint(1, 6)).stream()


def info(rng):
    """BLOCKINFO first, then blocks that use it, with few or many faults."""
    m, b = Maker(rng, rng.choice((0, 0, 0.05, 0.3)), 4), Bits()
    for _ in range(rng.choice((1, 1, 2))):
        m.block_info(b, 2)
    for _ in range(rng.choice((0, 1, 2))):
        m.block(b, 2, 1)
    return b.bytes()


def uses(rng):
    """One block that defines and uses, so that each operand kind and width comes often."""
    m, b, body = Maker(rng, rng.choice((0, 0, 0.03, 0.15)), 9), Bits(), Bits()
    width = rng.choice((3, 3, 4, 5, 32))
    known = []
    for _ in range(rng.choice((1, 1, 2, 3))):
        body.put(2, width)
        known.append(m.define(body, m.abbreviation()))
    for _ in range(rng.choice((1, 2, 3))):
        k = rng.randrange(len(known))
        m.use(body, k + 4, width, known[k])
    m.finish(body, width)
    m.enter(b, 2, 8, width, body)
    return b.bytes()


def aimed(rng):
    """Sound but for a single fault: in BLOCKINFO, in a definition, or at the end of a body."""
    m, b, body, width = Maker(rng, 0, 3), Bits(), Bits(), rng.choice((3, 3, 4, 5, 32))
    first = [m.scalar() for _ in range(rng.choice((0, 1, 2)))]
    array, blob, char6 = ('array', 0), ('blob', 0), ('char6', 0)
    bad = rng.choice(([array, blob], [array, blob], [array, array], [array], [blob, char6], [array, char6, char6],
                      [('fixed', rng.choice((0, 33)))], [('vbr', rng.choice((0, 33, 256)))],
                      [array, ('vbr', 33)], [array, ('fixed', 0)]))
    where = rng.randrange(3)
    if where == 0:              # in BLOCKINFO
        if rng.random() < 0.85:
            m.record(body, width, 1, [8])
        choice = rng.randrange(5)
        if choice < 2:
            letters = [rng.choice((0, 65, 255)) for _ in range(rng.choice((0, 1, 2)))]
            m.record(body, width, 2 + choice, [70] * choice + letters + [rng.choice((255, 256, 257, 2 ** 33))])
        elif choice < 4:
            m.info_fault(body, width)
        else:
            body.put(2, width)
            m.define(body, first + bad)
        m.finish(body, width, rng.choice(('end', 'end', 'none')))
        m.enter(b, 2, 0, width, body)
    elif where == 1:            # a definition
        body.put(2, width)
        m.define(body, first + bad)
        m.use(body, 4, width, first)
        m.finish(body, width, 'end')
        m.enter(b, 2, 8, width, body)
    else:                       # a body without its END_BLOCK
        number = rng.choice((8, 9, 4294967295, 4294967294))
        inside = rng.randrange(4)
        if inside == 1:
            m.enter(body, width, 9, 3, m.body(9, 3, 4))
        if inside == 2:
            body.put(2, width)
            m.define(body, [('literal', 5), ('blob', 0)])
            m.use(body, 4, width, [('literal', 5), ('blob', 0)])
        if inside == 3:
            m.record(body, width, 1, [2 ** 20 - 1] * 4)
            m.finish(body, width, rng.choice(('cut', 'ones')))
        m.enter(b, 2, number, rng.choice((width, width, 0, 33)), body)
    return b.bytes()


def history(rng):
    """Abbreviations of one literal each, so that every use tells which one was found."""
    m, b, mark = Maker(rng, 0, 0), Bits(), [10]

    def define(bits, width):
        for _ in range(rng.choice((1, 1, 2))):
            bits.put(2, width)
            m.define(bits, [('literal', mark[0])])
            mark[0] += 1

    def information(bits, outer, inside=8):
        body = Bits()
        for number in rng.choice(((inside,), (inside,), (8,), (9,), (9, 8), (4294967295,))):
            m.record(body, 3, 1, [number])
            define(body, 3)
        if rng.random() < 0.8:
            m.finish(body, 3, 'end')
        else:                   # no SETBID before this one's definition
            body = Bits()
            define(body, 3)
        m.enter(bits, outer, 0, 3, body)

    def block(bits, outer, depth=1):
        body, number = Bits(), rng.choice((8, 8, 8, 8, 9, 4294967295))
        for _ in range(rng.choice((1, 2, 3, 4))):
            act = rng.randrange(8)
            if act < 2:
                define(body, 4)
            elif act < 6:
                body.put(rng.choice((4, 4, 4, 4, 5, 5, 6)), 4)
            elif act == 6:
                information(body, 4, number)
                body.put(rng.choice((4, 4, 5)), 4)
            elif depth < 2:
                block(body, 4, depth + 1)
        m.finish(body, 4, 'end')
        m.enter(bits, outer, number, 4, body)
    for _ in range(rng.choice((2, 3, 3))):
        rng.choice((information, block, block))(b, 2)
    return b.bytes()


def brim(rng):
    """A body that ends with the last bit of an item, or in the midst of one, at a chosen field."""
    m, what = Maker(rng, 0, 0), rng.choice(tuple(range(18)) + (12, 12, 17))
    more = [63] * rng.choice((12, 13, 13, 14, 15))      # chunks of six bits that all ask for more
    six = {                     # BLOCKINFO's items, then a block's: numbers of the width (-1) and fields of six bits
        0: (0, [-1, 3, 9]), 1: (0, [-1, 3, 9, 1]), 2: (0, [-1, 3, 1, 1]), 3: (0, [-1, 3, 1, 1, 8]),
        4: (0, [-1, 3, 1, 1, 8, -1, 3, 2, 3, 32, 8]), 5: (0, [-1, 3, 1, 1, 8, -1, 3, 2, 3, 33]),
        6: (0, [-1, 3, 1, 1, 8, -1, 3, 3, 1]), 7: (0, [-1, 3, 1, 1, 8, -1, 3, 3, 2, 5]), 8: (0, [-1, 3, 2, 1]),
        9: (0, [-1, 3, 3, 0]), 10: (0, [-1, 2]), 11: (0, [-1, 3, 1, 1] + more), 12: (8, [-1, 3, 1, 2] + more),
        13: (8, [-1, 3, 1, 2, 3]), 14: (8, [-1, 3, 1, 2, 3, 4]), 15: (8, [-1, 9]), 16: (8, [-1, 3, 1]), 17: (8, None)}
    number, fields = six[what]
    widths = list(range(2, 33))
    rng.shuffle(widths)
    for width in widths:
        body, code = Bits(), False
        if fields is None:      # an ENTER whose number is too large, with nothing behind
            body.put(1, width)
            body.vbr(rng.choice((2 ** 32, 2 ** 40, 2 ** 32 - 1, 5)), 8)
        for field in fields or ():
            if code:
                body.put(field, width)
            elif field >= 0:
                body.put(field, 6)
            code = field < 0
        if len(body.bits) % 32 == 0:
            break
    else:
        body.pad(1)
    b = Bits()
    m.enter(b, 2, number, width, body)
    return b.bytes()


def bare(rng):
    """The top level alone, ending on any byte: a record of 3 or 7 operands, a definition, END_BLOCK."""
    m, b = Maker(rng, 0, 0), Bits()
    for _ in range(rng.choice((1, 1, 2))):
        m.record(b, 2, rng.randrange(32), [rng.randrange(32) for _ in range(rng.choice((3, 7, 7, 2)))])
    if rng.random() < 0.3:
        b.put(2, 2)
        m.define(b, m.abbreviation())
    return b.bytes()


def deep(rng):
    """31, 32 or 33 open blocks, with something in the innermost one."""
    m, levels = Maker(rng, 0, 0), rng.choice((31, 32, 32, 33, 33))
    body = Bits()
    inside = rng.randrange(4)
    if inside == 0:
        m.block_info(body, 2)
    if inside == 1:
        m.record(body, 2, 7, [1, 2])
    if inside == 2:
        m.enter(body, 2, 77, 3, Bits())
    m.finish(body, 2, rng.choice(('end', 'end', 'none')))
    for level in range(levels):
        outer, b = 2, Bits()
        m.enter(b, outer, 7 if level % 5 == 4 else 8 + level % 3, 2, body)
        if level < levels - 1:
            b.put(0, 2)
            b.pad()
        body = b
    return body.bytes(), rng.choice(([], [77], [77, 0]))


def crowded(rng):
    """32 or 33 definitions: local ones over several blocks, shared ones, or operands of a single one."""
    m, b = Maker(rng, 0, 0), Bits()
    kind, total = rng.randrange(3), rng.choice((31, 32, 32, 33, 33))

    def some(bits, width, count):
        for _ in range(count):
            bits.put(2, width)
            m.define(bits, rng.choice(([], [], [('literal', rng.randrange(9))], [('fixed', 3)])))
        if count and rng.random() < 0.3:
            bits.put(2, width)
            m.define(bits, [('vbr', 33)])
    if kind == 0:
        first = rng.choice((0, 1, 5, 20, total))
        some(b, 2, first)
        rest, again = Bits(), rng.random() < 0.8
        some(rest, 3, total - first)
        rest.put(0, 3)
        rest.pad()
        for number in ((8, 9) if again else (8,)):
            m.enter(b, 2, number, 3, rest)
    elif kind == 1:
        for part in ((total,) if rng.random() < 0.5 else (total // 2, total - total // 2)):
            body = Bits()
            m.record(body, 3, 1, [rng.choice((8, 9))])
            some(body, 3, part)
            m.finish(body, 3, 'end')
            m.enter(b, 2, 0, 3, body)
        use = Bits()
        use.put(rng.choice((4, 19, 20, 35, 36)), 6)
        m.finish(use, 6, 'end')
        m.enter(b, 2, 8, 6, use)
    else:
        body, operands = Bits(), [m.scalar() if rng.random() < 0.2 else ('literal', 1) for _ in range(total - 2)]
        operands += rng.choice(([('array', 0), ('fixed', 4)], [('fixed', 1), ('blob', 0)], [('char6', 0)] * 2))
        body.put(2, 3)
        m.define(body, operands)
        m.use(body, 4, 3, operands)
        m.finish(body, 3, 'end')
        m.enter(b, 2, 8, 3, body)
    return b.bytes()


def noise(rng):
    return bytes(rng.getrandbits(8) for _ in range(rng.randint(0, 24)))


KINDS = (plain,) * 5 + (faulty,) * 6 + (info,) * 5 + (uses,) * 8 + (aimed,) * 4 + (history,) * 4 + (brim,) * 3 \
    + (deep, deep, crowded, crowded, crowded, bare, noise)


def wrap(rng, stream):
    """The magic before the stream, or a wrapper around both, good or bad."""
    plain_log = bytes.fromhex('4243C0DE') + stream
    if rng.random() < 0.04:
        plain_log = bytes(rng.getrandbits(8) for _ in range(4)) + stream
    if rng.random() >= 0.08:
        return plain_log
    behind = bytes(rng.randrange(5))
    offset, size = rng.choice((20, 20, 24)), len(plain_log)
    before = bytes(offset - 20)
    fault = rng.randrange(8)
    if fault == 0:
        size += len(behind) + rng.choice((1, 4, 2 ** 31))
    if fault == 1:
        size = rng.choice((0, 3, 4, 5, 8))
    if fault == 2:
        offset = rng.choice((0, 4, 16, 19, 2 ** 32 - 1))
        size = min(size, 24)
    numbers = (0x0B17C0DE, rng.randrange(3), offset, size, rng.getrandbits(32))
    data = b''.join(n.to_bytes(4, 'little') for n in numbers) + before + plain_log + behind
    return data[:rng.randrange(24)] if fault == 3 else data


def damage(rng, data):
    data = bytearray(data)
    way = rng.randrange(4)
    if way in (0, 1) and len(data) > 4:
        for _ in range(rng.choice((1, 1, 2, 3))):
            bit = rng.randrange(32, 8 * len(data)) if rng.random() < 0.95 else rng.randrange(32)
            data[bit // 8] ^= 1 << bit % 8
    elif way == 2:
        del data[rng.randrange(len(data) + 1):]
    else:
        data += bytes(rng.getrandbits(8) for _ in range(rng.choice((1, 2, 3, 4, 8))))
    return bytes(data)


def sizes(rng, data, skips):
    """Lent stores: mostly ample, at times just enough, one short, or far too small."""
    ample = model.walk(data, skips, 4000, 1000)
    events, operands = ample['before'] or ([], [])
    events_size, operands_size = 8 * 80, 192
    tight = ample['status'] == 16 or ample['status'] == 2 and skips
    exact = 0.3 if tight else 0.08      # as much as is filled before the end or the refusal
    chance = rng.random()
    if chance < exact:
        events_size = 8 * len(events) + rng.choice((0, 0, 1, 7))
    elif chance < exact + 0.1:
        events_size = 8 * rng.randint(0, len(events) + 1) + rng.choice((0, 0, 1, 7))
    chance = rng.random()
    empty_array = events and events[-1][5] in (1, 2) and events[-1][7] == 0
    if chance < (0.4 if empty_array else 0.1):
        operands_size = len(operands)
    elif chance < 0.2 or len(operands) >= 192:
        operands_size = max(0, len(operands) - rng.choice((1, 1, 2, 3, rng.randint(0, len(operands)))))
    return events_size, operands_size


def cases(seed, count):
    rng = random.Random(seed)
    made = 0
    while made < count:
        stream, skips = rng.choice(KINDS)(rng), None
        if isinstance(stream, tuple):
            stream, skips = stream
        data = wrap(rng, stream)
        if len(data) > 120 and rng.random() < 0.7 and len(data) < 300 or len(data) > 600:
            continue
        if rng.random() < 0.2:
            data = damage(rng, data)
        if skips is None:
            skips = rng.choice(([], [], [], [], [0], [8], [8], [9, 0], [200, 9], [10, 1, 8], [4294967295, 2 ** 32 + 8]))
        events_size, operands_size = sizes(rng, data, skips)
        yield data, skips, events_size, operands_size
        made += 1


if __name__ == '__main__':
    counts, lengths = collections.Counter(), []
    for case in cases(int(sys.argv[1]), int(sys.argv[2])):
        counts[model.walk(*case)['status']] += 1
        lengths.append(len(case[0]))
    for status in sorted(counts):
        print('status %d: %d' % (status, counts[status]))
    lengths.sort()
    print('bytes: median %d, nine tenths under %d, most %d'
          % (lengths[len(lengths) // 2], lengths[len(lengths) * 9 // 10] + 1, lengths[-1]))
