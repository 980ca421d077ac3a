"""Logs by hand, item by item: an item is a function of the bits so far and the width."""

import generate

MAGIC = bytes.fromhex('4243C0DE')


def number(v):
    """A bare abbreviation number, with nothing behind it."""
    return lambda b, width: b.put(v, width)


def fields(*pairs):
    """Fields as they stand: (value, width)."""
    def item(b, width):
        for value, size in pairs:
            b.put(value, size)
    return item


def vbr(value, size, chunks=1):
    return lambda b, width: b.vbr(value, size, chunks)


def several(*items):
    def item(b, width):
        for each in items:
            each(b, width)
    return item


def pad(bit=0):
    return lambda b, width: b.pad(bit)


def record(code, *values, count=None):
    return several(number(3), vbr(code, 6), vbr(len(values) if count is None else count, 6), *[vbr(v, 6) for v in values])


LITERAL, FIXED, VBR, ARRAY, CHAR6, BLOB = 'literal', 1, 2, 3, 4, 5


def operand(kind, value=None):
    if kind == LITERAL:
        return several(fields((1, 1)), vbr(value, 8))
    front = fields((0, 1), (kind, 3))
    return front if value is None else several(front, vbr(value, 5))


def define(*operands, count=None):
    return several(number(2), vbr(len(operands) if count is None else count, 5), *[operand(*each) for each in operands])


def marked(value):
    """A definition whose use tells which one was found: its code is a literal."""
    return define((LITERAL, value))


def use(abbreviation, *items):
    return several(number(abbreviation), *items)


def blob(data, length=None):
    return several(vbr(len(data) if length is None else length, 6), pad(), fields(*[(byte, 8) for byte in data]), pad())


def block(block_number, width, *items, end=True, words=None, junk=b''):
    """A block: its END_BLOCK unless `end` is false, `junk` behind it, and its length unless `words` says another."""
    def item(b, outer):
        body = generate.Bits()
        for each in items:
            each(body, width)
        if end:
            body.put(0, width)
        body.pad()
        for byte in junk:
            body.put(byte, 8)
        body.pad()
        b.put(1, outer)
        b.vbr(block_number, 8)
        b.vbr(width, 4)
        b.pad()
        b.put(len(body.bits) // 32 if words is None else words, 32)
        b.bits += body.bits
    return item


def info(*items, width=3, **how):
    return block(0, width, *items, **how)


def shared(block_number, *definitions):
    return info(record(1, block_number), *definitions)


def stream(*items):
    b = generate.Bits()
    for each in items:
        each(b, 2)
    return b


def log(*items, whole=True):
    """The magic and a stream, filled up to 32 bits unless `whole` is false."""
    b = stream(*items)
    if whole:
        b.pad()
    return MAGIC + b.bytes()


def nested(depth, *innermost, width=2, first=8):
    """So many blocks, one in the other."""
    item = block(first + depth - 1, width, *innermost)
    for level in range(depth - 2, -1, -1):
        item = block(first + level, width, item)
    return item


def wrapper(offset, size, data, version=1, cpu=7):
    head = b''.join(v.to_bytes(4, 'little') for v in (0x0B17C0DE, version, offset, size, cpu))
    return head + data
