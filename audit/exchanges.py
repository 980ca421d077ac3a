"""Demand 3 on the model: neighbouring blocks of a log, what is left of the log when they change places, and random pairs of them.

    python3 audit/exchanges.py SEED COUNT       COUNT random pairs with all the demand's hypotheses true: each is exchanged, by the model

A question is (i, j, k, data, skips, events, operands): the blocks in the bytes i..j and j..k of the input change places, and both inputs are walked
with the same skip list and stores of the same sizes. verdict() tells what came of it, in the words of the program trial. The hypotheses have names:
aligned, the first starts on a 32-bit boundary of the stream; clear, neither touches a wrapper's first 20 bytes; quiet, no BLOCKINFO is read as either
or inside either.
"""

import collections
import itertools
import random
import sys

import generate
import model
from items import ARRAY, BLOB, CHAR6, FIXED, LITERAL, MAGIC, VBR, blob, block, define, fields, log, marked, nested, number, pad, record, several, \
    shared, stream, use, vbr, wrapper

EVENTS, OPERANDS = 640, 192     # the stores that a question lends where it says nothing else
MOST_BYTES = 1_500              # of a random input

# failing: the names of the hypotheses that are not true of the pair; depth: how many blocks are open around it
Pair = collections.namedtuple('Pair', 'i j k failing depth')


# ---------------------------------------------------------------- pairs of an accepted walk

def base_of(header):
    """The byte of the input where the stream begins."""
    magic, _, _, offset, _, _ = header
    return offset + 4 if magic == model.WRAPPER_MAGIC else 4


def pair_of(header, a, b):
    """Two blocks, as the places of the input where they stand."""
    i, j, k = [base_of(header) + bit // 8 for bit in (a['first'], a['end'], b['end'])]
    failing = []
    if a['first'] % 32 != 0:
        failing.append('aligned')
    if header[0] == model.WRAPPER_MAGIC and i < 20:
        failing.append('clear')
    if a['loud'] or b['loud']:
        failing.append('quiet')
    return Pair(i, j, k, failing, a['depth'])


def pairs_of(w):
    """The pairs of what walk() gives: one block directly behind the other in the same parent, the first on a whole byte."""
    begins = {each['first']: each for each in w['blocks']}
    behind = ((a, begins.get(a['end'])) for a in sorted(w['blocks'], key=lambda each: each['first']))
    return [pair_of(w['header'], a, b) for a, b in behind if b and a['parent'] is b['parent'] and a['first'] % 8 == 0]


def neighbours(data, skips, events, operands):
    return pairs_of(model.walk(data, skips, events, operands))


# ---------------------------------------------------------------- the verdict

def exchange(i, j, k, data):
    return data[:i] + data[j:k] + data[i:j] + data[k:]


def status(w):
    return model.show(w).split('\n')[0]


def closed(events, start):
    """Where the group ends that begins with the enter or skip event `start`."""
    depth = 0
    for index in range(start, len(events)):
        depth += {model.ENTER: 1, model.LEAVE: -1}.get(events[index][0], 0)
        if depth == 0:
            return index + 1


def group(w, begin, end):
    """(start, end) of the events of the block in the bytes begin..end, or None."""
    base = base_of(w['header'])
    for index, (kind, _, _, at, length, _, _, _) in enumerate(w['events']):
        if kind in (model.ENTER, model.SKIP) and base + at > begin and base + at + length == end:
            return (index, closed(w['events'], index))
    return None


def groups(w, i, j, k):
    """Both groups; an empty first one stands where the second begins, an empty second one where the first ends, both empty at 0."""
    first, second = group(w, i, j), group(w, j, k)
    if first is None:
        first = (second[0], second[0]) if second else (0, 0)
    return first, second or (first[1], first[1])


def held(events):
    """How many operands the events hold."""
    return sum(e[4] + (e[7] if e[5] in (model.ARRAY, model.CHAR6_ARRAY) else 0) for e in events if e[0] == model.RECORD)


def moved(event, by, operands_by):
    """The event with its byte places and operand places moved."""
    kind, number_, a, b, c, d, e, f = event
    if kind in (model.ENTER, model.SKIP):
        return [kind, number_, a, b + by, c, d, e, f]
    if kind == model.RECORD:
        return [kind, number_, a, b + operands_by, c, d, e + (0, operands_by, operands_by, by)[d], f]
    return event


def contents(w, data, event):
    """The operands of a record, and its array's elements or its blob's bytes."""
    kind, _, _, place, count, payload, at, length = event
    if kind != model.RECORD:
        return None
    inside = model.blob(data, at, length) if payload == model.BLOB else w['operands'][at:at + length]
    return (w['operands'][place:place + count], inside if payload != model.NONE else None)


def demanded(events, first, second, i, j, k):
    """For each event of the exchanged input: the old one, and the same moved as demand 3 says."""
    a, b = events[first[0]:first[1]], events[second[0]:second[1]]
    for event in events[:first[0]]:
        yield event, event
    for event in b:
        yield event, moved(event, -(j - i), -held(a))
    for event in a:
        yield event, moved(event, k - j, held(b))
    for event in events[second[1]:]:
        yield event, event


def verdict(i, j, k, data, skips, events, operands):
    """What trial is to say of the exchange."""
    other = exchange(i, j, k, data)
    was, now = model.walk(data, skips, events, operands), model.walk(other, skips, events, operands)
    if was['status'] != 0:
        return 'was ' + status(was)
    if now['status'] != 0:
        return 'is ' + status(now)
    first, second = groups(was, i, j, k)
    if first[1] != second[0]:
        return 'apart'
    wanted = demanded(was['events'], first, second, i, j, k)
    for index, (found, pair) in enumerate(itertools.zip_longest(now['events'], wanted)):
        if found is None or pair is None or found != pair[1] or contents(now, other, found) != contents(was, data, pair[0]):
            return 'differs event=%d' % index
    if len(was['operands']) != len(now['operands']):
        return 'differs operands'
    if was['header'] != now['header']:
        return 'differs header'
    counts = (first[0], first[1] - first[0], second[1] - second[0], len(was['events']) - second[1])
    return 'exchanged before=%d first=%d second=%d behind=%d' % counts


# ---------------------------------------------------------------- random logs

SKIPS = ([], [], [], [8], [9], [200, 9], [10, 1], [0], [8, 9, 0], [1, 200, 10, 4294967295])


class Maker(generate.Maker):
    """A sound log in which blocks often stand one behind the other."""

    def __init__(self, rng, items, skips, deepest):
        generate.Maker.__init__(self, rng, 0, items)
        self.skips, self.deepest = skips, deepest

    def item(self, b, number_, width, depth, shared_, local):
        choice = self.rng.random()
        if choice < 0.45 and depth < self.deepest:
            self.row(b, width, depth, local)
        elif choice < 0.5:
            self.fill(b, width, local, 0)
        else:
            generate.Maker.item(self, b, number_, width, depth, shared_, local)

    def number(self):
        """A block number, often one that has shared abbreviations."""
        known = [n for n in self.shared if n]
        return self.rng.choice(known) if known and self.chance(0.4) else generate.Maker.number(self)

    def body(self, number_, width, depth):
        b, local, shared_ = generate.Bits(), [], list(self.shared.get(number_, ()))
        for _ in range(self.rng.choice((0, 1, 2, 3, 4))):
            if self.items > 0 and self.chance(0.5):
                self.item(b, number_, width, depth, shared_, local)
            else:
                self.content(b, width, shared_, local)
        self.finish(b, width)
        return b

    def content(self, b, width, shared_, local):
        """A record, or a use of what is defined here, defined just before if nothing is."""
        useless = ([], [('array', 0)], [('blob', 0)])       # no scalar operand
        known = [(4 + k, operands) for k, operands in enumerate(shared_ + local) if k + 4 < 2 ** width and operands[:1] not in useless]
        if self.chance(0.2):
            self.record(b, width, self.value(), [self.value() for _ in range(self.rng.choice((0, 1, 2)))])
        elif known and self.chance(0.7):
            abbreviation, operands = self.rng.choice(known)
            self.use(b, abbreviation, width, operands)
        else:
            b.put(2, width)
            local.append(self.define(b, self.abbreviation()))

    def fill(self, b, width, local, rest):
        """Makes the next item begin at the bit `rest` of a word, by a record and, for an odd number of bits, a definition."""
        if len(b.bits) % 32 == rest:
            return
        if (len(b.bits) + width) % 2:
            b.put(2, width)
            local.append(self.define(b, [('literal', 1)] if width % 2 else [('char6', 0)]))
        count = next(n for n in range(16) if (len(b.bits) + width + 12 + 6 * n) % 32 == rest)
        self.record(b, width, self.rng.randrange(32), [self.rng.randrange(32) for _ in range(count)])

    def row(self, b, width, depth, local):
        """Blocks one behind the other."""
        if self.chance(0.6):
            self.fill(b, width, local, self.rng.choice((0, 0, 0, 8, 16, 24)))
        for _ in range(self.rng.choice((2, 2, 2, 3, 4))):
            self.items -= 1
            if self.chance(0.05):
                self.block_info(b, width)
            else:
                self.block(b, width, depth)

    def block(self, b, outer, depth):
        number_, width, known = self.number(), self.width(), {n: list(defined) for n, defined in self.shared.items()}
        body = self.body(number_, width, depth + 1)
        if number_ in self.skips:       # what it defines is not read, and anything may stand in it
            self.shared = known
            if self.chance(0.4):
                width, body = self.rng.choice(generate.ODD_WIDTHS), generate.Bits()
                for _ in range(self.rng.choice((0, 0, 1, 2))):
                    body.put(self.rng.getrandbits(32), 32)
        self.enter(b, outer, number_, width, body)

    def chain(self, b, outer, depth, levels):
        """Blocks one in the other, with a row in the innermost and at times around one of them."""
        number_ = self.rng.choice([n for n in generate.NUMBERS if n not in self.skips])
        width, body, local = self.rng.choice((3, 3, 4, 5)), generate.Bits(), []
        if self.chance(0.2):
            self.item(body, number_, width, depth + 1, list(self.shared.get(number_, ())), local)
        if levels > 1:
            self.chain(body, width, depth + 1, levels - 1)
        if levels == 1 or self.chance(0.15):
            self.row(body, width, depth + 1, local)
        self.finish(body, width)
        self.enter(b, outer, number_, width, body)

    def stream(self):
        b, local = generate.Bits(), []
        if self.chance(0.3):
            self.block_info(b, 2)
        if self.chance(0.3):
            self.items -= 3
            self.chain(b, 2, 0, self.rng.choice((2, 4, 8, 16, 30, 31)))
        while self.items > 0:
            self.item(b, model.TOP_LEVEL, 2, 0, [], local)
        if self.chance(0.3):    # END_BLOCK at the top level, and what is unread behind it
            b.put(0, 2)
            b.pad()
            b.put(self.rng.getrandbits(24), 24)
        b.pad()
        return b.bytes()


def in_wrapper(rng, offset, data):
    """A wrapper around a stream that begins at the byte offset + 4; from 16 bytes on that may be one of the wrapper's own."""
    head = wrapper(offset, len(data) + 4, b'', rng.getrandbits(32), rng.getrandbits(32))
    gap = bytes(rng.getrandbits(8) for _ in range(max(0, offset - 16)))
    return (head + gap)[:offset + 4] + data + bytes(rng.randrange(5))


def plain(rng):
    """(data, skips), the stream behind a magic word or behind a wrapper."""
    skips = rng.choice(SKIPS)
    data = Maker(rng, rng.randint(2, 12), skips, rng.choice((1, 2, 3, 4))).stream()
    if rng.random() < 0.6:
        return MAGIC + data, skips
    return in_wrapper(rng, rng.choice((16, 16, 17, 18, 19, 20, 20, 21, 24)), data), skips


def told(rng):
    """Abbreviations of one literal each, in BLOCKINFO and in blocks, so that every use tells which one was found."""
    return MAGIC + generate.history(rng), []


def on_cpu(rng):
    """A stream whose first byte is one of a wrapper's cpu type."""
    skips = rng.choice(SKIPS)
    maker, b = Maker(rng, rng.randint(1, 5), skips, 2), generate.Bits()
    maker.row(b, 2, 0, [])
    b.pad()
    return in_wrapper(rng, rng.choice((12, 12, 13, 14, 15)), b.bytes()), skips


def on_size(rng):
    """A stream that begins at a wrapper's size, or at its version: skipped blocks of width 0, so that the head of one is the size."""
    a, b = sorted([rng.randint(10, 30), rng.randint(10, 30)], reverse=rng.random() < 0.7)
    base, b_words = rng.choice((4, 12)), rng.choice((0, 0, 1, 2))
    a_words = 0 if base == 4 else rng.choice((0, 1, 2))     # from the version on, the first's length is the offset
    parts = [block(n, 0, end=False, junk=bytes(rng.getrandbits(8) for _ in range(4 * words))) for n, words in ((a, a_words), (b, b_words))]
    parts += [record(1, 2), record(3, 4)]                   # five bytes; then records of four, so that each such size is one of whole items
    parts += [record(rng.randrange(32), 5, 6, 7) for _ in range(max(a, b) - 6 - a_words - b_words)]
    return wrapper(base - 4, 0, b'')[:base] + stream(*parts).bytes(), [a, b]


def lent(rng, filled):
    """The size of a store: just enough, or roomy."""
    return filled + rng.choice((0, 0, 1, 7, 8, rng.randrange(200)))


def logs(rng, kinds):
    """Without end: (w, data, skips, events, operands) of accepted inputs, w being what walk() gives."""
    while True:
        data, skips = rng.choice(kinds)(rng)
        if len(data) > MOST_BYTES or len(data) > 300 and rng.random() < 0.5:
            continue
        w = model.walk(data, skips, 4_000, 4_000)
        if w['status'] == 0:
            yield w, data, skips, lent(rng, 8 * len(w['events'])), lent(rng, len(w['operands']))


def drawn(rng, failing, kinds, most):
    """Without end: (pair, question) of pairs of which just these hypotheses are not true, at most so many of a log."""
    for w, *rest in logs(rng, kinds):
        found = [pair for pair in pairs_of(w) if pair.failing == failing]
        for pair in rng.sample(found, min(most, len(found))):
            yield pair, (pair.i, pair.j, pair.k, *rest)


def sound(rng, most=2):
    """Pairs of which all hypotheses are true."""
    return drawn(rng, [], (plain,), most)


def unsound(rng):
    """Pairs of which one hypothesis is not true, each in its turn."""
    kinds = (('aligned', (plain,)), ('clear', (on_cpu, on_size)), ('quiet', (plain, told, told)))
    for each in zip(*[drawn(rng, [name], makers, 1) for name, makers in kinds]):
        yield from each


def anywhere(rng):
    """Any three places of random logs, of which most make the exchanged input refused: one in eight of those."""
    for _, data, *rest in logs(rng, (plain, plain, on_cpu, on_size)):
        i, j, k = sorted(rng.choice((rng.randrange(len(data) + 1), 4 * rng.randrange(len(data) // 4 + 1))) for _ in range(3))
        if rng.random() < 0.12 or not verdict(i, j, k, data, *rest).startswith('is '):
            yield i, j, k, data, *rest


def cases(seed, count):
    """So many pairs, every sixth with a hypothesis that is not true."""
    rng = random.Random(seed)
    good, bad = sound(rng), unsound(rng)
    for index in range(count):
        yield next(bad if index % 6 == 5 else good)


# ---------------------------------------------------------------- by hand: (comment, hypotheses that fail, question)

def asked(comment, failing, data, skips=(), which=0, events=EVENTS, operands=OPERANDS):
    """The question about one of the pairs of a log, of which just these hypotheses fail."""
    pair = neighbours(data, skips, events, operands)[which]
    assert pair.failing == failing, (comment, pair)
    return comment, failing, (pair.i, pair.j, pair.k, data, skips, events, operands)


def empty(number_):
    """A block of width 0 without a body, to be skipped."""
    return block(number_, 0, end=False)


def inside_wrapper(offset, *items, size=0):
    """A wrapper whose stream begins at one of its own words: from there on the items' bytes stand instead of its numbers."""
    return wrapper(offset, size, b'')[:offset + 4] + stream(*items).bytes()


def edges():
    """Pairs of which all hypotheses are true, at the edges of what they allow."""
    yield asked('the whole stream is the pair: two skipped blocks of no body, of 8 bytes each', [], log(empty(8), empty(9)), [8, 9])
    yield asked('the whole stream is the pair: two entered blocks', [], log(block(8, 3), block(9, 3)))
    yield asked('the same block twice', [], log(block(8, 3, record(1, 2)), block(8, 3, record(1, 2))))
    yield asked('a skipped block of no body before one that is entered', [], log(empty(8), block(9, 3, record(1, 2, 3))), [8])
    yield asked('a skipped block of no body behind one that is entered', [], log(block(9, 3, record(1, 2, 3)), empty(8)), [8])
    yield asked('in 31 open blocks: the two are the 32nd', [], log(nested(31, block(50, 2), block(51, 2, record(1)))))
    yield asked('in 32 open blocks: only skipped ones can stand there', [], log(nested(32, empty(50), empty(51))), [50, 51])
    yield asked('in one open block: the first is 31 blocks, one in the other', [], log(block(7, 2, nested(31, record(1, 2)), block(50, 2))))
    pair = stream(block(8, 3, record(1, 2)), block(9, 3)).bytes()
    for offset in (16, 17, 20, 24):
        data = wrapper(offset, len(pair) + 4, bytes(offset - 16) + pair)
        yield asked('a wrapper: the first byte of the first block is byte %d' % (offset + 4), [], data)
    data = inside_wrapper(12, record(1, 2, 3, 4), block(8, 3, record(1, 2)), block(9, 3), size=len(pair) + 8)
    yield asked('a wrapper whose cpu type is a record of the stream; the first block begins behind it, at byte 20', [], data)
    yield asked('a wrapper, with bytes behind its stream', [], wrapper(20, len(pair) + 4, MAGIC + pair + bytes(7)))
    junk = block(8, 3, block(9, 3, junk=b'\xff' * 4), block(10, 3, record(1), junk=b'\x55' * 8), junk=b'\xff' * 8)
    yield asked('in a parent with junk behind its END_BLOCK; both have junk behind theirs', [], log(junk))
    yield asked('at the top level, END_BLOCK and junk behind the two', [], log(block(8, 3, record(1, 2)), block(9, 3), number(0), pad(), fields((2 ** 32 - 1, 32))))
    yield asked('behind a record of 32 bits, before records', [], log(record(1, 2, 3, 4), block(8, 3, record(5, 6)), block(9, 3, record(7, 8, 9)), record(10, 11)))
    data = log(block(7, 3, define((LITERAL, 1), (BLOB,)), use(4, blob(b'abcde')), block(8, 3, record(2)), block(9, 3), use(4, blob(b'fgh'))))
    yield asked('behind a blob, before another', [], data)
    data = log(block(8, 3, record(1, 2, 3)), block(9, 3, record(4, 5)))
    yield asked('stores just large enough', [], data, [], 0, 48, 3)
    yield asked('an event store of 7 numbers more', [], data, [], 0, 55, 3)


def payloads():
    """Pairs with arrays, Char6 arrays, blobs and abbreviations of BLOCKINFO in them."""
    word, text = define((LITERAL, 1), (ARRAY,), (CHAR6,)), use(4, vbr(3, 6), fields((2, 6), (27, 6), (62, 6)))
    numbers, some = define((FIXED, 5), (VBR, 4), (ARRAY,), (VBR, 6)), use(4, fields((7, 5)), vbr(99, 4), vbr(3, 6), vbr(1, 6), vbr(40, 6), vbr(2 ** 64 - 1, 6))
    parts, bits = define((LITERAL, 3), (FIXED, 1), (BLOB,)), use(4, fields((1, 1)), blob(b'casing'))
    blocks = {'array': block(8, 4, numbers, some, some), 'Char6 array': block(9, 4, word, text), 'blob': block(10, 4, parts, bits, bits)}
    for first in blocks:
        for second in blocks:
            if first != second:
                yield asked('%s, then %s' % (first, second), [], log(record(1, 5), block(7, 3, blocks[first], blocks[second], record(1, 6))))
    known = [shared(8, numbers), shared(9, word, parts), shared(10, parts)]
    uses = [block(8, 4, some), block(9, 4, text, use(5, fields((0, 1)), blob(b'ply'))), block(10, 4, bits)]
    for which in range(2):
        yield asked('abbreviations of BLOCKINFO, pair %d of 2' % (which + 1), [], log(*known, *uses), [], 2 + which + 1)
    yield asked('BLOCKINFO before, between two pairs, and behind', [], log(shared(8, numbers), uses[0], uses[0], shared(9, word, parts), uses[1], uses[1],
                                                                          shared(10, parts), uses[2]), [], 4)
    yield asked('BLOCKINFO in the parent', [], log(block(7, 3, *known, *uses, shared(7, word))), [], 3)
    many = [marked(k) for k in range(32)]
    yield asked('each of the two takes all the room for local abbreviations', [], log(block(8, 6, *many, use(4)), block(9, 6, *many, use(35))))


def off_boundary():
    start = define((LITERAL, 0))                            # 16 bits
    yield asked('the first starts on a byte, but not on "a 32-bit boundary of the stream": the second\'s length is read past its place; refused', ['aligned'],
                log(start, empty(8), block(9, 8, end=False)), [8, 9])
    yield asked('the same, without a skip list', ['aligned'], log(start, block(8, 3), block(9, 3)))
    yield asked('not on "a 32-bit boundary of the stream": accepted, but the half of a length is an END_BLOCK, and the first is not met', ['aligned'],
                log(start, empty(8), empty(9)), [8, 9])
    moved_on = several(number(1), vbr(129, 8), vbr(0, 4), pad(), fields((1, 32), (0, 16)), start)
    yield asked('not on "a 32-bit boundary of the stream": accepted, with both, but the length of 129 is read from its body', ['aligned'],
                log(start, empty(8), moved_on), [8, 129])
    yield asked('not on "a 32-bit boundary of the stream", in a parent', ['aligned'],
                log(block(7, 2, start, block(8, 3), block(9, 3))))


def with_blockinfo():
    layout, own = shared(9, marked(5)), marked(6)
    yield asked('"no BLOCKINFO inside either": the first\'s defines 4 for the second, which then has no 4; refused', ['quiet'],
                log(block(8, 3, layout), block(9, 3, use(4))))
    yield asked('"no BLOCKINFO inside either": 4 is the first\'s BLOCKINFO\'s before and the second\'s own after: another code', ['quiet'],
                log(block(8, 3, layout), block(9, 3, own, use(4))))
    yield asked('"no BLOCKINFO inside either": the same, two blocks deep in the first', ['quiet'],
                log(block(8, 3, block(10, 3, layout)), block(9, 3, own, use(4))))
    yield asked('"no BLOCKINFO inside either": the second\'s defines 4 for the first: its own before, that one after', ['quiet'],
                log(block(9, 3, own, use(4)), block(8, 3, layout)))
    yield asked('"no BLOCKINFO read as either": the first is one, and what it defines is used in the second; refused', ['quiet'],
                log(layout, block(9, 3, use(4))))
    yield asked('"no BLOCKINFO read as either": the first is one; 4 is its before and the second\'s own after', ['quiet'],
                log(layout, block(9, 3, own, use(4))))
    yield asked('"no BLOCKINFO read as either": the second is one; 4 is the first\'s own before and the second\'s after', ['quiet'],
                log(block(9, 3, own, use(4)), layout))
    yield asked('"no BLOCKINFO read as either": the second is one, with an empty definition that the first then uses; refused', ['quiet'],
                log(block(9, 3, own, use(4)), shared(9, define())))
    yield asked('"no BLOCKINFO read as either": both are, and the order of their definitions tells in a block behind', ['quiet'],
                log(layout, shared(9, own), block(9, 3, use(4))))


def on_wrapper():
    cut = [record(1, 2), record(3, 4), record(5, 6, 7, 8)]  # 5 bytes, then 4
    yield asked('"neither touching a wrapper\'s 20 bytes": the first\'s head is the cpu type', ['clear'], inside_wrapper(12, empty(8), empty(9), size=20), [8, 9])
    yield asked('"neither touching a wrapper\'s 20 bytes": the first\'s first byte is the last of the 20', ['clear'],
                inside_wrapper(15, empty(8), empty(9), size=20), [8, 9])
    yield asked('"neither touching a wrapper\'s 20 bytes": the first\'s head is the size, 25; the second\'s would be 29, past the end: refused with 1', ['clear'],
                inside_wrapper(8, empty(6), empty(7), *cut[:2]), [6, 7])
    yield asked('"neither touching a wrapper\'s 20 bytes": the first\'s head is the size, 29; the second\'s is 25: the last event is lost', ['clear'],
                inside_wrapper(8, empty(7), empty(6), *cut), [6, 7])
    yield asked('"neither touching a wrapper\'s 20 bytes": the first\'s head is the version, the second\'s the size, 25, then 29: an event too many', ['clear'],
                inside_wrapper(0, empty(7), empty(6), *cut), [6, 7])
    yield asked('"neither touching a wrapper\'s 20 bytes": the first\'s length is the offset, 0, and the second\'s is 1: refused with 1', ['clear'],
                inside_wrapper(0, empty(7), block(7, 0, end=False, junk=bytes(4)), *cut[:2]), [7])


def counterexamples():
    """For each hypothesis, pairs of which it alone fails and that are not exchanged."""
    yield from off_boundary()
    yield from with_blockinfo()
    yield from on_wrapper()


def others():
    """What the demand doesn't speak of: no pair of blocks, or no accepted input, or BLOCKINFO without harm: (comment, question)."""
    roomy, data = (EVENTS, OPERANDS), log(block(8, 3, record(1, 2)), block(9, 3, record(3, 4, 5)))
    info = shared(8, marked(5))
    yield 'the input is refused', (4, 4, 4, log(block(8, 3, use(4))), [], *roomy)
    yield 'the input is refused, with 1', (0, 0, 0, b'', [], *roomy)
    yield 'no room for an event', (4, 16, 28, data, [], 47, OPERANDS)
    yield 'no room for an operand', (4, 16, 28, data, [], EVENTS, 2)
    yield ('the blocks are not "one directly behind the other": a record is between them',
           (4, 16, 32, log(block(8, 3), record(1, 2, 3, 4), block(9, 3, record(1))), [], *roomy))
    yield ('the blocks are not "in the same parent": the end of the first\'s is between them',
           (12, 24, 40, log(block(7, 3, block(8, 3)), block(9, 3)), [], *roomy))
    yield 'the first is a BLOCKINFO that nothing depends on', (4, 20, 32, log(info, block(9, 3)), [], *roomy)
    yield 'the second is a BLOCKINFO that nothing depends on', (4, 16, 32, log(block(9, 3), info), [], *roomy)
    yield 'both are BLOCKINFO, and nothing depends on their order', (4, 20, 36, log(info, shared(9, marked(5)), block(9, 3, use(4))), [], *roomy)
    for i, j, k in ((4, 4, 16), (4, 16, 16), (0, 0, 0), (28, 28, 28), (0, 4, 8), (4, 8, 12), (4, 12, 16), (16, 24, 28), (4, 16, 20), (5, 16, 28), (4, 5, 28),
                    (0, 28, 28), (0, 4, 28)):
        yield 'any places of an accepted input', (i, j, k, data, [], *roomy)
    for i, j, k in ((12, 16, 16), (12, 12, 16), (11, 16, 16), (24, 28, 28), (16, 24, 24)):
        yield 'a body alone is no block, nor is a head', (i, j, k, data, [], *roomy)
    yield from parts()


def parts():
    """Bytes that are no blocks change places: contents alone, or numbers of the header alone."""
    data = log(block(8, 8, define((LITERAL, 1), (BLOB,)), define((LITERAL, 2), (FIXED, 8), (FIXED, 8)), define((FIXED, 2), (ARRAY,), (FIXED, 8)),
                     define((FIXED, 2), (ARRAY,), (CHAR6,)), use(4, blob(b'aabc')), use(5, fields((10, 8), (11, 8))),
                     use(6, fields((1, 2)), vbr(3, 6), fields((7, 8), (7, 8), (9, 8))),
                     use(7, fields((1, 2)), vbr(8, 6), fields(*[(k, 6) for k in range(8)]))))
    at = data.index(b'aabc')
    for comment, i, j, k in (('two bytes of a blob, the same', 0, 1, 2), ('two bytes of a blob', 1, 2, 3), ('two operands', 5, 6, 7),
                             ('two elements of an array, the same', 9, 10, 11), ('two elements of an array', 10, 11, 12), ('four letters and four', 14, 17, 20)):
        yield comment, (at + i, at + j, at + k, data, [], EVENTS, OPERANDS)
    for i in (0, 2):
        yield 'bytes of the magic word', (i, i + 1, i + 2, data, [], EVENTS, OPERANDS)
    data = wrapper(20, 36, log(block(8, 3, record(1, 2)), block(9, 3)) + bytes(8), 258, 772)
    for comment, i in (('magic word', 0), ('version', 4), ('offset', 8), ('size', 12), ('cpu type', 16), ('magic word inside', 20)):
        yield 'bytes of a wrapper\'s ' + comment, (i, i + 1, i + 2, data, [], EVENTS, OPERANDS)


if __name__ == '__main__':
    depths, seed, count = collections.Counter(), int(sys.argv[1]), int(sys.argv[2])
    for pair, question in itertools.islice(sound(random.Random(seed)), count):
        said = verdict(*question)
        if not said.startswith('exchanged '):
            sys.exit('NOT EXCHANGED: %s\n%r\n%s' % (said, question, question[3].hex()))
        depths[pair.depth] += 1
    print('%d pairs, all exchanged; so many open blocks around them: ' % count + ', '.join('%d %d times' % each for each in sorted(depths.items())))
