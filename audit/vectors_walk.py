"""Makes stdin and stdout of crates/trial (questions to the walk) and of crates/dump (one log).

    python3 audit/vectors_walk.py       (vectors.py runs it too)

The answers come from audit/model.py alone, and never from a program. A question is a line
`SKIPS EVENTS OPERANDS BYTES`, or `exchange I J K` and the same; crates/trial/src/main.rt says what each word
is. First the samples of 01, then each refusal, each limit from both sides, what one block may learn of another,
and random logs; then exchanges of two blocks (exchanges.py): by hand, random, and where a hypothesis fails.
"""

import itertools
import pathlib
import random
import re

import exchanges
import generate
import model
from items import MAGIC, LITERAL, FIXED, VBR, ARRAY, CHAR6, BLOB, blob, block, define, fields, info, log, marked, nested, number, operand, pad, \
    record, several, shared, stream, use, vbr, wrapper

TOP = 2 ** 64 - 1
EVENTS, OPERANDS = 640, 192     # the stores that a question lends where it says nothing else
MOST_SKIPS, MOST_STORE, MOST_BYTES = 32, 8_192, 4_096
RANDOM_LOGS = 400
SEED = 20_240_102
SOUND_PAIRS, UNSOUND_PAIRS, ANY_PLACES = 250, 60, 60
PAIR_SEED = 20_240_103

LINES = []


def note(text):
    LINES.append('# ' + text)


def line_of(data, skips, events, operands):
    return '%s %d %d %s' % (','.join(map(str, skips)) or '-', events, operands, data.hex() or '-')


def exchange_line(i, j, k, *lent):
    return 'exchange %d %d %d ' % (i, j, k) + line_of(*lent)


def ask(data, skips=(), events=EVENTS, operands=OPERANDS):
    LINES.append(line_of(data, skips, events, operands))


# ---------------------------------------------------------------- answers, by the model

NUMBERS = r'(-|[0-9]+(?:,[0-9]+)*)'
QUESTION = re.compile(NUMBERS + r' ([0-9]+) ([0-9]+) (-|(?:[0-9A-Fa-f]{2})+)', re.ASCII)
EXCHANGE = re.compile(r'exchange ([0-9]+) ([0-9]+) ([0-9]+) (.*)', re.ASCII)


def question(line):
    """What a line asks, or None."""
    match = QUESTION.fullmatch(line)
    if not match:
        return None
    skips = [] if match[1] == '-' else [int(n) for n in match[1].split(',')]
    data = b'' if match[4] == '-' else bytes.fromhex(match[4])
    fits = len(skips) <= MOST_SKIPS and all(n <= TOP for n in skips) and len(data) <= MOST_BYTES
    if not fits or int(match[2]) > MOST_STORE or int(match[3]) > MOST_STORE:
        return None
    return data, skips, int(match[2]), int(match[3])


def exchange_question(match):
    """What a line that begins like an exchange asks, or None."""
    i, j, k = [int(match[n]) for n in (1, 2, 3)]
    asked = question(match[4])
    return (i, j, k, *asked) if asked and i <= j <= k <= len(asked[0]) else None


def exchange_reply(line, match):
    asked = exchange_question(match)
    return line + '\n' + (exchanges.verdict(*asked) if asked else '?') + '\n'


def reply(line):
    """The lines of stdout for a line of stdin."""
    if line == '' or line[0] == '#':
        return line + '\n'
    match = EXCHANGE.fullmatch(line)
    if match:
        return exchange_reply(line, match)
    asked = question(line)
    if asked is None:
        return line + '\n?\n'
    w = model.walk(*asked)
    behind = w['event_store'][8 * len(w['events']):] + w['operand_store'][len(w['operands']):]
    return line + '\n' + model.show(w) + 'stores=%s\n' % ('left' if any(behind) else 'zero')


# ---------------------------------------------------------------- 01, "Bench samples"

DUMPED = bytes.fromhex('4243C0DE210C0000010000000B020100')


def samples():
    note('01, bench samples: vbr4 chunks 1011, 0011: 27, as the width of a block')
    ask(log(number(1), vbr(8, 8), fields((0b1011, 4), (0b0011, 4)), pad(), fields((1, 32), (0, 32))))
    note('01, bench samples: vbr6 31 in one chunk, 32 as 100000, 000001, as operands')
    ask(log(number(3), vbr(1, 6), vbr(2, 6), fields((0b011111, 6), (0b100000, 6), (0b000001, 6))))
    for width in (1, 32, 0, 33):
        note('01, bench samples: Fixed width %d %s' % (width, 'passes' if width in (1, 32) else 'gives 7'))
        ask(log(define((FIXED, width))))
        ask(log(block(8, 3, define((FIXED, width)))))
    note('01, bench samples: vbr5, sixteen chunks 10000 then 00000: 3')
    ask(log(number(2), fields(*[(0b10000, 5)] * 16, (0, 5))))
    note('01, bench samples: empty input: 1')
    ask(b'')
    note('01, bench samples: 42 43 C0 DE: accepted, no events; with one 00 behind: 2; with four: accepted')
    for zeros in (0, 1, 4):
        ask(MAGIC + bytes(zeros))
    note('01, bench samples: 21 0C 00 00 00 00 00 00 behind the magic: 9, detail 8, place 64')
    ask(MAGIC + bytes.fromhex('210C000000000000'))
    note('01, bench samples: block 8 defines 4; the next block, 9, uses 4: refusal 8, details 4 and 9')
    ask(log(block(8, 3, define((FIXED, 1))), block(9, 3, use(4, fields((1, 1))))))
    note('01, bench samples: the dumped input')
    ask(DUMPED)


# ---------------------------------------------------------------- header

def headers():
    note('header: 0 to 4 bytes, of another magic and of the wrapper magic')
    for length in range(5):
        ask(MAGIC[:length])
        ask(wrapper(20, 4, b'')[:length])
    note('header: any magic word is taken')
    for magic in ('00000000', 'ffffffff', 'dec0170a', '0b17c0de'):
        ask(bytes.fromhex(magic) + DUMPED[4:])
    note('wrapper: good, around the dumped input; with bytes behind it; at 24; with an offset below 20')
    ask(wrapper(20, 16, DUMPED))
    ask(wrapper(20, 16, DUMPED + b'\xff' * 5, 2 ** 32 - 1, 2 ** 32 - 1))
    ask(wrapper(24, 16, b'\xee' * 4 + DUMPED))
    ask(wrapper(0, 4, DUMPED))
    ask(wrapper(16, 4, DUMPED, cpu=0xDEC04342))
    ask(wrapper(16, 8, bytes(4)))
    note('wrapper: alignment counts from the start of the stream, here at byte 25 of the input')
    ask(wrapper(21, 16, b'\xee' + DUMPED))
    note('wrapper: of 19, 20, 23, 24 bytes')
    for length in (19, 20, 23, 24):
        ask(wrapper(20, 4, MAGIC)[:length])
    note('wrapper: size 0, 3, 4, to the end, one past it; offset and size near 2^32')
    for offset, size in ((20, 0), (20, 3), (20, 4), (20, 15), (20, 16), (20, 17), (36, 0), (36, 4), (37, 4), (19, 4), (19, 17), (19, 18),
                         (2 ** 32 - 1, 4), (20, 2 ** 32 - 1), (2 ** 32 - 1, 2 ** 32 - 1)):
        ask(wrapper(offset, size, DUMPED))
    note('wrapper: its stream ends the bits, though more bytes follow')
    ask(wrapper(20, 12, DUMPED))
    ask(wrapper(20, 8, DUMPED))


# ---------------------------------------------------------------- 2 and 3: what can't be read

def cut_short():
    note('2: a stream of a record, a definition and a block, cut at each byte; cut at none of them it is accepted')
    item = stream(record(40, 1, 70), define((LITERAL, 300), (FIXED, 9), (ARRAY,), (CHAR6,)), block(8, 3)).bytes()
    for length in range(len(item) + 1):
        ask(MAGIC + item[:length])
    note('2: no room for the alignment of END_BLOCK, at top level and in a block')
    ask(log(number(0), whole=False))
    ask(log(record(1, 2, 3, 4), number(0), whole=False))
    ask(log(number(1), vbr(8, 8), vbr(3, 4), pad(), fields((1, 32), (0, 24)), whole=False))
    note('2: a body that goes past the end, past its parent, by one word and by 2^32 - 1 words; one that takes the END_BLOCK of its parent in leaves it 9')
    for words in (2, 3, 2 ** 30, 2 ** 32 - 1):
        ask(log(block(8, 3, words=words)))
        ask(log(block(8, 3, block(9, 3, words=words))))
    note('2: a skipped body and a BLOCKINFO that go past the end')
    ask(log(block(8, 3, words=2)), [8])
    ask(log(info(words=2)))
    note('2: a block\'s last bits hold no whole number of its width; a record goes past its body')
    ask(log(block(8, 20, fields((1, 31)), end=False)))
    ask(log(block(8, 3, record(1, 2, 3, count=9), end=False), block(9, 3)))
    note('2: an array, a blob, and the alignment behind a blob go past the body')
    ask(log(block(8, 3, define((LITERAL, 1), (ARRAY,), (FIXED, 32)), use(4, vbr(2, 6), fields((7, 32))), end=False)))
    ask(log(block(8, 3, define((LITERAL, 1), (BLOB,)), use(4, blob(b'abcd', 5)), end=False)))
    ask(log(block(8, 3, define((LITERAL, 1), (BLOB,)), use(4, blob(b'', TOP)), end=False)))
    ask(MAGIC + stream(define((LITERAL, 1), (BLOB,)), number(1), vbr(8, 8), vbr(3, 4), pad(), fields((2, 32))).bytes() + bytes(7))


def overflow():
    long_six = fields(*[(0b100000, 6)] * 12, (0b100000, 6), (0, 6))
    note('3: a chunk at shift 65 in a code, a count, an operand; the last that fits')
    ask(log(number(3), long_six))
    ask(log(number(3), vbr(1, 6), long_six))
    ask(log(number(3), vbr(1, 6), vbr(1, 6), long_six))
    ask(log(number(3), vbr(1, 6), vbr(1, 6), fields(*[(0b100000, 6)] * 12, (0b001111, 6))))
    note('3: bits past bit 63 are dropped: all ones in thirteen chunks of six bits')
    ask(log(number(3), vbr(1, 6), vbr(1, 6), fields(*[(0b111111, 6)] * 12, (0b011111, 6))))
    note('3: overlong numbers are no fault: a block number in ten chunks, a width in twenty-two; one chunk more is')
    for chunks in (2, 10, 11):
        ask(log(number(1), vbr(8, 8, chunks), vbr(3, 4), pad(), fields((1, 32), (0, 32))))
    for chunks in (2, 22, 23):
        ask(log(number(1), vbr(8, 8), vbr(3, 4, chunks), pad(), fields((1, 32), (0, 32))))
    note('3: an overlong operand count, literal and width of a definition')
    for chunks in (2, 16, 17):
        ask(log(number(2), vbr(1, 5, chunks), operand(LITERAL, 7)))
        ask(log(number(2), vbr(1, 5), fields((0, 1), (FIXED, 3)), vbr(8, 5, chunks)))
    for chunks in (2, 10, 11):
        ask(log(number(2), vbr(1, 5), fields((1, 1)), vbr(7, 8, chunks)))
    note('an operand of VBR 1 has no value bits: it is 0, and never gives 3')
    ask(log(block(8, 3, define((LITERAL, 1), (VBR, 1)), use(4, fields((1, 1), (1, 1), (1, 1), (0, 1))))))
    ask(log(block(8, 3, define((LITERAL, 1), (VBR, 1)), use(4, fields(*[(1, 1)] * 20)), pad(1), end=False)))
    note('3: an overlong length of an array and of a blob')
    for chunks in (2, 13, 14):
        ask(log(block(8, 3, define((LITERAL, 1), (ARRAY,), (CHAR6,)), use(4, vbr(1, 6, chunks), fields((30, 6))))))
        ask(log(block(8, 3, define((LITERAL, 1), (BLOB,)), use(4, vbr(1, 6, chunks), pad(), fields((65, 8)), pad()))))
    note('3: a block of width 0, 33, 64, 2^32 + 3; width 1 and 32 pass; a width is judged only with bits left (9 before 3)')
    for width in (0, 33, 64, 2 ** 32 + 3, TOP):
        ask(log(number(1), vbr(8, 8), vbr(width, 4), pad(), fields((1, 32), (0, 32))))
        ask(log(number(1), vbr(8, 8), vbr(width, 4), pad(), fields((0, 32))))
    ask(log(block(8, 1)))
    ask(log(block(8, 32, record(1, 2))))


# ---------------------------------------------------------------- 5, 6, 7, 8: abbreviations

def definitions():
    note('5: encodings 0, 6, 7; array not last but one; blob not last; array in an array')
    for bad in ([(0,)], [(6,)], [(7,)], [(ARRAY,)], [(ARRAY,), (CHAR6,), (CHAR6,)], [(BLOB,), (CHAR6,)], [(ARRAY,), (ARRAY,)], [(ARRAY,), (6,)],
                [(FIXED, 3), (ARRAY,)], [(FIXED, 3), (BLOB,), (BLOB,)], [(ARRAY,), (ARRAY,), (CHAR6,)]):
        ask(log(define(*bad)))
        ask(log(block(8, 4, record(2), define((LITERAL, 1), *bad))))
    note('6: a blob as the element of an array')
    ask(log(define((ARRAY,), (BLOB,))))
    ask(log(block(8, 4, define((LITERAL, 1), (FIXED, 2), (ARRAY,), (BLOB,)))))
    note('7: widths of Fixed and VBR outside 1..32, and at the ends; as the element of an array')
    for kind in (FIXED, VBR):
        for width in (0, 1, 32, 33, 64, 255, 256, 2 ** 32 + 8, TOP):
            ask(log(define((kind, width))))
        ask(log(block(8, 4, define((LITERAL, 1), (ARRAY,), (kind, 33)))))
    note('5: definitions of no operand, of an array alone and of a blob alone are taken; their use is not')
    for alone in ([], [(ARRAY,), (CHAR6,)], [(BLOB,)]):
        ask(log(block(8, 3, define(*alone))))
        ask(log(block(8, 3, define(*alone), use(4, vbr(0, 6), pad()))))
    note('8: numbers that nothing defines, at widths 3 and 32; 8 comes before 5 and before any further bit')
    for width, v in ((3, 4), (3, 7), (4, 15), (32, 4), (32, 2 ** 32 - 1)):
        ask(log(block(9, width, use(v))))
    ask(log(block(9, 3, define(), use(5))))
    ask(log(block(9, 3, define(), use(4))))
    note('operands: each kind with each end of its range; a literal of 64 bits; letters of Char6')
    ask(log(block(8, 3, define((LITERAL, TOP), (LITERAL, 0), (LITERAL, TOP)), use(4))))
    ask(log(block(8, 3, define((FIXED, 32), (FIXED, 1), (FIXED, 32)), use(4, fields((2 ** 32 - 1, 32), (1, 1), (0, 32))))))
    ask(log(block(8, 3, define((VBR, 32), (VBR, 2), (VBR, 32)), use(4, vbr(TOP, 32), vbr(TOP, 2), vbr(0, 32)))))
    ask(log(block(8, 3, define((CHAR6,), (CHAR6,), (CHAR6,)), use(4, fields((0, 6), (62, 6), (63, 6))))))
    note('arrays of each element, empty and not; a literal element takes no bits')
    for element in ((LITERAL, 9), (LITERAL, TOP), (FIXED, 7), (VBR, 4), (CHAR6,)):
        for length in (0, 1, 3, 40):
            bits = {FIXED: fields(*[(k % 128, 7) for k in range(length)]), VBR: several(*[vbr(k, 4) for k in range(length)]),
                    CHAR6: fields(*[(k, 6) for k in range(length)])}.get(element[0], fields())
            ask(log(block(8, 3, define((LITERAL, 1), (FIXED, 3), (ARRAY,), element), use(4, fields((5, 3)), vbr(length, 6), bits))))
    note('blobs: empty, of 1 to 5 bytes; what stands in the padding is not looked at')
    for length in range(6):
        ask(log(block(8, 3, define((LITERAL, 1), (FIXED, 3), (BLOB,)), use(4, fields((5, 3)), blob(bytes(range(200, 200 + length)))), record(7))))
    ask(log(block(8, 3, define((LITERAL, 1), (BLOB,)), use(4, vbr(1, 6), pad(1), fields((65, 8)), pad(1)), number(0), pad(1), end=False)))


# ---------------------------------------------------------------- 9, 16, 20 and the shape of blocks

def blocks():
    note('9: a block whose bits end without END_BLOCK: the place is the end of its body; also of number 4294967295')
    ask(log(block(8, 3, end=False)))
    ask(log(block(8, 3, end=False, words=0)))
    ask(log(block(8, 32, record(1, *range(14)), end=False)))
    ask(log(block(8, 4, block(9, 3, end=False), record(1))))
    ask(log(block(4294967295, 3, end=False)))
    note('20: a block number of 2^32 and above, before its width is read; 2^32 - 1 passes')
    for v in (2 ** 32 - 1, 2 ** 32, 2 ** 32 + 8, 2 ** 63, TOP):
        ask(log(number(1), vbr(v, 8), vbr(3, 4), pad(), fields((1, 32), (0, 32))))
        ask(log(number(1), vbr(v, 8), whole=False))
    ask(log(number(1), vbr(TOP, 8), vbr(3, 4), pad(), fields((1, 32), (0, 32))), [TOP])
    note('16: 32 open blocks pass, the 33rd does not; the detail is its number')
    ask(log(nested(32)))
    ask(log(nested(33)))
    ask(log(nested(32, record(1, 2))), [], 8 * 65)
    note('16 comes behind the body that must fit (2), the skip list and BLOCKINFO, and before 18')
    ask(log(nested(32, block(77, 2, words=9))))
    ask(log(nested(32, block(77, 2))), [77])
    ask(log(nested(32, info(width=2))))
    ask(log(nested(33)), [], 8 * 32)
    ask(log(nested(32)), [], 8 * 31)
    note('a block left at depth 32 makes room for another there')
    ask(log(nested(32, block(77, 2, words=1)), nested(32)), [77], 8 * 130)
    ask(log(block(8, 2, nested(31, first=9), nested(31, first=60))), [], 8 * 130)
    note('top level: END_BLOCK ends the walk, and what is behind it is unread; records carry block 4294967295')
    ask(log(number(0), pad(), fields((TOP, 32))))
    ask(log(block(8, 3), number(0), pad(1), fields((TOP, 32))))
    ask(log(record(5, 6, 7), record(TOP, TOP)))
    ask(log(record(5, 6, 7), block(8, 3), record(8)))
    note('the parent goes on behind the declared length, whatever the body left: END_BLOCK early, junk behind it, a BLOCKINFO that ends early')
    ask(log(block(8, 3, record(1, 2), junk=b'\xff' * 8), record(5)))
    ask(log(block(8, 3, block(9, 4, junk=bytes(4)), record(1, 2), junk=b'\x0b\x02\x01\x00'), block(9, 3)))
    ask(log(info(record(1, 8), junk=b'\xff' * 12), record(5), block(8, 3)))
    note('a body whose length is declared too short: END_BLOCK lies outside it')
    ask(log(block(8, 3, record(1, 2, 3, 4, 5, 6, 7), words=1)))


# ---------------------------------------------------------------- room: 17, 18, 19

def operand_count():
    note('17: 32 operands of an abbreviation pass, 33 do not; array and element count; nothing behind the count is read')
    ask(log(block(8, 3, define(*[(LITERAL, k) for k in range(32)]), use(4))))
    ask(log(block(8, 3, define(*[(LITERAL, k) for k in range(33)]))))
    ask(log(block(8, 3, define(*[(LITERAL, k) for k in range(30)], (ARRAY,), (FIXED, 4)), use(4, vbr(2, 6), fields((3, 4), (9, 4))))))
    ask(log(block(8, 3, define(*[(LITERAL, k) for k in range(31)], (ARRAY,), (FIXED, 4)))))
    ask(log(block(8, 3, define(*[(LITERAL, k) for k in range(31)], (BLOB,)), use(4, blob(b'xyz')))))
    ask(log(block(8, 3, define(*[(LITERAL, k) for k in range(32)], (BLOB,)))))
    for count in (33, 34, 2 ** 32, 2 ** 32 + 1, TOP):
        ask(log(number(2), vbr(count, 5)))


def shared_room():
    note('17: 32 shared abbreviations pass, the 33rd does not, over several BLOCKINFOs and block numbers')
    many = [marked(k) for k in range(33)]
    uses = block(8, 6, *[use(4 + k) for k in (0, 1, 31)])
    ask(log(shared(8, *many[:32]), uses))
    ask(log(shared(8, *many)))
    ask(log(shared(8, *many[:20]), shared(9, *many[20:32]), block(8, 6, use(4), use(23)), block(9, 6, use(4), use(15))))
    ask(log(shared(8, *many[:20]), shared(9, *many[20:33])))
    ask(log(info(record(1, 8), *many[:16], record(1, 9), *many[16:32], record(1, 8), many[32])))
    note('17 comes behind the whole definition: a faulty 33rd gives 7')
    ask(log(shared(8, *many[:32], define((FIXED, 33)))))
    note('leaving a block frees no shared room')
    ask(log(block(7, 3, shared(8, *many[:20])), block(7, 3, shared(8, *many[20:33]))))


def local_room():
    many = [marked(k) for k in range(34)]
    note('17: 32 local abbreviations of one block pass, the 33rd does not; a faulty 33rd gives 7')
    ask(log(block(8, 6, *many[:32], use(4), use(35))))
    ask(log(block(8, 6, *many[:32], use(36))))
    ask(log(block(8, 6, *many[:33])))
    ask(log(block(8, 6, *many[:32], define((VBR, 0)))))
    note('17: over open blocks and the top level together')
    ask(log(*many[:10], block(8, 5, *many[10:20], use(4), use(13), block(9, 5, *many[20:32], use(4), use(15)))))
    ask(log(*many[:10], block(8, 5, *many[10:20], block(9, 5, *many[20:33]))))
    ask(log(*many[:32], block(8, 3)))
    ask(log(*many[:33]))
    ask(log(*many[:32], block(8, 3, many[32])))
    note('freed room is used again: 20 in a block that is left, then 32 in the next; 20 in an inner one, then 12 more outside')
    ask(log(block(8, 5, *many[:20], use(23)), block(9, 6, *many[:32], use(35))))
    ask(log(block(8, 5, *many[:20]), block(9, 6, *many[:33])))
    ask(log(block(8, 6, *many[:12], block(9, 5, *many[12:32], use(23)), *many[12:32], use(4), use(15), use(16), use(35))))
    ask(log(block(8, 6, *many[:12], block(9, 5, *many[12:32]), *many[12:33])))
    note('shared ones take no local room, and local ones no shared room')
    ask(log(shared(8, *many[:32]), block(8, 7, *many[:32], use(4), use(35), use(36), use(67))))
    ask(log(shared(8, *many[:32]), block(8, 7, *many[:33])))


def event_room():
    note('18: room for each event by one: enter, record, leave, skip; a store of 7 more numbers holds no more')
    data = log(block(8, 3, record(1), block(9, 3)))
    for room in range(6):
        ask(data, [9], 8 * room)
        ask(data, [9], 8 * room + 7)
        ask(data, [], 8 * room)
    note('18 for a record comes behind its operands (19) and its bits (2); the end of the top level takes no room')
    ask(log(record(1, 2, 3)), [], 0, 2)
    ask(log(record(1, 2, 3)), [], 0, 1)
    ask(log(record(1, 2, 3, count=9)), [], 0)
    ask(log(number(0)), [], 0)
    note('18 for a skip comes behind the body that must fit, for an enter behind 16')
    ask(log(block(8, 3)), [8], 0)
    ask(log(block(8, 3, words=3)), [8], 0)
    note('BLOCKINFO takes no room')
    ask(log(shared(8, marked(5))), [], 0, 0)


def operand_room():
    note('19: room for operands by one: unabbreviated, abbreviated, literals')
    for room in range(4):
        ask(log(record(1, 2, 3, 4)), [], EVENTS, room)
        ask(log(block(8, 3, define((LITERAL, 1), (FIXED, 4), (LITERAL, 2), (CHAR6,)), use(4, fields((3, 4), (7, 6))))), [], EVENTS, room)
    note('19: room for the elements of an array by one, of literal ones too')
    for room in range(5):
        ask(log(block(8, 3, define((LITERAL, 1), (FIXED, 4), (ARRAY,), (FIXED, 5)), use(4, fields((3, 4)), vbr(3, 6), fields((1, 5), (2, 5), (3, 5))))), [], EVENTS, room)
        ask(log(block(8, 3, define((LITERAL, 1), (ARRAY,), (LITERAL, 6)), use(4, vbr(4, 6)))), [], EVENTS, room)
    note('an empty array needs no room, nor does a code, nor a blob')
    ask(log(block(8, 3, define((LITERAL, 1), (ARRAY,), (FIXED, 5)), use(4, vbr(0, 6)))), [], EVENTS, 0)
    ask(log(block(8, 3, define((LITERAL, 1), (FIXED, 1), (ARRAY,), (CHAR6,)), use(4, fields((1, 1)), vbr(0, 6)), record(9))), [], EVENTS, 1)
    ask(log(block(8, 3, define((FIXED, 9), (BLOB,)), use(4, fields((300, 9)), blob(b'abc')))), [], EVENTS, 0)
    note('19 comes before the operand\'s bits (2), the length of an array before both')
    ask(log(record(1, count=1)), [], EVENTS, 0)
    ask(log(record(1, 5, 6, 7, count=TOP)), [], EVENTS, 3)
    ask(log(block(8, 3, define((LITERAL, 1), (ARRAY,), (FIXED, 32)), use(4, vbr(TOP, 6)))), [], EVENTS, 0)
    ask(log(block(8, 3, define((LITERAL, 1), (ARRAY,), (LITERAL, 3)), use(4, vbr(2 ** 20, 6)))), [], EVENTS, 100)
    note('places of empty lists: the fill mark, behind what is stored')
    ask(log(record(1, 2, 3), block(8, 3, define((LITERAL, 1), (ARRAY,), (CHAR6,)), use(4, vbr(0, 6)), record(9), use(4, vbr(1, 6), fields((62, 6))))))
    note('stores of 8,192 numbers: an array of 8,192 literals fills them, one more does not fit')
    ask(log(block(8, 3, define((LITERAL, 1), (ARRAY,), (LITERAL, TOP)), use(4, vbr(8_192, 6)))), [], 24, 8_192)
    ask(log(block(8, 3, define((LITERAL, 1), (ARRAY,), (LITERAL, 0)), use(4, vbr(8_193, 6)))), [], 8_192, 8_192)
    note('stores of no numbers')
    ask(MAGIC, [], 0, 0)
    ask(log(block(8, 3)), [], 0, 0)


# ---------------------------------------------------------------- BLOCKINFO

def infos():
    note('BLOCKINFO: names and definitions give no event; SETBID 0 is allowed; several numbers')
    ask(log(info(record(1, 8), record(2, 66, 255, 0), record(3, 5, 65), define((FIXED, 3)), record(1, 0), marked(4), record(1, 9), marked(5)), block(9, 3, use(4))))
    ask(log(info()))
    ask(log(block(8, 3, info(), record(1))))
    note('BLOCKINFO, 2: its bits end: no test for the end, in a number, a code, a name, a definition')
    ask(log(info(end=False, words=0)))
    ask(log(info(record(1, 8), width=32, end=False), block(8, 3)))
    ask(log(info(record(1, 8), record(2, 65, 66, count=99), end=False)))
    ask(log(info(record(1, 8), number(2), vbr(3, 5), operand(LITERAL, 5), pad(1), end=False)))
    ask(log(info(fields((3, 3), (63, 6), (63, 6), (63, 6), (63, 6), (63, 5)), end=False)))
    ask(log(info(record(1, 8), number(3), vbr(2, 6), vbr(3, 6), vbr(65, 6), pad(1), end=False)))
    note('BLOCKINFO, 3: a width of 0 or 33, even with no bits; an overlong code, letter and literal')
    for width in (0, 33, 2 ** 40):
        ask(log(number(1), vbr(0, 8), vbr(width, 4), pad(), fields((1, 32), (0, 32))))
        ask(log(number(1), vbr(0, 8), vbr(width, 4), pad(), fields((0, 32))))
    ask(log(info(number(3), vbr(1, 6, 14), vbr(1, 6), vbr(8, 6))))
    ask(log(info(record(1, 8), number(3), vbr(2, 6), vbr(1, 6), vbr(65, 6, 14))))
    ask(log(shared(8, several(number(2), vbr(1, 5), fields((1, 1)), vbr(7, 8, 11)))))
    note('BLOCKINFO, 5, 6, 7: a definition as elsewhere')
    ask(log(shared(8, define((6,)))))
    ask(log(shared(8, define((ARRAY,), (ARRAY,)))))
    ask(log(shared(8, define((ARRAY,), (BLOB,)))))
    ask(log(shared(8, define((VBR, 33)))))
    note('BLOCKINFO, 8: an abbreviation number of 4 and above, with block 0, also where 0 has a definition')
    for width, v in ((3, 4), (3, 7), (32, 2 ** 32 - 1)):
        ask(log(info(record(1, 0), marked(9), number(v), width=width)))
    note('BLOCKINFO, 10: a definition, a name or a record name before SETBID; each BLOCKINFO needs its own; before what follows is read')
    ask(log(info(define((FIXED, 3)))))
    ask(log(info(number(2), vbr(TOP, 5))))
    ask(log(info(record(2, 65))))
    ask(log(info(record(3, 5, 65))))
    ask(log(info(record(3))))
    ask(log(info(record(2))))
    ask(log(shared(8, marked(4)), info(marked(5))))
    note('BLOCKINFO, 11: a block inside it')
    ask(log(info(block(8, 3))))
    ask(log(info(record(1, 8), number(1))))
    note('BLOCKINFO, 12: other codes, before 10; SETBID of no, of two operands, of 2^32 and of one that can\'t be read; code 3 of none')
    for code in (0, 4, 31, 32, 257, 2 ** 32 + 1, TOP):
        ask(log(info(record(code, 8))))
    ask(log(info(record(1))))
    ask(log(info(record(1, 8, 9))))
    for v in (2 ** 32 - 1, 2 ** 32, TOP):
        ask(log(info(record(1, v), marked(4))))
    ask(log(info(number(3), vbr(1, 6), vbr(1, 6), pad(1), end=False)))
    ask(log(info(number(3), vbr(1, 6), vbr(1, 6), vbr(8, 6, 14))))
    ask(log(info(record(1, 8), record(3))))
    ask(log(info(record(1, 8), number(3), vbr(3, 6), vbr(1, 6), pad(1), end=False)))
    note('BLOCKINFO, 13: letters above 255, in a name and behind a record\'s number; that number may be any')
    for v in (255, 256, TOP):
        ask(log(info(record(1, 8), record(2, 65, v))))
        ask(log(info(record(1, 8), record(3, TOP, v))))
    ask(log(info(record(1, 8), record(2, 256, count=9), end=False)))
    note('BLOCKINFO, 17: more than 32 operands; the 33rd shared one')
    ask(log(shared(8, number(2), vbr(33, 5))))
    ask(log(shared(8, *[define()] * 33)))
    note('BLOCKINFO inside a block, skipped by no list')
    ask(log(block(8, 3, shared(9, marked(4)), block(9, 3, use(4)))), [0])


# ---------------------------------------------------------------- what one block may learn of another

def histories():
    note('a block that defines 4, then one that uses 4: refusal 8, for the same number, another, and the parent')
    ask(log(block(8, 3, marked(5), use(4)), block(8, 3, use(4))))
    ask(log(block(8, 3, marked(5), use(4)), block(9, 3, use(4))))
    ask(log(block(8, 3, block(9, 3, marked(5)), use(4))))
    ask(log(block(8, 3, marked(5), block(9, 3, use(4)))))
    ask(log(marked(5), block(9, 3, use(4))))
    note('after an inner block the parent has its own again, in order')
    ask(log(block(8, 4, marked(5), block(9, 4, marked(6), marked(7), use(4), use(5)), marked(8), use(4), use(5))))
    note('shared ones come first, then local ones; those of another number are not seen')
    ask(log(shared(8, marked(5), marked(6)), shared(9, marked(7)), block(8, 4, marked(10), use(4), use(5), use(6)), block(9, 4, marked(11), use(4), use(5))))
    ask(log(shared(8, marked(5)), block(9, 3, use(4))))
    note('a BLOCKINFO that adds to an open block: the open one keeps its count, a later one has the new ones')
    ask(log(block(8, 4, shared(8, marked(5)), use(4))))
    ask(log(block(8, 4, marked(6), shared(8, marked(5)), use(4), marked(7), use(5)), block(8, 4, use(4))))
    ask(log(block(8, 4, marked(6), shared(8, marked(5)), use(4), block(8, 4, marked(9), use(4), use(5)), use(4))))
    ask(log(block(8, 4, marked(6), shared(8, marked(5)), use(4), block(8, 4, marked(9), use(4), use(5)), use(4), use(5))))
    ask(log(shared(8, marked(4)), block(8, 4, shared(8, marked(5)), use(4), marked(6), use(5)), block(8, 4, use(4), use(5))))
    ask(log(shared(8, marked(4)), block(8, 4, shared(8, marked(5)), use(4), marked(6), use(5)), block(8, 4, use(4), use(5), use(6))))
    note('a BLOCKINFO that adds to 4294967295: the top level doesn\'t see it, a block of that number does')
    ask(log(shared(4294967295, marked(5)), block(4294967295, 3, use(4))))
    note('no way from a block number to an abbreviation number: block 4 and definition 4')
    ask(log(shared(4, marked(5)), block(4, 3, use(4)), block(8, 3, use(4))))


def skipping():
    note('skip lists: 0 and unknown numbers have no effect; a number twice; 2^64 - 1 and 2^32 + 8')
    data = log(info(record(1, 9), marked(4)), block(8, 3, record(1), block(9, 3, use(4))), block(9, 3, use(4)))
    for skips in ([], [0], [8], [9], [9, 9], [8, 9, 0], [7, TOP], [2 ** 32 + 8], [TOP], [4294967295], [0, 1, 2, 3, 4, 5, 6, 7, 8]):
        ask(data, skips)
    note('a skipped body is not read: nothing in it can be refused, its width is not judged')
    ask(log(block(8, 3, junk=b'\xff' * 9, end=False)), [8])
    ask(log(number(1), vbr(8, 8), vbr(TOP, 4), pad(), fields((1, 32), (2 ** 32 - 1, 32))), [8])
    ask(log(number(1), vbr(8, 8), vbr(0, 4), pad(), fields((0, 32))), [8])
    note('a BLOCKINFO in a skipped block tells nothing')
    ask(log(block(8, 3, shared(9, marked(4))), block(9, 3, use(4))), [8])


def lines():
    note('lines that are no question, an empty line, and a comment with no space')
    LINES.extend(['', '#', '#- 8 8 -', ' ', '?', '-', '- 8', '- 8 8', '- 8 8 ', ' - 8 8 -', '-  8 8 -', '- 8 8 - ', '- 8 8 - -', '-- 8 8 -', ',1 8 8 -', '1, 8 8 -',
                  '1,,2 8 8 -', ', 8 8 -', '1,- 8 8 -', 'a 8 8 -', '1a 8 8 -', '18446744073709551616 8 8 -', '- 8193 8 -', '- 8 8193 -', '- a 8 -', '- 8  -', '- 8 8 4',
                  '- 8 8 4g', '- 8 8 424', '- -1 8 -', '- 8 8 --', '-\t8 8 -', '- 18446744073709551616 8 -', ','.join(['5'] * 33) + ' 8 8 -'])
    note('lines that are: upper case digits, zeros before a number, 32 numbers to skip')
    LINES.extend(['- 8 8 4243C0DE', '- 8 8 4243c0de', '0008,00 0008 0 4243C0DE', '18446744073709551615 8192 8192 -', ','.join(['5'] * 32) + ' 8 8 4243C0DE'])
    note('an input of 3,000 bytes, one of 4,096, and one more')
    ask(log(block(8, 3, define((LITERAL, 1), (BLOB,)), use(4, blob(bytes(k % 251 for k in range(2_960)))))))
    ask(log(block(8, 32, *[record(k, k) for k in range(60)]))[:4_096].ljust(4_096, b'\0'), [], 1_024)
    LINES.append('- 8 8 ' + '42' * 4_097)


def random_logs():
    note('%d random logs, sound and damaged' % RANDOM_LOGS)
    for data, skips, events, operands in generate.cases(SEED, RANDOM_LOGS):
        ask(data, skips, events, operands)


# ---------------------------------------------------------------- exchanges of two blocks

def ask_exchange(wanted, *asked):
    """An exchange that leaves all as demand 3 says, or one that shows why a hypothesis is there."""
    LINES.append(exchange_line(*asked))
    assert wanted == exchanges.verdict(*asked).startswith('exchanged '), LINES[-1]


def exchanges_by_hand():
    for kind, group in (('exchange, all hypotheses true: ', exchanges.edges), ('exchange, all hypotheses true: ', exchanges.payloads),
                        ('exchange, a hypothesis fails: ', exchanges.counterexamples)):
        for comment, failing, asked in group():
            note(kind + comment)
            ask_exchange(not failing, *asked)
    for comment, asked in exchanges.others():
        note('exchange, not what the demand speaks of: ' + comment)
        LINES.append(exchange_line(*asked))


def exchange_lines():
    note('exchange: lines that are no question: places out of order, past the end; words missing, too many, not numbers, past 64 bits')
    two = log(block(8, 0, end=False), block(9, 0, end=False))
    good = exchange_line(4, 12, 20, two, [8, 9], 16, 0)
    words, rest = good.split(' '), line_of(two, [8, 9], 16, 0)
    LINES.extend(['exchange 5 4 6 - 8 8 00', 'exchange 12 4 20 ' + rest, 'exchange 4 20 12 ' + rest, 'exchange 4 12 21 ' + rest, 'exchange 0 0 1 - 8 8 -'])
    LINES.extend(['exchange', 'exchange ', 'exchange 4', 'exchange 4 12 20', 'exchange 4 12 20 '])
    LINES.extend(' '.join(words[:n] + words[n + 1:]) for n in range(8))
    for n in (1, 2, 3):
        for wrong in ('', 'x', '-', '-4', '4x', '18446744073709551615', '18446744073709551616', str(2 ** 64 + int(words[n]))):
            LINES.append(' '.join(words[:n] + [wrong] + words[n + 1:]))
    LINES.extend([' ' + good, good + ' ', good + ' 00', good[:-1], good[:-1] + 'g', good.replace(' ', '  ', 1), 'exchanges' + good[8:], 'Exchange' + good[8:],
                  'exchange\t' + good[9:], good.replace('8,9', '8,'), good.replace(' 16 ', ' 8193 '), 'exchange 0 0 0 - 8 8 ' + '42' * 4_097])
    note('exchange: lines that are: zeros before a number, upper case digits, an empty input, 4,096 bytes')
    LINES.extend([good, 'exchange 004 0012 00020 ' + rest, 'exchange 4 12 20 ' + rest.upper(), 'exchange 0 0 0 - 8 8 -', 'exchange 00 00 00 - 0 0 -',
                  exchange_line(4, 12, 20, two.ljust(4_096, b'\0'), [8, 9], 16, 0)])


def random_exchanges():
    rng = random.Random(PAIR_SEED)
    note('exchange: %d random pairs, all hypotheses true' % SOUND_PAIRS)
    for _, asked in itertools.islice(exchanges.sound(rng), SOUND_PAIRS):
        ask_exchange(True, *asked)
    note('exchange: %d random pairs; in turn they are off a 32-bit boundary, touch a wrapper, have BLOCKINFO in them' % UNSOUND_PAIRS)
    for _, asked in itertools.islice(exchanges.unsound(rng), UNSOUND_PAIRS):
        LINES.append(exchange_line(*asked))
    note('exchange: any three places of %d random logs' % ANY_PLACES)
    for asked in itertools.islice(exchanges.anywhere(rng), ANY_PLACES):
        LINES.append(exchange_line(*asked))


# ---------------------------------------------------------------- the dump's log

def shift_log():
    """A log with all that a dump can show."""
    return log(
        shared(9, define((LITERAL, 20), (FIXED, 6), (VBR, 6)), define((LITERAL, 21), (ARRAY,), (CHAR6,))),
        record(1, 2024),
        block(8, 3, record(1, 7, 70, 700),
              block(9, 4, use(4, fields((33, 6)), vbr(1_000_000, 6)), use(5, vbr(5, 6), fields((17, 6), (4, 6), (62, 6), (52, 6), (63, 6))), use(5, vbr(0, 6)),
                    define((FIXED, 3), (ARRAY,), (VBR, 6)), use(6, fields((5, 3)), vbr(4, 6), vbr(1, 6), vbr(32, 6), vbr(1024, 6), vbr(TOP, 6)),
                    define((LITERAL, 22), (FIXED, 1), (BLOB,)), use(7, fields((1, 1)), blob(b'casing 33: retread, 2 plies')), use(7, fields((0, 1)), blob(b'')),
                    junk=b'\xff' * 8),
              block(9, 4, use(4, fields((1, 6)), vbr(0, 6)), record(3)), record(2)),
        block(10, 5, define((VBR, 6), (ARRAY,), (LITERAL, 255)), use(4, vbr(300, 6), vbr(3, 6)), block(4294967295, 3, record(TOP, TOP))),
        record(9))


def write(name, questions, answers):
    crate = pathlib.Path(__file__).resolve().parent.parent / 'crates' / name
    (crate / 'stdin').write_bytes(questions)
    (crate / 'stdout').write_bytes(answers)
    print('%s: %d bytes in, %d bytes out' % (name, len(questions), len(answers)))


def main():
    for group in (samples, headers, cut_short, overflow, definitions, blocks, operand_count, shared_room, local_room, event_room, operand_room, infos,
                  histories, skipping, lines, random_logs, exchanges_by_hand, exchange_lines, random_exchanges):
        group()
    write('trial', ''.join(line + '\n' for line in LINES).encode(), ''.join(map(reply, LINES)).encode())
    write('dump', shift_log(), model.dump(shift_log()).encode())


if __name__ == '__main__':
    main()
