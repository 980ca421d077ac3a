"""A second model of the specification ("01"), written from its sentences alone.

Plain and slow: bits are taken one by one and numbers have no upper bound. The comments quote the rule; the
headings are those of 01. Refusals have 01's numbers. A small call answers ('value', v, at) or ('refused', number).
"""

import sys

# What the reader covers: the build's own limits.
INPUT_LIMIT = 16_777_216  # bytes
DEPTH_LIMIT = 32          # open blocks
OPERAND_LIMIT = 32        # operands per abbreviation, array element included
SHARED_LIMIT = 32         # shared abbreviations over all block numbers
LOCAL_LIMIT = 32          # local ones over all open blocks and the top level
EVENT_SIZE = 8            # 64-bit numbers per event
DUMP_INPUT_LIMIT = 65_536
DUMP_STORE = 8_192        # numbers in each of the two stores that the dump lends

WRAPPER_MAGIC = 0x0B17C0DE
TOP_LEVEL = 4294967295    # the block number of top-level records
NUMBER_LIMIT = 2 ** 64
ENTER, LEAVE, RECORD, SKIP = 1, 2, 3, 4
NONE, ARRAY, CHAR6_ARRAY, BLOB = 0, 1, 2, 3

# ------------------------------------------------------------------------------- Bits and VBR
class Cursor:
    """A place in bits and an end in bytes; the bytes are lent beside it."""

    def __init__(self, at, end):
        self.at, self.end = at, end

    def length(self, data):  # "the least of the cursor's end, the slice and 16,777,216, in bytes"
        return min(self.end, len(data), INPUT_LIMIT)

    def bits(self, data, n):  # "Bit i of the stream is bit i mod 8 of byte i/8; a field's first bit is its lowest."
        return sum((data[i // 8] >> (i % 8) & 1) << (i - self.at) for i in range(self.at, self.at + n))

    def read(self, data, n):  # "n outside 1..64 gives 3. Else ... exactly if place + n <= 8 x length; else 2."
        if not 1 <= n <= 64:
            return ('refused', 3)
        if self.at + n > 8 * self.length(data):
            return ('refused', 2)
        return ('value', self.bits(data, n), self.at + n)

    def peek(self, data, n):  # "Peek with n outside 1..64 gives 2."
        if not 1 <= n <= 64 or self.at + n > 8 * self.length(data):
            return ('refused', 2)
        return ('value', self.bits(data, n), self.at)

    def read_vbr(self, data, width):  # "VBR of width 1..32 ... Other widths: 3."
        if not 1 <= width <= 32:
            return ('refused', 3)
        value, shift, here = 0, 0, self
        while True:
            # "A chunk is read first (2 if it can't be); a chunk whose shift is 64 or more is then refused with 3."
            answer = here.read(data, width)
            if answer[0] == 'refused':
                return answer
            if shift >= 64:
                return ('refused', 3)
            more, low = divmod(answer[1], 2 ** (width - 1))
            value = (value + low * 2 ** shift) % NUMBER_LIMIT  # "Value bits past bit 63 are dropped."
            if more == 0:
                return ('value', value, answer[2])
            shift, here = shift + width - 1, Cursor(answer[2], self.end)

    def align32(self, data):  # "to the next multiple of 32 bits, none if already there; 2 if past the end"
        place = (self.at + 31) // 32 * 32
        return ('value', None, place) if place <= 8 * self.length(data) else ('refused', 2)

    def skip_bytes(self, data, n):  # "Cursor byte reads and skips off a byte boundary give 4, else 2 if short."
        if self.at % 8 != 0:
            return ('refused', 4)
        if self.at // 8 + n > self.length(data):
            return ('refused', 2)
        return ('value', None, self.at + 8 * n)

    def read_bytes(self, data, n):
        answer, byte = self.skip_bytes(data, n), self.at // 8
        return answer if answer[0] == 'refused' else ('value', bytes(data[byte:byte + n]), answer[2])

    def take_slice(self, data, n):  # "A cursor for the next bytes: off a 32-bit boundary 4, else 2 if short."
        answer = self.skip_bytes(data, n) if self.at % 32 == 0 else ('refused', 4)
        return answer if answer[0] == 'refused' else ('value', Cursor(self.at, answer[2] // 8), answer[2])

    def unconsumed_bit_len(self, data):  # "8 x length less the place, 0 if the place is past it"
        return max(0, 8 * self.length(data) - self.at)

    def is_at_end(self, data):
        return self.at >= 8 * self.length(data)

def signed(v):  # "even v is v/2; odd v above 1 is -(v-1)/2; v = 1 is -9223372036854775808"
    if v % 2 == 0:
        return v // 2
    return -((v - 1) // 2) if v > 1 else -9223372036854775808

# ------------------------------------------------------------------------------- Header
def parse(data):
    """((magic, magic2, version, offset, size, cpu), stream), or 1."""
    def word(byte):
        return sum(data[byte + k] << (8 * k) for k in range(4))
    if len(data) < 4:  # "Under 4 bytes: 1. First word is the magic."
        return 1
    if word(0) != WRAPPER_MAGIC:  # "the stream is the rest; offset 4, size its length, version, cpu type, magic2 zero"
        return ((word(0), 0, 0, 4, len(data) - 4, 0), data[4:])
    if len(data) < 20:  # "under 20 bytes, 1; version, offset, size, cpu type follow"
        return 1
    version, offset, size, cpu = word(4), word(8), word(12), word(16)
    if offset + size > len(data) or size < 4:  # "must lie in the input and hold at least 4, else 1"
        return 1
    return ((word(0), word(offset), version, offset, size, cpu), data[offset + 4:offset + size])

def blob(data, place, length):  # Walk: "a place and length not inside the stream show an empty part"
    stream = b'' if parse(data) == 1 else parse(data)[1]
    return bytes(stream[place:place + length]) if place + length <= len(stream) else b''

# ------------------------------------------------------------------------------- Walk: typed operands
def typed(kind, store, at, end):
    """The operand at place `at` of the store, in a list that ends at `end`."""
    if at >= end or at >= len(store):  # "none left, or a place outside the lent store: 14"
        return ('refused', 14)
    v = store[at]
    if kind == 'range':  # both operands are taken first; "range end past 64 bits: 13"
        if typed('u64', store, at + 1, end) == ('refused', 14):
            return ('refused', 14)
        stop = v + store[at + 1]
        return ('value', (v, stop), at + 2) if stop < NUMBER_LIMIT else ('refused', 13)
    limit = {'u8': 2 ** 8, 'u16': 2 ** 16, 'u32': 2 ** 32, 'u64': NUMBER_LIMIT, 'i64': NUMBER_LIMIT, 'bool': 2}[kind]
    if v >= limit:  # "too large or not 0/1: 13"
        return ('refused', 13)
    return ('value', signed(v) if kind == 'i64' else v, at + 1)

# ------------------------------------------------------------------------------- Abbreviations: scalars
def char6(v):  # "0..25 is a..z, 26..51 A..Z, 52..61 0..9, 62 '.', 63 '_'; its value is the ASCII code"
    return ord('abcdefghijklmnopqrstuvwxyzABCDEFGHIJKLMNOPQRSTUVWXYZ0123456789._'[v])

def scalar(data, cursor, operand):
    """The value of one scalar operand: ('literal', v), ('fixed', width), ('vbr', width) or ('char6', 0)."""
    kind, number = operand
    if kind == 'literal':
        return ('value', number, cursor.at)
    if kind == 'vbr':
        return cursor.read_vbr(data, number)
    answer = cursor.read(data, number if kind == 'fixed' else 6)
    return ('value', char6(answer[1]), answer[2]) if kind == 'char6' and answer[0] == 'value' else answer

# ------------------------------------------------------------------------------- Walk
class Refused(Exception):
    def __init__(self, number, first=0, second=0, place=None):
        Exception.__init__(self, number)
        self.number, self.first, self.second, self.place = number, first, second, place

def refuse_if(condition, number, first=0, second=0):
    if condition:
        raise Refused(number, first, second)

class Reader:
    """A moving cursor over the stream, whose refusals are raised."""

    def __init__(self, walk, cursor):
        self.walk, self.at, self.end = walk, cursor.at, cursor.end

    def do(self, call, *arguments):
        answer = call(Cursor(self.at, self.end), self.walk.stream, *arguments)
        refuse_if(answer[0] == 'refused', answer[1])
        self.at = answer[2]
        return answer[1]

    def vbr(self, width):
        return self.scalar(('vbr', width))

    def scalar(self, operand):
        try:
            return self.do(lambda cursor, data: scalar(data, cursor, operand))
        except Refused as refusal:
            # Not a rule: with these widths 3 comes from a chunk at shift 64 exactly.
            at_64 = operand[0] == 'vbr' and refusal.number == 3 and 64 % (operand[1] - 1) == 0
            self.walk.note(at_64, 'VBR chunk at shift 64')
            raise

    def number(self, width):  # "read a number of the block's width (2 at top level; outside 1..32: 3)"
        refuse_if(not 1 <= width <= 32, 3)
        return self.do(Cursor.read, width)

class Walk:
    def __init__(self, stream, skips, events_size, operands_size):
        self.stream, self.skips = stream, skips
        # "a lent event store of n numbers holds n/8 events, rounded down"
        self.event_room, self.operand_room = events_size // EVENT_SIZE, operands_size
        self.events, self.operands = [], []
        self.shared = []       # (block number, abbreviation), in order of definition
        self.local_count = 0   # local abbreviations over all open blocks and the top level
        self.open = []         # the numbers of the open blocks
        self.item = 0          # Place: "where the innermost item being read began"
        self.outside = set()
        self.blocks = []       # not a rule: the blocks that were met, each behind those inside it

    def note(self, condition, case):  # not a rule: marks the inputs of "Where we leave the Rust"
        self.outside |= {case} if condition else set()

    def event(self, *numbers):  # "Unused numbers are 0"
        refuse_if(len(self.events) >= self.event_room, 18)
        self.events.append(list(numbers) + [0] * (EVENT_SIZE - len(numbers)))

    def operand(self, r, operand):  # "Before each stored operand room is tested (19), then its bits are read."
        refuse_if(len(self.operands) >= self.operand_room, 19)
        self.operands.append(r.scalar(operand))

    # ------------------------------------------- Abbreviations
    def defined_operand(self, r, left):
        """One operand of a definition, `left` being how many come behind it."""
        if r.do(Cursor.read, 1) == 1:  # "1 bit; if 1, literal vbr8. Else 3 bits"
            return ('literal', r.vbr(8))
        kind = r.do(Cursor.read, 3)
        if kind in (1, 2):  # "1 Fixed, 2 VBR (width vbr5, outside 1..32: 7)"
            width = r.vbr(5)
            self.note(width > 255, 'operand width above 255')
            refuse_if(not 1 <= width <= 32, 7, width)
            return ('fixed' if kind == 1 else 'vbr', width)
        # "3 Array only with exactly one operand left, 4 Char6, 5 Blob only with none left; anything else 5."
        refuse_if(not (kind == 3 and left == 1 or kind == 4 or kind == 5 and left == 0), 5)
        return ({3: 'array', 4: 'char6', 5: 'blob'}[kind], 0)

    def definition(self, r):
        """(scalars, payload): the payload is None, 'blob' or the array's element."""
        left = r.vbr(5)
        refuse_if(left > OPERAND_LIMIT, 17)  # "Operand count vbr5; above 32: 17."
        scalars, payload = [], None
        while left > 0:
            left -= 1
            operand = self.defined_operand(r, left)
            if operand[0] == 'array':  # "read as an operand itself: literal allowed, array gives 5, blob gives 6"
                left -= 1
                payload = self.defined_operand(r, left)
                refuse_if(payload[0] == 'blob', 6)
            elif operand[0] == 'blob':
                payload = 'blob'
            else:
                scalars.append(operand)
        return (scalars, payload)

    # ------------------------------------------- Walk: records
    def payload(self, r, payload):
        """(kind, place, length)"""
        if payload is None:
            return (NONE, 0, 0)
        length = r.vbr(6)
        if payload == 'blob':  # "length vbr6, align, bytes, align"
            r.do(Cursor.align32)
            place = r.at // 8
            r.do(Cursor.read_bytes, length)
            r.do(Cursor.align32)
            return (BLOB, place, length)
        place = len(self.operands)
        for _ in range(length):  # "Array: length vbr6, then elements."
            self.operand(r, payload)
        return (CHAR6_ARRAY if payload[0] == 'char6' else ARRAY, place, length)

    def record(self, r, block, code, operands, payload):
        place = len(self.operands)
        for operand in operands:
            self.operand(r, operand)
        count = len(self.operands) - place
        try:
            payload = self.payload(r, payload)
        except Refused:
            self.note(True, 'a failing payload')
            raise
        self.event(RECORD, block, code, place, count, *payload)  # "(18) is tested after the whole record"

    # ------------------------------------------- Walk: BLOCKINFO
    def block_info(self, r, width):
        setbid = None  # "It gives no event and doesn't count as open."
        while True:
            self.item = r.at
            number = r.number(width)  # "a number that can't be read gives 2, a width outside 1..32 3"
            if number == 0:  # "aligns and ends"
                return r.do(Cursor.align32)
            refuse_if(number == 1, 11)
            refuse_if(number >= 4, 8, number, 0)
            if number == 2:
                refuse_if(setbid is None, 10)  # "a definition or code 2, 3 before this BLOCKINFO's SETBID gives 10"
                abbreviation = self.definition(r)
                refuse_if(len(self.shared) >= SHARED_LIMIT, 17)  # "Room is tested after the whole definition (17)."
                self.shared.append((setbid, abbreviation))
                self.note(setbid in self.open + [TOP_LEVEL], 'BLOCKINFO adds to an open block or to 4294967295')
            else:
                setbid = self.info_record(r, setbid)

    def info_record(self, r, setbid):
        code, count = r.vbr(6), r.vbr(6)
        refuse_if(not 1 <= code <= 3, 12, code)  # "Once the count is read, a code outside 1..3: 12."
        refuse_if(code != 1 and setbid is None, 10)
        if code in (1, 3):  # "exactly one readable operand below 2^32"; "needs a readable first operand (else 12)"
            try:
                first = r.vbr(6) if count > 0 else None
            except Refused:
                first = None
            refuse_if(first is None or code == 1 and (count != 1 or first >= 2 ** 32), 12, code)
            if code == 1:
                return first
            count -= 1
        for _ in range(count):  # "Name letters above 255: 13."
            refuse_if(r.vbr(6) > 255, 13)
        return setbid

    # ------------------------------------------- Walk: blocks
    def sub_block(self, r):
        first, met = self.item, len(self.blocks)
        block = r.vbr(8)  # "block number vbr8 (>= 2^32: 20), width vbr4, align, length in words (32 bits)"
        self.note(block >= 2 ** 32, 'block number 2^32 or more')
        refuse_if(block >= 2 ** 32, 20, block)
        width = r.vbr(4)
        self.note(width > 32, 'block width above 32')
        r.do(Cursor.align32)
        length = 4 * r.do(Cursor.read, 32)
        body = r.do(Cursor.take_slice, length)  # "body within the parent, else 2"; r goes on behind it
        if block == 0:  # "Number 0 is BLOCKINFO, read now." "0 there [in the skip list] has no effect."
            self.block_info(Reader(self, body), width)
        elif block in self.skips:
            self.event(SKIP, block, width, body.at // 8, length)
        elif len(self.open) >= DEPTH_LIMIT:  # "Else 16 if 32 are open, then 18, then the body."
            raise Refused(16, block)
        else:
            self.event(ENTER, block, width, body.at // 8, length)
            self.open.append(block)
            self.block(Reader(self, body), block, width, False)
            self.open.pop()
        kind = 'blockinfo' if block == 0 else 'skipped' if block in self.skips else 'entered'
        loud = block == 0 or any(inner['loud'] for inner in self.blocks[met:])  # BLOCKINFO read as it or inside it
        self.blocks.append({'first': first, 'end': 8 * body.end, 'parent': r, 'depth': len(self.open), 'kind': kind, 'loud': loud})

    def block(self, r, block, width, top):
        # Abbreviations: "first the shared ones for this block number as they stood when the block was entered"
        shared, local = [abbreviation for (owner, abbreviation) in self.shared if owner == block], []
        while True:
            self.item = r.at
            if Cursor(r.at, r.end).is_at_end(self.stream):  # "the top level ends; a block gives 9"
                if top:
                    return
                self.note(block == TOP_LEVEL, 'block 4294967295 without END_BLOCK')
                raise Refused(9, block, place=8 * r.end)  # Place: "for 9, the end of the body"
            number = r.number(width)
            if number == 0:  # "align, end. At top level this ends the walk and the rest is unread."
                r.do(Cursor.align32)
                if not top:
                    self.event(LEAVE, block)
                self.local_count -= len(local)  # "Leaving a block frees its local room"
                return
            if number == 1:
                self.sub_block(r)
            elif number == 2:
                local.append(self.definition(r))
                self.local_count += 1
                refuse_if(self.local_count > LOCAL_LIMIT, 17)
            elif number == 3:  # "code vbr6, count vbr6, operands vbr6"
                code, count = r.vbr(6), r.vbr(6)
                self.record(r, block, code, (('vbr', 6) for _ in range(count)), None)
            else:  # "lookup (8); no scalar operand gives 5; the first scalar is the code, the rest operands"
                refuse_if(number - 4 >= len(shared + local), 8, number, block)
                scalars, payload = (shared + local)[number - 4]
                refuse_if(not scalars, 5)
                self.record(r, block, r.scalar(scalars[0]), scalars[1:], payload)

def walk(data, skips, events_size, operands_size):
    result = {'status': 0, 'place': 0, 'first': 0, 'second': 0, 'header': (0,) * 6, 'events': [], 'operands': [],
              'event_store': [0] * events_size, 'operand_store': [0] * operands_size, 'outside': [], 'before': [],
              'blocks': []}
    # Refusal numbers: "Order: 15, then 1, then the walk in stream order."
    if len(data) > INPUT_LIMIT or parse(data) == 1:
        result['status'] = 15 if len(data) > INPUT_LIMIT else 1
        return result
    header, stream = parse(data)
    state = Walk(stream, skips, events_size, operands_size)
    try:
        state.block(Reader(state, Cursor(0, len(stream))), TOP_LEVEL, 2, True)
    except Refused as refusal:  # "number, place, details, zero events and zero header numbers, both stores all zero"
        place = state.item if refusal.place is None else refusal.place
        result.update(status=refusal.number, place=place, first=refusal.first, second=refusal.second)
    else:  # "An accepted walk leaves zero behind the last event and operand."
        numbers = [number for event in state.events for number in event]
        result.update(header=header, events=state.events, operands=state.operands, blocks=state.blocks)
        result['event_store'][:len(numbers)] = numbers
        result['operand_store'][:len(state.operands)] = state.operands
    # Not results of 01: the listed cases that were met, what was found before a refusal, the blocks of an accepted walk.
    result['outside'], result['before'] = sorted(state.outside), [state.events, state.operands]
    return result

# ------------------------------------------------------------------------------- Bench samples: the dump
def show(w):
    """The dump of what walk() gives."""
    lines = ['status={status} place={place} first={first} second={second}'.format(**w)]

    def numbers(place, count):  # "Lists are comma-separated; an empty one is `-`."
        return ','.join(str(v) for v in w['operands'][place:place + count]) or '-'

    if w['status'] == 0:
        magic, magic2, version, offset, size, cpu = w['header']
        form = 'magic=%08x version=%d offset=%d size=%d cpu=%d magic2=%08x'
        lines += [form % (magic, version, offset, size, cpu, magic2), 'events=%d' % len(w['events'])]
        for index, (kind, block, a, b, c, d, e, f) in enumerate(w['events']):
            line = 'event=%d kind=%s block=%d' % (index, ('', 'enter', 'leave', 'record', 'skip')[kind], block)
            if kind in (ENTER, SKIP):
                line += ' width=%d start=%d length=%d' % (a, b, c)
            if kind == RECORD:
                payload = ('none', 'array:' + numbers(e, f), 'char6:' + numbers(e, f), 'blob:%d,%d' % (e, f))[d]
                line += ' code=%d operands=%s payload=%s' % (a, numbers(b, c), payload)
            lines.append(line)
    return ''.join(line + '\n' for line in lines)

def dump(data):
    long = len(data) > DUMP_INPUT_LIMIT
    w = walk(b'' if long else data, [], DUMP_STORE, DUMP_STORE)
    w['status'] = 15 if long else w['status']
    return show(w)

# ------------------------------------------------------------------------------- Bench samples
def pack(fields):
    """Bytes from fields as 01 writes them (highest bit first, a blank between two), padded to 32 bits."""
    bits = ''.join(field[::-1] for field in fields.split())
    bits += '0' * (-len(bits) % 32)
    return bytes(int(bits[k:k + 8][::-1], 2) for k in range(0, len(bits), 8))

def samples():
    def vbr(width, chunks):
        return Cursor(0, NUMBER_LIMIT - 1).read_vbr(pack(chunks), width)

    def outcome(stream):
        w = walk(bytes.fromhex('4243C0DE') + stream, [], 80, 80)
        return (w['status'], w['place'], w['first'], w['second'], len(w['events']))

    yield vbr(4, '1011 0011'), ('value', 27, 8)
    for chunks, v in (('011111', 31), ('100000 000001', 32)):
        yield vbr(6, chunks)[0:2], ('value', v)
    for v, s in ((0, 0), (1, -9223372036854775808), (2, 1), (3, -1), (2 ** 64 - 1, -9223372036854775807)):
        yield signed(v), s
    for width, wanted in (('00001', 0), ('10000 00010', 0), ('00000', 7), ('10001 00010', 7)):
        yield outcome(pack('10 00001 0 001 ' + width + ' 00'))[0], wanted
    yield vbr(5, '10000 ' * 16 + '00000'), ('refused', 3)
    yield walk(b'', [], 80, 80)['status'], 1
    for zeros, wanted in ((0, 0), (1, 2), (4, 0)):
        yield outcome(bytes(zeros)), (wanted, 0, 0, 0, 0)
    yield outcome(bytes.fromhex('210C000000000000')), (9, 64, 8, 0, 0)
    # Block 8 defines 4 (Fixed 1); the next block, 9, uses 4.
    yield outcome(pack('01 00001000 0011') + pack('1') + pack('010 00001 0 001 00001 000')
                  + pack('01 00001001 0011') + pack('1') + pack('100 1 000')), (8, 160, 4, 9, 0)
    yield dump(bytes.fromhex('4243C0DE210C0000010000000B020100')), '''status=0 place=0 first=0 second=0
magic=dec04342 version=0 offset=4 size=12 cpu=0 magic2=00000000
events=3
event=0 kind=enter block=8 width=3 start=8 length=4
event=1 kind=record block=8 code=1 operands=2 payload=none
event=2 kind=leave block=8
'''
    yield dump(bytes(65_537)), 'status=15 place=0 first=0 second=0\n'

if __name__ == '__main__':
    wrong = ['model: found %r, wanted %r' % (found, wanted) for found, wanted in samples() if found != wanted]
    sys.exit('\n'.join(wrong)) if wrong else print('model: %d samples hold' % len(list(samples())))
