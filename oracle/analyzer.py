"""LLVM's own reader: what llvm-bcanalyzer shows of a file, in the judge's notation.

answer(path) gives `0` and the items, each behind a space, or `error: MESSAGE`, or `ends` where its process was ended by
a signal or by the time or memory allowed to it. The items are the judge's, with arrays flat: +BLOCK/WIDTH, -BLOCK and
=BLOCK,CODE with ,OPERAND for each operand and each element and bHEX for a blob. BLOCKINFO gives no item. The analyzer
cuts codes to 32 bits and shows operands signed; here they are unsigned.
"""

import re
import resource
import shutil
import subprocess

NAMES = ('llvm-bcanalyzer-14', 'llvm-bcanalyzer')
OPTIONS = ('--dump', '--disable-histogram', '--non-symbolic', '--show-binary-blobs')
SECONDS, MEMORY = 60, 2 ** 32

BLOCK = re.compile(r' *<(.*?)(?: BlockID=(\d+))? NumWords=\d+ BlockCodeSize=(\d+)>')
LEAVE = re.compile(r' *</.*>')
SILENT = re.compile(r' *<BLOCKINFO_BLOCK/>|<BITCODE_WRAPPER_HEADER .*/>')
INDEX = r'(?: \(offset (?:match|mismatch: \d+ vs \d+)\))?'
RECORD = re.compile(r' *<(.*?)(?: codeid=(\d+))?(?: abbrevid=\d+)?((?: op\d+=-?\d+)*)' + INDEX + r'/>'
                    r"(?: record string = '.*'| blob data = '(.*)'| num-strings = (\d+) \{)?")
ESCAPES = {'\\\\': b'\\', '\\t': b'\t', '\\n': b'\n', '\\"': b'"'}


def program():
    """Its path, or None."""
    return next((found for found in map(shutil.which, NAMES) if found), None)


def version():
    said = subprocess.run([program(), '--version'], capture_output=True).stdout.decode()
    return re.search(r'LLVM version (\S+)', said)[1]


def limits():
    resource.setrlimit(resource.RLIMIT_AS, (MEMORY, MEMORY))
    resource.setrlimit(resource.RLIMIT_CORE, (0, 0))


def run(path):
    """(exit status or None, lines of the dump, what it said beside it)"""
    try:
        done = subprocess.run([program(), *OPTIONS, path], capture_output=True, timeout=SECONDS, preexec_fn=limits)
    except subprocess.TimeoutExpired:
        return None, [], ''
    text = done.stdout.decode('latin-1').split('\n\nSummary of ')[0].rstrip('\n')
    return done.returncode, text.split('\n') if text else [], done.stderr.decode('latin-1')


def unescaped(text):
    """The bytes behind the analyzer's escapes: \\\\ \\t \\n \\" and \\xHH."""
    parts = re.findall(r'\\x[0-9A-F]{2}|\\.|[^\\]+', text)
    return b''.join(bytes.fromhex(p[2:]) if p[:2] == '\\x' else ESCAPES.get(p) or p.encode('latin-1') for p in parts)


def strings_blob(strings):
    """The blob of METADATA_STRINGS, of which only the strings are shown: the lengths in vbr6, up to 32 bits, then they."""
    bits = ''
    for length in map(len, strings):
        while length >= 32:
            bits, length = bits + format(length % 32 + 32, '06b')[::-1], length // 32
        bits += format(length, '06b')[::-1]
    bits += '0' * (-len(bits) % 32)
    return bytes(int(bits[k:k + 8][::-1], 2) for k in range(0, len(bits), 8)) + b''.join(strings)


def whole(pattern, line):
    match = pattern.fullmatch(line)
    if not match:
        raise ValueError('a line of the analyzer that is not understood: %r' % line[:200])
    return match


def number_of(name, number, unknown):
    """The number that is shown, or that stands in a name like UnknownBlock8."""
    return int(whole(re.compile(unknown + r'(\d+)'), name)[1] if number is None else number)


def items(lines):
    lines, blocks = iter(lines), []
    for line in lines:
        if SILENT.fullmatch(line):
            continue
        if LEAVE.fullmatch(line):
            yield '-%d' % blocks.pop()
        elif match := BLOCK.fullmatch(line):
            blocks.append(number_of(match[1], match[2], 'UnknownBlock'))
            yield '+%d/%s' % (blocks[-1], match[3])
        else:
            match = whole(RECORD, line)
            operands = [int(each.split('=')[1]) % 2 ** 64 for each in match[3].split()]
            item = '=' + ','.join(map(str, [blocks[-1], number_of(match[1], match[2], 'UnknownCode'), *operands]))
            if match[4] is not None:
                item += 'b' + unescaped(match[4]).hex()
            elif match[5] is not None:
                strings = [unescaped(next(lines).strip(' ')[1:-1]) for _ in range(int(match[5]))]
                whole(re.compile(' *}'), next(lines))
                item += 'b' + strings_blob(strings).hex()
            yield item


def message(said):
    """The message alone, on one line."""
    line = next((each for each in said.split('\n') if each.strip()), '')
    return re.sub(r'^(\S*llvm-bcanalyzer\S*: |LLVM ERROR: |error: )+', '', line).strip()


def answer(path):
    status, lines, said = run(path)
    if status is None or status < 0 and 'LLVM ERROR' not in said:
        return 'ends'
    if status != 0:
        return 'error: ' + message(said)
    return ' '.join(['0', *items(lines)])


def flat(judged):
    """The judge's answer in LLVM's notation: without the header's numbers, arrays flat."""
    words = judged.split(' ')
    return ' '.join(words[:1] + [re.sub('^([^abc]*)[ac]', lambda m: m[1] + ',', w).rstrip(',') for w in words[7:]])
