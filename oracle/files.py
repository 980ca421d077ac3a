"""Real files through our reader, the Rust and LLVM's own reader.

    python3 oracle/files.py [JUDGE]

The files are made on the spot, in target/oracle/files, by this machine's clang and rustc out of sources.py; what can't
be made here is left out, and said. Then, for each file:

- what ours accepts must be the Rust's answer to the letter, and item by item what llvm-bcanalyzer shows, if it is there;
- what ours refuses must be refused by the Rust alike, unless by a limit of ours (15 to 20).

Why a file is refused is found out by the model of audit/, with one rule after the other turned LLVM's way, until its
items are LLVM's. Exit 1 at any other difference.
"""

import collections
import pathlib
import re
import shutil
import subprocess
import sys

import analyzer
import sources

ROOT = pathlib.Path(__file__).resolve().parent.parent
FILES = ROOT / 'target' / 'oracle' / 'files'
sys.path.insert(0, str(ROOT / 'audit'))
import model  # noqa: E402

TOOLS = {'clang': ('clang-14', 'clang'), 'clang++': ('clang++-14', 'clang++'), 'rustc': ('rustc',)}
TOOLS |= {name: (name + '-14', name) for name in ('llvm-as', 'llvm-cat', 'llvm-lto', 'llvm-objcopy')}
LIMITS = range(15, 21)


# ----------------------------------------------------------------------- the files
def bitcode(group, flags, names, command='{clang} -w -c -emit-llvm %s src/%s.c -o {out}'):
    """A file for each source and each set of flags, named after both."""
    for name in names.split():
        for each in flags:
            out = re.sub(r'[^\w+.]+', '-', ' '.join((group.lower(), name, each))) + '.bc'
            yield group, out, command % (each, name)


CPP = '{clang++} -w -std=c++17 -c -emit-llvm %s src/%s.cpp -o {out}'
RUST = '{rustc} --edition 2021 -C codegen-units=1 --emit=llvm-bc --crate-type=%s src/%s.rs -o {out}'
APPLE = '{clang} -w -target x86_64-apple-darwin -c -emit-llvm %s src/%s.c -o {out}'
EMBED = '{clang} -w -c -fembed-bitcode %s src/%s.c -o part.o && {llvm-objcopy} --dump-section .llvmbc={out} part.o'
RECORDS = '{clang} -w -O2 %s -fsave-optimization-record=bitstream -foptimization-record-file={out} src/%s.c -o part.o'
DIAGNOSTICS = '-{clang} -std=c%s -Weverything -fsyntax-only --serialize-diagnostics {out} src/%s'
PARTS = '{clang} -w -c -emit-llvm -g src/loops.c -o a.part && {clang} -w -c -emit-llvm src/structs.c -o b.part && '
THIN = '{clang} -w -c -O1 -flto=thin src/loops.c -o a.part && {clang} -w -c -O1 -flto=thin src/metadata.c -o b.part && '
MODULE = '{clang} -w -x c -fmodules -Xclang -emit-module -Xclang -fmodule-name=Small -c src/module.modulemap -o {out}'
SPLIT = '{clang++} -w -c -O1 -flto=thin -fsplit-lto-unit -fwhole-program-vtables -fvisibility=hidden %s -o {out}'
TEXT = '{clang} -w -S -emit-llvm -g -O1 src/structs.c -o part.ll && '


def plan():
    """(group, file, command): a leading `-` lets the command fail, `&&` stands between two."""
    yield from bitcode('C', ('-O0', '-O2 -g'), 'empty one assembly metadata tables many')
    yield from bitcode('C', ('-O0', '-O0 -g', '-O1', '-O2', '-O2 -g', '-Os'), 'loops structs')
    yield from bitcode('C', ('-O0 -g', '-O2'), 'big')
    yield from bitcode('C++', ('-O0', '-O1', '-O2 -g'), 'throws shapes templates', CPP)
    yield from bitcode('C++', ('-O0 -g', '-Os'), 'library', CPP)
    yield from bitcode('LTO', ('-O2 -flto', '-O1 -g -flto=thin'), 'structs many')
    yield from bitcode('LTO', ('-O2 -flto', '-O0 -flto=thin'), 'templates', CPP)
    yield 'LTO', 'index.thinlto.bc', THIN + '{llvm-lto} -thinlto a.part b.part -o index'
    yield from bitcode('wrapper', ('-O0', '-O2 -g'), 'loops metadata', APPLE)
    yield from bitcode('embedded', ('-O1', '-O0 -g'), 'structs', EMBED)
    yield 'two modules', 'twice.bc', PARTS + '{llvm-cat} -b a.part b.part -o {out}'
    yield 'two modules', 'split.bc', SPLIT % 'src/shapes.cpp'
    yield 'assembled', 'hand.bc', '{llvm-as} src/assembled.ll -o {out}'
    yield 'assembled', 'again.bc', TEXT + '{llvm-as} part.ll -o {out}'
    yield 'diagnostics', 'c.dia', DIAGNOSTICS % ('11', 'complaints.c')
    yield 'diagnostics', 'cpp.dia', DIAGNOSTICS % ('++17', 'complaints.cpp')
    yield 'diagnostics', 'none.dia', DIAGNOSTICS % ('11', 'empty.c')
    yield 'headers', 'c.pch', '{clang} -w -x c-header src/other.h -o {out}'
    yield 'headers', 'cpp.pch', '{clang++} -w -x c++-header src/other.h -o {out}'
    yield 'headers', 'tree.ast', '{clang} -w -emit-ast src/loops.c -o {out}'
    yield 'headers', 'small.pcm', MODULE
    yield 'headers', 'unit.pcm', '{clang++} -w -std=c++20 --precompile src/unit.cppm -o {out}'
    yield 'remarks', 'loops.remarks', RECORDS % ('-c -emit-llvm', 'loops')
    yield 'remarks', 'many.remarks', RECORDS % ('-g -c -target x86_64-apple-darwin', 'many')
    yield from bitcode('Rust', ['lib -C opt-level=%s' % o for o in '0123s'] + ['lib -g', 'lib -g -O'], 'library', RUST)
    yield from bitcode('Rust', ('bin', 'bin -g -C opt-level=3', 'bin -C linker-plugin-lto'), 'program', RUST)


def command_line(part, out):
    """The command's words, or the name of the tool that is missing."""
    words = []
    for word in part.strip().lstrip('-').split():
        names = TOOLS.get(word[1:-1]) if word[0] == '{' else None
        found = next(filter(None, map(shutil.which, names)), None) if names else word.replace('{out}', out)
        if found is None:
            return word[1:-1] + ' is missing'
        words.append(found)
    return words


def make(out, command):
    """Runs the parts of a command; says why there is no file, or ''."""
    for part in command.split('&&'):
        words = command_line(part, out)
        if isinstance(words, str):
            return words
        done = subprocess.run(words, cwd=FILES, stdout=subprocess.DEVNULL, stderr=subprocess.PIPE)
        if done.returncode != 0 and part[0] != '-':
            return 'fails: ' + ' '.join(words[0].split('/')[-1:] + words[1:])
    return '' if (FILES / out).is_file() and (FILES / out).stat().st_size > 0 else 'writes nothing'


def make_all():
    """{group: files}"""
    shutil.rmtree(FILES, ignore_errors=True)
    (FILES / 'src').mkdir(parents=True)
    for name, text in sources.SOURCES.items():
        (FILES / 'src' / name).write_text(text)
    made = {}
    for group, out, command in plan():
        wrong = make(out, command)
        if wrong:
            print('left out: %s (%s)' % (out, wrong))
        else:
            made.setdefault(group, []).append(out)
    return made


# ----------------------------------------------------------------------- why a file is refused
class Lenient(model.Walk):
    """The model's walk with some rules turned LLVM's way: `limits` (there are none), `zero` (Fixed(0) and VBR(0) are
    the literal 0), `replace` (a BLOCKINFO begins anew). It notes how far the limits would be passed."""

    def __init__(self, stream, rules):
        model.Walk.__init__(self, stream, [], 8 * 10 ** 9, 10 ** 9)
        self.rules, self.most, self.zeros, self.infos = rules, collections.Counter(), 0, 0

    def note_most(self, what, number):
        self.most[what] = max(self.most[what], number)

    def defined_operand(self, r, left):
        try:
            return model.Walk.defined_operand(self, r, left)
        except model.Refused as refusal:
            if 'zero' not in self.rules or (refusal.number, refusal.first) != (7, 0):
                raise
            self.zeros += 1
            return ('literal', 0)

    def definition(self, r):
        self.note_most('operands in an abbreviation', model.Reader(self, model.Cursor(r.at, r.end)).vbr(5))
        return model.Walk.definition(self, r)

    def block_info(self, r, width):
        self.infos += 1
        if 'replace' in self.rules:
            self.shared = []
        model.Walk.block_info(self, r, width)
        self.note_most('shared abbreviations', len(self.shared))

    def event(self, *numbers):
        self.note_most('local abbreviations', self.local_count)
        self.note_most('open blocks', len(self.open) + (numbers[0] == model.ENTER))
        model.Walk.event(self, *numbers)


def quick_bits(self, data, n):
    """The same bits as the model's own, but quicker."""
    return int.from_bytes(data[self.at // 8:(self.at + n + 7) // 8], 'little') >> (self.at % 8) & (1 << n) - 1


model.Cursor.bits = quick_bits


def lenient(data, rules):
    """(its answer in LLVM's notation, the walk)"""
    limit = 10 ** 9 if 'limits' in rules else 32
    model.OPERAND_LIMIT = model.SHARED_LIMIT = model.LOCAL_LIMIT = model.DEPTH_LIMIT = limit
    walk = Lenient(model.parse(data)[1], rules)
    try:
        walk.block(model.Reader(walk, model.Cursor(0, len(walk.stream))), model.TOP_LEVEL, 2, True)
    except model.Refused as refusal:
        return '%d %d %d' % (refusal.number, refusal.first, refusal.second), walk
    return ' '.join(['0'] + [item_of(event, walk) for event in walk.events]), walk


def item_of(event, walk):
    kind, block, code, place, count, payload, start, length = event
    if kind == model.ENTER:
        return '+%d/%d' % (block, code)
    if kind == model.LEAVE:
        return '-%d' % block
    values = walk.operands[place:place + count] + (walk.operands[start:start + length] if payload in (1, 2) else [])
    blob = 'b' + walk.stream[start:start + length].hex() if payload == model.BLOB else ''
    return '=' + ','.join(map(str, [block, code, *values])) + blob


TURNS = (('zero',), ('limits',), ('limits', 'zero'), ('limits', 'replace'), ('limits', 'zero', 'replace'))


def reason(data, llvm):
    """The rules that must be turned LLVM's way to get LLVM's items, told by what was met; '' if that doesn't do."""
    rules = next((rules for rules in TURNS if lenient(data, rules)[0] == llvm), ())
    met = lenient(data, ('limits', 'zero'))[1]
    told = {'zero': 'operands of width 0 (%d)' % met.zeros if met.zeros else '',
            'limits': ', '.join('%d %s' % (n, what) for what, n in met.most.items() if n > 32),
            'replace': '%d BLOCKINFO blocks, each of which for LLVM replaces the one before' % met.infos}
    return ' and '.join(told[rule] for rule in rules) if all(told[rule] for rule in rules) else ''


# ----------------------------------------------------------------------- the comparison
def judged(judge, paths):
    """{path: (ours, the Rust's)}"""
    answers = {}
    for k in range(0, len(paths), 8):
        done = subprocess.run([judge, 'show', *paths[k:k + 8]], stdout=subprocess.PIPE, check=True)
        said = done.stdout.decode().split('\n')
        for path, ours, rust in zip(said[0::3], said[1::3], said[2::3]):
            answers[path] = (ours.removeprefix('  ours '), rust.removeprefix('  rust '))
    return answers


def first_apart(a, b):
    """Where two lists of items part."""
    k = next((k for k, (x, y) in enumerate(zip(a, b)) if x != y), min(len(a), len(b)))
    return 'item %d: %s and %s' % (k, ' '.join(a[k:k + 1])[:200], ' '.join(b[k:k + 1])[:200])


class Tally:
    def __init__(self):
        self.count, self.reasons, self.wrong = collections.Counter(), collections.defaultdict(list), []

    def accepted(self, name, ours, rust, llvm):
        self.count['accepted'] += 1
        self.count['equal to the Rust'] += ours == rust
        if ours != rust:
            self.wrong.append('%s: ours and the Rust: %s' % (name, first_apart(ours.split(' '), rust.split(' '))))
        if llvm is None:
            return
        mine = analyzer.flat(ours)
        self.count['equal to LLVM'] += mine == llvm
        self.count['items'] += len(mine.split(' ')) - 1 if mine == llvm else 0
        if mine != llvm:
            self.wrong.append('%s: ours and LLVM: %s' % (name, first_apart(mine.split(' '), llvm.split(' '))))

    def refused(self, name, ours, rust, llvm):
        number = int(ours.split(' ')[0])
        self.count['refused'] += 1
        self.count['equal to the Rust'] += ours == rust
        if ours != rust and number not in LIMITS:
            self.wrong.append('%s: ours %s, the Rust %s' % (name, ours, rust[:60]))
        if llvm is None:
            return
        why = reason((FILES / name).read_bytes(), llvm)
        if not why:
            self.wrong.append('%s: refused with %s, for no reason that is known' % (name, ours))
        read = 'as LLVM does' if analyzer.flat(rust) == llvm else 'but not as LLVM does'
        said = 'accepts it, ' + read if rust[:2] == '0 ' else 'gives ' + rust.split(' ')[0]
        self.reasons['%d for %s; the Rust %s' % (number, why, said)].append(name)


def compare(judge, made):
    tally = Tally()
    answers = judged(judge, [str(FILES / name) for names in made.values() for name in names])
    for group, names in made.items():
        before = tally.count.copy()
        for name in names:
            ours, rust = answers[str(FILES / name)]
            llvm = analyzer.answer(FILES / name) if analyzer.program() else None
            (tally.accepted if ours[:2] == '0 ' else tally.refused)(name, ours, rust, llvm)
        size, now = sum((FILES / name).stat().st_size for name in names), tally.count - before
        counts = tuple(now[what] for what in ('accepted', 'refused', 'equal to the Rust', 'items'))
        print('%-12s %2d files, %7d bytes: %2d accepted, %2d refused, %2d equal to the Rust; %6d items as LLVM shows them'
              % (group, len(names), size, *counts))
    return tally


def main(judge):
    if not analyzer.program():
        print('there is no llvm-bcanalyzer: ours and the Rust alone')
    made = make_all()
    tally = compare(judge, made)
    for why, names in tally.reasons.items():
        print('%d refused with %s: %s' % (len(names), why, ', '.join(names)))
    counts = ', '.join('%d %s' % (n, what) for what, n in tally.count.items())
    print('%d files, %s' % (sum(map(len, made.values())), counts))
    for line in tally.wrong:
        print('DIFFERENCE ' + line)
    return 1 if tally.wrong else 0


if __name__ == '__main__':
    sys.setrecursionlimit(10_000)
    sys.exit(main(sys.argv[1] if len(sys.argv) > 1 else str(ROOT / 'target' / 'oracle' / 'judge')))
