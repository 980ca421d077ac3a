"""Small inputs on which LLVM's reader, the Rust and ours part, or on which LLVM's document is silent: found.txt.

    python3 oracle/llvm.py [JUDGE]            are all three answers still as written? exit 1 if not
    python3 oracle/llvm.py --write [JUDGE]    writes the answers anew

A line of found.txt is `SKIPS BYTES | ours ANSWER | rust ANSWER | llvm ANSWER`; lines that begin with # say what the next
ones are about. The judge gives the first two answers, llvm-bcanalyzer 14 the third (analyzer.py).
"""

import collections
import pathlib
import subprocess
import sys
import tempfile

import analyzer

HERE = pathlib.Path(__file__).resolve().parent
FOUND = HERE / 'found.txt'


def ask_judge(judge, skips, data):
    said = subprocess.run([judge, 'hex', skips, data], stdout=subprocess.PIPE, check=True).stdout.decode().split('\n')
    return [line.strip() for line in said[:2]]


def ask_llvm(data):
    with tempfile.NamedTemporaryFile() as file:
        file.write(bytes.fromhex(data))
        file.flush()
        return 'llvm ' + analyzer.answer(file.name)


def lines_of(judge):
    """(the line as it stands, as it should be, which of the three answers agree), the last None for a comment."""
    for line in FOUND.read_text().splitlines():
        if not line or line[0] == '#':
            yield line, line, None
            continue
        question = line.split(' | ')[0]
        skips, data = question.split(' ')
        answers = ask_judge(judge, skips, data) + [ask_llvm(data) if analyzer.program() else line.split(' | ')[-1]]
        yield line, ' | '.join([question, *answers]), agreement(*[answer.split(' ', 1)[1] for answer in answers])


def agreement(ours, rust, llvm):
    """LLVM agrees if its items are the same or if it refuses too, in its own words."""
    def like_llvm(answer):
        return analyzer.flat(answer) == llvm if answer[:2] == '0 ' else answer != 'ends' and llvm[:6] == 'error:'
    pairs = [name for name, equal in (('ours and the Rust', ours == rust), ('ours and LLVM', like_llvm(ours)),
                                      ('the Rust and LLVM', like_llvm(rust))) if equal]
    return 'all three' if len(pairs) == 3 else '; '.join(pairs) or 'no two'


def check(judge):
    about, wrong, counts = '', 0, collections.Counter()
    for stands, should, agree in lines_of(judge):
        if agree is None:
            about = stands.lstrip('# ') if stands[:2] == '# ' else about
            continue
        counts[agree] += 1
        wrong += stands != should
        print('%s  %s' % ('as written' if stands == should else 'NOT SO    ', about))
        if stands != should:
            print('  written: %s\n  is:      %s' % (stands, should))
    whose = 'llvm-bcanalyzer ' + analyzer.version() if analyzer.program() else 'without llvm-bcanalyzer: there is none'
    print('%d inputs, %d not as written (%s); equal answers: %s'
          % (sum(counts.values()), wrong, whose, ', '.join('%s %d' % each for each in counts.most_common())))
    return 1 if wrong else 0


def write(judge):
    FOUND.write_text(''.join(should + '\n' for _, should, _ in list(lines_of(judge))))
    return 0


if __name__ == '__main__':
    arguments = [argument for argument in sys.argv[1:] if argument != '--write']
    program = arguments[0] if arguments else str(HERE.parent / 'target' / 'oracle' / 'judge')
    sys.exit((write if '--write' in sys.argv else check)(program))
