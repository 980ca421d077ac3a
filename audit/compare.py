"""Holds the programs against the model on as many inputs as you like.

    python3 audit/compare.py SEED COUNT         trial: COUNT generated logs with their skip lists and store sizes
    python3 audit/compare.py exchange SEED COUNT    trial: COUNT generated pairs of blocks, exchanged (exchanges.py)
    python3 audit/compare.py FILE ...           dump: each file

The first difference ends the run: the question, what the model says and what the program says. Of the exchanges five
in six have all hypotheses of demand 3 true, and then the run ends too if the model doesn't say `exchanged`.
"""

import collections
import itertools
import pathlib
import subprocess
import sys

import exchanges
import generate
import model
import vectors_walk

ROOT = pathlib.Path(__file__).resolve().parent.parent
BATCH = 2_000


def run(program, data):
    return subprocess.run([ROOT / 'run', program], input=data, stdout=subprocess.PIPE, check=True).stdout.decode()


def differ(question, expected, found):
    sys.exit('DIFFERENCE\n%s\n-- the model:\n%s\n-- the program:\n%s' % (question, expected, found))


def compare_batch(lines):
    """One run of the program; its answers are told apart by the questions, which it repeats. Gives the model's answers."""
    said, answers = run('trial', ''.join(line + '\n' for line in lines).encode()), []
    for line in lines:
        expected = vectors_walk.reply(line)
        if not said.startswith(expected):
            differ(line, expected, said[:len(expected) + 200])
        said = said[len(expected):]
        answers.append(expected[len(line) + 1:])
    if said:
        differ('behind the last question', '', said[:200])
    return answers


def trials(seed, count):
    cases = (vectors_walk.line_of(*case) for case in generate.cases(seed, count))
    counts = collections.Counter()
    while lines := list(itertools.islice(cases, BATCH)):
        counts.update(int(answer.split('status=')[1].split(' ')[0]) for answer in compare_batch(lines))
    print('%d generated logs of seed %d, no difference: ' % (count, seed) + ', '.join('status %d %d times' % pair for pair in sorted(counts.items())))


def verdict_kind(answer):
    """`exchanged`, `apart`, `is status=8`, `differs event` and the like."""
    words = answer.split()
    return words[0] if words[0] in ('exchanged', 'apart') else words[0] + ' ' + (words[1] if words[0] in ('was', 'is') else words[1].split('=')[0])


def exchanged(seed, count):
    cases, kinds, depths = exchanges.cases(seed, count), collections.Counter(), collections.Counter()
    while batch := list(itertools.islice(cases, BATCH)):
        lines = [vectors_walk.exchange_line(*asked) for _, asked in batch]
        for (pair, _), line, answer in zip(batch, lines, compare_batch(lines)):
            if not pair.failing and not answer.startswith('exchanged '):
                differ(line, 'demand 3: exchanged', answer)
            kinds[verdict_kind(answer) + (', %s fails' % pair.failing[0] if pair.failing else '')] += 1
            depths[pair.depth] += 1
    print('%d generated pairs of seed %d, no difference: ' % (count, seed) + '; '.join('%s: %d times' % each for each in sorted(kinds.items())))
    print('open blocks around them: ' + ', '.join('%d %d times' % each for each in sorted(depths.items())))


def files(paths):
    counts = collections.Counter()
    for path in paths:
        data = pathlib.Path(path).read_bytes()
        expected, found = model.dump(data), run('dump', data)
        if expected != found:
            differ(path, expected[:2000], found[:2000])
        counts[expected.split(' ')[0]] += 1
    print('%d files, no difference: ' % len(paths) + ', '.join('%s %d times' % pair for pair in sorted(counts.items())))


if __name__ == '__main__':
    if sys.argv[1] == 'exchange':
        exchanged(int(sys.argv[2]), int(sys.argv[3]))
    elif sys.argv[1].isdigit():
        trials(int(sys.argv[1]), int(sys.argv[2]))
    else:
        files(sys.argv[1:])
