"""Holds the definition against the model: `python3 audit/evaluate.py SEED COUNT`.

The generator makes COUNT inputs with skip lists and store sizes, the model answers each, and the prover evaluates the definition's `walk` on all of
them: one statement over a table, in a scratch repository beside copies of the crates. It prints 'evaluate: N inputs agree', or the prover's error.
"""

import os
import re
import shutil
import subprocess
import sys
import tempfile
from collections import Counter

import generate
import model

ROOT = os.path.dirname(os.path.dirname(os.path.abspath(__file__)))
ROWS = 150  # in one statement

HEAD = """-- Rows that were made by a generator and answered by the model.
use mathlib.Core.Path.{◌≡◌, refl}
use Rattle.std.specs.Prelude.{List, [], ◌∷◌, map, ℕ}
use Rattle.terms.specs.Refusals.{refusal}
use Rattle.bitcode.specs.declared.Signature.{Signature}
%s

data Reply : Type 0 where
  denial : ℕ → ℕ → ℕ → ℕ → Reply
  reading : Signature → List ℕ → List ℕ → Reply

data Row : Type 0 where
  row : List ℕ → List ℕ → ℕ → ℕ → Reply → Row

see : Outcome → Reply
see (denied (refusal n p x y)) = denial n p x y
see (accepted h xs) = reading h (entries (all_events xs)) (all_store xs)

asked : Row → Reply
asked (row bs skips n m r) = see (walk bs skips n m)

reply : Row → Reply
reply (row bs skips n m r) = r
"""

STATEMENT = """
table_%(k)d : List Row
table_%(k)d =
%(rows)s    []

agree_%(k)d : map asked table_%(k)d ≡ map reply table_%(k)d
unfolding table_%(k)d asked reply see %(names)s
agree_%(k)d = refl
"""


def numbers(values):
    return '(%s[])' % ''.join('%d ∷ ' % v for v in values)


def row(case, answer):
    data, skips, n, m = case
    if answer['status']:
        told = 'denial %(status)d %(place)d %(first)d %(second)d' % answer
    else:
        fields = zip(('magic', 'magic2', 'version', 'offset', 'size', 'cpu'), answer['header'])
        signature = 'record { %s }' % '; '.join('%s = %d' % field for field in fields)
        events = [number for event in answer['events'] for number in event]
        told = 'reading (%s) %s %s' % (signature, numbers(events), numbers(answer['operands']))
    return '    row %s %s %d %d (%s) ∷\n' % (numbers(data), numbers(skips), n, m, told)


def definitions():
    """The `use` lines and the names to unfold, as the product's own samples have them."""
    text = open(os.path.join(ROOT, 'crates/walk/specs/Samples.antt')).read()
    uses = re.findall(r'^use Rattle\.\S+\.\{[^}]*\}$', text, re.M)
    uses = [use for use in uses if 'Refusals' not in use and 'Prelude' not in use]
    names = re.search(r'^samples : .*\nunfolding ((?:.*\n)+?)samples = refl', text, re.M).group(1).split()
    local = {'table', 'asked', 'reply', 'ask', 'saw', 'refused_empty', 'accepted_bare', 'accepted_dump'}
    outcome = 'use Rattle.walk.specs.Walk.{Outcome, denied, accepted}'
    return '\n'.join(uses + [outcome]), ' '.join(name for name in names if name not in local)


def evaluate(cases, scratch):
    uses, names = definitions()
    answers = [model.walk(*case) for case in cases]
    rows = [row(case, answer) for case, answer in zip(cases, answers)]
    tables = [rows[k:k + ROWS] for k in range(0, len(rows), ROWS)]
    text = HEAD % uses + ''.join(
        STATEMENT % {'k': k, 'rows': ''.join(table), 'names': names} for k, table in enumerate(tables))

    crates = os.path.join(scratch, 'crates')
    layers = {'terms': '', 'bits': 'terms', 'bitcode': 'terms bits', 'abbrev': 'terms bits bitcode',
              'walk': 'terms bits bitcode abbrev', 'cases': 'terms bits bitcode abbrev walk'}
    for name in layers:
        if name != 'cases':
            ignore = shutil.ignore_patterns('must-fail')
            shutil.copytree(os.path.join(ROOT, 'crates', name), os.path.join(crates, name), ignore=ignore)
    for folder in ('src', 'specs'):
        os.makedirs(os.path.join(crates, 'cases', folder))
    open(os.path.join(scratch, 'crates.txt'), 'w').write(''.join('%s: %s\n' % layer for layer in layers.items()))
    open(os.path.join(crates, 'cases/src/lib.rt'), 'w').write('#![tactic(auto)]\n')
    open(os.path.join(crates, 'cases/specs/Lib.antt'), 'w').write('pub mod Cases\n')
    open(os.path.join(crates, 'cases/specs/Cases.antt'), 'w').write(text)
    run = subprocess.run(['rt', 'check'], cwd=os.path.join(crates, 'cases'), stdout=subprocess.PIPE, stderr=subprocess.STDOUT, text=True)
    return run.returncode == 0, run.stdout, Counter(answer['status'] for answer in answers)


def main():
    seed, count = int(sys.argv[1]), int(sys.argv[2])
    with tempfile.TemporaryDirectory() as scratch:
        agree, output, statuses = evaluate(list(generate.cases(seed, count)), scratch)
    if not agree:
        sys.exit(output[-4000:])
    print('evaluate: %d inputs agree' % count)
    print('by status:', ', '.join('%d: %d' % pair for pair in sorted(statuses.items())))


if __name__ == '__main__':
    main()
