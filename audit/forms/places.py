#!/usr/bin/env python3
# Counts for inventory.md. Run at the top of the repository: python3 inventory.py NAME [-l]; -l lists the places.
import collections, glob, re, sys

def files():
    return sorted(glob.glob('crates/*/src/*.rt'))

def short(f):
    return f.replace('crates/', '').replace('/src/', '/')

def functions():
    # (file, line, name, [(parameter, type)], text from `fn` to the opening brace of the body, body)
    for f in files():
        t = re.sub(r'//[^\n]*', '', open(f).read())
        for m in re.finditer(r'\bfn\s+(\w+)', t):
            i = m.end(); d = 0
            while t[i] != '(' or d > 0:  # over the type parameters, if there are any
                if t[i:i + 2] == '->': i += 2; continue
                d += (t[i] == '<') - (t[i] == '>')
                i += 1
            d = 0; j = i; parts = ['']
            while True:
                if t[j:j + 2] == '->': parts[-1] += '->'; j += 2; continue
                d += (t[j] in '(<[') - (t[j] in ')>]')
                if t[j] == ',' and d == 1: parts.append('')
                elif j > i and d > 0: parts[-1] += t[j]
                j += 1
                if d == 0: break
            ps = []
            for p in parts:
                p = ' '.join(p.split())
                if p:
                    n, _, ty = p.partition(':')
                    ps.append((n.replace('mut ', '').strip(), ty.strip() or n))
            k = j
            while t[k] not in '{;' or re.search(r'(requires|ensures)(\s+\w+)?\s*$', t[j:k]):
                if t[k] == '{':
                    d = 0
                    while True:
                        d += (t[k] == '{') - (t[k] == '}')
                        k += 1
                        if d == 0: break
                else: k += 1
            d = 0; e = k
            if t[k] == '{':
                while True:
                    d += (t[e] == '{') - (t[e] == '}')
                    e += 1
                    if d == 0: break
            yield f, t[:m.start()].count('\n') + 1, m.group(1), ps, t[j:k], t[k:e]

def enums():
    for f in files():
        t = re.sub(r'//[^\n]*', '', open(f).read())
        for m in re.finditer(r'^(pub )?enum (\w+)[^{]*\{(.*?)^\}', t, re.S | re.M):
            vs = re.findall(r'^    (\w+)(\([^)]*\))?', m.group(3), re.M)
            yield f, t[:m.start()].count('\n') + 1, m.group(2), vs

BAD = {'Refused', 'Unseen', 'Stays', 'Untaken', 'No', 'Not', 'Other', 'Nothing'}

def shaped(mixed):
    # enums with a variant that says "refused" or "none": two variants (own Option or Result), or more (a sum with an Err in it)
    for f, l, n, vs in enums():
        if any(v in BAD for v, _ in vs) and (len(vs) > 2) == mixed:
            yield f'{short(f)}:{l} {n} ' + ' | '.join(v + a for v, a in vs)

def sums():
    for f, l, n, vs in enums():
        if not any(v in BAD for v, _ in vs):
            yield f'{short(f)}:{l} {n}'

def arms():
    # arms of a match, or else-blocks, that only hand a refusal or a none on: what `?` does
    w = r'(?:Refused|Unseen|Stays|Untaken|No|Not|Other|Nothing)'
    for f in files():
        t = open(f).read()
        for m in re.finditer(r'\b(\w+)::' + w + r'(\([^()]*\))?\s*=>\s*(?:\{\s*)?(?:return |break )?(\w+)::' + w + r'\b', t):
            yield f'{short(f)}:{t[:m.start()].count(chr(10)) + 1} {m.group(1)} -> {m.group(3)}'
        for m in re.finditer(r'\belse \{\s*return (\w+)::' + w + r';', t):
            yield f'{short(f)}:{t[:m.start()].count(chr(10)) + 1} let-else -> {m.group(1)}'
        # the same in today's types, where it is still written out
        for m in re.finditer(r'\b(Err\([^()]*\)|None)\s*=>\s*(?:\{\s*)?(?:return |break )?(Err\(|None\b)', t):
            yield f'{short(f)}:{t[:m.start()].count(chr(10)) + 1} {m.group(1)} by hand'
        for m in re.finditer(r'\belse \{\s*return (None|Err\([^;]*\));', t):
            yield f'{short(f)}:{t[:m.start()].count(chr(10)) + 1} let-else {m.group(1)}'

def loops(by_hand):
    # while and loop; by hand: its function has `x = x + 1`, `x += 1` or `left = left - 1` in it
    for f, l, n, ps, c, b in functions():
        for m in re.finditer(r'\b(while\b[^{\n]*|loop) \{', b):
            hand = bool(re.search(r'\b(\w+) = \1 [+-] 1;|\b\w+ [+-]= 1;', b)) and n not in HAS_DATA
            if hand == by_hand:
                yield f'{short(f)}: {n}: {m.group(0)}'

# `have` of read_info_items counts shared rows, which is data and not the loop's index
HAS_DATA = {'read_info_items'}

def clauses(least=3):
    # equal conjuncts of contracts, in so many functions
    got = collections.defaultdict(list)
    for f, l, n, ps, c, b in functions():
        for m in re.finditer(r'(requires|ensures)(?:\s+\w+)?\s*\{(.*?)\}\s*(?=requires|ensures|$)', c, re.S):
            t = re.sub(r'\s+', ' ', m.group(2)).strip()
            d = 0; parts = ['']
            for ch in t:
                d += (ch in '({[') - (ch in ')}]')
                if ch == '×' and d == 0: parts.append('')
                else: parts[-1] += ch
            for p in parts:
                p = p.strip()
                if re.fullmatch(r'\([^()]*(\([^()]*(\([^()]*\)[^()]*)*\)[^()]*)*\)', p): p = p[1:-1]
                got[p].append(f'{m.group(1)} {f.split("/")[1]}::{n}')
    for p, v in sorted(got.items(), key=lambda x: (-len(x[1]), x[0])):
        if len(v) >= least:
            yield f'{len(v)}  {p}  | ' + ', '.join(v)

def word(w):
    # functions whose contract has this word
    for f, l, n, ps, c, b in functions():
        if re.search(r'(?<![\w.])' + w + r'\b', c):
            yield f'{short(f)}:{l} {n}'

def group(names):
    # functions whose parameters have all these names
    for f, l, n, ps, c, b in functions():
        if set(names.split(',')) <= {p for p, _ in ps}:
            yield f'{short(f)}:{l} {n}'

def wide(least):
    for f, l, n, ps, c, b in functions():
        if len(ps) >= int(least):
            yield f'{short(f)}:{l} {n} {len(ps)}'

def outs():
    # functions with an answer and a lent number (not a slice) for another: `&mut u64`
    for f, l, n, ps, c, b in functions():
        if any(re.fullmatch(r'&mut [ui]\d+', t) for _, t in ps):
            yield f'{short(f)}:{l} {n}'

def named(names):
    # functions of these names: FILE/NAME,..; FILE as in the lists, `*` for all
    for w in names.split(','):
        p, _, n = w.rpartition('/')
        for f, l, m, ps, c, b in functions():
            if m == n and (p == '*' or short(f).startswith(p)):
                yield f'{short(f)}:{l} {n}'

def uses(names):
    # how often these words stand in the bodies of functions
    for f, l, n, ps, c, b in functions():
        for w in re.findall(r'\b(?:' + names.replace(',', '|') + r')\b', b):
            yield f'{short(f)}:{l} {n} {w}'

def pattern(p):
    # how often this pattern stands in the bodies of functions
    for f, l, n, ps, c, b in functions():
        for m in re.finditer(p, b):
            yield f'{short(f)}:{l} {n}: {" ".join(m.group(0).split())}'

def declarations():
    # (file, name, type, right side) of each declaration in files of proofs/ that git knows
    import subprocess
    fs = subprocess.run(['git', 'ls-files', 'crates'], capture_output=True, text=True).stdout.split()
    for f in sorted(f for f in fs if '/proofs/' in f and f.endswith('.antt')):
        chunks = []
        for line in re.sub(r'--[^\n]*', '', open(f).read()).split('\n'):
            if line[:1] not in ('', ' ', ')', '}'): chunks.append(line)
            elif chunks: chunks[-1] += ' ' + line.strip()
        cur = None
        for ch in chunks:
            m = re.match(r'(?:(?:pub|abbrev|unfoldable) )*(\S+) : (.*)', ch)
            if m and not ch.startswith(('use ', 'unfolding ')):
                if cur: yield cur
                cur = (f, m.group(1), m.group(2).strip(), '')
            elif cur and ch.split(' ')[0] == cur[1]:
                cur = cur[:3] + ((cur[3] + ' ; ' if cur[3] else '') + ch.partition('=')[2].strip(),)
        if cur: yield cur

def proofs(what):
    # answers: theorems of goals in Answers.antt. alone: those whose right side is only a search, arithmetic or reflexivity. helpers: definitions in
    # files of proofs/ that are neither an answer nor an invariant or a measure. own: helpers in an Answers.antt of one function.
    # repeated: right sides that stand in three answers or more
    same = collections.defaultdict(list)
    for f, n, ty, right in declarations():
        goal = ty.startswith('goal.') and f.endswith('Answers.antt')
        given = ty.startswith('goal.') and not goal
        right = ' '.join(right.split())
        if goal: same[right].append(f'{f.split("/")[1]}/{"/".join(f.split("/")[3:-1])}.{n}')
        place = f'{f} {n}'
        if what == 'answers' and goal: yield place
        if what == 'invariants' and given: yield place
        if what == 'helpers' and not goal and not given: yield place
        if what == 'own' and not goal and not given and f.endswith('Answers.antt') and f.count('/') > 3: yield place
        if what == 'alone' and goal and re.fullmatch(r'(λ \w+\. )?[(), ]*((search rules|omega arith|refl|tt)[(), ]*)+', right): yield f'{place} = {right}'
    if what == 'repeated':
        for r, v in sorted(same.items(), key=lambda x: -len(x[1])):
            if len(v) >= 3: yield f'{len(v)}  {r[:110]}  | ' + ', '.join(v)

def all_functions():
    for f, l, n, ps, c, b in functions():
        yield f'{short(f)}:{l} {n}'

T = {'option-result': lambda: shaped(False), 'mixed': lambda: shaped(True), 'sums': sums, 'arms': arms,
     'by-hand': lambda: loops(True), 'other-loops': lambda: loops(False), 'clauses': clauses, 'word': word,
     'group': group, 'wide': wide, 'outs': outs, 'named': named, 'functions': all_functions, 'uses': uses, 'pattern': pattern, 'proofs': proofs}
a = [x for x in sys.argv[1:] if x != '-l']
r = list(T[a[0]](*a[1:]))
if '-l' in sys.argv: print('\n'.join(r))
print(len(r))
