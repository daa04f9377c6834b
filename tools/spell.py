#!/usr/bin/env python3
# Brings this repository's own names to today's spelling, once, after port.py: words in snake case, and a dash only where it joins two names.
#   python3 tools/spell.py [FOLDER]
# It goes over .antt, .rt and .edit files below FOLDER/crates, leaves strings alone, and in comments turns what stands in backticks or has a capital inside.
# Also: no file of specs/ is called Contracts, and no variable is called `ground`, which is a tactic's name.
import os, re, sys, collections

top = next((a for a in sys.argv[1:] if not a.startswith('--')), '.')
SELF = ('.antt', '.rt', '.edit')
TOKEN = re.compile(r"[^\s(){}\[\];,.\"`@]+")
# what stands in for a contract's file name, and for a variable that a tactic's name hides
CONTRACTS, GROUND = 'PublicContracts', 'land'

files = []
for root, dirs, names in os.walk(os.path.join(top, 'crates')):
    dirs[:] = sorted(d for d in dirs if d != 'out')
    for name in sorted(names):
        if name.endswith(SELF):
            files.append(os.path.join(root, name))
texts = {f: open(f, encoding='utf-8').read() for f in files}

def of_a_function(f):
    return '/proofs/' in f and f.endswith('/Proof.antt')

# ---- what the repository defines
SIGNATURE = re.compile(r"^(\s*)((?:(?:unfoldable|abbrev|pub|record|data)\s+)*)([^\s(){};,.:\"]+(?: +[^\s(){};,.:\"]+)*)((?:\s+[({][^:]*:.*)?) :(?:\s|$)")
plain, fields, lemmas, goals = set(), set(), set(), set()
for f, t in texts.items():
    if not f.endswith('.antt'):
        continue
    headers = []
    for line in t.split('\n'):
        if not line.strip() or line.lstrip().startswith('--'):
            continue
        indent = len(line) - len(line.lstrip())
        headers = [h for h in headers if h[0] < indent]
        in_record = bool(headers) and headers[-1][1] in ('record', 'data')
        h = re.match(r"\s*(?:(?:unfoldable|abbrev|pub)\s+)*(record|data|module)\s", line)
        if h:
            headers.append((indent, h.group(1)))
        m = SIGNATURE.match(line)
        if not m:
            continue
        named = [n for n in m.group(3).split() if n not in ('pub', 'abbrev', 'unfoldable', 'record', 'data', 'module')]
        for n in named:
            if of_a_function(f) and re.search(r':\s*(\S+\.)?(Need-|statement)', line):
                goals.add(n)
            elif in_record:
                fields.add(n)
            else:
                lemmas.add(n)
                if '-' not in n and '/specs/' in f and ('/rules/' in f or '/pins_rules/' in f):
                    plain.add(n)
STD = set('length sum get_or map take drop set append mul add sub div quot neg abs nat_abs leb ltb eqb le_z lt_z cond all tabulate pos negsuc suc zero mag to_z of_z'.split())

HUMP = re.compile(r"(?<=[a-z0-9₀-₉'])(?=[A-Z])")
def low(part):
    # one run between dashes and underscores: capitals inside become words; a leading capital, a fact's, stays
    if not part or not re.match(r"[a-zκ]", part):
        return part
    return HUMP.sub('_', part).lower() if HUMP.search(part) else part
def snake(name):
    return '-'.join('_'.join(low(p) for p in d.split('_')) for d in name.split('-'))
def is_name(part):
    return part in plain or part in STD or snake(part) in STD
WORD = re.compile(r"^[a-z0-9_'₀-₉A-Z]+$")
def undash(name, is_field):
    if name.endswith(('-spec', '_spec')):
        return name.replace('-', '_')
    parts = name.split('-')
    out = parts[0]
    for a, b in zip(parts, parts[1:]):
        both = WORD.match(a or '') and WORD.match(b or '')
        keep = not both or (not is_field and is_name(a) and is_name(b))
        out += ('-' if keep else '_') + b
    return out

# A lemma that would have a definition's name gets `_lem`, and a field or row that would stand beside one in its file `_is`.
new = {'noText': 'nil_text', 'number_behind': 'number_behind_lem'}
known = (lemmas | fields)
tokens = {f: set(TOKEN.findall(t)) for f, t in texts.items()}
defined = {snake(w) for w in lemmas if '-' not in w and re.match(r"^[a-z]", w)}
for w in sorted(known):
    if '-' in w and re.match(r"^[a-z]", w):
        r = snake(undash(w, w in fields))
        if r == snake(w):
            continue
        beside = any(w in ts and any(snake(x) == r and x != w for x in ts if '-' not in x) for f, ts in tokens.items())
        if w in lemmas and (r in defined or beside):
            new[w] = r + '_lem'
        elif w in fields and beside:
            new[w] = r + '_is'
        if w in new:
            print('made apart:', w, new[w])

def turned(token, code):
    if token in new:
        return new[token]
    r = token
    if '-' in token and token in known and re.match(r"^[a-z]", token) and code:
        r = undash(token, token in fields)
    r = snake(r)
    return r

def respell(f, t, log):
    out, line_no = [], 0
    rt = f.endswith('.rt')
    for line in t.split('\n'):
        pos, res, comment = 0, '', False
        edit = f.endswith('.edit')
        tick = False
        i = 0
        while i < len(line):
            c = line[i]
            if not comment and c == '"' and not (rt and line[i-1:i] == "'"):
                j = i + 1
                while j < len(line) and line[j] != '"':
                    j += 2 if line[j] == '\\' else 1
                res += line[i:j+1]
                i = j + 1
                continue
            if not comment and (line.startswith('-- ', i) or line[i:] == '--' or line.startswith('//', i)):
                comment = True
            if comment and c == '`':
                tick = not tick
            m = TOKEN.match(line, i)
            if not m:
                res += c
                i += 1
                continue
            w = m.group()
            if comment:
                r = turned(w, tick) if (tick or HUMP.search(w)) else w
            else:
                if rt and not re.match(r"^[\w'-]+$", w):
                    # Rust's operators stand close to names
                    r = re.sub(r"[A-Za-z_][A-Za-z0-9_']*", lambda q: snake(q.group()), w)
                else:
                    skip = of_a_function(f) and (w in goals or line[max(0, i-4):i] == 'tie.')
                    r = w if skip else turned(w, True)
            if not comment:
                r = re.sub(r"^Contracts$", CONTRACTS, r)
                r = re.sub(r"^(&?(?:mut )?)ground(:?)$", lambda q: q.group(1) + GROUND + q.group(2), r)
                if rt:
                    r = re.sub(r"(?<![A-Za-z0-9_])ground(?![A-Za-z0-9_])", GROUND, r)
            if r != w:
                log[w].add(r)
            res += r
            i = m.end()
        out.append(res)
    return '\n'.join(out)

log = collections.defaultdict(set)
result = {f: respell(f, t, log) for f, t in texts.items()}

# ---- names that fall together in one file
bad = 0
for f in files:
    back = collections.defaultdict(set)
    for a, b in zip(TOKEN.findall(texts[f]), TOKEN.findall(result[f])):
        back[b].add(a)
    for b, old in back.items():
        old = {a for a in old if '"' not in a}
        if len(old) > 1:
            print('fall together:', f, b, sorted(old))
            bad += 1
for w in sorted(log):
    if len(log[w]) > 1:
        print('two ways:', w, log[w])
if '--dry' in sys.argv:
    for w in sorted(log):
        print(w, *sorted(log[w]))
    sys.exit(0)
# ---- names that the rule left with a dash where no two names are joined, and names with a middle dot, which stands for a module
AFTER = {w: w.replace('-', '_') for w in (
    'grounds-flat minus_zero-answer next-sum next-sum_by run-sum pumped-sum same_pumped-check next-room played-run printed-played pumped-room '
    'free-stands places-empty number-written sum-all printed-all all-add').split()}
def after(t):
    out, i = '', 0
    for m in TOKEN.finditer(t):
        w = m.group()
        w = AFTER.get(w, w)
        if re.match(r"^[A-Za-z_]+·[a-z][\w'-]*$", w):
            a, b = w.split('·')
            w = a.lower() + '_' + b.replace('-', '_')
        out += t[i:m.start()] + w
        i = m.end()
    return out + t[i:]
if '--after' in sys.argv:
    result = {f: after(t) for f, t in texts.items()}
else:
    result = {f: after(t) for f, t in result.items()}

for f in files:
    if result[f] != texts[f]:
        open(f, 'w', encoding='utf-8').write(result[f])
for f in files:
    if os.path.basename(f) == 'Contracts.antt' and '/specs/' in f:
        os.rename(f, os.path.join(os.path.dirname(f), CONTRACTS + '.antt'))
print('spell:', sum(result[f] != texts[f] for f in files), 'files,', len(log), 'names;', bad, 'fall together')
