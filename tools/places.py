#!/usr/bin/env python3
# Counts the places of the design pass (docs/DESIGN-PASS.md): lines of crates/*/src that match a pattern of each point.
#   python3 tools/places.py [-v] [FOLDER]        -v prints each place
import glob, os, re, sys

verbose = '-v' in sys.argv
top = next((a for a in sys.argv[1:] if not a.startswith('-')), '.')

# point, what is counted, pattern of a line
PATTERNS = [
    (1, 'a field that says whether there is a value, or a number, beside the value', r'^ +pub (fits|fit|decimals|given|read|number): (bool|u32),'),
    (1, 'a test of a refusal by its number', r'\b(number|refusal|early|own|front) (!=|==) 0\b'),
    (1, 'a refusal answered as a number', r'^ +return ([1-9]\d?|refusal|number|early|own);|\breturn refused\(\d+\)|number: (8|early|refusal|over_the_top)|without_height\([1-9]'),
    (1, 'a yes or no that is only passed on', r'\bok: bool'),
    (2, 'a function that makes an array of one length', r'-> \[(i32|i64|u32|u8|bool); \d+\]$'),
    (2, 'a function for one size of lists', r'\bfn (smallest|small|large)_'),
    (2, 'a test of a range by hand', r'\bfn is_(within|between|along)\b|\(-?\d+ <= \w+(\.\w+)*\) & \(|\(low <= '),
    (2, 'the same look at a list and at a sheet', r'\bfn (all_between|pairs_still|walls_still|values_fit)\b'),
    (2, 'the same walk that measures and that writes', r'\bfn (cell_size|row_size|values_size|put_cell|put_row|put_values)\b'),
    (3, 'a loop that counts by hand', r'^ *while '),
    (3, 'a loop over an index', r"^ *('[a-z]+: )?for \w+ in [^&]*\.\."),
    (4, 'what std has: the larger, the smaller, a size, a sign', r'\bfn (larger|positive|adds|wants|takes|size|counted|upwind|quotient|is_finite|deep_enough)\b'),
    (4, 'a conversion, a copy or a comparison by hand', r'\bfn (widened|bits_of|value_of|swapped|word|put_word|less|lower|is_key|copy|copy_front|clear|renew|greatest|is_same|number|put_number)\b'),
    (6, 'a list and how far it is filled', r'out: &mut \[u8\], at: usize'),
    (6, 'two lists that run side by side', r'xs: &\[i64\]'),
    (7, 'a yes or no that picks the engine', r'textbook: bool'),
    (7, 'a yes or no that picks the way of a face', r'\beast: bool'),
]

# numbers that are no refusals: how many bytes a text takes, and a byte of it
NO_REFUSALS = re.compile(r'crates/(put/src/lib|raster_writer/src/(metres|lines))\.rt$')

places = {}
for path in sorted(glob.glob(os.path.join(top, 'crates/*/src/**/*.rt'), recursive=True)):
    for n, line in enumerate(open(path, encoding='utf-8'), 1):
        if line.lstrip().startswith('//'):
            continue
        for point, what, pattern in PATTERNS:
            if what == 'a refusal answered as a number' and NO_REFUSALS.search(path):
                continue
            if re.search(pattern, line):
                places.setdefault((point, what), []).append((os.path.relpath(path, top), n, line.strip()))

# point 5: functions with six parameters or more
for path in sorted(glob.glob(os.path.join(top, 'crates/*/src/**/*.rt'), recursive=True)):
    text = open(path, encoding='utf-8').read()
    for m in re.finditer(r'\bfn (\w+)(?:<[^(]*>)?\(([^)]*)\)', text):
        parameters = [p for p in m.group(2).split(',') if p.strip()]
        if len(parameters) >= 6:
            line = text.count('\n', 0, m.start()) + 1
            places.setdefault((5, 'a function with six parameters or more'), []).append((os.path.relpath(path, top), line, f'{m.group(1)}: {len(parameters)}'))

# point 8: proofs
for path in sorted(glob.glob(os.path.join(top, 'crates/*/proofs/**/*.antt'), recursive=True)):
    seen = {}
    for n, line in enumerate(open(path, encoding='utf-8'), 1):
        if len(line.rstrip('\n')) > 200:
            places.setdefault((8, 'a line of a proof over 200 characters'), []).append((os.path.relpath(path, top), n, ''))
        m = re.match(r' +let (\S.{40,}) in$', line)
        if m:
            seen.setdefault(m.group(1), []).append(n)
    for text, lines in seen.items():
        for n in lines[1:]:
            places.setdefault((8, 'a `let` that its file has already'), []).append((os.path.relpath(path, top), n, text[:80]))

kinds = sorted({(p, w) for p, w, _ in PATTERNS} | set(places), key=lambda k: (k[0], [w for _, w, _ in PATTERNS].index(k[1]) if k[1] in [w for _, w, _ in PATTERNS] else 99))
for kind in kinds:
    found = places.get(kind, [])
    print(f'{kind[0]}  {len(found):4}  {kind[1]}')
    if verbose:
        for path, n, line in found:
            print(f'            {path}:{n}: {line}')
