#!/usr/bin/env python3
"""places.py [FOLDER] [-v]: counts the places of docs/DESIGN-PASS.md in crates/*/src of a checkout (this one, if none is named).
-v lists them. For an older commit: git archive COMMIT crates | tar -x -C FOLDER."""
import collections, glob, itertools, os, re, sys

args = [a for a in sys.argv[1:] if a != '-v']
verbose = '-v' in sys.argv
root = args[0] if args else os.path.join(os.path.dirname(os.path.abspath(__file__)), '..')


def sources():
    for path in sorted(glob.glob(os.path.join(root, 'crates/*/src/**/*.rt'), recursive=True)):
        yield os.path.relpath(path, root), open(path, encoding='utf-8').read()


def balanced(text, at, opening='([{', closing=')]}'):
    depth = 1
    while depth:
        depth += (text[at] in opening) - (text[at] in closing)
        at += 1
    return at


def split(parameters):
    parts, depth, part = [], 0, ''
    for c in parameters:
        depth += (c in '([{<') - (c in ')]}>')
        if c == ',' and depth == 0:
            parts.append(part)
            part = ''
        else:
            part += c
    return [p.strip() for p in parts + [part] if p.strip()]


def functions():
    """Each function: file, name, parameters, result, body."""
    head = re.compile(r'^( *)(?:pub(?:\(crate\))? )?(?:const )?(?:extern "C" )?fn (\w+)(?:<[^({;]*>)?\(', re.M)
    for path, text in sources():
        for m in head.finditer(text):
            end = balanced(text, m.end())
            after = re.match(r'\s*(?:->\s*([^\n{]*?))?\s*(?=\n|\{|;)', text[end:])
            opening = re.compile(r'^%s\{$|^(?!\s*(?:requires|ensures))[^\n]*\{$' % m.group(1), re.M).search(text, m.start())
            closing = re.compile(r'^%s\}$' % m.group(1), re.M).search(text, opening.end()) if opening else None
            body = text[opening.end():closing.start()] if closing else ''
            yield path, m.group(2), split(text[m.end():end - 1]), (after.group(1) or '').strip() if after else '', body


def lines(pattern, folder=''):
    found = []
    for path, text in sources():
        if folder and not re.match(folder, path):
            continue
        for n, line in enumerate(text.split('\n'), 1):
            if re.search(pattern, line):
                found.append('%s:%d: %s' % (path, n, line.strip()))
    return found


def named(pattern, test=lambda f: True):
    return ['%s: %s' % (f[0], f[1]) for f in functions() if re.fullmatch(pattern, f[1]) and test(f)]


def twins():
    """Functions whose bodies are one but for names, numbers and texts."""
    groups = {}
    for path, name, parameters, result, body in functions():
        tokens = re.findall(r'b?"[^"]*"|b?\'[^\']*\'|\w+|[^\s\w]', re.sub(r'//[^\n]*', '', body))
        if len(tokens) < 12:
            continue
        words = {'let', 'mut', 'if', 'else', 'while', 'for', 'in', 'return', 'match', 'as', 'true', 'false'}
        shape = ' '.join(t if t in words or not re.match(r'\w|"|\'|b"', t) else 'x' for t in tokens)
        groups.setdefault(shape, []).append('%s: %s' % (path, name))
    return ['; '.join(g) for g in groups.values() if len(g) > 1]


def together():
    """Two parameters, by name and type, that stand together in three functions or more."""
    pairs = collections.defaultdict(set)
    for path, name, parameters, result, body in functions():
        named = [re.sub(r"'\w+ ?", '', p) for p in parameters if not re.fullmatch(r'&?(mut )?self', p)]
        for pair in itertools.combinations(named, 2):
            pairs[pair].add('%s: %s' % (path, name))
    return ['%s, %s: %s' % (a, b, '; '.join(sorted(where))) for (a, b), where in pairs.items() if len(where) >= 3]


def facts():
    """What stands in three contracts or more."""
    found = collections.defaultdict(int)
    for path, text in sources():
        for m in re.finditer(r'^\s*(?:requires|ensures) ?(?:\w+ )?\{(.*?)\}\s*$', text, re.M | re.S):
            found[' '.join(m.group(1).split())] += 1
    return ['%d times: %s' % (n, fact) for fact, n in found.items() if n >= 3]


PLACES = r'crates/(scan|reader|clauses|filling|agreement|expected|rule_table|rules)/'
REAL = {'tally', 'count', 'in_block', 'item_depth', 'hole_depth', 'dropped', 'place', 'number'}

counts = [
    ('1', 'functions that answer a place, or 0, where past the end or 0 says that there is none',
     ['%s: %s -> %s' % (f[0], f[1], f[3]) for f in functions()
      if re.match(PLACES, f[0]) and f[1] not in REAL - {'number'}
      and re.fullmatch(r'usize|Ends|Summary|NumberAt|LinkAt|ArrowAt|RuleAt|SignAt|WordAt|HeadAt|u8', f[3])]),
    ('1', 'kinds, refusals and missing values as numbers, flags beside values, enums of the shape of Option or Result',
     lines(r'^pub const KIND_|^const (FORM|ORDER|CONSTANT|LIMIT|SYMBOL): usize|^pub enum Judged|^    NoForm,|number: usize, line'
           r'|pub failure: |^    pub symbol: bool|^    pub (shaped|arrows): bool|LINES as u16')),
    ('1', 'functions that answer the number of a check, or 0',
     named(r'clause_failure|step_failure|failure|number|failing|seam', lambda f: re.match(r'crates/(state|step)/', f[0]) and f[3] == 'usize')),
    ('1', 'flags in structs and enums', lines(r'^ +(pub )?\w+: bool,')),
    ('2', 'groups of functions with one body but for names, numbers and texts', twins()),
    ('2', 'types that differ only in the type of a field', lines(r'^(pub )?struct (Number|Link|Arrow|Rule|Sign|Word)At\b')),
    ('3', 'loops that count an index or a place by hand', lines(r'^\s*while [^=]*( (<|<=|>|>=) )')),
    ('3', 'loops over numbers', lines(r'^\s*for \w+ in [^{]*\.\.')),
    ('4', 'equality, choice, copying, conversion and printing by hand',
     named(r'both|either|equal|choose|larger|least|row|place|byte|wide|length_of|left|slot|size|counted|held|flag_at|marks_in|may_be_none|reach|is_word|between')
     + named(r'number', lambda f: f[0].startswith('crates/step/'))
     + named(r'word|first_number|second_number', lambda f: f[0].startswith('crates/capi/'))),
    ('5', 'functions with five parameters or more', ['%s: %s (%d)' % (f[0], f[1], len(f[2])) for f in functions() if len(f[2]) >= 5]),
    ('5', 'pairs of parameters that stand together in three functions or more', together()),
    ('5', 'facts that stand in three contracts or more', facts()),
    ('6', 'parallel arrays by clause number, arrays with their length beside, tables of letters beside tables of what they name',
     lines(r'&(mut )?\[(u8|u16); LINES\]|\[0u(8|16); (LINES|SYMBOLS)\]|counts: &\[u8\]|, 3, b"|, 2, b"|, 1, b"|list: &\[usize\]|(first|second): &\[usize\]|starts: &\[usize\]|; PLACES\]')),
    ('7', 'a switch on which step to run', lines(r'pairs: bool')),
]

for point, what, found in counts:
    print('%s  %3d  %s' % (point, len(found), what))
    if verbose:
        for f in found:
            print('          ' + f)
for name, pattern in (('Rattle', 'src/**/*.rt'), ('specs', 'specs/*.antt'), ('proofs', 'proofs/**/*.antt')):
    files = glob.glob(os.path.join(root, 'crates/*', pattern), recursive=True)
    print('8  %3d files, %5d lines of %s' % (len(files), sum(len(open(f, encoding='utf-8').readlines()) for f in files), name))
