#!/usr/bin/env python3
"""Counts the places in src/ that an older form may hold: `python3 tools/old_forms.py [-v]` at the top of the repository.

1  enums of two variants; constants that number kinds; kinds and rows that are told apart by a literal number
2  functions alike but for names, types and numbers: groups, and the functions in them
3  while loops whose test reads a counter that the body moves by one
4  functions that compare, order, copy, clear, widen or index by hand
5  functions that take one of the groups of parameters that go together
6  functions that take a slice and the number of its words in use; arrays of a fixed size that are made
7  matches of five arms and more that choose what to run by a number
8  lines of Answers.antt and Invariants.antt
"""
import glob, re, sys

VERBOSE = '-v' in sys.argv
FILES = sorted(glob.glob('crates/*/src/*.rt'))


def show(point, what, places):
    print(f'{point}  {len(places):4}  {what}')
    if VERBOSE:
        for p in places:
            print('        ', p)


def bare(text):
    """Without comments, and with the braces in strings and characters taken out."""
    quoted = r'"(?:\\.|[^"\\])*"|\'(?:\\.|[^\'\\])\''
    return re.sub(rf'//[^\n]*|{quoted}', lambda m: '' if m.group(0).startswith('//') else re.sub('[{}]', '_', m.group(0)), text)


def block(text, start):
    """The text of the braces that open at or after start."""
    i = text.index('{', start)
    depth = 0
    for j in range(i, len(text)):
        depth += {'{': 1, '}': -1}.get(text[j], 0)
        if depth == 0:
            return text[i + 1:j]
    raise ValueError(text[start:start + 60])


def functions(text):
    for m in re.finditer(r'^(?:pub(?:\([a-z]+\))? )?fn (\w+)(?:<[^>]*>)?\((.*?)\)(?: -> ([^\n{]*?))?\s*(?=\n    (?:requires|ensures)|\{)', text, re.S | re.M):
        at = m.end()
        while True:   # over the clauses: each has braces of its own
            c = re.compile(r'\s*(?:requires|ensures)\s*(?:\w+\s*)?(?=\{)').match(text, at)
            if not c:
                break
            body = block(text, c.end())
            at = text.index('{', c.end()) + len(body) + 2
        yield m.group(1), m.group(2), m.group(3) or '', block(text, at)


enums, consts, literals, loops, by_hand, groups, used, arrays, switches = [], [], [], [], [], [], [], [], []
shapes = {}
GROUPS = [('facts', 'query'), ('words', 'ids', 'known'), ('tokens', 'words'), ('store', 'firsts', 'vars'), ('out', 'at', 'write'), ('relations', 'universe'), ('hints', 'parts'), ('u', 'n', 't')]
HAND = r'^(same|same_words|compare|smaller|larger|clear|copy|wide|word_at|byte_at|put_at|put|put_relation|among|insert_at|previous|place_of|find_place|no_item|starts_with|place_at|number|place|ending_number|wide_counts|\w+_fields)$'
for file in FILES:
    crate = file.split('/')[1]
    text = bare(open(file).read())
    for m in re.finditer(r'\benum (\w+)', text):
        variants = [v for v in re.sub(r'\([^()]*\)', '', block(text, m.end())).split(',') if v.strip()]
        if len(variants) == 2:
            enums.append(f'{crate}: {m.group(1)}')
    consts += [f'{crate}: {m.group(1)}' for m in re.finditer(r'^(?:pub )?const (\w+): u\d+ = \d+;', text, re.M)]
    for name, params, result, body in functions(text):
        where = f'{crate}: {name}'
        for m in re.finditer(r'(?:% (?:256|64)|\b(?:kind|role|c|g|row|k)) (?:==|!=) (\d+)\b', body):
            literals.append(f'{where}: {m.group(0)}')
        literals += [f'{where}: {m.group(0)}' for m in re.finditer(r'Refused\((?:10|13|19),|Err\(\((?:10|13|19),', body)]
        for m in re.finditer(r'\bwhile ([^{]*)\{', body):
            inner = block(body, m.end() - 1)
            for v in re.findall(r'\b([a-z_]\w*)\b', m.group(1)):
                if re.search(rf'\b{v} [+-]= 1;', inner):
                    loops.append(f'{where}: while {m.group(1).strip()}')
                    break
        if re.match(HAND, name):
            by_hand.append(where)
        names = re.findall(r'(\w+):', params)
        for g in GROUPS:
            if all(p in names for p in g):
                groups.append(f'{where}: {", ".join(g)}')
        if re.search(r'\[(?:u8|u32|u64|usize|T)\], (?:\w+: [^,]*, )*?(?:n|count|len|given|c): (?:usize|Counts)', re.sub(r'\s+', ' ', params)):
            used.append(where)
        arrays += [f'{where}: {m.group(0)}' for m in re.finditer(r'\[[\w]+; \d+\]', body)]
        for m in re.finditer(r'\bmatch ([^{]*)\{', body):
            arms = len(re.findall(r'^\s*(?:\d+|_)(?: \| \d+|\.\.=\d+)* =>', block(body, m.end() - 1), re.M))
            if arms >= 5:
                switches.append(f'{where}: match {m.group(1).strip()}')
        shape = re.sub(r'\s+', ' ', re.sub(r'\b(?!if\b|else\b|while\b|for\b|in\b|match\b|return\b|let\b|mut\b|true\b|false\b|loop\b)[A-Za-z_]\w*\b|\b\d+\b', '_', params + '>' + result + '>' + body))
        if len(body.strip()) > 40:
            shapes.setdefault(shape, []).append(where)
twins = [' = '.join(v) for v in shapes.values() if len(v) > 1]
show(1, 'enums of two variants', enums)
show(1, 'constants that number kinds', consts)
show(1, 'tests of a kind or refusal by a literal number', literals)
show(2, f'groups of functions alike but for names, types and numbers ({sum(t.count(" = ") + 1 for t in twins)} functions)', twins)
show(3, 'while loops that count by hand', loops)
show(4, 'functions that compare, copy, widen, convert or index by hand', by_hand)
show(5, 'functions that take parameters which go together', groups)
show(6, 'functions that take a slice and the number of its words in use', used)
show(6, 'arrays of a fixed size', arrays)
show(7, 'matches of five arms and more by a number', switches)
proofs = [p for kind in ('Answers', 'Invariants') for p in glob.glob(f'crates/*/proofs/*/{kind}.antt')]
print(f'8  {sum(len(open(p).readlines()) for p in proofs):4}  lines in {len(proofs)} files of answers and invariants')
