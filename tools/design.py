#!/usr/bin/env python3
"""Counts, in the checkout's crates/*/src, what docs/DESIGN-PASS.md counts: a line for each point, and below it its places."""
import collections, difflib, glob, re

TOKEN = re.compile(r'b?"(?:[^"\\]|\\.)*"|b?\'(?:[^\'\\]|\\.)\'|[A-Za-z_]\w*|\d\w*|::|->|=>|==|!=|<=|>=|&&|\|\||\.\.=?|[-+*/%]=|\S')
KEPT = set('fn let mut if else while for in match return break continue as true false u8 u32 u64 usize bool'.split())
SOURCES = {path: [re.sub(r'//.*', '', line.rstrip('\n')) for line in open(path, encoding='utf-8')]
           for path in sorted(glob.glob('crates/*/src/**/*.rt', recursive=True))}


def lines_with(pattern):
    return ['%s:%d %s' % (path, at + 1, line.strip()) for path, lines in SOURCES.items()
            for at, line in enumerate(lines) if re.search(pattern, line)]


def functions():
    """Each function: its place, name, parameters, contract and body."""
    for path, lines in SOURCES.items():
        at = 0
        while at < len(lines):
            found = re.match(r'( *)(?:pub(?:\(\w+\))? )?(?:extern "C" )?fn (\w+)', lines[at])
            at += 1
            if not found:
                continue
            first, head = at, lines[at - 1]
            while not (lines[at - 1] == found.group(1) + '{' or lines[at - 1].endswith(' {')):
                head += '\n' + lines[at]
                at += 1
            body = []
            while lines[at] != found.group(1) + '}':
                body.append(lines[at])
                at += 1
            contract = re.findall(r'^\s+(?:requires|ensures).*$', head, re.M)
            parameters = re.findall(r'(\w+): ([^,()]+(?:\([^)]*\))?)', head.split('\n    requires')[0].split('\n    ensures')[0])
            yield '%s:%d' % (path, first), found.group(2), dict(parameters), contract, ' '.join(body)


def shape(body):
    names, out = {}, []
    for token in TOKEN.findall(body):
        named = token not in KEPT and re.match(r'[\w"\']|b["\']', token)
        out.append('n%d' % names.setdefault(token, len(names)) if named else token)
    return out


def twins():
    """Pairs of functions whose bodies are the same, or nearly, once names and literals are numbered by first use."""
    all_shapes = [(place, name, shape(body)) for place, name, _, _, body in functions()]
    all_shapes = [entry for entry in all_shapes if len(entry[2]) >= 14]
    pairs = []
    for i, (place, name, tokens) in enumerate(all_shapes):
        for other_place, other_name, other in all_shapes[i + 1:]:
            if abs(len(tokens) - len(other)) * 8 > len(tokens) + len(other):
                continue
            matcher = difflib.SequenceMatcher(None, tokens, other, autojunk=False)
            if matcher.quick_ratio() >= 0.92 and matcher.ratio() >= 0.92:
                pairs.append('%s %s ~ %s %s' % (place, name, other_place, other_name))
    return pairs


def repeated_facts():
    count = collections.Counter(fact for _, _, _, contract, _ in functions()
                                for fact in set(re.findall(r'\b[A-Z][A-Za-z]+\b', ' '.join(c for c in contract if 'requires' in c))))
    return ['%s in %d contracts' % (fact, n) for fact, n in sorted(count.items()) if n >= 3]


def travelling(*names):
    return ['%s %s' % (place, name) for place, name, parameters, _, _ in functions()
            if all(any(re.fullmatch(n, p) for p in parameters) for n in names)]


def show(title, places, listed=True):
    print('%s: %d' % (title, len(places)))
    if listed:
        print(''.join('    %s\n' % place for place in places), end='')


show('1 enums', lines_with(r'^(pub )?enum '))
show('1 refusals by number', lines_with(r'Refused\((\d+|refusal|number)'))
show('1 kinds by number', lines_with(r'kind (==|!=|<|<=) |kind::[A-Z]+ (<=|<) '))
show('1 operations by number', lines_with(r'(==|!=|<|<=) operation::|operation::[A-Z]+ <= '))
show('1 tags by number', lines_with(r'\btag == '))
show('2 pairs of twins', twins())
show('3 while', lines_with(r'^ *while '))
show('4 helpers', [place for place in lines_with(r'fn (both|either|larger|lower|lesser|before|one_less|same|wide|bit|are_bits|copied|copy|put_row|clear|clear_bytes|fill|capped|empty_count|plus|at_least_one)\b')])
show('4 casts to a wider number', lines_with(r' as (u64|u32)\b'))
show('5 facts in three contracts or more', repeated_facts())
for names in (('work', 'kept'), ('t|tree', 'outline'), ('rows', 'width'), ('tables', 'table|left|one'), ('windows', 'row'), ('one', 'two')):
    show('5 %s with %s' % names, travelling(*names), False)
show('6 out with at', travelling('out|work|tree|map|bytes|answers', 'at|place'), False)
