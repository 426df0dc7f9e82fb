#!/usr/bin/env python3
"""Lists what the points of docs/DESIGN-PASS.md look for in crates/*/src: design_counts.py [POINT ..], from the repository's top.

What it lists are candidates, by shape; the page says which of them are places. Points 1 to 8, as there.
"""
import glob
import re
import sys
from collections import defaultdict

SOURCES = sorted(glob.glob('crates/*/src/*.rt'))
FUNCTION = re.compile(r'^( *)(?:pub )?(?:extern "C" )?fn (\w+)')


def lines():
    for path in SOURCES:
        for number, text in enumerate(open(path), 1):
            yield path, number, text.rstrip('\n')


def code(text):
    return text.split('//')[0]


def matching(*patterns):
    found = []
    for path, number, text in lines():
        if text.lstrip().startswith(('ghost use', 'use ', '//')):
            continue
        if any(re.search(pattern, code(text)) for pattern in patterns):
            found.append(f'{path}:{number}: {text.strip()}')
    return found


def functions():
    """(path, line, name, signature, body) of each function."""
    for path in SOURCES:
        text = open(path).read().split('\n')
        i = 0
        while i < len(text):
            match = FUNCTION.match(text[i])
            if not match:
                i += 1
                continue
            indent, start = match.group(1), i
            if text[i].rstrip().endswith('{}') or (text[i].rstrip().endswith('}') and '{' in text[i]):
                yield path, start + 1, match.group(2), text[i], ''
                i += 1
                continue
            opened = None
            while i < len(text):
                if text[i].rstrip() in (indent + '{', indent + ') {') or (opened is None and re.search(r'\) (-> .* )?\{$', text[i])):
                    opened = i
                if text[i].rstrip() == indent + '}' and opened is not None:
                    break
                i += 1
            yield path, start + 1, match.group(2), '\n'.join(text[start:(opened or start) + 1]), '\n'.join(text[(opened or start) + 1:i])
            i += 1


def point1():
    return matching(
        r'\benum \w+',                                        # enums of the repository's own
        r'\bfn .*-> (u8|u32|io::Result<u8>|io::Result<usize>|io::Result<bool>)\b',  # numbers and flags as answers
        r'^ *(-> (u8|u32))\b',
        r'const \w+: (u8|u32|bool) = ',                       # numbers that stand for kinds
        r'\b(NO_\w+|\w*sentinel\w*)\b.*= ',
        r'pub (number|fails|recoverable|first): ',            # flags and numbers beside a value
        r'number: &mut u32',
    )


def normal(body):
    out = []
    for token in re.findall(r'[A-Za-z_]\w*|\d\w*|[^\s\w]', re.sub(r'//.*', '', body)):
        if re.match(r'(let|mut|while|for|in|if|else|return|match|as|true|false|self|Self)$', token):
            out.append(token)
        elif re.match(r'[A-Za-z_]', token):
            out.append('x')
        elif token[0].isdigit():
            out.append('0')
        else:
            out.append(token)
    return ' '.join(out)


def point2():
    groups = defaultdict(list)
    for path, line, name, signature, body in functions():
        shape = normal(body)
        if len(shape.split()) >= 12:
            groups[shape].append(f'{path}:{line}: {name}')
    return [' ~ '.join(group) for group in groups.values() if len(group) > 1]


def point3():
    return matching(r'\bwhile\b', r'\bloop\b')


def point4():
    return matching(
        r'/ 256', r'% 256', r'256 \*',                        # bytes of numbers and back
        r'^ *if \w+ < \w+ \{ \w+.*\} else \{ \w+',            # a minimum, a maximum, a difference
        r'fn (worse_of|smaller|excess|refused_as|eq|cmp|clone|letter_of|\w+_letter)\b',
        r'^impl .* for ',
    )


def point5():
    found = []
    clauses = defaultdict(list)
    groups = defaultdict(list)
    for path, line, name, signature, body in functions():
        for clause in re.findall(r'requires(?: \w+)? \{(.*)\}', signature):
            for part in re.split(r'\) × \(|\) × | × \(| × ', clause.strip()):
                clauses[part.strip(' ()')].append(f'{path.split("/")[1]}::{name}')
        parameters = re.findall(r"(\w+): (&(?:'a )?(?:mut )?\[u8[^,)]*\]|[A-Za-z&'\[\]; ]+)", signature.split('requires')[0].split('ensures')[0])
        parameters = [f'{p}: {t.strip()}' for p, t in parameters]
        for a in range(len(parameters)):
            for b in range(a + 1, len(parameters)):
                groups[(parameters[a], parameters[b])].append(f'{path.split("/")[1]}::{name}')
    for part, names in sorted(clauses.items()):
        if len(names) >= 3:
            found.append(f'requires {part}: ' + ', '.join(names))
    for (a, b), names in sorted(groups.items()):
        if len(names) >= 3:
            found.append(f'{a}, {b}: ' + ', '.join(names))
    return found


def point6():
    found = matching(
        r'const \w+: \[',                                     # tables, parallel ones among them
        r'\bmatch (aql|units)\b',
    )
    for path, line, name, signature, body in functions():
        if re.search(r'&mut \[u8', signature) and re.search(r'\b(at|units|end|size|offset|start|first|records): usize', signature):
            found.append(f'{path}:{line}: {name}')
    return found


def point7():
    return matching(r'\w+: bool\b', r'if (kind|again|limits)\b', r'kind == ', r'\bdyn\b', r'impl Fn', r'\bF: Fn')


def point8():
    found = []
    right = defaultdict(list)
    for path in sorted(glob.glob('crates/*/proofs/**/Answers.antt', recursive=True)):
        for number, text in enumerate(open(path), 1):
            match = re.match(r'[\w-]+(?: \w+)* = (.+)', text)
            if match and not text.startswith(('use', 'pub ', 'let')):
                right[(path.split('/')[1], match.group(1).strip())].append(f'{path}:{number}')
    for (crate, answer), places in sorted(right.items()):
        if len(places) >= 3:
            found.append(f'{crate}: {len(places)} times: {answer[:100]}')
    return found


POINTS = {1: point1, 2: point2, 3: point3, 4: point4, 5: point5, 6: point6, 7: point7, 8: point8}

if __name__ == '__main__':
    for point in [int(word) for word in sys.argv[1:]] or POINTS:
        places = POINTS[point]()
        print(f'point {point}: {len(places)}')
        for place in places:
            print('  ' + place)
