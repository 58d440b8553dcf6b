#!/usr/bin/env python3
"""Lists the places of the eight points of docs/DESIGN-PASS.md in the sources, one a line, and how many there are of each.

usage: places.py [FOLDER] [POINT..]     FOLDER is a checkout (default: this one); without points, all of them
"""
import os
import re
import sys

ITEM = re.compile(r'^\s*(?:pub(?:\(crate\))? )?(?:final )?(?:const )?fn (\w+)')
REWRAPS = [r'None => None,', r'None => Ok\(None\),', r'Err\((\w+)\) => Err\(', r'Err\((\w+)\) => return Err\(', r'Ok\((\w+)\) => Ok\(\1\),',
           r'None => (?:0|false|true|&\[\]|Err\(.*\)|\w+(?:::\w+)+|\w+\.\w+\(\)),', r'Some\((\w+)\) => (?:\1|Ok\(\1\)|Some\(\1\.\w+\)|\1\.\w+),', r'Err\(_\) => 0,']


def sources(folder):
    for root, dirs, names in os.walk(os.path.join(folder, 'crates')):
        dirs[:] = sorted(d for d in dirs if d not in ('target', 'out', 'specs', 'proofs'))
        for name in sorted(names):
            if name.endswith('.rt') and os.sep + 'src' in root:
                path = os.path.join(root, name)
                yield os.path.relpath(path, folder), open(path, encoding='utf-8').read().split('\n')


def functions(lines):
    """Name, first line, head (to the opening brace) and body of each function."""
    n = 0
    while n < len(lines):
        found = ITEM.match(lines[n])
        if not found:
            n += 1
            continue
        start, indent = n, len(lines[n]) - len(lines[n].lstrip())
        while n < len(lines) and lines[n] != ' ' * indent + '{' and not lines[n].rstrip().endswith(('{', '}', ';')):
            n += 1
        if n < len(lines) and lines[n].rstrip().endswith((';', '}')) and lines[n].strip() not in ('{', '}'):
            if lines[n].rstrip().endswith(';') or 'ensures' not in lines[n] and 'requires' not in lines[n]:
                yield found.group(1), start + 1, lines[start:n + 1], []
                n += 1
                continue
            while n < len(lines) and lines[n] != ' ' * indent + '{' and not lines[n].endswith('};'):
                n += 1
        head = lines[start:n + 1]
        body = n + 1
        while n < len(lines) and lines[n] != ' ' * indent + '}' and not (n == body - 1 and lines[n].endswith('{}')):
            n += 1
        yield found.group(1), start + 1, head, lines[body:n]
        n += 1


def shape(body):
    """A body with its names of types, variants and numbers taken away."""
    text = ' '.join(' '.join(body).split())
    return re.sub(r'\b(?:[A-Z]\w*|\d+)\b', '_', text)


def params(head):
    text = ' '.join(head)
    inside = re.search(r'\((.*?)\)\s*(?:->|ensures|requires|\{|$)', text)
    return frozenset(p.strip() for p in inside.group(1).split(', ') if ': ' in p) if inside else frozenset()


def clauses(head):
    for line in head:
        found = re.match(r'\s*(requires|ensures)(?: \w+)? (\{.*\});?$', line)
        if found:
            yield found.group(1) + ' ' + found.group(2)


def by_line(files, patterns):
    tests = [re.compile(p) for p in patterns]
    return ['%s:%d: %s' % (p, n + 1, l.strip()) for p, ls in files for n, l in enumerate(ls) if any(t.search(l) for t in tests)]


def point1(files):
    return by_line(files, [r'^\s+(?:None|Nothing),$', r'^\s+pub \w+: Result<', r'^pub fn \w+_stand\(\) -> u8'] + ['^\\s*' + r for r in REWRAPS])


def point2(files):
    seen = {}
    for p, ls in files:
        for name, n, head, body in functions(ls):
            if len(body) >= 2:
                seen.setdefault(shape(body), []).append('%s:%d %s' % (p, n, name))
    return [' ~ '.join(v) for v in seen.values() if len(v) > 1]


def point3(files):
    out = []
    for p, ls in files:
        for name, n, head, body in functions(ls):
            for k, line in enumerate(body):
                found = re.match(r'\s*for (\w+) in \(?[\w.]*\.\.', line)
                rest = '\n'.join(body[k + 1:])
                if found and re.search(r'[\[(][^\])]*\b%s\b' % found.group(1), rest):
                    out.append('%s:%d %s: %s' % (p, n + 1 + k, name, line.strip()))
                if re.match(r'\s*while (?!let)', line) and re.search(r'[-+]= 1;', rest):
                    out.append('%s:%d %s: %s' % (p, n + 1 + k, name, line.strip()))
                if re.match(r'\s*while let Some\(', line):
                    out.append('%s:%d %s: %s' % (p, n + 1 + k, name, line.strip()))
    return out


def point4(files):
    out = by_line(files, [r'as u8 (?:<|==|<=) ', r'^\s*pub fn of\((?:byte|flag|code): u8\)', r'fn \w+_name\(', r'^\s*pub fn none\(\)', r'fn is_same\(', r'fn (?:is_row|are_rows)\b'])
    for p, ls in files:
        for name, n, head, body in functions(ls):
            if name.startswith(('is_', 'has_')) and any(re.search(r'=> (?:true|false),$', l) for l in body):
                out.append('%s:%d %s: a match to true or false' % (p, n, name))
    return out


def point5(files):
    facts, groups = {}, {}
    for p, ls in files:
        for name, n, head, body in functions(ls):
            where = '%s:%d %s' % (p, n, name)
            for c in clauses(head):
                facts.setdefault(c, []).append(where)
            ps = sorted(params(head))
            for i in range(len(ps)):
                for j in range(i + 1, len(ps)):
                    groups.setdefault((ps[i], ps[j]), []).append(where)
    out = ['fact %s: %s' % (c, ', '.join(v)) for c, v in facts.items() if len(v) >= 3]
    return out + ['together (%s, %s): %d functions, first %s' % (g[0], g[1], len(v), v[0]) for g, v in groups.items() if len(v) >= 3]


def point6(files):
    return by_line(files, [r'^\s+(?:pub(?:\(crate\))? )?\w+: \[.*; .*\],$', r'^\s+(?:pub(?:\(crate\))? )?(?:len|count|filled): (?:usize|u8),$', r'^\s+let mut \w+ = \[.*; .*\];$'])


def point7(files):
    return by_line(files, [r'^(?:pub )?trait ', r'match .*\.decide\('])


def point8(folder):
    out = []
    for root, dirs, names in os.walk(os.path.join(folder, 'crates')):
        dirs[:] = sorted(d for d in dirs if d not in ('target', 'out'))
        if os.sep + 'proofs' in root:
            for name in sorted(names):
                text = open(os.path.join(root, name), encoding='utf-8').read()
                if name == 'Answers.antt':
                    out.append('%s: %d answers, %d lines' % (os.path.relpath(os.path.join(root, name), folder), len(re.findall(r'^pub \S+ : goal\.', text, re.M)), text.count('\n')))
    return out


def main():
    args = sys.argv[1:]
    folder = args.pop(0) if args and os.path.isdir(args[0]) else os.path.join(os.path.dirname(os.path.abspath(__file__)), '..')
    files = list(sources(folder))
    points = {'1': point1, '2': point2, '3': point3, '4': point4, '5': point5, '6': point6, '7': point7, '8': lambda _: point8(folder)}
    for point in args or sorted(points):
        places = points[point](files)
        print('point %s: %d places' % (point, len(places)))
        for place in places:
            print('  ' + place)


main()
