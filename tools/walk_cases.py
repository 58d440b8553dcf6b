#!/usr/bin/env python3
"""Bodies for the walk, the original's uses of each, and a comparison with the program `walks`.

    walk_cases.py cases GEN SEED COUNT FILE.. > crates/walks/stdin     hand-made bodies; the bodies of the FILEs (their lines
                       `hex: ..`); COUNT random bodies of each size; a few with too few use rows. GEN writes random bodies:
                       GEN SEED COUNT SIZE prints one in hex a line
    walk_cases.py answers DRIVER < crates/walks/stdin > crates/walks/stdout     what the original records, by its driver:
                       DRIVER batch uses reads bodies in hex, one a line
    walk_cases.py compare WALKS DRIVER GEN SEED COUNT                  COUNT random bodies of each size through both

A case is a line: use rows, a space, the body in hex. An answer is a line: for each closure its number and its uses
`MODE @BINDING STEPS SITE` in order, up to the first refusal. The driver prints places by name, and names may be missing or
equal; so binding N of every case is named vN, which no rule reads.
"""
import re
import subprocess
import sys

from open_model import AGAIN, HEAD, Refused, opened

SIZES = [12, 60]
ROWS = 4096


# bodies

def u16(n):
    return bytes([n >> 8, n & 255])


def rec(tag, payload):
    return bytes([tag]) + u16(len(payload)) + payload


class Node:
    """A node with its operands in order: nodes (or 0), bindings, steps and bytes; `more` is types and adjustments, or
    implicit dereferences."""

    def __init__(self, cls, *ops, ty=1, adj=(), der=0):
        self.cls, self.ops, self.ty, self.adj, self.der = cls, ops, ty, adj, der


def sorts(node):
    head = list(HEAD[node.cls])
    again = list(AGAIN.get(node.cls, ''))
    return [head[i] if i < len(head) else again[(i - len(head)) % len(again)] for i in range(len(node.ops))]


def copy(x):
    if not isinstance(x, Node):
        return x
    return Node(x.cls, *[copy(o) for o in x.ops], ty=x.ty, adj=x.adj, der=x.der)


# 1 Copy, 2 not, references, raw pointer and Box of 2, tuple and struct of 2, union, closures 1, 2 and 64, a tuple of references
TYPES = [(1, 1, []), (1, 0, []), (2, 1, [2]), (3, 0, [2]), (4, 1, [2]), (5, 0, [2]), (7, 0, [2, 13]), (8, 0, [2, 7]),
         (6, 0, [2]), (9, 0, [1]), (9, 0, [2]), (9, 0, [64]), (7, 0, [3, 4])]


def write(bindings, roots, types=TYPES):
    """The file of trees that share no node; bindings are pairs of type and owner."""
    order, closures = [], []

    def emit(n):
        for o in n.ops:
            if isinstance(o, Node):
                emit(o)
        order.append(n)
        if n.cls == 12:
            closures.append(n)

    for r in roots:
        emit(r)
    number = {id(n): i + 1 for i, n in enumerate(order)}
    home = {}

    def homes(n, h):
        home[id(n)] = h
        inside = closures.index(n) + 1 if n.cls == 12 else h
        for o in n.ops:
            if isinstance(o, Node):
                homes(o, inside)

    for r in roots:
        homes(r, 0)
    out = b''.join(rec(1, bytes([s, c]) + b''.join(map(u16, ns))) for s, c, ns in types)
    out += b''.join(rec(2, u16(t) + bytes([owner]) + b'v%d' % (i + 1)) for i, (t, owner) in enumerate(bindings))
    for n in order:
        p = bytes([home[id(n)], n.cls])
        if n.cls < 32:
            p += u16(n.ty) + bytes([len(n.adj)]) + b''.join(bytes([c]) + u16(t) for c, t in n.adj)
        else:
            p += bytes([n.der])
        for sort, o in zip(sorts(n), n.ops):
            o = number[id(o)] if isinstance(o, Node) else o
            p += bytes([o]) if sort in '124' else u16(o)
        out += rec(3, p)
    return out


def renamed(body):
    """The same body with binding N named vN."""
    out, at, n = b'', 0, 0
    while at < len(body):
        end = at + 3 + body[at + 1] * 256 + body[at + 2]
        payload = body[at + 3:end]
        if body[at] == 2:
            n += 1
            payload = payload[:3] + b'v%d' % n
        out += rec(body[at], payload)
        at = end
    return out


# hand-made bodies; bindings 1 to 4 are upvars, 5 is the closure's own

LEAF = Node(0)
BINDINGS = [(7, 0), (8, 0), (4, 0), (2, 0), (7, 1)]


def name(b, ty=7, adj=()):
    return Node(1, b, ty=ty, adj=adj)


def run(*es):
    return Node(2, *es)


def closure(body, by_move=0):
    return Node(12, body, by_move)


def local(b):
    return Node(40, b)


def patterns():
    """One pattern of each sort, then some inside others, each with the values that it meets."""
    inner = Node(8, local(3), name(4, 2))
    one = [Node(32), Node(33, 4, 0, 0), Node(33, 4, 1, 0), Node(33, 4, 2, 0), Node(33, 4, 0, Node(33, 3, 2, 0)),
           Node(37), Node(37, local(4)), Node(38, local(4)), Node(39, local(4)), local(4), local(5), Node(41, name(4, 2)),
           Node(41, Node(5, name(3, 4), 0, ty=2)), Node(41, LEAF), Node(41, Node(4, name(2, 8), 2, ty=2)), Node(41, inner),
           Node(41, Node(10, local(3), name(1)))]
    yield from ((p, VALUES) for p in one)
    yield from ((Node(36, sort, 2, local(3), 4, Node(33, 4, 2, 0)), VALUES) for sort in range(5))
    yield from ((Node(34, 1, p, 3, local(3)), VALUES[:2]) for p in one)
    yield from ((p, VALUES[:3]) for p in (
        Node(34, 65535, local(4), 1, local(3)), Node(35, local(4), Node(33, 3, 1, 0)), Node(35),
        Node(34, 1, Node(41, run(inner, name(4, 2))), 3, Node(34, 1, local(4), 3, Node(41, name(3, 4))))))


VALUES = [name(1), LEAF, Node(4, name(2, 8), 4, ty=7), name(5)]


def contexts(p, values=VALUES):
    """What a pattern can stand in, with a place and without one on the other side."""
    for value in values:
        yield Node(3, p, value, 0)
        yield Node(3, p, value, name(4, 2))
        yield Node(8, p, value)
        yield Node(9, value, p, 0, name(4, 2))
        yield Node(10, p, value)
    yield Node(3, p, 0, 0)
    yield Node(3, p, 0, name(4, 2))


def by_pattern():
    for p, values in patterns():
        yield write(BINDINGS, [closure(copy(c)) for c in contexts(p, values)])
    for p in (Node(32, der=1), Node(33, 4, 2, 0, der=1), Node(34, 1, Node(33, 4, 2, 0), 3, local(3), der=2), Node(40, 4, der=15),
              Node(38, Node(33, 4, 2, Node(33, 3, 2, 0)), der=1)):
        yield write(BINDINGS, [closure(copy(c)) for c in contexts(p)])
    for p in (Node(32, der=17), Node(41, name(4, 2), der=255), Node(34, 1, local(4), 3, local(3), der=16)):
        yield from (write(BINDINGS, [closure(copy(c))]) for c in list(contexts(p))[:10])


def by_adjustment():
    used = [lambda e: e, lambda e: Node(6, e, 0), lambda e: Node(6, e, 1), lambda e: Node(4, e, 1, ty=2),
            lambda e: Node(5, e, 0, ty=2), lambda e: Node(5, e, 1, ty=2), lambda e: Node(11, e, name(4, 2)),
            lambda e: Node(7, e, name(4, 2)), lambda e: Node(9, e, Node(33, 4, 0, 0), name(3, 4), name(4, 2))]
    short = [[(c, 3)] for c in range(7)] + [[(c, 4), (d, 5)] for c in range(7) for d in range(7)]
    for adj in short:
        yield write(BINDINGS, [closure(run(*[u(name(b, t, adj)) for b, t in ((3, 4), (5, 7))])) for u in used])
    long = [[(1, 6)] * n for n in (15, 16, 17, 255)] + [[(0, 1)] * 255, [(4, 3)] * 255, [(1, 2)] * 16 + [(5, 4)] * 2, [(1, 2)] * 17 + [(4, 3)]]
    for adj in long:
        yield from (write(BINDINGS, [closure(u(name(b, t, adj)))]) for u in used[:6:2] for b, t in ((3, 4), (5, 7)))


def by_dereference():
    """A dereference by its flag and its child's type, adjusted or not."""
    for t in range(15):
        es = [Node(5, name(3, t, adj), flag, ty=2) for flag in (0, 1) for adj in ((), [(4, 3)], [(1, 4)], [(6, 5)])]
        yield write(BINDINGS, [closure(run(*[copy(e) for e in es]), 0), closure(run(*[Node(6, copy(e), 1) for e in es]))])


def by_depth():
    """Paths of 15 to 18 steps, of fields and of dereferences."""
    for n in (15, 16, 17, 18):
        field = deref = name(1)
        for i in range(n):
            field, deref = Node(4, field, 1 + i % 3), Node(5, deref, 0, ty=3)
        for e in (field, deref, Node(4, copy(field), 65535), Node(4, copy(deref), 2, ty=4, adj=[(1, 2), (4, 3)])):
            for b in (1, 5):
                x = copy(e)
                y = x
                while y.cls != 1:
                    y = y.ops[0]
                y.ops = (b,)
                yield write(BINDINGS, [closure(x), closure(name(1))])


def by_closure():
    """Closures inside closures; bindings of one of them; Copy of a closure's type in a match."""
    for owner in range(4):
        for by_move in (0, 1):
            inmost = closure(run(name(1), Node(6, name(2, 8), 1), Node(6, Node(4, name(1), 1, ty=2), 0)), by_move)
            middle = closure(run(inmost, name(2, 8)), 1 - by_move)
            yield write([(1, owner), (8, owner // 2), (4, 0)], [closure(run(middle, name(3, 4)))])
    for t in range(15):
        for how in range(3):
            m = Node(9, name(1), Node(33, 2, how, 0), 0, LEAF)
            yield write([(7, 0), (t, 0)], [closure(copy(m)), closure(copy(m))])
            yield write([(7, 0), (t, 0)], [closure(run(closure(copy(m)), copy(m)))])


def order():
    """Arms and guards, else branches, operators: what comes first."""
    arms = [Node(33, 4, 2, 0), Node(6, name(3, 4), 0), name(4, 2), Node(36, 1, 2, local(4)), 0, name(2, 8), Node(36, 2, 2, Node(37)), Node(6, name(1), 1), LEAF]
    for value in (name(1), name(5), LEAF):
        yield write(BINDINGS, [closure(Node(9, copy(value), *[copy(a) for a in arms[:n]])) for n in (0, 3, 6, 9)])
    es = [Node(7, name(1), name(2, 8)), Node(11, name(1), name(2, 8)), Node(8, local(4), name(1)), Node(3, Node(33, 4, 0, 0), name(1), name(2, 8)),
          Node(10, Node(34, 1, local(4)), name(1)), run(name(1), run(), name(2, 8)), Node(6, Node(6, name(1), 1), 0)]
    yield write(BINDINGS, [closure(e) for e in es])


def by_hand():
    for made in (by_pattern, by_adjustment, by_dereference, by_depth, by_closure, order):
        yield from made()


# the original

PLACE = re.compile(r'v(\d+)((?:\*|\.\d+|#\d+)*)$')


def in_line(text):
    """The driver's answer to one body, as one line."""
    out = []
    for line in text.splitlines():
        words = line.split()
        if words[0] == 'closure':
            out.append(words[1])
        elif words[0] == 'refused':
            out[-1] += ' refused ' + words[1]
        else:
            mode, place, site = words
            binding, steps = PLACE.match(place).groups()
            out[-1] += ' %s @%s%s %s' % (mode, binding, steps, site)
    return '; '.join(out) or '-'


def original(driver, bodies):
    text = ''.join(b.hex() + '\n' for b in bodies)
    said = subprocess.run([driver, 'batch', 'uses'], input=text, stdout=subprocess.PIPE, text=True, check=True).stdout
    answers = [in_line(part.split('\n', 1)[1]) for part in re.split('^== ', said, flags=re.M)[1:]]
    assert len(answers) == len(bodies)
    return answers


def in_rows(rows, answer):
    """The same with so many use rows: a use that finds none left is refusal 16. Not for closures refused otherwise."""
    out = []
    for part in answer.split('; '):
        if (part.count(' ') > 3 * rows) and 'refused' not in part:
            return '; '.join(out + [part.split(' ')[0] + ' refused 16'])
        out.append(part)
    return '; '.join(out)


def random_bodies(gen, seed, count):
    for size in SIZES:
        said = subprocess.run([sys.executable, gen, seed, str(count), str(size)], stdout=subprocess.PIPE, text=True, check=True).stdout
        yield from (renamed(bytes.fromhex(h)) for h in said.split())


def told(path):
    with open(path) as f:
        for line in f:
            if line.startswith('hex: '):
                yield bytes.fromhex(line[5:].strip())


def cases(gen, seed, count, *paths):
    hand = list(by_hand())
    given = [renamed(b) for p in paths for b in told(p) if opens(b)]
    for b in hand + given + list(random_bodies(gen, seed, count)):
        print(ROWS, b.hex())
    for rows in range(5):
        for b in order():
            print(rows, b.hex())


def opens(body):
    try:
        return bool(opened(ROWS, body))
    except Refused:
        return False


def answers(driver):
    lines = [line.split() for line in sys.stdin]
    for (rows, _), answer in zip(lines, original(driver, [bytes.fromhex(h) for _, h in lines])):
        print(in_rows(int(rows), answer))


def compare(walks, driver, gen, seed, count):
    bodies = list(random_bodies(gen, seed, int(count)))
    text = ''.join('%d %s\n' % (ROWS, b.hex()) for b in bodies)
    ours = subprocess.run([walks], input=text, stdout=subprocess.PIPE, text=True, check=True).stdout.splitlines()
    theirs = original(driver, bodies)
    differ = [i for i, (a, b) in enumerate(zip(ours, theirs)) if a != b]
    for i in differ[:10]:
        print(bodies[i].hex(), 'ours:     ' + ours[i], 'original: ' + theirs[i], sep='\n')
    uses = sum(len(re.findall('@', a)) for a in theirs)
    stops = [sum(a.endswith('refused %d' % n) for a in theirs) for n in (15, 17)]
    print('%d bodies, %d uses, refused by 15 %d and by 17 %d, %d differ' % (len(bodies), uses, *stops, len(differ)))
    sys.exit(bool(differ) or len(ours) != len(theirs))


if __name__ == '__main__':
    {'cases': cases, 'answers': answers, 'compare': compare}[sys.argv[1]](*sys.argv[2:])
