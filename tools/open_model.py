#!/usr/bin/env python3
"""A model of open in Python, written from docs/FORMAT.md and docs/REFUSALS.md and not from the Rattle code.

    open_model.py cases SEED < bodies.hex > crates/opens/stdin
                       hand-made files, then the given ones, each with damaged copies: one a line, index rows and hex
    open_model.py answers < crates/opens/stdin         what open answers to each, by this model
    open_model.py largest > FILE                       a body of 65,535 bytes, for timing
"""
import random
import sys

HEAD = {0: '', 1: 'b', 2: '', 3: 'pEE', 4: 'es', 5: 'e1', 6: 'e1', 7: 'ee', 8: 'pe', 9: 'e', 10: 'pe', 11: 'ee', 12: 'e1',
        32: '', 33: 'b2P', 34: '', 35: '', 36: '4', 37: '', 38: 'p', 39: 'p', 40: 'b', 41: 'e'}
AGAIN = {2: 'e', 9: 'pEe', 34: 'sp', 35: 'p', 36: 'sp', 37: 'p'}


class Refused(Exception):
    pass


def operands(cls, ops):
    """The operands of a node, or None where its bytes do not fit its class."""
    out, sorts, at = [], list(HEAD[cls]), 0
    while True:
        if not sorts:
            if at == len(ops):
                return out
            sorts = list(AGAIN.get(cls, ''))
            if not sorts:
                return None
        s = sorts.pop(0)
        if s in '124':
            if at >= len(ops) or ops[at] > int(s):
                return None
            out.append((s, ops[at]))
            at += 1
        else:
            if at + 2 > len(ops):
                return None
            out.append((s, ops[at] * 256 + ops[at + 1]))
            at += 2


def item(tag, p):
    """What a record is by itself: (sort, parts), or a refusal's number."""
    if tag == 1:
        if len(p) < 2 or p[1] > 1:
            return 3
        left = len(p) - 2
        ok = {1: left == 0, 6: left % 2 == 0, 7: left % 2 == 0, 8: left % 2 == 0}.get(p[0], p[0] in (2, 3, 4, 5, 9) and left == 2)
        return ('type', None) if ok else 3
    if tag == 2:
        return ('binding', p[2]) if len(p) >= 3 else 3
    if tag == 3:
        if len(p) < 2:
            return 3
        home, cls = p[0], p[1]
        if cls not in HEAD:
            return 2
        if cls < 32:
            if len(p) < 5 or len(p) < 5 + 3 * p[4] or any(p[5 + 3 * i] > 6 for i in range(p[4])):
                return 3
            ops = operands(cls, p[5 + 3 * p[4]:])
        else:
            if len(p) < 3:
                return 3
            ops = operands(cls, p[3:])
        return ('node', (home, cls, ops)) if ops is not None else 3
    return 2


def opened(rows, f):
    types = bindings = 0
    nodes, owners, closures, parented = [], [], [], set()
    at, last, records = 0, 0, 0
    while at < len(f):
        def refuse(n):
            raise Refused(n, 'reader' if n <= 4 else 'body', at)
        if at + 3 > len(f) or at + 3 + f[at + 1] * 256 + f[at + 2] > len(f):
            refuse(1)
        tag, size = f[at], f[at + 1] * 256 + f[at + 2]
        p = f[at + 3:at + 3 + size]
        if tag < last:
            refuse(2)
        found = item(tag, p)
        if isinstance(found, int):
            refuse(found)
        sort, part = found
        closing = sort == 'node' and part[1] == 12
        if (records >= rows or sort == 'type' and types >= 1024 or sort == 'binding' and bindings >= 512
                or sort == 'node' and len(nodes) >= 2048 or closing and len(closures) >= 64):
            refuse(4)
        if sort == 'type':
            types += 1
        elif sort == 'binding':
            bindings += 1
            owners.append((part, at))
        else:
            home, cls, ops = part
            for s, n in ops:
                if s in 'eEpP':
                    if s in 'EP' and n == 0:
                        continue
                    if not 1 <= n <= len(nodes) or (nodes[n - 1]['cls'] < 32) != (s in 'eE'):
                        refuse(5)
                elif s == 'b' and not 1 <= n <= bindings:
                    refuse(5)
                elif s == 's' and n in (0, 65533, 65534):
                    refuse(5)
            kids = [n for s, n in ops if s in 'eEpP' and n]
            for n in kids:
                if n in parented:
                    refuse(6)
                parented.add(n)
            depth = 1 + max([nodes[n - 1]['depth'] for n in kids], default=0)
            if depth > 128:
                refuse(7)
            k = len(closures) + 1
            inside = k if closing else home
            if any(nodes[n - 1]['home'] != inside for n in kids) or closing and not (home == 0 or home > k):
                refuse(8)
            nodes.append(dict(cls=cls, home=home, depth=depth, at=at))
            if closing:
                closures.append((len(nodes), ops[0][1], 'move' if ops[1][1] else '-', home))
        last, records, at = tag, records + 1, at + 3 + size
    for owner, place in owners:
        if owner > len(closures):
            raise Refused(8, 'body', place)
    for i, n in enumerate(nodes):
        if n['home'] != 0 and i + 1 not in parented:
            raise Refused(8, 'body', n['at'])
    return ' '.join(['ok %d %d %d' % (types, bindings, len(nodes))] + ['%d:%d:%s:%d' % c for c in closures])


# files by hand
def rec(tag, p):
    return bytes([tag]) + len(p).to_bytes(2, 'big') + p


def two(*ns):
    return b''.join(n.to_bytes(2, 'big') for n in ns)


def typ(shape=1, copy=1, *ns):
    return rec(1, bytes([shape, copy]) + two(*ns))


def binding(owner=0, name=b't'):
    return rec(2, two(0) + bytes([owner]) + name)


def expr(home, cls, ops=b'', adjusts=b''):
    return rec(3, bytes([home, cls]) + two(0) + bytes([len(adjusts) // 3]) + adjusts + ops)


def pat(home, cls, ops=b'', implicit=0):
    return rec(3, bytes([home, cls, implicit]) + ops)


def chain(n):
    return expr(0, 0) + b''.join(expr(0, 2, two(i)) for i in range(1, n))


def side_by_side(n):
    return b''.join(expr(k, 0) + expr(0, 12, two(2 * k - 1) + b'\0') for k in range(1, n + 1))


def nested(n):
    out = expr(1, 0)
    for k in range(1, n + 1):
        out += expr(0 if k == n else k + 1, 12, two(k) + b'\1')
    return out


# bodies that tell one reading of the format from another
TELLING = '''
030005000000000003000700020000000001030009000200000000010009
030007000200000000090300
01000201010200040001007803000a01010001010400000001030008000c000000000100
020004000000740300070101000000000103000901040000000001fffd0300080106000000000200030008000c000000000300
01000201010200040001007403000801210000010000000300070122000002000103000701010000000001030009010a00000000020003030008000c000000000400
0200040000c874
0100020a00
0300050000000000030009000200000000010001
030005c800000000030007c8020000000001
0200040000c87403000700020000000009
010004050000010200040001007803003d01010001120100010100010100010100010100010100010100010100010100010100010100010100010100010100010100010100010100010000010001030008000c000000000100
010004080000010200060001016f776e030007010100010000010300090104000100000100020300090104000100000200020300090104000100000300020300090104000100000400020300090104000100000500020300090104000100000600020300090104000100000700020300090104000100000800020300090104000100000900020300090104000100000a00020300090104000100000b00020300090104000100000c00020300090104000100000d00020300090104000100000e00020300090104000100000f0002030009010400010000100002030009010400010000110002030008000c000000001200
0100040800000102000400010078030007010100010000010300090104000100000100020300090104000100000200020300090104000100000300020300090104000100000400020300090104000100000500020300090104000100000600020300090104000100000700020300090104000100000800020300090104000100000900020300090104000100000a00020300090104000100000b00020300090104000100000c00020300090104000100000d00020300090104000100000e00020300090104000100000f000203000901040001000010000203000901040000000011ffff0300080106000000001200030008000c000000001300
010004050000010200040001007803000301201103000701010001000001030009010a00000000010002030008000c000000000300
01000201010200060001016f776e03000701010000000001030008000c000000000100
010004090100020200040001006603000701010000000001030008000c0000000001000300050200000000030008000c000000000300
0300050100000000030008000c0000000001000300050200000000030008000c000000000300
0100020100010004090100020200040001007302000400020066030007010100000000010300080106000000000100030007010100000000020300080106000000000300030009010200000000020004030008000c0000000005010300050200000000030008000c000000000700
010002010002000400010076020004000100740300070101000000000103000701010000000002030009010b00000000010002030008000c000000000300
0100020100020004000100780300070101000100000103000801050000000001000300080106000000000200030008000c000000000300
010002010101000402010001020004000200780300070101000200000103000801050001000001010300080106000000000200030008000c000000000300
01000201000200040001007803000701010001000001030007010200010000010300080105000000000201030008000c000000000300
01000407000000020004000100780200040001007903000701010000000001030009010400000000010001030008010600000000020003000701010000000002030008010600000000040003000701010000000001030008010600000000060003000b0102000000000300050007030008000c000000000800
0300050100000000030008020c00000000010003000702020000000002030008000c000000000300
0100020100010006070000010001020004000200780200040001017903000701010002000001030008012100000201000003000701220000010002030009010a00000000030001030008000c000000000400
0100020101010004090000010200040002006602000400010078030007010100000000020300080106000000000100030008000c00000000020003000702010000000001030008000c000000000400
01000409010002010004070000010200040002007403000701010000000001030008000c0000000001000300050200000000030008000c000000000300
010004090100010200040001006603000701010000000001030008000c000000000100
01000201000100040901000202000400010078020004000101790200040002016603000701010000000001030008012100000200000003000501000000000300080121000003000000030005010000000003001301090000000001000200000003000400000005030008000c0000000006000300050200000000030008000c000000000800
01000201000100040300000102000400020078020004000101790300080121000002020000030007012201000100010300080121000002020000030007010100000000010300050100000000030005010000000003001301090000000004000200000005000300000006030008000c000000000700
0300050100000000030008000c000000000100
010004090100020200040001006603000701010000000001030008000c0000000001000300050200000000030008000c000000000300
0100040901000202000400010066030007010100000000010300080106000000000100030008000c0000000002000300050200000000030008000c000000000400
'''.split()


def made():
    leaf = expr(0, 0)
    yield from map(bytes.fromhex, TELLING)
    yield from (b'', b'\1', b'\1\0', b'\1\0\2', b'\1\0\2\1', b'\3\0\0', b'\3\0\1\0', b'\4\0\0', b'\0\0\0', b'\4\xff\xff')
    yield binding() + typ()
    yield leaf + binding()
    yield leaf + typ()
    for shape in range(0, 12):
        for ns in ((), (1,), (1, 2)):
            yield typ(shape, 1, *ns)
    yield from (typ(1, 2), rec(1, b'\1'), rec(1, b'\6\0\1'), rec(1, b'\2\0\1'))
    yield from (rec(2, b''), rec(2, b'\0\0'), rec(2, b'\0\0\0'), rec(2, b'\0\0\0' + bytes(300)))
    for cls in range(0, 45):
        for size in range(0, 9):
            yield typ() + binding() + leaf + pat(0, 32) + (expr if cls < 32 else pat)(0, cls, (two(1, 1, 1, 1) + b'\0')[:size])
            yield typ() + binding() + leaf + pat(0, 32) + (expr if cls < 32 else pat)(0, cls, (two(2, 1, 2, 1) + b'\0')[:size])
    for flag in range(0, 6):
        yield leaf + expr(0, 5, two(1) + bytes([flag]))
        yield leaf + expr(0, 12, two(1) + bytes([flag]))
        yield binding() + pat(0, 33, two(1) + bytes([flag]) + two(0))
        yield pat(0, 36, bytes([flag]))
    for code in range(0, 9):
        yield expr(0, 0, b'', bytes([code, 0, 1]))
        yield expr(0, 0, b'', bytes([0, 0, 1, code, 0, 0]))
    yield rec(3, bytes([0, 0, 0, 0, 1]))
    yield rec(3, bytes([0, 0, 0, 0, 255]) + bytes(765))
    yield rec(3, bytes([0, 0, 0, 0, 255]) + bytes(764))
    for step in (0, 1, 2, 65532, 65533, 65534, 65535):
        yield leaf + expr(0, 4, two(1, step))
        yield pat(0, 32) + pat(0, 34, two(step, 1))
    for n in (1023, 1024, 1025):
        yield typ() * n
    yield typ() * 1024 + typ(1, 7)
    for n in (511, 512, 513):
        yield binding() * n
    for n in (2047, 2048, 2049):
        yield leaf * n
    for n in (63, 64, 65):
        yield side_by_side(n)
        yield nested(n)
    for n in (127, 128, 129, 130):
        yield chain(n)
    for owner in (0, 1, 2, 64, 65, 200, 255):
        yield binding(owner) + side_by_side(1)
        yield binding(owner) + nested(64)
    yield binding(200) + expr(0, 2, two(9))
    yield leaf + expr(0, 2, two(1)) + expr(0, 2, two(1))
    yield leaf + expr(0, 2, two(1, 1))
    yield leaf + expr(0, 2, two(1, 9))
    yield leaf + expr(0, 2, two(2))
    yield leaf + pat(0, 38, two(1))
    yield pat(0, 32) + expr(0, 2, two(1))
    for home in range(0, 4):
        yield expr(home, 0)
        yield expr(home, 0) + expr(0, 12, two(1) + b'\0')
        yield expr(1, 0) + expr(home, 12, two(1) + b'\0')
        yield expr(1, 0) + expr(home, 12, two(1) + b'\0') + expr(2, 0) + expr(0, 12, two(3) + b'\0')
        yield expr(home, 0) + expr(home, 2, two(1)) + expr(0, 12, two(2) + b'\0')
        yield expr(200, 0) + expr(home, 2, two(1))
    yield expr(1, 0) + expr(2, 12, two(1) + b'\0') + expr(2, 2, two(2)) + expr(0, 12, two(3) + b'\1')


def damaged(r, f):
    f = bytearray(f)
    for _ in range(r.randrange(1, 3)):
        if not f:
            break
        at, how = r.randrange(len(f)), r.randrange(4)
        if how == 0:
            f[at] = r.randrange(256)
        elif how == 1:
            f[at] = (f[at] + r.choice([1, 255])) % 256
        elif how == 2:
            del f[at:at + r.randrange(1, 4)]
        else:
            f[at:at] = bytes(r.randrange(256) for _ in range(r.randrange(1, 4)))
    return bytes(f)


def largest():
    """A body of 65,535 bytes: many types and bindings, names with adjustments, and runs over them."""
    front = b''.join(typ(7, 0, *([1] * 8)) for _ in range(1024))
    names = b''.join(expr(0, 1, two(1 + n % 512), bytes([1, 0, 1]) * 2) for n in range(1700))
    runs = b''.join(expr(0, 2, two(*range(i, i + 10))) for i in range(1, 1700, 10))
    left = 65535 - len(front) - len(names) - len(runs)
    bindings = b''.join(binding(0, b'x' * (left // 512 - 6 + (n < left % 512))) for n in range(512))
    return front + bindings + names + runs


def main():
    if sys.argv[1] == 'largest':
        sys.stdout.buffer.write(largest())
    elif sys.argv[1] == 'cases':
        r = random.Random(int(sys.argv[2]))
        for f in made():
            print(3584, f.hex())
        for n in (0, 1, 2, 3, 4, 5, 6):
            print(n, (typ() + binding() + side_by_side(1) + expr(0, 0)).hex())
        for line in sys.stdin:
            f = bytes.fromhex(line)
            print(3584, f.hex())
            for _ in range(4):
                print(r.choice([3584, 3584, 3584, 9]), damaged(r, f).hex())
    else:
        for line in sys.stdin:
            rows, hexed = line.rstrip('\n').split(' ')
            try:
                print(opened(int(rows), bytes.fromhex(hexed)))
            except Refused as e:
                print('refused %d %s %d' % e.args)


if __name__ == '__main__':
    main()
