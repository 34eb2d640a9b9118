#!/usr/bin/env python3
"""A model of the console, written from the rules alone: answers the lines of standard input, as docs/console.md says.

    python3 tools/console/model.py <crates/console/stdin >crates/console/stdout
"""
import sys

def bmul(a, b, poly, top):
    r = 0
    while b:
        if b & 1: r ^= a
        a <<= 1
        if a & top: a ^= poly
        b >>= 1
    return r

class F:
    def __init__(s, q, add, neg, mul, step, period):
        s.q, s.step, s.period = q, step, period
        e = lambda a: a if a < q else 0
        s.add = lambda a, b: add(e(a), e(b))
        s.neg = lambda a: neg(e(a))
        s.mul = lambda a, b: mul(e(a), e(b))
        s.invt = [0] * q
        for a in range(1, q):
            if s.invt[a]: continue
            for b in range(1, q):
                if mul(a, b) == 1:
                    s.invt[a] = b; s.invt[b] = a; break
        s.inv = lambda a: s.invt[e(a)]
        s.sub = lambda a, b: s.add(a, s.neg(b))

def table(q, mul):
    t = [[mul(a, b) for b in range(q)] for a in range(q)]
    return lambda a, b: t[a][b]

FIELDS = {
    'byte': F(256, lambda a, b: a ^ b, lambda a: a, table(256, lambda a, b: bmul(a, b, 0x11d, 256)), 2, 255),
    'nibble': F(16, lambda a, b: a ^ b, lambda a: a, table(16, lambda a, b: bmul(a, b, 0x13, 16)), 2, 15),
    'prime': F(257, lambda a, b: (a + b) % 257, lambda a: -a % 257, table(257, lambda a, b: a * b % 257), 3, 256),
}

class Fault(Exception): pass
class Unread(Exception): pass

def fault(*w): raise Fault(' '.join(map(str, w)))

def num(w, most=2**64 - 1):
    if not w or any(c not in '0123456789' for c in w): raise Unread('no number')
    n = int(w)
    if n >= 2**64: raise Unread('no number')
    if n > most: raise Unread('too large a number')
    return n

def cells(w, digits, what):
    if w == '-': return []
    if not w or len(w) % digits or any(c not in '0123456789abcdefABCDEF' for c in w): raise Unread(f'no {what} in hex')
    return [int(w[i:i + digits], 16) for i in range(0, len(w), digits)]

def syms(w): return cells(w, 4, 'symbols')
def byts(w): return cells(w, 2, 'bytes')
def fld(w):
    if w not in FIELDS: raise Unread('no field of that name')
    return FIELDS[w]
def filled(n, f, most): return [num(f, most)] * num(n, 1000000)
def wsyms(v): return ''.join('%04x' % x for x in v) or '-'
def wbytes(v): return ''.join('%02x' % x for x in v) or '-'

class Plan:
    def __init__(s, m=1, r=1, L=1, q=2, d=(0,), c=(1,)):
        s.m, s.r, s.L, s.q, s.d, s.c = m, r, L, q, list(d), list(c)
        s.w = 1 if q <= 256 else 2

def ranges(m, r, L):
    for i, (v, top) in enumerate(((m, 64), (r, 64), (L, 128))):
        if v < 1 or v > top: fault('plan', 1, i)

def make(f, m, r, L, d, c):
    ranges(m, r, L)
    if m + r > f.q: fault('plan', 2, f.q)
    if len(d) != m: fault('plan', 5, m)
    if len(c) != r: fault('plan', 5, r)
    ns = d + c
    for i, n in enumerate(ns):
        if n >= f.q: fault('plan', 3, i)
    for i, n in enumerate(ns):
        if n in ns[:i]: fault('plan', 4, i)
    return Plan(m, r, L, f.q, d, c)

def standard(f, m, r, L):
    ranges(m, r, L)
    if m + r > f.period: fault('plan', 2, f.period)
    p, ns = 1, []
    for _ in range(m + r):
        ns.append(p); p = f.mul(p, f.step)
    return Plan(m, r, L, f.q, ns[:m], ns[m:])

def coeffs(f, p, n):
    "row of the generator: what each message row is multiplied by in packet n"
    if n < p.m: return [1 if j == n else 0 for j in range(p.m)]
    c = p.c[n - p.m]
    return [f.inv(f.sub(c, d)) for d in p.d]

def combine(f, co, rows, L):
    out = [0] * L
    for k, row in zip(co, rows):
        if k:
            for s in range(L): out[s] = f.add(out[s], f.mul(k, row[s]))
    return out

def solve(f, p, packets):
    "the message that fits m packets, by elimination"
    m = p.m
    A = [coeffs(f, p, n) + list(row) for n, row in packets]
    for col in range(m):
        piv = next(i for i in range(col, m) if A[i][col])
        A[col], A[piv] = A[piv], A[col]
        k = f.inv(A[col][col])
        A[col] = [f.mul(k, x) for x in A[col]]
        for i in range(m):
            if i != col and A[i][col]:
                k = f.neg(A[i][col])
                A[i] = [f.add(x, f.mul(k, y)) for x, y in zip(A[i], A[col])]
    return [a[m:] for a in A]

def w16(n): return [n >> 8, n & 255]

def packet(p, job, n, row):
    b = [74, 66] + w16(n) + w16(p.m) + w16(p.r) + w16(p.L) + w16(p.q - 1) + w16(job[0]) + w16(job[1]) + w16(20) + w16(p.L * p.w)
    for s in row: b += w16(s) if p.w == 2 else [s]
    return b

class Receiver:
    def __init__(s, plan, job):
        s.p, s.job, s.first, s.later, s.msg = plan, job, [], set(), None
    def count(s): return len(s.first) + len(s.later)
    def numbers(s): return {n for n, _ in s.first} | s.later
    def known(s, f, n):
        for k, row in s.first:
            if k == n: return row
        if len(s.first) == s.p.m:
            if s.msg is None: s.msg = solve(f, s.p, s.first)
            return combine(f, coeffs(f, s.p, n), s.msg, s.p.L)
        return None
    def offer(s, f, b):
        p = s.p
        if f.q != p.q: fault('receiver', 6, p.q)
        at = lambda i: b[i] * 256 + b[i + 1]
        if len(b) < 20: fault('packet', 9, len(b))
        if b[0] != 74 or b[1] != 66: fault('packet', 10, 0)
        if at(16) != 20: fault('packet', 10, 16)
        w = 1 if at(10) + 1 <= 256 else 2
        if at(18) != at(8) * w: fault('packet', 10, 18)
        if len(b) != 20 + at(18): fault('packet', 9, len(b))
        for place, want in ((4, p.m), (6, p.r), (8, p.L), (10, p.q - 1), (12, s.job[0]), (14, s.job[1])):
            if at(place) != want: fault('receiver', 11, place)
        n = at(2)
        if n >= p.m + p.r: fault('receiver', 8, n)
        row = [at(20 + 2 * i) for i in range(p.L)] if p.w == 2 else b[20:]
        for i, x in enumerate(row):
            if x >= p.q: fault('receiver', 7, i)
        k = s.known(f, n)
        if k is not None:
            for i, (x, y) in enumerate(zip(k, row)):
                if x != y: fault('receiver', 13, i)
            if n in s.numbers(): fault('receiver', 12, n)
        if len(s.first) < p.m: s.first.append((n, row))
        else: s.later.add(n)
        return s.count()
    def read(s, f, buf):
        if f.q != s.p.q: fault('receiver', 6, s.p.q)
        if len(buf) != s.p.m * s.p.L: fault('receiver', 5, s.p.m * s.p.L)
        if s.count() < s.p.m: fault('receiver', 14, s.count())
        s.known(f, 0)
        if s.msg is None: s.msg = solve(f, s.p, s.first)
        return sum(s.msg, [])
    def rebuild(s, f, n, buf):
        p = s.p
        if f.q != p.q: fault('receiver', 6, p.q)
        if n >= p.m + p.r: fault('receiver', 8, n)
        size = 20 + p.L * p.w
        if len(buf) < size: fault('receiver', 5, size)
        row = s.known(f, n)
        if row is None: fault('receiver', 14, s.count())
        return size, packet(p, s.job, n, row) + buf[size:]

class Sheet:
    def __init__(s, p, buf):
        s.m, s.L, s.q = p.m, p.L, p.q
        s.buf = [0] * len(buf) if len(buf) == p.m * p.L else buf
        s.closed = False
    def lay(s, j, row):
        if len(s.buf) != s.m * s.L: fault('sheet', 5, s.m * s.L)
        if len(row) != s.L: fault('sheet', 5, s.L)
        if j >= s.m: fault('sheet', 8, j)
        for i, x in enumerate(row):
            if x >= s.q: fault('sheet', 7, i)
        s.buf[j * s.L:(j + 1) * s.L] = row
    def cut(s, p, f, job, n, buf):
        if f.q != s.q or p.q != s.q or p.m != s.m or p.L != s.L: fault('sheet', 6, s.q)
        if len(s.buf) != s.m * s.L: fault('sheet', 5, s.m * s.L)
        if n >= p.m + p.r: fault('sheet', 8, n)
        size = 20 + p.L * p.w
        if len(buf) < size: fault('sheet', 5, size)
        rows = [s.buf[j * s.L:(j + 1) * s.L] for j in range(s.m)]
        return size, packet(p, job, n, combine(f, coeffs(f, p, n), rows, p.L)) + buf[size:]

def per(q): return 1 if q >= 256 else 2 if q >= 16 else 8

def pack(p, job, buf):
    k, total = per(p.q), p.m * p.L
    if len(buf) != total: fault('job', 5, total)
    if len(job) > total // k: fault('job', 15, total // k)
    bits = 8 // k
    out = [(b >> (8 - bits * (t + 1))) & ((1 << bits) - 1) for b in job for t in range(k)]
    return out + [0] * (total - len(out))

def unpack(p, msg, n, buf):
    k, total = per(p.q), p.m * p.L
    if len(msg) != total: fault('job', 5, total)
    if n > total // k: fault('job', 15, total // k)
    if len(buf) < n: fault('job', 5, n)
    bits = 8 // k
    for i in range(n * k):
        if msg[i] >= 1 << bits: fault('job', 16, i)
    for i in range(n * k, total):
        if msg[i]: fault('job', 17, i)
    out = []
    for i in range(n):
        b = 0
        for t in range(k): b = (b << bits) | msg[i * k + t]
        out.append(b)
    return out + buf[n:]

class Console:
    def __init__(s): s.plan, s.rec, s.sheet = Plan(), None, None
    def need(s, ok):
        if ok: return
        if s.sheet and not s.sheet.closed: raise Unread('an open sheet takes lay, close, plan and standard')
        if s.sheet: raise Unread('a closed sheet takes cut, apart, plan and standard')
        raise Unread(s.lacks)
    def call(s, w):
        name, a = w[0], w[1:]
        arity = dict(plan=6, standard=4, nodes=0, open=2, offer=2, read=3, rebuild=4, missing=0, sheet=2, lay=2, close=0, cut=6, apart=0, pack=3, unpack=4)
        if name not in arity: raise Unread('no such call')
        if arity[name] != len(a): raise Unread('the call takes other words')
        s.lacks = 'no receiver' if name in ('offer', 'read', 'rebuild', 'missing') else 'no sheet'
        sh = s.sheet
        if name == 'plan':
            f, m, r, L, d, c = fld(a[0]), num(a[1]), num(a[2]), num(a[3]), syms(a[4]), syms(a[5])
            s.plan = make(f, m, r, L, d, c); return 'ok'
        if name == 'standard':
            f, m, r, L = fld(a[0]), num(a[1]), num(a[2]), num(a[3])
            s.plan = standard(f, m, r, L); return 'ok'
        if name == 'nodes':
            s.need(not sh); p = s.plan
            return f'ok {p.m} {p.r} {p.L} {p.q} {wsyms(p.d)} {wsyms(p.c)}'
        if name == 'open':
            job = (num(a[0], 65535), num(a[1], 65535)); s.need(not sh)
            s.rec = Receiver(s.plan, job); return 'ok'
        if name == 'offer':
            f, b = fld(a[0]), byts(a[1]); s.need(not sh and s.rec)
            return f'ok {s.rec.offer(f, b)}'
        if name == 'read':
            f, b = fld(a[0]), filled(a[1], a[2], 65535); s.need(not sh and s.rec)
            return 'ok ' + wsyms(s.rec.read(f, b))
        if name == 'rebuild':
            f, n, b = fld(a[0]), num(a[1]), filled(a[2], a[3], 255); s.need(not sh and s.rec)
            l, o = s.rec.rebuild(f, n, b); return f'ok {l} {wbytes(o)}'
        if name == 'missing':
            s.need(not sh and s.rec)
            for n in range(s.rec.p.m):
                if n not in s.rec.numbers(): return f'some {n}'
            return 'none'
        if name == 'sheet':
            b = filled(a[0], a[1], 65535); s.need(not sh); s.sheet = Sheet(s.plan, b); return 'ok'
        if name == 'lay':
            j, r = num(a[0]), syms(a[1]); s.need(sh and not sh.closed); sh.lay(j, r); return 'ok'
        if name == 'close':
            s.need(sh and not sh.closed); sh.closed = True; return 'ok'
        if name == 'cut':
            f, job, n, b = fld(a[0]), (num(a[1], 65535), num(a[2], 65535)), num(a[3]), filled(a[4], a[5], 255)
            s.need(sh and sh.closed); l, o = sh.cut(s.plan, f, job, n, b); return f'ok {l} {wbytes(o)}'
        if name == 'apart':
            s.need(sh and sh.closed); s.sheet = None; return 'ok ' + wsyms(sh.buf)
        if name == 'pack':
            d, b = byts(a[0]), filled(a[1], a[2], 65535); s.need(not sh); return 'ok ' + wsyms(pack(s.plan, d, b))
        if name == 'unpack':
            m, n, b = syms(a[0]), num(a[1]), filled(a[2], a[3], 255); s.need(not sh); return 'ok ' + wbytes(unpack(s.plan, m, n, b))
    def line(s, t):
        if t == '' or t.startswith('#'): return None
        try:
            if not t.startswith('> '): raise Unread('neither a call nor a remark')
            return '= ' + s.call(t[2:].split(' '))
        except Unread as e: return '= error ' + str(e)
        except Fault as e: return '= fault ' + str(e)

if __name__ == '__main__':
    con = Console()
    for t in sys.stdin.buffer.read().decode('latin-1').split('\n'):
        a = con.line(t)
        if a is not None: print(a)
