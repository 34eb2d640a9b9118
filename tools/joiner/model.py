"""An independent model of the cutter and the joiner: packets by the row rule, messages by elimination."""
import random


def poly_mul(poly, bits):
    def mul(a, b):
        x = 0
        while b:
            if b & 1:
                x ^= a
            b >>= 1
            a <<= 1
            if a >> bits:
                a ^= poly
        return x
    return mul


class Field:
    def __init__(self, name, q, choice, add, neg, mul):
        self.name, self.q, self.choice, self.add, self.neg, self.raw = name, q, choice, add, neg, mul
        self.table = [[mul(a, b) for b in range(q)] for a in range(q)]
        self.invs = [0] + [next(b for b in range(q) if self.table[a][b] == 1) for a in range(1, q)]

    def mul(self, a, b):
        return self.table[a][b]

    def inv(self, a):
        return self.invs[a]

    def sub(self, a, b):
        return self.add(a, self.neg(b))


BYTE = Field("byte", 256, 0, lambda a, b: a ^ b, lambda a: a, poly_mul(0x11D, 8))
NIBBLE = Field("nibble", 16, 1, lambda a, b: a ^ b, lambda a: a, poly_mul(0x13, 4))
PRIME = Field("prime", 257, 2, lambda a, b: (a + b) % 257, lambda a: -a % 257, lambda a, b: a * b % 257)
FIELDS = {f.q: f for f in (BYTE, NIBBLE, PRIME)}
MASK = {16: 15, 256: 255, 257: 255}


def coefficients(f, m, n):
    """row of packet n as a combination of the m rows, nodes d_j = j, c_i = m + i"""
    if n < m:
        return [1 if j == n else 0 for j in range(m)]
    return [f.inv(f.sub(n, j)) for j in range(m)]


def combine(f, cs, rows, L):
    out = [0] * L
    for c, row in zip(cs, rows):
        if c:
            t = f.table[c]
            for s in range(L):
                out[s] = f.add(out[s], t[row[s]])
    return out


def pack(f, m, L, job):
    if f.q >= 256:
        xs = list(job)
    else:
        xs = [y for b in job for y in (b >> 4, b & 15)]
    assert len(xs) <= m * L
    xs += [0] * (m * L - len(xs))
    return [xs[i * L:i * L + L] for i in range(m)]


def word(n):
    return bytes([n >> 8, n & 255])


def lay(f, m, r, L, job_number, job_length, n, row):
    w = 2 if f.q > 256 else 1
    body = b"".join(word(y) for y in row) if w == 2 else bytes(row)
    return b"JB" + b"".join(word(x) for x in (n, m, r, L, f.q - 1, job_number, job_length, 20, L * w)) + body


def cut(f, m, r, L, job, job_number=1):
    rows = pack(f, m, L, job)
    return [lay(f, m, r, L, job_number, len(job), n, combine(f, coefficients(f, m, n), rows, L)) for n in range(m + r)]


def w_at(bs, i):
    a = bs[i] if i < len(bs) else 0
    b = bs[i + 1] if i + 1 < len(bs) else 0
    return a * 256 + b


def opening(bs):
    if len(bs) < 20:
        return ("packet", 9, len(bs))
    if bs[0:2] != b"JB":
        return ("packet", 10, 0)
    if w_at(bs, 16) != 20:
        return ("packet", 10, 16)
    w = 2 if w_at(bs, 10) + 1 > 256 else 1
    if w_at(bs, 18) != w_at(bs, 8) * w:
        return ("packet", 10, 18)
    if len(bs) != 20 + w_at(bs, 18):
        return ("packet", 9, len(bs))
    return None


def solve(f, m, L, stored):
    """the message that fits m packets, by elimination"""
    a = [coefficients(f, m, n) + list(row) for n, row in stored]
    for c in range(m):
        p = next(i for i in range(c, m) if a[i][c])
        a[c], a[p] = a[p], a[c]
        t = f.table[f.inv(a[c][c])]
        a[c] = [t[x] for x in a[c]]
        for i in range(m):
            if i != c and a[i][c]:
                t = f.table[f.neg(a[i][c])]
                a[i] = [f.add(x, t[y]) for x, y in zip(a[i], a[c])]
    return [row[m:] for row in a]


class Receiver:
    def __init__(self, f, m, r, L, number, length):
        self.f, self.m, self.r, self.L, self.number, self.length = f, m, r, L, number, length
        self.stored, self.later, self.message = [], [], None

    def known(self, n):
        for k, row in self.stored:
            if k == n:
                return row
        if self.message is not None:
            return combine(self.f, coefficients(self.f, self.m, n), self.message, self.L)
        return None

    def heard(self):
        return [k for k, _ in self.stored] + self.later

    def offer(self, bs):
        fault = opening(bs)
        if fault:
            return fault
        for at, want in ((4, self.m), (6, self.r), (8, self.L), (10, self.f.q - 1), (12, self.number), (14, self.length)):
            if w_at(bs, at) != want:
                return ("receiver", 11, at)
        n = w_at(bs, 2)
        if n >= self.m + self.r:
            return ("receiver", 8, n)
        body = bs[20:]
        row = [w_at(body, 2 * s) for s in range(self.L)] if self.f.q > 256 else list(body)
        for s, y in enumerate(row):
            if y >= self.f.q:
                return ("receiver", 7, s)
        known = self.known(n)
        if known is not None:
            for s in range(self.L):
                if known[s] != row[s]:
                    return ("receiver", 13, s)
            if n in self.heard():
                return ("receiver", 12, n)
        if len(self.stored) < self.m:
            self.stored.append((n, row))
            if len(self.stored) == self.m:
                self.message = solve(self.f, self.m, self.L, self.stored)
        else:
            self.later.append(n)
        return len(self.heard())

    def missing(self):
        return next((n for n in range(self.m) if n not in self.heard()), None)


def unpack(f, m, L, message, n):
    k = 1 if f.q >= 256 else 2
    limit = 256 if f.q >= 256 else 16
    xs = [y for row in message for y in row]
    if n > m * L // k:
        return ("job", 15, m * L // k)
    for i in range(n * k):
        if xs[i] >= limit:
            return ("job", 16, i)
    for i in range(n * k, m * L):
        if xs[i]:
            return ("job", 17, i)
    return bytes(xs[:n]) if k == 1 else bytes(xs[2 * i] * 16 + xs[2 * i + 1] for i in range(n))


def told(bs):
    return 20 + w_at(bs, 18)


def find(bs):
    for i in range(len(bs)):
        n = 20 + w_at(bs, i + 18)
        if i + n <= len(bs) and opening(bs[i:i + n]) is None:
            return i
    return None


def name(f):
    return "%s %d %d" % f


def join(bs):
    """what the joiner writes to standard output and to standard error"""
    err = []
    passed = find(bs)
    if passed is None:
        return b"", "no job    input 9 %d\n" % len(bs)
    err.append("passed    %d bytes in front of the first packet" % passed)
    bs = bs[passed:]
    m, r, L, q, number, length = (w_at(bs, 4), w_at(bs, 6), w_at(bs, 8), w_at(bs, 10) + 1, w_at(bs, 12), w_at(bs, 14))
    err.append("plan      %d data packets and %d check packets of %d symbols, over the field of %d" % (m, r, L, q))
    err.append("job       number %d, %d bytes" % (number, length))

    def out(job=b""):
        return job, "".join(line + "\n" for line in err)
    if q not in FIELDS:
        err.append("no job    input 10 10")
        return out()
    f = FIELDS[q]
    for place, (n, top) in enumerate(((m, 64), (r, 64), (L, 128))):
        if not 1 <= n <= top:
            err.append("no job    plan 1 %d" % place)
            return out()
    if m + r > q:
        err.append("no job    plan 2 %d" % q)
        return out()
    rec = Receiver(f, m, r, L, number, length)
    size = told(bs)
    accepted = refused = 0
    for place, i in enumerate(range(0, len(bs), size)):
        a = rec.offer(bs[i:i + size])
        if isinstance(a, tuple):
            err.append("refused   %s, packet %d of the input" % (name(a), place))
            refused += 1
        else:
            accepted = a
    settled = accepted >= m
    err += ["accepted  %d packets" % accepted, "refused   %d packets" % refused]
    gap = rec.missing()
    if gap is None:
        err.append("missing   none")
    elif settled:
        err.append("missing   data packet %d, others make up for it" % gap)
    else:
        err.append("missing   data packet %d" % gap)
    err.append("settled   yes" if settled else "settled   no, %d packets are wanted" % m)
    if not settled:
        err.append("no job    receiver 14 %d" % accepted)
        return out()
    job = unpack(f, m, L, rec.message, length)
    if isinstance(job, tuple):
        err.append("no job    " + name(job))
        return out()
    err.append("joined    %d bytes" % length)
    return out(job)
