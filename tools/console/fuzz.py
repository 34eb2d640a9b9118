"""Makes up lines for the console, and holds its answers to the model.

    python3 tools/console/fuzz.py SEED COUNT [kinds]      at the top of the repository, once rt run has built the console
"""
import random, subprocess, sys
sys.path.insert(0, __file__.rsplit('/', 1)[0])
import model
seed = int(sys.argv[1]); count = int(sys.argv[2]); rnd = random.Random(seed)
con = model.Console(); lines = []; answers = []
def put(t):
    lines.append(t); a = con.line(t)
    if a is not None: answers.append((t, a))
    return a
S = model.wsyms; B = model.wbytes
def some(n, q): return [rnd.randrange(q) for _ in range(n)]
def mix(t):
    # damages a line now and then
    k = rnd.randrange(12)
    if k == 0: return t.replace(' ', '  ', 1)
    if k == 1: return t + ' '
    if k == 2: return t[2:]
    if k == 3: return t + 'x'
    if k == 4: return t.upper()
    if k == 5: return t.rsplit(' ', 1)[0]
    if k == 6: return t + ' 1'
    if k == 7: return t.replace('byte', 'bytes')
    if k == 8: return t[:-1]
    return t
def small():
    return rnd.choice([0, 1, 1, 2, 2, 3, 4, 5, 7, 64, 65, 2**64 - 1, 2**64]) if rnd.random() < .15 else rnd.randrange(1, 6)
def do_plan():
    f = rnd.choice(['byte', 'nibble', 'prime']); q = model.FIELDS[f].q
    m, r, L = small(), small(), small()
    if rnd.random() < .4: return f'> standard {f} {m} {r} {L}'
    nm, nr = min(m, 70), min(r, 70)
    if rnd.random() < .1: nm += rnd.choice([-1, 1]); nm = max(nm, 0)
    if rnd.random() < .1: nr += rnd.choice([-1, 1]); nr = max(nr, 0)
    ns = rnd.sample(range(max(q, nm + nr)), nm + nr)
    if rnd.random() < .15 and ns: ns[rnd.randrange(len(ns))] = rnd.choice(ns)
    if rnd.random() < .1 and ns: ns[rnd.randrange(len(ns))] = q + rnd.randrange(3)
    return f'> plan {f} {m} {r} {L} {S(ns[:nm])} {S(ns[nm:])}'
def name_of(q): return {256: 'byte', 16: 'nibble', 257: 'prime'}.get(q, 'byte')
def anyf(q): return rnd.choice(['byte', 'nibble', 'prime']) if rnd.random() < .07 else name_of(q)
def job_of(rec): return rec.job
def step():
    p = con.plan; sh = con.sheet; rec = con.rec
    x = rnd.random()
    if x < .03: return put(rnd.choice(['', '# remark', '#> nodes', '>', '> ', '= ok', '> nodes ', '>nodes', '\x80', '> nothing', '> plan', ' ']))
    if sh:
        if x < .08: return put(mix(do_plan()))
        if not sh.closed:
            if x < .6:
                n = sh.L + (rnd.choice([-1, 1]) if rnd.random() < .1 else 0)
                row = some(max(n, 0), sh.q)
                if rnd.random() < .1 and row: row[rnd.randrange(len(row))] = sh.q + rnd.randrange(2)
                j = rnd.randrange(sh.m + 1) if rnd.random() < .3 else rnd.randrange(sh.m)
                return put(mix(f'> lay {j} {S(row)}'))
            if x < .75: return put('> close')
            if x < .8: return put('> apart')
        else:
            if x < .7:
                j = rnd.randrange(p.m + p.r + 2) if rnd.random() < .2 else rnd.randrange(p.m + p.r)
                size = 20 + p.L * p.w + rnd.choice([-1, 0, 0, 1, 5])
                return put(mix(f'> cut {anyf(sh.q)} {rnd.randrange(70000) if rnd.random()<.1 else rnd.randrange(65536)} {rnd.randrange(65536)} {j} {size} {rnd.randrange(256)}'))
            if x < .85: return put('> apart')
    if x < .08: return put(mix(do_plan()))
    if x < .11: return put('> nodes')
    if x < .16:
        n = p.m * p.L + (rnd.choice([-1, 1]) if rnd.random() < .15 else 0)
        return put(mix(f'> sheet {n} {rnd.randrange(65536)}'))
    if x < .22 or rec is None: return put(mix(f'> open {rnd.randrange(65536)} {rnd.randrange(65536)}'))
    if x < .27: return put(rnd.choice(['> lay 0 0000', '> close', '> cut byte 1 1 0 30 0', '> apart', '> missing']))
    rp = rec.p
    if x < .65:
        if not hasattr(rec, 'truth'):
            rec.truth = [some(rp.L, rp.q) for _ in range(rp.m)]
        n = rnd.randrange(rp.m + rp.r)
        f = model.FIELDS[name_of(rp.q)]
        row = model.combine(f, model.coeffs(f, rp, n), rec.truth, rp.L)
        y = rnd.random()
        if y < .1: row[rnd.randrange(rp.L)] = rnd.randrange(min(rp.q + 2, 256 if rp.w == 1 else 65536))
        b = model.packet(rp, rec.job, n, row)
        if y > .7:
            k = rnd.randrange(6)
            if k == 0: b = b[:rnd.randrange(len(b) + 1)]
            elif k == 1: b[rnd.randrange(len(b))] = rnd.randrange(256)
            elif k == 2: b += [0]
            elif k == 3: b[rnd.choice([2, 3, 4, 5, 6, 7, 8, 9, 10, 11, 12, 13, 14, 15])] ^= 1 << rnd.randrange(8)
            elif k == 4: b[rnd.randrange(min(22, len(b)))] ^= 1
            elif k == 5: b[2:4] = [0, rp.m + rp.r]
        t = f'> offer {anyf(rp.q)} {B(b)}'
        return put(mix(t) if rnd.random() < .2 else t)
    if x < .75: return put(mix(f'> read {anyf(rp.q)} {rp.m * rp.L + (rnd.choice([-1, 1]) if rnd.random() < .1 else 0)} {rnd.randrange(65536)}'))
    if x < .85: return put(mix(f'> rebuild {anyf(rp.q)} {rnd.randrange(rp.m + rp.r + 1)} {20 + rp.L * rp.w + rnd.choice([-1, 0, 0, 3])} {rnd.randrange(256)}'))
    if x < .89: return put(mix('> missing'))
    k = model.per(p.q); total = p.m * p.L
    n = total + (rnd.choice([-1, 1]) if rnd.random() < .1 else 0)
    if x < .94:
        return put(mix(f'> pack {B(some(rnd.randrange(total // k + 2), 256))} {n} {rnd.randrange(65536)}'))
    cap = total // k
    length = rnd.randrange(cap + 2)
    bits = 8 // k
    msg = [rnd.randrange(1 << bits) if i < length * k else 0 for i in range(max(n, 0))]
    if rnd.random() < .2 and msg: msg[rnd.randrange(len(msg))] = rnd.choice([1, 1 << bits, 65535])
    return put(mix(f'> unpack {S(msg)} {length} {length + rnd.choice([-1, 0, 0, 2]) if length else rnd.randrange(3)} {rnd.randrange(256)}'))
for _ in range(count): step()
data = '\n'.join(lines) + '\n'
out = subprocess.run(['crates/console/out/console'], input=data.encode('latin-1'), capture_output=True)
got = out.stdout.decode().split('\n')
assert out.returncode == 0, out.returncode
assert got[-1] == '' and len(got) - 1 == len(answers), (len(got), len(answers))
bad = 0; kinds = {}
for (t, a), g in zip(answers, got):
    key = ' '.join(a.split(' ')[:4]) if a.startswith('= fault') else ' '.join(a.split(' ')[:2])
    kinds[key] = kinds.get(key, 0) + 1
    same = a == g or (a.startswith('= error') and g.startswith('= error '))
    if not same:
        bad += 1
        if bad < 5: print('LINE', t[:200]); print('MODEL', a[:200]); print('GOT  ', g[:200])
print(seed, len(answers), 'bad', bad, len(kinds))
if len(sys.argv) > 3: print(kinds)
sys.exit(bad > 0)
