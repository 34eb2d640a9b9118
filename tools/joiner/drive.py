"""Runs cutter and joiner on many inputs, and holds what they write to the model.

    python3 tools/joiner/drive.py crates [SEED [SMALL [BIG]]]      once rt run has built both programs
"""
import random
import subprocess
import sys
sys.path.insert(0, __file__.rsplit("/", 1)[0])
import model as M

BIN = sys.argv[1]
seed = int(sys.argv[2]) if len(sys.argv) > 2 else 1
small = int(sys.argv[3]) if len(sys.argv) > 3 else 300
big = int(sys.argv[4]) if len(sys.argv) > 4 else 6
rng = random.Random(seed)
count = 0


def run(program, data):
    p = subprocess.run([f"{BIN}/{program}/out/{program}"], input=data, stdout=subprocess.PIPE, stderr=subprocess.PIPE, timeout=60)
    assert p.returncode == 0, (program, p.returncode, data.hex())
    return p.stdout, p.stderr


def joiner(data):
    global count
    count += 1
    out, err = run("joiner", data)
    want_out, want_err = M.join(data)
    if out != want_out or err.decode() != want_err:
        open("/tmp/bad.bin", "wb").write(data)
        print("differs", len(data), "wrote", err.decode()[-400:], "want", want_err[-400:], out[:40], want_out[:40])
        sys.exit(1)
    return out


def capacity(f, m, L):
    return m * L // (1 if f.q >= 256 else 2)


def damage(packet):
    bs = bytearray(packet)
    for _ in range(rng.choice([1, 1, 1, 2, 5])):
        i = rng.randrange(len(bs)) if rng.random() < 0.6 else rng.randrange(20)
        bs[i] ^= rng.randrange(1, 256)
    return bytes(bs)


def one(f, m, r, L, kind):
    cap = capacity(f, m, L)
    job = bytes(rng.randrange(256) for _ in range(rng.choice([cap, cap, rng.randint(0, cap), 0])))
    out, _ = run("cutter", bytes([f.choice, m, r, L]) + job)
    packets = M.cut(f, m, r, L, job)
    assert out == b"".join(packets), "cutter"
    keep = sorted(rng.sample(range(m + r), m))
    if kind == "lost":
        sent = [packets[n] for n in keep]
        if rng.random() < 0.5:
            rng.shuffle(sent)
        assert joiner(b"".join(sent)) == job
    elif kind == "all":
        assert joiner(b"".join(packets)) == job
    elif kind == "few":
        sent = [packets[n] for n in keep[1:]]
        assert joiner(b"".join(sent)) == b""
    elif kind == "repeats":
        sent = [packets[n] for n in keep] + [packets[rng.choice(keep)] for _ in range(5)]
        first = sent[0]
        rest = sent[1:]
        rng.shuffle(rest)
        assert joiner(b"".join([first] + rest)) == job
    elif kind == "late":
        sent = [packets[n] for n in keep] + [damage(packets[rng.randrange(m + r)]) for _ in range(6)]
        assert joiner(b"".join(sent)) == job
    elif kind == "header":
        sent = [packets[n] for n in keep]
        bad = []
        for n in range(m + r):
            bs = bytearray(packets[n])
            bs[rng.choice([0, 1, 4, 6, 8, 9, 11, 12, 13, 15, 17, 19])] ^= rng.randrange(1, 256)
            bad.append(bytes(bs))
        mixed = sent[1:] + rng.sample(bad, min(len(bad), 4))
        rng.shuffle(mixed)
        assert joiner(b"".join([sent[0]] + mixed)) == job
    elif kind == "wild":
        sent = [packets[rng.randrange(m + r)] for _ in range(rng.randint(0, 2 * (m + r)))]
        sent = [damage(p) if rng.random() < 0.3 else p for p in sent]
        data = b"".join(sent)
        if rng.random() < 0.3:
            data = bytes(rng.randrange(256) for _ in range(rng.randint(1, 40))) + data
        if rng.random() < 0.3 and data:
            i = rng.randrange(len(data))
            data = data[:i] + data[i + rng.randint(1, 3):]
        if rng.random() < 0.2:
            data = data[:rng.randint(0, len(data))]
        joiner(data)
    elif kind == "noise":
        joiner(bytes(rng.choice(b"JB\0\x01\x14\x10\xff") for _ in range(rng.randint(0, 200))))
        head = bytearray(packets[0])
        for at in rng.sample([4, 6, 8, 10, 12, 14, 2], 2):
            head[at:at + 2] = M.word(rng.choice([0, 1, 2, 15, 16, 64, 65, 127, 128, 129, 255, 256, 257, 65535]))
        w = 2 if M.w_at(head, 10) >= 256 else 1
        n = min(65535, M.w_at(head, 8) * w)
        head[18:20] = M.word(n)
        joiner(bytes(head[:20]) + bytes(rng.randrange(2) for _ in range(n)))


KINDS = ["lost", "all", "few", "repeats", "late", "header", "wild", "wild", "noise"]
joiner(b"")
joiner(b"refused plan 1 0\n")
for i in range(small):
    f = rng.choice([M.BYTE, M.NIBBLE, M.PRIME])
    m = rng.randint(1, 8)
    r = rng.randint(1, 8)
    L = rng.randint(1, 12)
    one(f, m, r, L, KINDS[i % len(KINDS)])
for f, m in ((M.BYTE, 64), (M.NIBBLE, 8), (M.PRIME, 64)):
    for i in range(big):
        one(f, m, m, rng.choice([128, 128, rng.randint(1, 128)]), (["lost"] * 3 + KINDS)[i % 12])
    print(f.name, "m = r =", m, "ok", flush=True)
print(count, "inputs of the joiner, all as the model says")
