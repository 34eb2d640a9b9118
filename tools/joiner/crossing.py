"""What the crossing prints, by the model."""
import sys
sys.path.insert(0, __file__.rsplit("/", 1)[0])
import model as M

JOB = b"R1 10k 12.50 30.00;C3 100n 4.2"
f, m, r, L, number = M.BYTE, 4, 3, 8, 7
mine = M.cut(f, m, r, L, JOB, number)
other = M.cut(f, m, r, L, JOB, 8)
WHY = {9: "its bytes are not laid out as a packet", 10: "its bytes are not laid out as a packet", 8: "the plan has no packet of that number",
       11: "it is of another job", 12: "it is accepted already", 13: "its row is not the message's", 14: "too few packets are accepted"}
rec = M.Receiver(f, m, r, L, number, len(JOB))


def refusal(a):
    return "refused %s: %s" % (M.name(a), WHY[a[1]])


def offer(label, bs):
    a = rec.offer(bs)
    if isinstance(a, tuple):
        print(label + refusal(a))
    else:
        print(label + "accepted, %d so far" % a)
        if a == m:
            print("settled   any %d packets give the job back" % a)


def spoil(bs, i):
    return bs[:i] + bytes([bs[i] ^ 255]) + bs[i + 1:]


def read():
    if rec.message is None:
        print("read      " + refusal(("receiver", 14, len(rec.heard()))))
    else:
        job = M.unpack(f, m, L, rec.message, len(JOB))
        assert job == JOB
        print("read      the job came back, all %d bytes of it" % len(job))


def rebuild(n):
    if n >= m + r:
        return print("rebuilt   packet %d, " % n + refusal(("receiver", 8, n)))
    row = rec.known(n)
    assert M.lay(f, m, r, L, number, len(JOB), n, row) == mine[n]
    print("rebuilt   packet %d, the same %d bytes that were sent" % (n, len(mine[n])))


print("job       number %d, %d bytes" % (number, len(JOB)))
print("plan      %d data packets and %d check packets of %d symbols, over the field of %d" % (m, r, L, f.q))
offer("sent      packet 0, ", mine[0])
print("sent      packet 1, lost")
offer("sent      packet 2, ", mine[2])
offer("repeated  packet 2, ", mine[2])
read()
offer("sent      packet 3, spoilt at byte 1, ", spoil(mine[3], 1))
offer("sent      packet 3 of job 8, ", other[3])
offer("sent      packet 4, ", mine[4])
print("sent      packet 5, lost")
offer("sent      packet 6, ", mine[6])
offer("sent      packet 3, spoilt at byte 25, ", spoil(mine[3], 25))
offer("sent      packet 3, ", mine[3])
read()
rebuild(1)
rebuild(7)
