"""The cases that are cut, the same on every run: for each field a list of (m, r, L, job).

A job given as a number is that many bytes of a linear congruential generator: x becomes (x * 1103515245 + 12345) mod 2^31,
starting from the case's position in its list counted from 1, and each step gives the byte (x >> 16) mod 256.
"""

FULL = -1  # a job of the plan's whole capacity

WIDE = [  # byte and prime field: a byte a symbol
    (2, 2, 1, bytes([1, 2])),
    (2, 1, 1, bytes([3, 5])),
    (1, 1, 1, b""),
    (1, 1, 1, bytes([0])),
    (1, 1, 1, bytes([255])),
    (1, 2, 1, bytes([255])),  # in the prime field the second check symbol is 256
    (1, 1, 128, FULL),
    (3, 5, 7, FULL),
    (3, 5, 7, 11),
    (3, 5, 7, b""),
    (15, 1, 4, FULL),
    (1, 15, 3, FULL),
    (10, 4, 16, 159),
    (64, 1, 2, FULL),
    (1, 64, 2, FULL),
    (64, 64, 1, 63),
    (64, 64, 128, FULL),
]

NARROW = [  # nibble field: two symbols a byte, at most 16 packets
    (2, 2, 1, bytes([0x12])),
    (2, 1, 1, bytes([0x35])),
    (1, 1, 1, b""),
    (1, 1, 2, bytes([0])),
    (1, 1, 2, bytes([255])),
    (1, 2, 3, bytes([0xF9])),
    (1, 1, 128, FULL),
    (3, 5, 7, FULL),
    (3, 5, 7, 6),
    (3, 5, 7, b""),
    (15, 1, 4, FULL),
    (1, 15, 3, FULL),
    (10, 4, 16, 79),
    (8, 8, 1, FULL),
    (15, 1, 128, FULL),
    (1, 15, 128, FULL),
    (8, 8, 128, FULL),
]

# Each field: its name, its byte in the cutter's input, its size, how many symbols a byte fills, its cases.
FIELDS = [("nibble", 1, 16, 2, NARROW), ("byte", 0, 256, 1, WIDE), ("prime", 2, 257, 1, WIDE)]


def job_bytes(job, start, capacity):
    """The bytes of a case's job."""
    if isinstance(job, bytes):
        return job
    count = capacity if job == FULL else job
    answer, x = [], start
    for _ in range(count):
        x = (x * 1103515245 + 12345) % 2**31
        answer.append((x >> 16) % 256)
    return bytes(answer)


def cases(table, per_byte):
    """The list of (m, r, L, job bytes) of one field."""
    answer = []
    for start, (m, r, row_len, job) in enumerate(table, 1):
        capacity = m * row_len // per_byte
        job = job_bytes(job, start, capacity)
        assert len(job) <= capacity
        answer.append((m, r, row_len, job))
    return answer
