"""Lays out the cut packets: packs each job into rows, has the check rows computed by the outside program of the field, and writes
the header in front of each row. No field arithmetic is done here.

Call: lay.py BUILD OUT, where BUILD holds the compiled `byte` and `nibble`; the files are written to the folder OUT.
"""

import pathlib
import subprocess
import sys

from cases import FIELDS, cases

HERE = pathlib.Path(__file__).resolve().parent
JOB_NUMBER = 1


def message(m, row_len, per_byte, job):
    """The m rows of a job: a byte a symbol, or two symbols a byte with the high four bits first; the others are 0."""
    symbols = [s for b in job for s in ([b >> 4, b & 15] if per_byte == 2 else [b])]
    symbols += [0] * (m * row_len - len(symbols))
    return [symbols[j * row_len : (j + 1) * row_len] for j in range(m)]


def packet(number, m, r, row_len, size, job_len, row):
    """The bytes of one packet."""
    width = 1 if size <= 256 else 2
    header = [number, m, r, row_len, size - 1, JOB_NUMBER, job_len, 20, row_len * width]
    return b"JB" + b"".join(n.to_bytes(2, "big") for n in header) + b"".join(s.to_bytes(width, "big") for s in row)


def outside(field, build, text):
    """The lines that the field's outside program answers to the text of all cases."""
    rows = build / f"rows-{field}.txt"
    rows.write_text(text)
    if field == "prime":
        script = f'read("{HERE}/prime.gp"); checks("{rows}")\n'
        run = subprocess.run(["gp", "-q", "-f"], input=script, text=True, capture_output=True, check=True)
    else:
        run = subprocess.run([build / field, "checks"], input=text, text=True, capture_output=True, check=True)
    if run.stderr:
        sys.exit(f"{field}: {run.stderr}")
    return [[int(s) for s in line.split()] for line in run.stdout.splitlines()]


def lay(field, code, size, per_byte, table, build, out):
    """Writes all files of one field."""
    listed = cases(table, per_byte)
    messages = [message(m, row_len, per_byte, job) for m, r, row_len, job in listed]
    text = ""
    for (m, r, row_len, job), rows in zip(listed, messages):
        text += f"{m} {r} {row_len}\n" + "".join(" ".join(map(str, row)) + "\n" for row in rows)
    answers = outside(field, build, text)
    assert len(answers) == sum(r for m, r, row_len, job in listed)
    case_lines, packet_lines = [], []
    for place, ((m, r, row_len, job), rows) in enumerate(zip(listed, messages), 1):
        checks, answers = answers[:r], answers[r:]
        assert all(len(row) == row_len and all(0 <= s < size for s in row) for row in checks)
        packets = [packet(n, m, r, row_len, size, len(job), row) for n, row in enumerate(rows + checks)]
        case_lines.append(f"{m} {r} {row_len} {job.hex() or '-'}\n")
        packet_lines += [p.hex() + "\n" for p in packets]
        (out / f"input-{field}-{place:02}.bin").write_bytes(bytes([code, m, r, row_len]) + job)
        (out / f"expected-{field}-{place:02}.bin").write_bytes(b"".join(packets))
    (out / f"cases-{field}.txt").write_text("".join(case_lines))
    (out / f"expected-{field}.txt").write_text("".join(packet_lines))
    print(f"{field}: {len(case_lines)} cases, {len(packet_lines)} packets")


def main():
    build, out = pathlib.Path(sys.argv[1]).resolve(), pathlib.Path(sys.argv[2]).resolve()
    for field in FIELDS:
        lay(*field, build, out)


main()
