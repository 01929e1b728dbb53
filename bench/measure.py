#!/usr/bin/env python3
"""How fast the built program is: python3 bench/measure.py [PROGRAM [OTHER]]

Builds nothing. Each measure runs five times, each run a process of its own; printed are the median of the seconds on the clock, of those of the processor, the spread (the largest less the least,
of the median of the clock), and the most memory. With OTHER, a second build of the program, each measure runs on both in turn, and the last column is PROGRAM's median by OTHER's.

The output of each run must be the same each time, of both builds, and as wanted.
"""

import os
import statistics
import subprocess
import sys
import tempfile
import time

TOP = os.path.dirname(os.path.dirname(os.path.abspath(__file__)))
BUILT = os.path.join(TOP, "crates", "cap", "out", "cap")
RUNS = 5
LINES = 100_000
MOST_BYTES = 16_777_216
HOST = "host ACQ1 limit 500.00 block none poll 60"
ACCOUNT = "4000001234567899"


def element(tag, content):
    return f"<{tag}>{content}</{tag}>"


def header(function):
    parties = element("InitgPty", element("Id", "T1")) + element("RcptPty", element("Id", "ACQ1"))
    return element("Hdr", element("MsgFctn", function) + element("PrtcolVrsn", 1) + element("XchgId", 1) + element("CreDtTm", "2023-11-14T22:13:20Z") + parties)


def sale(n):
    return element("Sale", element("TxRef", n) + element("TtlAmt", "12.50") + element("PAN", ACCOUNT) + element("AuthstnCd", "OFFLIN"))


def document(number, message):
    return f'<Document xmlns="urn:x-cap20:1:{number}">{message}</Document>'.encode()


def advice():
    return document("caaa.003", element("AccptrCmpltnAdvc", header("CMPV") + element("CmpltnAdvc", element("Tx", sale(1)))))


def batch():
    items = "".join(element("Itm", sale(n)) for n in range(1, 101))
    return document("caaa.011", element("AccptrBtchTrf", header("BTCQ") + element("BtchTrf", items)))


def terminals(count, most=250_000):
    return [HOST] + [f"terminal T{t} max {most} floor 20.00" for t in range(1, count + 1)]


def day():
    """16 terminals in at most 100,000 lines: sales, batches, deliveries, a repeat and a restart now and then."""
    lines, sent, answered, i = terminals(16), [0] * 17, [0] * 17, 0
    while len(lines) + 6 <= LINES:
        i += 1
        t = 1 + (i - 1) % 16
        sent[t] += 1
        answered[t] += 1
        first = answered[t]
        lines += [f"sale T{t} {1 + i * 7919 % 19}.{i % 100:02} {ACCOUNT}", f"batch T{t} 100", f"up T{t} {sent[t]}"]
        if i % 3 == 0:
            lines.append(f"up T{t} {sent[t]}")
            answered[t] += 1
        lines.append(f"down T{t} {first}")
        if i % 5000 == 0:
            lines.append(f"restart T{t}")
    return lines


def reported(sales):
    """A terminal with so many sales, all of them at the host."""
    lines = terminals(1) + [f"sale T1 1.00 {ACCOUNT}"] * sales
    for k in range(1, (sales + 99) // 100 + 1):
        lines += ["batch T1 100", f"up T1 {k}", f"down T1 {k}"]
    return lines


def cancelled(sales, cancels):
    """The same, and so many cancellations, each captured by the host at once."""
    lines, k = reported(sales), (sales + 99) // 100
    for n in range(1, cancels + 1):
        k += 1
        lines += [f"cancel T1 {n}", "push T1", f"up T1 {k}", f"down T1 {k}"]
    return lines


def armed(sales, lines):
    """So many sales, and then lines that arm a device call which none of them makes."""
    return terminals(1) + [f"sale T1 1.00 {ACCOUNT}"] * sales + ["cut 9 old close T1"] + ["cut 9 old cancel T1 250000"] * lines


def text(lines):
    return ("\n".join(lines) + "\n").encode()


def measures():
    return [
        ("start: show of an advice", ["show"], advice(), lambda out: out.startswith(b"message caaa.003\n")),
        ("show of a batch of 100 items", ["show"], batch(), lambda out: out.startswith(b"message caaa.011\n")),
        ("show of an advice behind spaces, 16 MiB", ["show"], b" " * (MOST_BYTES - len(advice())) + advice(), lambda out: out.startswith(b"message caaa.003\n")),
        ("replay of 16 terminals, 100,000 lines", ["replay"], text(day()), lambda out: out.count(b" agree\n") == 16),
        ("make 10000", ["make", "10000"], b"", lambda out: out.count(b" agree\n") == 4),
        ("1,000 sales reported", ["replay"], text(reported(1_000)), None),
        ("  and 500 of them cancelled", ["replay"], text(cancelled(1_000, 500)), None),
        ("10,000 sales reported", ["replay"], text(reported(10_000)), None),
        ("  and 500 of them cancelled", ["replay"], text(cancelled(10_000, 500)), None),
        ("500 armed lines behind 1,000 sales", ["replay"], text(armed(1_000, 500)), None),
        ("500 armed lines behind 10,000 sales", ["replay"], text(armed(10_000, 500)), None),
    ]


def run(program, words, given):
    """The seconds of the clock and of the processor, the most memory in MB, and the output."""
    with tempfile.TemporaryFile() as source, tempfile.TemporaryFile() as sink:
        source.write(given)
        source.seek(0)
        start = time.monotonic()
        child = subprocess.Popen([program, *words], stdin=source, stdout=sink)
        _, status, used = os.wait4(child.pid, 0)
        wall = time.monotonic() - start
        child.returncode = os.waitstatus_to_exitcode(status)
        if child.returncode != 0:
            sys.exit(f"{program} {' '.join(words)} ended with {child.returncode}")
        sink.seek(0)
        return wall, used.ru_utime + used.ru_stime, used.ru_maxrss / 1024, sink.read()


def main():
    programs = sys.argv[1:3] or [BUILT]
    if not all(os.path.exists(program) for program in programs):
        sys.exit("build the program first: ./cap show < examples/advice.xml")
    print(f"{'':44}{'clock':>9}{'spread':>8}{'processor':>11}{'memory':>9}" + ("   by the other" if len(programs) > 1 else ""))
    for name, words, given, wanted in measures():
        runs = [[run(program, words, given) for program in programs] for _ in range(RUNS)]
        out = runs[0][0][3]
        if any(one[3] != out for both in runs for one in both) or (wanted and not wanted(out)):
            sys.exit(f"{name}: not the output that is wanted, or not the same each time")
        walls = [[both[i][0] for both in runs] for i in range(len(programs))]
        middle = [statistics.median(wall) for wall in walls]
        spread = (max(walls[0]) - min(walls[0])) / middle[0]
        processor = statistics.median(both[0][1] for both in runs)
        memory = max(both[0][2] for both in runs)
        by = f"{middle[0] / middle[1]:15.2f}" if len(programs) > 1 else ""
        print(f"{name:44}{middle[0]:7.3f} s{spread:7.0%}{processor:9.3f} s{memory:6.0f} MB{by}", flush=True)


main()
