#!/usr/bin/env python3
"""Runs the built program on the cases of this folder: python3 tests/run.py [PROGRAM]

A file of cases (runs.txt, power.txt, faulty-schedules.txt) holds blocks: a line `=== WORDS: what it shows` with the command line, the input, a line `--- STATUS` with what stands on
standard error behind it, and the output. In a table a line is a case. Everywhere `\\r`, `\\t`, `\\\\` and `\\xNN` stand for a byte, and `\\c` at an end for no line feed there.
The last line is `N passed, M failed`, and the status 1 where a case failed.
"""

import fcntl
import os
import re
import socket
import struct
import subprocess
import sys
import termios
import threading
import time

import devices

HERE = os.path.dirname(os.path.abspath(__file__))
TOP = os.path.dirname(HERE)
PROGRAM = os.path.abspath(sys.argv[1]) if len(sys.argv) > 1 else os.path.join(TOP, "crates", "cap", "out", "cap")
SECONDS = 120
SET_UP = b"host ACQ1 limit 500.00 block 411111 poll 60\nterminal T1 max 1000 floor 20.00\n"
MOST_BYTES = 16_777_216
MOST_LINES = 100_000
BYTE = {b"\\r": b"\r", b"\\t": b"\t", b"\\\\": b"\\", b"\\c\n": b"", b"\\c": b""}

passed = 0
failed = 0


def text(name):
    with open(os.path.join(HERE, name), "rb") as file:
        return file.read()


def plain(escaped):
    """The bytes that an escaped text stands for."""
    return re.sub(rb"\\x[0-9a-f]{2}|\\[rt\\]|\\c\n?", lambda m: BYTE.get(m.group()) if m.group() in BYTE else bytes([int(m.group()[2:], 16)]), escaped)


def check(what, found, wanted):
    """Counts one case: (status, output, standard error), where None stands for anything."""
    global passed, failed
    if all(want is None or have == want for have, want in zip(found, wanted)):
        passed += 1
        return
    failed += 1
    print(f"FAILED {what}")
    for name, have, want in zip(("status", "output", "error"), found, wanted):
        if want is not None and have != want:
            print(f"  {name}: {have!r:.600}\n  wanted: {want!r:.600}")


def run(words, given=b"", **streams):
    done = subprocess.run([PROGRAM, *words], input=None if streams else given, stderr=subprocess.PIPE, timeout=SECONDS, check=False, **({"stdout": subprocess.PIPE} | streams))
    return done.returncode, done.stdout, done.stderr


def said(status, line=0):
    """What a status prints on standard error."""
    texts = {0: b"", 2: b"cap: words\n", 3: b"cap: line %d\n" % line, 4: b"cap: read\n", 5: b"cap: write\n", 11: b"cap: input limit\n"}
    return texts[status]


def case(what, words, given, status, output, line=0):
    check(what, run(words, given), (status, output, said(status, line)))


def blocks(name):
    for number, block in enumerate(re.split(rb"^=== ", text(name), flags=re.M)[1:], 1):
        head, rest = block.split(b"\n", 1)
        words, title = head.split(b": ", 1)
        given, end = re.split(rb"^--- ", rest, maxsplit=1, flags=re.M)
        ending, output = end.split(b"\n", 1)
        status, _, error = ending.partition(b" ")
        wanted = int(status), plain(output), error + b"\n" if error else b""
        check(f"{name} {number}: {title.decode()}", run(words.decode().split(), plain(given)), wanted)


def lines(name):
    return [line for line in text(name).split(b"\n") if line]


def schedules():
    blocks("runs.txt")
    blocks("power.txt")
    blocks("faulty-schedules.txt")
    for line in lines("faulty-lines.txt"):
        for end in b"", b"\n":
            case(f"faulty line {line!r}", ["replay"], SET_UP + plain(line) + end, 3, b"", 3)
    for line in lines("set-up-lines.txt"):
        check(f"set-up line {line!r}", run(["replay"], SET_UP + plain(line) + b"\n")[:1], (0,))
    terminals = b"".join(b"terminal %c max 1 floor 0\n" % id for id in b"ABCDEFGHIJKLMNO")
    check("sixteen terminals", run(["replay"], SET_UP + terminals + b"push O\n")[:1], (0,))
    case("seventeen terminals", ["replay"], SET_UP + terminals + b"terminal P max 1 floor 0\n", 3, b"", 18)
    rows = b"publish A=1" + b"".join(b",K%02x=2" % n for n in range(255))
    check("a set of 256 rows", run(["replay"], SET_UP + rows)[:1], (0,))
    case("a set of 257 rows", ["replay"], SET_UP + rows + b",B=1", 3, b"", 3)


DIAGNOSIS = (
    '<Document xmlns="urn:x-cap20:1:caaa.013"><AccptrDgnstcReq><Hdr><MsgFctn>DGNQ</MsgFctn><PrtcolVrsn>1</PrtcolVrsn><XchgId>1</XchgId><CreDtTm>2023-11-14T22:13:20Z</CreDtTm>'
    "<InitgPty><Id>{}</Id></InitgPty><RcptPty><Id>{}</Id></RcptPty></Hdr><DgnstcReq><LastItm>0</LastItm></DgnstcReq></AccptrDgnstcReq></Document>"
)


def noise():
    """A message between parties of the schedule is no noise; any other bytes are, up to 65,536."""
    for sender, receiver, line in [("T1", "ACQ1", 3), ("ACQ1", "T1", 3), ("T1", "T1", 3), ("ACQ1", "ACQ1", 3), ("T2", "ACQ1", 0), ("T1", "ACQ2", 0), ("T_1", "ACQ1", 0)]:
        given = SET_UP + b"noise ACQ1 " + DIAGNOSIS.format(sender, receiver).encode().hex().encode()
        status, _, error = run(["replay"], given)
        check(f"noise from {sender} to {receiver}", (status, error), (3, said(3, 3)) if line else (0, b""))
    case("an advice of the terminal as noise", ["replay"], SET_UP + b"noise ACQ1 " + text("advice.xml").hex().encode() + b"\n", 3, b"", 3)
    most = SET_UP + b"noise ACQ1 " + b"00" * 65_536
    check("noise of 65,536 bytes", run(["replay"], most)[:1], (0,))
    case("noise of 65,537 bytes", ["replay"], most + b"00", 3, b"", 3)


def documents():
    advice = text("advice.xml")
    shown = b"message caaa.003\n" + advice + b"\n"
    case("an advice", ["show"], advice, 0, shown)
    case("the same with spaces and other spellings", ["show"], text("advice-spaced.xml"), 0, shown)
    for line in lines("edited-documents.txt"):
        edit, output = line.split(b" => ")
        at, removed, new = edit.split(b" ", 2)
        at, removed = int(at), int(removed)
        new = advice if new == b"@" else plain(new)
        case(f"an edited advice {line!r}", ["show"], advice[:at] + new + advice[at + removed:], 0, output + b"\n")
    case("65,536 bytes of <", ["show"], b"<" * 65_536, 0, b"fault PARS at 0 exchange 0\n")
    for at in range(len(advice)):
        status, output, _ = run(["show"], advice[:at])
        fault = re.fullmatch(rb"fault [A-Z]{4} at (\d+) exchange [01]\n", output)
        check(f"the first {at} bytes of an advice: a fault, not beyond them", (status, bool(fault) and int(fault[1]) <= at), (0, True))
    for at in range(len(advice) + 1):
        check(f"an advice in two pieces, of which the first has {at} bytes", show_pieces([advice[:at], advice[at:]]), (0, shown))


def show_pieces(pieces):
    """What is shown of these pieces, each of which the program takes by a read of its own."""
    ours, theirs = socket.socketpair(socket.AF_UNIX, socket.SOCK_SEQPACKET)
    with theirs:
        child = subprocess.Popen([PROGRAM, "show"], stdin=theirs, stdout=subprocess.PIPE)
    with ours:
        for piece in pieces:
            if piece:
                ours.send(piece)
    output = child.communicate(timeout=SECONDS)[0]
    return child.returncode, output


def limits():
    advice = text("advice.xml")
    shown = b"message caaa.003\n" + advice + b"\n"
    case("a document of 16 MiB", ["show"], b" " * (MOST_BYTES - len(advice)) + advice, 0, shown)
    case("a document of a byte more", ["show"], b" " * (MOST_BYTES + 1 - len(advice)) + advice, 11, b"")
    case("a document of 100,000 lines", ["show"], b"\n" * (MOST_LINES - 1) + advice, 0, shown)
    case("a document of a line more", ["show"], b"\n" * MOST_LINES + advice, 11, b"")
    case("100,000 empty lines", ["show"], b"\n" * MOST_LINES, 0, b"fault PARS at 100000 exchange 0\n")
    for what, fill, most in (("bytes", b"#", MOST_BYTES), ("lines", b"\n", len(SET_UP) + MOST_LINES - 2)):
        check(f"a schedule of the most {what}", run(["replay"], SET_UP + fill * (most - len(SET_UP)))[:1], (0,))
        case(f"a schedule of more {what}", ["replay"], SET_UP + fill * (most + 1 - len(SET_UP)), 11, b"")


def words():
    for command in [], ["reply"], ["replay", "x"], ["--help"], ["help"], ["show", "x"], ["Show"], ["-show"], ["make"], ["make", "1", "2"], [b"\xff"], ["replay", b"\xff"]:
        case(f"the words {command}", command, SET_UP, 2, b"")
    for number in "0", "10001", "-1", "", "00000000001", "+5", "5 ":
        case(f"make {number!r}", ["make", number], b"", 2, b"")


def made():
    case("make 5", ["make", "0005"], b"", 0, text("made-5.txt"))
    first = b"made 10000 lines 45354\nterminal T1 sales 2500 completed 2500 cancelled 500 voided 0 periods 1 items 3001 acked 3001 set 0\n"
    status, output, error = run(["make", "10000"])
    check("make 10000", (status, output[: len(first)], error), (0, first, b""))
    check("make 10000 again", run(["make", "10000"]), (status, output, error))


def outside():
    """A source or a sink that fails: standard input is a folder, standard output a full device."""
    for command in "replay", "show":
        folder = os.open(HERE, os.O_RDONLY)
        check(f"{command} of what can't be read", run([command], stdin=folder), (4, b"", said(4)))
        os.close(folder)
    for command, given in (["replay"], SET_UP), (["show"], text("advice.xml")), (["make", "1"], b""):
        with open("/dev/full", "wb") as full:
            reading, writing = os.pipe()
            os.write(writing, given)
            os.close(writing)
            check(f"{command[0]} to a full device", run(command, stdin=reading, stdout=full), (5, None, said(5)))
            os.close(reading)


def reset():
    """A source that fails behind its first bytes: the peer resets the connection once they were read."""
    listener = socket.create_server(("127.0.0.1", 0))
    ours = socket.create_connection(listener.getsockname())
    theirs, _ = listener.accept()
    listener.close()
    ours.sendall(SET_UP)
    child = subprocess.Popen([PROGRAM, "replay"], stdin=theirs, stdout=subprocess.PIPE, stderr=subprocess.PIPE)

    def end():
        # what was sent has been read once nothing of it waits
        while struct.unpack("i", fcntl.ioctl(theirs, termios.FIONREAD, b"\0" * 4))[0]:
            time.sleep(0.01)
        ours.setsockopt(socket.SOL_SOCKET, socket.SO_LINGER, struct.pack("ii", 1, 0))
        ours.close()

    ender = threading.Thread(target=end)
    ender.start()
    output, error = child.communicate(timeout=SECONDS)
    ender.join()
    theirs.close()
    check("replay of a connection that is reset", (child.returncode, output, error), (4, b"", said(4)))


def power():
    """Each device call of each line of some schedules is cut, and fails, with each fill."""
    devices.run(lambda given: run(["replay"], given)[1], lambda what, found, wanted: check(what, (0, found), (0, wanted)), SET_UP)


def examples():
    """Each example prints what stands beside it."""
    folder = os.path.join(TOP, "examples")
    for name in sorted(os.listdir(folder)):
        stem, kind = os.path.splitext(name)
        command, output = {".schedule": ("replay", ".report"), ".xml": ("show", ".txt")}.get(kind, (None, None))
        if command:
            with open(os.path.join(folder, name), "rb") as given, open(os.path.join(folder, stem + output), "rb") as wanted:
                case(f"examples/{name}", [command], given.read(), 0, wanted.read())


def main():
    if not os.path.exists(PROGRAM):
        sys.exit(f"tests: {PROGRAM} is not built")
    for part in schedules, power, noise, documents, limits, words, made, outside, reset, examples:
        part()
    print(f"{passed} passed, {failed} failed")
    sys.exit(1 if failed else 0)


main()
