"""Schedules in which each device call of each line is cut, or fails, with each fill; and what the program must print.

What must be printed is not computed by a model of the ends: it is what the program prints for the same schedule where the line is left out (nothing of it stands), is followed by a power cut (all of
it stands, and nothing is sent), or, for a sale of which its beginning alone stands, is that beginning.
"""

FILLS = b"old", b"new", b"a5", b"00"
ACCOUNT = b"4000001234567899"
SALE = b"sale T1 12.50 " + ACCOUNT
SET_OF_17 = b"publish " + b",".join(b"K%02d=1" % n for n in range(1, 18))
SCHEDULES = {
    "a sale": [SALE, b"push T1", b"up T1 1", b"down T1 1"],
    "a batch and a closing": [SALE, b"cancel T1 1", b"batch T1 100", b"up T1 1", b"down T1 1", b"close T1", b"push T1", b"up T1 2", b"down T1 2"],
    "a closing that is delivered twice": [b"close T1", b"push T1", b"up T1 1", b"up T1 1", b"down T1 2", b"down T1 1"],
    "two parameter sets": [
        SET_OF_17, b"status T1 AQPR", b"up T1 1", b"down T1 1", b"restart T1", b"status T1 AQPR", b"up T1 2",
        b"publish FLOOR=15.00", b"status T1 AQPR", b"up T1 3", b"down T1 3", b"down T1 2",
    ],
}
AT_HOST = b"up", b"publish"


def acting(line):
    return b"ACQ1" if line.split()[0] in AT_HOST or line == b"restart ACQ1" else b"T1"


def groups(line):
    """The lines that add a front of the groups of entries of this line: none, .., all of them with nothing sent."""
    if line.startswith(b"restart"):
        return [b"#"]
    first = [line.replace(b"sale", b"begin", 1)] if line.startswith(b"sale") else []
    return [b"#", *first, b"cut after " + line]


def standing(how, call, fill):
    """How many groups stand, where the call with this number is cut or fails: four calls write a group, the third and the fourth its gate."""
    whole, at = divmod(call - 1, 4)
    is_open = at == 3 and how == b"fail" or at >= 2 and fill in (b"new", b"a5")
    return whole + is_open


def with_outcome(output, number, outcome):
    """What is printed, where the line with this number has this outcome."""
    rows = [row for row in output.splitlines(keepends=True) if not row.startswith(b"%d " % number)]
    earlier = sum(row[:1].isdigit() and int(row.split()[0]) < number for row in rows)
    return b"".join([*rows[:earlier], b"%d %s\n" % (number, outcome), *rows[earlier:]])


def calls_of(line):
    """How many calls of a disk a line may make."""
    known = {b"sale": [8], b"cancel": [4], b"close": [4], b"publish": [4], b"restart": [2], b"push": [0], b"batch": [0], b"status": [0]}
    return known.get(line.split()[0], [0, 4])


def run(printed, check, set_up):
    """Checks each case; `printed` gives what the program prints for a schedule."""
    for title, lines in SCHEDULES.items():
        for at, line in enumerate(lines):
            number = set_up.count(b"\n") + 1 + at

            def schedule(instead):
                return set_up + b"\n".join([*lines[:at], instead, b"restart " + acting(line), *lines[at + 1:]]) + b"\n"

            untouched = printed(schedule(line))
            stand = [printed(schedule(instead)) for instead in groups(line)]
            for how, outcome in (b"cut", b"cut"), (b"fail", b"disk"):
                for fill in FILLS:
                    call = 1
                    while (found := printed(schedule(b"%s %d %s %s" % (how, call, fill, line)))) != untouched:
                        kept = min(standing(how, call, fill), len(stand) - 1)
                        check(f"{title}: {how.decode()} {call} {fill.decode()} {line.decode():.40}", found, with_outcome(stand[kept], number, outcome))
                        call += 1
                    check(f"{title}: calls of {line.decode():.40}", call - 1 in calls_of(line), True)
