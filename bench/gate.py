#!/usr/bin/env python3
"""How long the gate takes from nothing, crate by crate: python3 bench/gate.py [LOG]

Runs `rt ci --anew` at the top and keeps what it says, each line behind the seconds since the start, in LOG (a new file in the temporary folder, if none is named); a LOG that is there is read, and
nothing is run. It prints, for each crate, the seconds at which it was proved, those since the last of the crates that it stands on was proved (its own proof, and any time in which it waited for a
processor), and those until its wrong bodies were refused; then the longest chain: from the crate that was proved last, each time the crate below that was proved last.
"""

import argparse
import os
import re
import subprocess
import sys
import tempfile
import time

TOP = os.path.dirname(os.path.dirname(os.path.abspath(__file__)))


def crates():
    with open(os.path.join(TOP, "crates.txt"), encoding="utf-8") as file:
        rows = [line.split("#")[0].split(":") for line in file if ":" in line.split("#")[0]]
    names = {row[0].split()[0] for row in rows}
    return {row[0].split()[0]: [dep for dep in row[1].split() if dep in names] for row in rows}


def run(log):
    start = time.monotonic()
    child = subprocess.Popen(["rt", "ci", "--anew"], cwd=TOP, stdout=subprocess.PIPE, stderr=subprocess.STDOUT, text=True)
    with open(log, "w", encoding="utf-8") as file:
        for line in child.stdout:
            if line.startswith("rt: ") or re.match(r"\d+ passed", line):
                file.write(f"{time.monotonic() - start:.0f} {line}")
                file.flush()
    child.wait()
    with open(log, "a", encoding="utf-8") as file:
        file.write(f"{time.monotonic() - start:.0f} ended with {child.returncode}\n")


def main():
    parser = argparse.ArgumentParser(description=__doc__, formatter_class=argparse.RawDescriptionHelpFormatter)
    parser.add_argument("log", metavar="LOG", nargs="?")
    log = parser.parse_args().log or os.path.join(tempfile.mkdtemp(prefix="gate."), "log")
    if not os.path.exists(log):
        print(f"gate: {log}", file=sys.stderr)
        run(log)
    proved, refused, last = {}, {}, ""
    with open(log, encoding="utf-8") as file:
        for line in file:
            at, text = line.rstrip("\n").split(" ", 1)
            last = f"{int(at) // 60} min {int(at) % 60} s: {text}"
            found = re.match(r"rt: (\w+) proved", text)
            if found:
                proved[found[1]] = int(at)
            found = re.match(r"rt: (\w+): (?:all|its) .*must-fail edits.*(?:refused|are refused)", text)
            if found:
                refused[found[1]] = int(at)
    uses = crates()
    print(f"{'crate':24} {'proved at':>9} {'by itself':>9} {'wrong bodies':>12}")
    for name in sorted(proved, key=proved.get):
        since = max((proved.get(dep, 0) for dep in uses.get(name, [])), default=0)
        edits = str(refused[name] - proved[name]) if name in refused else "-"
        print(f"{name:24} {proved[name]:9} {proved[name] - since:9} {edits:>12}")
    chain, name = [], max(proved, key=proved.get, default=None)
    while name:
        chain.append(name)
        name = max((dep for dep in uses.get(name, []) if dep in proved), key=proved.get, default=None)
    print("longest chain: " + " < ".join(reversed(chain)))
    print(last)


main()
