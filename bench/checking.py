#!/usr/bin/env python3
"""Measures `railplan check`: what a leaf takes beside one bound.

    checking.py BIN

BIN is the program as `rt run` builds it. It needs valgrind. The checking.md beside it says what is measured.
"""
import os
import re
import subprocess
import sys
import tempfile

from simulate import clock, write_tables

# Trips of each day, the branchings that are granted for it, and whether the instructions are counted.
DAYS = ((100, 100, True), (200, 100, True), (400, 100, True), (400, 4000, False))

# The function that bounds a region.
BOUND = "price_bound::day_bounds::DayBoundsRelaxation::bound"


def draws(seed):
    """Numbers from 0 to 399 that look as if they were drawn."""
    state = seed
    while True:
        state = (state * 1103515245 + 12345) % 2**31
        yield state // 65536 % 400


def write_day(folder, trips):
    """A day of pairs of trips, out and back by a turn, with two types of units and a demand that changes."""
    demands = draws(7)
    rows, links = [], []
    for pair in range(trips // 2):
        out = 300 + 6 * pair
        rows.append(f"F{pair},X,{clock(out)},Y,{clock(out + 50)},40,{100 + next(demands)}")
        rows.append(f"R{pair},Y,{clock(out + 60)},X,{clock(out + 110)},40,{100 + next(demands)}")
        links.append(f"turn,F{pair},,R{pair},,yes,rear,rear")
    write_tables(folder, {
        "types.csv": ["type,carriages,seats,metres,family", "A,3,200,80,regional", "B,2,120,60,regional"],
        "stations.csv": ["station,platform,reallocation", "X,240,15", "Y,240,15"],
        "stock.csv": ["station,type,start,end", f"X,A,{trips},{trips}", f"X,B,{trips // 2},{trips // 2}"],
        "trips.csv": ["trip,from,departure,to,arrival,km,demand"] + rows,
        "links.csv": ["kind,arriving,arriving2,departing,departing2,reverse,uncouple,couple"] + links,
        "weights.csv": ["carriage,shortage,shunting", "1,1,60"],
    })


def run(words):
    """The status of a command, what it writes, its seconds of processor time, and its most kilobytes resident."""
    with tempfile.TemporaryFile() as out:
        child = subprocess.Popen(words, stdout=out)
        _, status, used = os.wait4(child.pid, 0)
        out.seek(0)
        return os.waitstatus_to_exitcode(status), out.read(), used.ru_utime + used.ru_stime, used.ru_maxrss


def leaves_of(answer):
    """How many leaves with a bound or a ray an answer has."""
    return len(re.findall(rb"^(?:cost|ray) ", answer, re.MULTILINE))


def instructions_of(words, folder):
    """The instructions of a command, those of its bounds, and how many bounds there are, counted by callgrind."""
    counts = os.path.join(folder, "callgrind")
    command = ["valgrind", "--tool=callgrind", f"--callgrind-out-file={counts}"] + words
    subprocess.run(command, check=True, capture_output=True)
    names, called, of_bound, total, calls, bounds = {}, None, False, 0, 0, 0
    with open(counts) as lines:
        for line in lines:
            if found := re.match(r"cfn=\((\d+)\)(?: (.*))?", line):
                called = names.setdefault(found[1], found[2])
            elif found := re.match(r"fn=\((\d+)\) (.*)", line):
                names.setdefault(found[1], found[2])
            elif found := re.match(r"calls=(\d+)", line):
                of_bound = called.startswith(BOUND)
                calls += int(found[1]) if of_bound else 0
            elif of_bound:
                bounds, of_bound = bounds + int(line.split()[1]), False
            elif found := re.match(r"(?:summary|totals): (\d+)", line):
                total = int(found[1])
    return total, bounds, calls


def planned(program, folder, trips, nodes):
    """Plans a day without advice, and puts what was written where it is checked."""
    write_day(folder, trips)
    status, answer, _, _ = run([program, "plan", folder, "--nodes", str(nodes), "--rounds", "0"])
    assert status in (0, 1, 4), answer
    with open(os.path.join(folder, "answer.txt"), "wb") as file:
        file.write(answer)
    return answer


def measure(program, folder, trips, nodes, counted):
    """The figures of one row."""
    answer = planned(program, folder, trips, nodes)
    words = [program, "check", folder]
    status, said, seconds, memory = run(words)
    assert status == 0 and said == b"valid " + answer.split(b"\n")[1] + b"\n", said
    leaves = leaves_of(answer)
    row = [trips, leaves, f"{seconds:.2f} s", f"{seconds / leaves * 1000:.2f} ms", f"{memory:,} kB"]
    if counted:
        total, bounds, calls = instructions_of(words, folder)
        assert calls == leaves, calls
        row += [f"{total // leaves:,}", f"{bounds // calls:,}"]
    return row + [""] * (7 - len(row))


def main():
    program = sys.argv[1]
    print("| Trips | Leaves | Time | A leaf | Memory | Instructions a leaf | Of one bound |")
    print("|---|---|---|---|---|---|---|")
    for trips, nodes, counted in DAYS:
        with tempfile.TemporaryDirectory() as folder:
            print("| " + " | ".join(map(str, measure(program, folder, trips, nodes, counted))) + " |", flush=True)


if __name__ == "__main__":
    main()
