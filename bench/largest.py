#!/usr/bin/env python3
"""Runs `railplan` on the largest inputs that it reads, and on some that are larger by one byte.

    largest.py BIN

BIN is the program as `rt run` builds it. The largest.md beside it says what is run.
"""
import os
import sys
import tempfile

from checking import run, write_day
from simulate import clock, write_tables

TRIPS = 400
MAX_TABLE_BYTES = 4_194_304
MAX_ANSWER_BYTES = 134_217_728
MAX_BRANCHINGS = 4_000
MAX_ENTRIES = 1_000
MAX_SECONDS = 600
TABLES = ("types", "stations", "stock", "trips", "links", "weights")


def pairs():
    """400 trips in pairs, and a turn for each pair at which units are exchanged."""
    rows, links = [], []
    for pair in range(TRIPS // 2):
        out = 300 + 5 * pair
        rows.append(f"F{pair},X,{clock(out)},Y,{clock(out + 50)},40,{100 + pair}")
        rows.append(f"R{pair},Y,{clock(out + 60)},X,{clock(out + 110)},40,{300 - pair}")
        links.append(f"turn,F{pair},,R{pair},,yes,front,rear,yes")
    return rows, links


def chain():
    """400 trips in one chain, to and fro, and a turn from each to the next at which units are exchanged."""
    rows = []
    for trip in range(TRIPS):
        origin, end = "YX" if trip % 2 else "XY"
        rows.append(f"T{trip},{origin},{clock(7 * trip)},{end},{clock(7 * trip + 5)},40,{100 + trip % 200}")
    return rows, [f"turn,T{trip},,T{trip + 1},,yes,front,rear,yes" for trip in range(TRIPS - 1)]


def write_wide_day(folder, rows, links):
    """A day of these trips and turns, with 1,000 compositions and 2,000 units."""
    metres, counts = (71, 74, 79, 70, 99, 56), (400, 400, 400, 300, 300, 200)
    types = [f"{name},1,{60 + 7 * at},{metres[at]},regional" for at, name in enumerate("ABCDEF")]
    write_tables(folder, {
        "types.csv": ["type,carriages,seats,metres,family"] + types,
        "stations.csv": ["station,platform,reallocation", "X,300,15", "Y,300,15"],
        "stock.csv": ["station,type,start,end"]
        + [f"X,{name},{count},{count}" for name, count in zip("ABCDEF", counts)],
        "trips.csv": ["trip,from,departure,to,arrival,km,demand"] + rows,
        "links.csv": ["kind,arriving,arriving2,departing,departing2,reverse,uncouple,couple,exchange"] + links,
        "weights.csv": ["carriage,shortage,shunting", "1,1,60"],
    })


def write_largest(folder):
    """An answer with the most leaves and entries, read whole and invalid at once, and how many bytes it has."""
    entries = "".join(f" {999_000 + place}:-1000000000000" for place in range(MAX_ENTRIES))
    leaf = f"cost -100000000000000000000 {MAX_ENTRIES}{entries}\n"
    path = os.path.join(folder, "answer.txt")
    with open(path, "w") as answer:
        answer.write(f"railplan answer 1\nbounded 0\nbranchings {MAX_BRANCHINGS}\ntree\n")
        answer.write("most 0 0 0\n" * (MAX_BRANCHINGS))
        for _ in range(MAX_BRANCHINGS + 1):
            answer.write(leaf)
        answer.write("end\n")
    return os.path.getsize(path)


def write_plan(folder):
    """A plan of the day of pairs: one unit of type A goes out and back."""
    trips = [f"{name}{pair},{pair}" for pair in range(TRIPS // 2) for name in "FR"]
    write_tables(folder, {"plan.csv": ["trip,units"] + trips})


def write_impossible_day(folder):
    """A day of 400 trips that no plan runs: a train is to be split which has room for one unit alone."""
    rows = [f"T{trip},X,05:{trip % 60:02},Y,06:{trip % 60:02},10,0" for trip in range(TRIPS - 3)]
    rows += ["S,Z,08:00,W,09:00,10,0", "U,W,09:10,Z,10:00,10,0", "V,W,09:20,Z,10:10,10,0"]
    write_tables(folder, {
        "types.csv": ["type,carriages,seats,metres,family", "A,3,200,100,regional", "B,2,120,100,regional"],
        "stations.csv": ["station,platform,reallocation", "X,600,0", "Y,600,0", "Z,100,0", "W,100,0"],
        "stock.csv": ["station,type,start,end"],
        "trips.csv": ["trip,from,departure,to,arrival,km,demand"] + rows,
        "links.csv": [
            "kind,arriving,arriving2,departing,departing2,reverse,uncouple,couple",
            "split,S,,U,V,no,none,none",
        ],
        "weights.csv": ["carriage,shortage,shunting", "1,1,60"],
    })


def write_deep_answer(folder, nodes):
    """An answer that no plan runs, by these lines for the nodes."""
    write_tables(folder, {
        "answer.txt": ["railplan answer 1", "infeasible", f"branchings {MAX_BRANCHINGS}", "tree", *nodes, "end"],
    })


def deep_on_the_left():
    """A tree in which each left side is cut again: by the most units of A, and then of B."""
    cuts = [f"most {trip} {unit} {most}" for trip in range(TRIPS) for unit in (0, 1) for most in range(5, unit - 1, -1)]
    return cuts[:MAX_BRANCHINGS] + ["empty"] * (MAX_BRANCHINGS + 1)


def deep_on_the_right():
    """A tree in which each right side is cut again: one composition more is left out."""
    cuts = [(trip, comp) for trip in range(TRIPS) for comp in range(125)][:MAX_BRANCHINGS]
    return [line for trip, comp in cuts for line in (f"only {trip} {comp}", "empty")] + ["empty"]


def pad(path, size):
    """Lengthens a file by empty lines."""
    with open(path, "ab") as file:
        file.write(b"\n" * (size - os.path.getsize(path)))


def say(what, words):
    """Runs the words, and prints how the run ended and what it took."""
    status, said, seconds, memory = run(words)
    line = said.removeprefix(b"railplan answer 1\n").split(b"\n")[0].decode()
    print(f"| {what} | {status} | `{line}` | {seconds:.2f} s | {memory:,} kB |", flush=True)


def try_tables(program):
    """Each table as long as it may be, and one byte longer."""
    for table in TABLES + ("plan",):
        for size, told in ((MAX_TABLE_BYTES, "the most bytes"), (MAX_TABLE_BYTES + 1, "a byte more")):
            with tempfile.TemporaryDirectory() as folder:
                write_day(folder, TRIPS)
                write_plan(folder)
                pad(os.path.join(folder, f"{table}.csv"), size)
                say(f"`simulate`, {table}.csv of {told}", [program, "simulate", folder])


def try_wide_days(program):
    """Plans of days with 1,000 compositions and exchange turns, without branchings."""
    for (rows, links), told in ((pairs(), "exchange turns"), (chain(), "one chain of exchange turns")):
        with tempfile.TemporaryDirectory() as folder:
            write_wide_day(folder, rows, links)
            words = ["timeout", str(MAX_SECONDS), program, "plan", folder, "--nodes", "0", "--rounds", "0"]
            say(f"`plan` without branchings, 1,000 compositions and {told}", words)


def try_answers(program):
    """An answer with the most leaves and entries, one as long as a file may be, and one byte longer."""
    with tempfile.TemporaryDirectory() as folder:
        write_day(folder, TRIPS)
        path = os.path.join(folder, "answer.txt")
        say(f"`check`, an answer of {write_largest(folder):,} bytes", [program, "check", folder])
        for size in (MAX_ANSWER_BYTES, MAX_ANSWER_BYTES + 1):
            pad(path, size)
            say(f"`check`, the same with empty lines behind it, {size:,} bytes", [program, "check", folder])


def try_trees(program):
    """Answers whose trees are as deep as they may be."""
    for nodes, told in ((deep_on_the_left(), "left"), (deep_on_the_right(), "right")):
        with tempfile.TemporaryDirectory() as folder:
            write_impossible_day(folder)
            write_deep_answer(folder, nodes)
            say(f"`check`, a tree {MAX_BRANCHINGS:,} deep on the {told}", [program, "check", folder])


def main():
    program = os.path.abspath(sys.argv[1])
    print("| Run | Status | Line | Time | Memory |")
    print("|---|---|---|---|---|")
    try_tables(program)
    try_wide_days(program)
    try_answers(program)
    try_trees(program)


if __name__ == "__main__":
    main()
