#!/usr/bin/env python3
"""Measures `raildesk plan` on realistic days, and prints the figures as tables.

    planning.py RAILDESK RAILPLAN

RAILDESK and RAILPLAN are the programs as `rt run` builds them. The planning.md beside it says what is measured.
"""
import os
import statistics
import subprocess
import sys
import tempfile
import time

import realistic_days

KINDS = ("two", "three", "flat", "rigid", "scarce")
# The days of real size, of the first seed; those that the tree is to close, and the small ones, of two seeds.
SIZES, CLOSED, SMALL = (40, 100, 200, 400), (40, 100), (8, 12, 16, 20, 24)
SEEDS = (1, 2)
# A run that takes longer than so many seconds is ended.
LIMIT = 60


def day(folder, kind, trips, seed):
    """The folder of a day, which is made if need be."""
    place = os.path.join(folder, f"{kind}-{trips}-{seed}")
    if not os.path.isdir(place):
        realistic_days.make(kind, trips, seed, place)
    return place


def resident(process):
    """The most memory in MB that a process has had so far."""
    try:
        with open(f"/proc/{process}/status", encoding="ascii") as file:
            return max((int(line.split()[1]) / 1024 for line in file if line.startswith("VmHWM")), default=0)
    except OSError:
        return 0


def run(words, limit=LIMIT):
    """What a command writes, the seconds of processor time that it takes, and its most memory in MB; nothing is written
    by one that is ended after the limit."""
    with tempfile.TemporaryFile() as out:
        child = subprocess.Popen(words, stdout=out)
        memory, until = 0, time.monotonic() + limit
        while True:
            memory = max(memory, resident(child.pid))
            ended, _, usage = os.wait4(child.pid, os.WNOHANG)
            if ended:
                break
            if time.monotonic() > until:
                child.kill()
            time.sleep(0.002)
        out.seek(0)
        return out.read().decode(), usage.ru_utime + usage.ru_stime, memory


def head(text):
    """The word, the bound and the plan of an answer."""
    lines = text.split("\n")
    words = lines[1].split() if len(lines) > 1 else ["none"]
    numbers = [int(word) for word in words if word.isdigit()]
    plan = numbers[-1] if words[0] == "optimal" or "plan" in words else None
    return words[0], numbers[0] if numbers else None, plan


def planned(program, place, *options):
    """The answer to a day, with its time and its memory."""
    text, seconds, memory = run([program, "plan", place, *options])
    return text, *head(text), seconds, memory


def is_valid(railplan, place, text):
    with open(os.path.join(place, "answer.txt"), "w", encoding="utf-8") as file:
        file.write(text)
    return run([railplan, "check", place])[0].startswith("valid")


def gap(bound, plan):
    return 100 * (plan - bound) / plan


def real_sizes(raildesk, railplan, folder):
    """Plans and bounds without branchings; each answer is checked, and is the same in a second run."""
    print("| Day | Bound | Plan | Gap, % | Seconds | Most memory, MB |\n|---|---|---|---|---|---|")
    for trips in SIZES:
        gaps = []
        for kind in KINDS:
            place = day(folder, kind, trips, 1)
            text, _, bound, plan, seconds, memory = planned(raildesk, place, "--nodes", "0")
            assert is_valid(railplan, place, text), place
            assert planned(raildesk, place, "--nodes", "0")[0] == text, place
            gaps.append(gap(bound, plan))
            row = f"| {kind}-{trips} | {bound:,} | {plan:,} | {gaps[-1]:.2f} | {seconds:.2f} | {memory:.0f} |"
            print(row, flush=True)
        print(f"| mean of {trips} | | | {statistics.mean(gaps):.2f} | | |")


def closed(raildesk, folder):
    """How many days a tree of 200 branchings closes."""
    print("\n| Trips | Days | Optimal | Mean gap of the others, % | Seconds, median and most |\n|---|---|---|---|---|")
    for trips in CLOSED:
        done, gaps, times = 0, [], []
        for kind in KINDS:
            for seed in SEEDS:
                _, word, bound, plan, seconds, _ = planned(raildesk, day(folder, kind, trips, seed))
                times.append(seconds)
                if word == "optimal":
                    done += 1
                else:
                    gaps.append(gap(bound, plan))
        left = f"{statistics.mean(gaps):.2f}" if gaps else ""
        print(f"| {trips} | {len(times)} | {done} | {left} | {statistics.median(times):.1f}, {max(times):.1f} |", flush=True)


def small_days(raildesk, railplan, folder):
    """Small days by both programs."""
    print("\n| Trips | Days | `railplan`: optimal, median and most seconds | `raildesk`: the same |\n|---|---|---|---|")
    for trips in SMALL:
        cells = []
        for program, options in ((railplan, ("--nodes", "4000", "--rounds", "100")), (raildesk, ())):
            places = [day(folder, kind, trips, seed) for kind in KINDS for seed in SEEDS]
            answers = [planned(program, place, *options) for place in places]
            done = sum(word == "optimal" for _, word, *_ in answers)
            times = [answer[4] for answer in answers]
            cells.append(f"{done}, {statistics.median(times):.2f} and {max(times):.1f}")
        print(f"| {trips} | {len(KINDS) * len(SEEDS)} | {' | '.join(cells)} |", flush=True)


def main():
    raildesk, railplan = (os.path.abspath(program) for program in sys.argv[1:3])
    with tempfile.TemporaryDirectory() as folder:
        real_sizes(raildesk, railplan, folder)
        closed(raildesk, folder)
        small_days(raildesk, railplan, folder)


if __name__ == "__main__":
    main()
