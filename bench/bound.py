#!/usr/bin/env python3
"""Measures the bounds of days against plain C, and prints the figures as tables of ratios.

    bound.py program > src/main.rt     the program that is measured
    bound.py BIN C                     the figures; BIN is that program as `rt run` builds it, C is bound.c, compiled

It needs valgrind. The bound.md beside it says how both are built and what is measured.
"""
import itertools
import os
import resource
import subprocess
import sys
import tempfile

from simulate import clock, instructions_of, run, write_tables

# The trips of the days that grow, and the seed from which their demands are drawn.
DAYS = (40, 100, 200, 400)
SEED = 7
# How often a bound is found in one run, at least, and over how many edges, where the time is measured.
TIMES = 20
TIMED_EDGES = 5_000_000
# The most multipliers of a list.
MAX_ENTRIES = 1000

TYPES = "type,carriages,seats,metres,family"
STATIONS = "station,platform,reallocation"
STOCK = "station,type,start,end"
TRIPS = "trip,from,departure,to,arrival,km,demand"
LINKS = "kind,arriving,arriving2,departing,departing2,reverse,uncouple,couple"

PROGRAM = """//! Finds the bound of the day in this folder as often as `bound` is said;
//! under multipliers, where `priced` is said; and of the region that has the first composition alone
//! on nine of ten trips, where `narrow` is said.
#![tactic(auto)]

ghost use Rattle.std.specs.Prelude.{◌≤◌, length, IfOk};
ghost use Rattle.transitions.specs.Edges.{AreGraphs};
ghost use Rattle.rail_base.specs.declared.limits.TheConstants.{MAX_TABLE_BYTES};

use anyhow::{Result, anyhow};
use branch_tree::{BoundAnswer, Cut, Multipliers, Region, Relaxation, Side, Weight};
use price_bound::DayBounds;
use rail_base::{CompNo, TripNo};
use rail_base::limits::MAX_TABLE_BYTES;
use rail_csv::{links, stations, stock, trips, types, weights};
use std::alloc::Global;
use std::io::Read;
use std::{env, fs};
use timetable::{Instance, Picks, Rows, Tables};
use transitions::Graphs;

/// The bytes of a table.
fn table(rt: &HostRuntime, name: &str) -> Result<Vec<u8>>
    ensures { IfOk result (λ bytes. length bytes.items ≤ MAX_TABLE_BYTES) }
{
    let mut bytes = Vec::new(rt.alloc());
    fs::open(rt, name)?.read_to_end(&mut bytes)?;
    if bytes.len() as u64 > MAX_TABLE_BYTES {
        return Err(anyhow!("too long"));
    }
    Ok(bytes)
}

/// The day in this folder.
fn day(rt: &HostRuntime) -> Result<Instance> {
    let tables = Tables {
        types: Rows::of(types(rt.alloc(), &table(rt, "types.csv")?)?),
        stations: Rows::of(stations(rt.alloc(), &table(rt, "stations.csv")?)?),
        stock: Rows::of(stock(rt.alloc(), &table(rt, "stock.csv")?)?),
        trips: Rows::of(trips(rt.alloc(), &table(rt, "trips.csv")?)?),
        links: Rows::of(links(rt.alloc(), &table(rt, "links.csv")?)?),
        weights: weights(rt.alloc(), &table(rt, "weights.csv")?)?,
    };
    Ok(Instance::build(rt.alloc(), tables)?)
}

/// A multiplier for each index of a day, or for every second or third one and so on, where they are too many.
fn multipliers_of(alloc: Global, day: &Instance) -> Result<Multipliers> {
    let mut multipliers = Multipliers::new(alloc)?;
    let step = 1 + day.indices() / 1000;
    for index in 0..day.indices() {
        if index % step == 0 {
            let draw = i64::from(index.wrapping_mul(7919) % 1999);
            let value = if index < day.free_from() {
                draw
            } else {
                draw - 999
            };
            multipliers.put(index, value)?;
        }
    }
    Ok(multipliers)
}

/// The region of all compositions, but for the first one alone on nine of ten trips.
fn narrow_region(alloc: Global, day: &Instance) -> Result<Region> {
    let mut region = Region::root(alloc, day)?;
    for trip in 0..day.trips() {
        let cut = Cut::Only {
            trip: TripNo(trip),
            comp: CompNo(0),
        };
        if trip % 10 != trip / 10 % 10 && region.is_proper(day.catalogue(), &cut) {
            region.cut(day.catalogue(), &cut, Side::Left);
        }
    }
    Ok(region)
}

/// The bound of a region, found so many times, and the picks.
fn bound(
    alloc: Global,
    day: &Instance,
    region: &Region,
    multipliers: &Multipliers,
    times: u32,
) -> Result<(i128, u32)> {
    let graphs = Graphs::build(alloc, day)?;
    let mut bounds = DayBounds::new(alloc, day, &graphs)?;
    let mut best = Picks::new(alloc, day.trips())?;
    let mut value: i128 = 0;
    for _ in 0..times {
        value = value_of(&mut bounds, region, multipliers, &mut best);
    }
    Ok((value, told(&best)))
}

/// A bound, and 0 where it may not be asked for or nothing is near.
fn value_of(
    bounds: &mut DayBounds<'_>,
    region: &Region,
    multipliers: &Multipliers,
    best: &mut Picks,
) -> i128 {
    if best.len() != bounds.trips() || region.trips() != bounds.trips() {
        return 0;
    }
    if !multipliers.fits(bounds.indices(), bounds.free_from()) {
        return 0;
    }
    match bounds.bound(region, multipliers, Weight::Cost, best) {
        BoundAnswer::Value(value) => value.0,
        BoundAnswer::Empty => 0,
    }
}

/// A number that tells picks apart.
fn told(picks: &Picks) -> u32 {
    let mut number: u32 = 0;
    for trip in 0..picks.len() {
        number = number
            .wrapping_mul(31)
            .wrapping_add(picks.get(TripNo(trip)).0)
            % 1_000_003;
    }
    number
}

fn main(rt: HostRuntime) -> Result<()> {
    let mut times: u32 = 0;
    let mut is_priced = false;
    let mut is_narrow = false;
    for word in env::args(&rt)? {
        times = times.wrapping_add(if word.as_str() == "bound" { 1 } else { 0 });
        is_priced = is_priced || word.as_str() == "priced";
        is_narrow = is_narrow || word.as_str() == "narrow";
    }
    let day = day(&rt)?;
    let multipliers = if is_priced {
        multipliers_of(rt.alloc(), &day)?
    } else {
        Multipliers::new(rt.alloc())?
    };
    let region = if is_narrow {
        narrow_region(rt.alloc(), &day)?
    } else {
        Region::root(rt.alloc(), &day)?
    };
    let (value, picks) = bound(rt.alloc(), &day, &region, &multipliers, times)?;
    println!(rt; "{value} {picks}")?;
    Ok(())
}
"""


class Day:
    """A day of turns between two stations, with units of some types: carriages, seats and metres of each."""

    def __init__(self, types, platform, reallocation, stock, trips, links, shunting):
        self.types, self.platform, self.reallocation, self.stock = types, platform, reallocation, stock
        self.trips, self.links, self.shunting = trips, links, shunting
        self.compositions = [
            comp for units in range(1, 7) for comp in itertools.product(range(len(types)), repeat=units)
            if sum(types[m][2] for m in comp) <= platform]

    def write(self, folder):
        """Writes the tables of the day."""
        names = "ABCDEF"
        write_tables(folder, {
            "types.csv": [TYPES] + [f"{names[m]},{a},{b},{c},regional" for m, (a, b, c) in enumerate(self.types)],
            "stations.csv": [STATIONS] + [f"{name},{self.platform},{self.reallocation}" for name in "XY"],
            "stock.csv": [STOCK] + [f"X,{names[m]},{count},{count}" for m, count in enumerate(self.stock)],
            "trips.csv": [TRIPS] + [
                f"T{t},{'XY'[a]},{clock(departure)},{'XY'[b]},{clock(arrival)},{km},{demand}"
                for t, (a, departure, b, arrival, km, demand) in enumerate(self.trips)],
            "links.csv": [LINKS] + [
                f"turn,T{a},,T{b},,{'yes' if reverse else 'no'},rear,rear" for a, b, reverse in self.links],
            "weights.csv": ["carriage,shortage,shunting", f"1,1,{self.shunting}"],
        })

    def minutes(self, station):
        return sorted({departure for a, departure, *_ in self.trips if a == station})

    def multipliers(self, is_priced):
        """What each multiplier belongs to, a station, a type and a minute or none, with its value."""
        places = [(s, m, k) for s in range(2) for m in range(len(self.types)) for k in self.minutes(s)]
        free_from = len(places)
        places += [(s, m, None) for s in range(2) for m in range(len(self.types))]
        step = 1 + len(places) // 1000
        return [
            (place, index * 7919 % 2**32 % 1999 - (999 if index >= free_from else 0))
            for index, place in enumerate(places) if is_priced and index % step == 0]

    def edges(self, reverse):
        """The edges of a turn: from, to, whether there is shunting, and how many units are coupled at the rear."""
        numbers = {comp: number for number, comp in enumerate(self.compositions)}
        found = []
        for comp, number in numbers.items():
            left = comp[::-1] if reverse else comp
            for units in range(1, len(left) + 1):
                found.append((number, numbers[left[:units]], int(units < len(left)), 0))
            for coupled in range(1, 7 - len(left)):
                for more in itertools.product(range(len(self.types)), repeat=coupled):
                    if left + more in numbers:
                        found.append((number, numbers[left + more], 1, coupled))
        return sorted(found)

    def prices(self, entries, station, minute):
        """The price of a unit of each type at a minute in the yard of a station."""
        return [
            sum(value for (s, m, k), value in entries if s == station and m == unit and (k is None or minute <= k))
            for unit in range(len(self.types))]

    def constant(self, entries):
        """What the multipliers add whatever the picks; at the end as many units are wanted as at the start."""
        return sum(-value * self.stock[m] for (s, m, k), value in entries if s == 0 and k is not None)

    def problem(self, entries):
        """The numbers that bound.c reads."""
        lines = [(len(self.types), len(self.compositions), len(self.trips), self.shunting)]
        for comp in self.compositions:
            lines.append((len(comp), sum(self.types[m][0] for m in comp), sum(self.types[m][1] for m in comp)) + comp)
        leads_to = {a: (b, int(reverse)) for a, b, reverse in self.links}
        led_to = {b for _, b, _ in self.links}
        for t, (a, departure, b, arrival, km, demand) in enumerate(self.trips):
            takes = self.prices(entries, a, departure)
            gives = self.prices(entries, b, arrival + self.reallocation)
            lines.append((km, demand, int(t not in led_to), *takes, *gives))
        lines.append((2,))
        for reverse in (False, True):
            edges = self.edges(reverse)
            lines.append((len(edges),))
            lines += edges
        lines += [leads_to.get(t, (-1, 0)) for t in range(len(self.trips))]
        chains = [(t, leads_to[t][0]) if t in leads_to else (t,) for t in range(len(self.trips)) if t not in led_to]
        lines.append((len(chains),))
        lines += [(len(chain), *chain) for chain in chains]
        return "\n".join(" ".join(map(str, line)) for line in lines) + "\n"


def growing_day(count):
    """A day of trips out and back, each pair a turn that may uncouple and couple at the rear, of two types of units."""
    state, trips = SEED, []
    for pair in range(count // 2):
        out = 300 + 6 * pair
        for a, departure in ((0, out), (1, out + 60)):
            state = (state * 1103515245 + 12345) % 2**31
            trips.append((a, departure, 1 - a, departure + 50, 40, 100 + state // 65536 % 400))
    links = [(2 * pair, 2 * pair + 1, True) for pair in range(count // 2)]
    return Day(((3, 200, 80), (2, 120, 60)), 240, 15, (count, count // 2), trips, links, 60)


def greatest_day():
    """A day of 400 trips with 999 compositions, of which 400 / 2 pairs are turns."""
    day = growing_day(400)
    links = [(a, b, pair % 2 == 0) for pair, (a, b, _) in enumerate(day.links)]
    return Day(((3, 200, 55), (2, 120, 58), (4, 250, 60)), 351, 15, (400, 400, 400), day.trips, links, 60)


def seconds_of(words):
    """The processor time of a command."""
    before = resource.getrusage(resource.RUSAGE_CHILDREN).ru_utime
    subprocess.run(words, stdout=subprocess.DEVNULL, check=True)
    return resource.getrusage(resource.RUSAGE_CHILDREN).ru_utime - before


def of_one(measured, ours, theirs, times):
    """What one bound takes more, of the program and of C: what some take more than one, over their number."""
    return [(measured(words(1 + times)) - measured(words(1))) / times for words in (ours, theirs)]


def measure(program, other, day, is_priced, name):
    """A row of a table: a day, and what a bound of it takes."""
    entries = day.multipliers(is_priced)
    edges = sum(len(day.edges(reverse)) * sum(link[2] == reverse for link in day.links) for reverse in (False, True))
    with tempfile.TemporaryDirectory() as folder:
        day.write(folder)
        with open(os.path.join(folder, "problem.txt"), "w") as problem:
            problem.write(day.problem(entries))
        os.chdir(folder)
        mode = ["priced"] if is_priced else []
        ours = lambda times: [program] + mode + times * ["bound"]
        theirs = lambda times: [other, "problem.txt", str(times)]
        value, picks = run(theirs(1))[0].split()
        assert run(ours(1))[0].split() == [str(int(value) + day.constant(entries)), picks], (run(ours(1)), value, picks)
        ours_count, theirs_count = of_one(instructions_of, ours, theirs, 2)
        ours_time, theirs_time = of_one(seconds_of, ours, theirs, max(TIMES, TIMED_EDGES // edges))
        os.chdir("/")
    print(f"| {name} | {len(entries)} | {edges:,} | {ours_count:,.0f} | {ours_count / edges:,.0f} "
          f"| {theirs_count / edges:,.1f} | {ours_count / theirs_count:.1f} "
          f"| {ours_time / max(theirs_time, 1e-9):.1f} |", flush=True)


def main():
    if sys.argv[1] == "program":
        print(PROGRAM, end="")
        return
    program, other = map(os.path.abspath, sys.argv[1:3])
    print("| Day | Multipliers | Edges | Instructions | an edge | in C | Ratio | Ratio of times |")
    print("|---|---|---|---|---|---|---|---|")
    for is_priced in (False, True):
        for count in DAYS:
            measure(program, other, growing_day(count), is_priced, f"{count} trips")
        measure(program, other, greatest_day(), is_priced, "400 trips, 999 compositions")


if __name__ == "__main__":
    main()
