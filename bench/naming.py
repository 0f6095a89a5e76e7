#!/usr/bin/env python3
"""Measures how the naming of units grows with the trips of a day, and prints the figures as a table of ratios.

    naming.py program > src/main.rt     the program that is measured
    naming.py BIN                       the figures; BIN is that program as `rt run` builds it

It needs valgrind. The naming.md beside it says how the program is built and what is measured.
"""
import os
import sys
import tempfile

from simulate import clock, instructions_of, run, write_tables

# How many trips each day has. The first is the one to which the others are compared.
DAYS = (100, 200, 400)

PROGRAM = """//! Names the units of the day in a folder as often as the folder is named.
#![tactic(auto)]

ghost use Rattle.std.specs.Prelude.{◌≡◌};
ghost use Rattle.transitions.specs.Edges.{AreGraphs};

use anyhow::Result;
use day_files::day_in;
use rail_base::limits::MAX_WORDS;
use rail_base::{CompNo, NoMemory, TripNo, Words};
use rail_io::DiskFolder;
use sample_days::may_run;
use std::alloc::Global;
use std::env::{self, Args};
use timetable::{Instance, NamedPlan, Picks};
use transitions::Graphs;
use unit_duties::name_units;

/// How many units the trips of a plan have in all.
fn stops(plan: &NamedPlan) -> usize {
    let mut stops: usize = 0;
    for trip in 0..plan.trips() {
        stops = stops.wrapping_add(plan.units(TripNo(trip)).len());
    }
    stops
}

/// The words of a command line.
fn words_of(alloc: Global, args: Args) -> Result<Words, NoMemory> {
    let mut words = Words::new(alloc)?;
    for arg in args {
        if words.len() as usize >= MAX_WORDS {
            break;
        }
        words.push(arg.as_str())?;
    }
    Ok(words)
}

/// The composition of two units for each trip.
fn picks_of(alloc: Global, day: &Instance) -> Result<Picks, NoMemory> {
    let mut picks = Picks::new(alloc, day.trips())?;
    for trip in 0..day.trips() {
        if trip < picks.len() {
            picks.set(TripNo(trip), CompNo(1));
        }
    }
    Ok(picks)
}

/// How many units run on trips in all, where the picks may be asked of and have a plan; else none.
fn named(alloc: Global, day: &Instance, graphs: &Graphs, picks: &Picks) -> usize
    requires { AreGraphs day.now graphs.now }
{
    if !may_run(day, picks) {
        return 0;
    }
    match name_units(alloc, day, graphs, picks) {
        Ok(plan) => stops(&plan),
        Err(_) => 0,
    }
}

/// How many units run on trips in all, when the units of the day are named so many times.
fn named_often(alloc: Global, day: &Instance, times: u32) -> Result<usize, NoMemory> {
    let graphs = Graphs::build(alloc, day)?;
    let picks = picks_of(alloc, day)?;
    let mut units: usize = 0;
    for _ in 0..times {
        units = units.wrapping_add(named(alloc, day, &graphs, &picks));
    }
    Ok(units)
}

fn main(rt: HostRuntime) -> Result<()> {
    let alloc = rt.alloc();
    let words = words_of(alloc, env::args(&rt)?)?;
    if words.len() < 2 {
        println!(rt; "no folder")?;
        return Ok(());
    }
    let day = day_in(alloc, &mut DiskFolder::new(&rt), words.at(1))?;
    let units = named_often(alloc, &day, words.len() - 1)?;
    println!(rt; "{units} units on trips")?;
    Ok(())
}
"""


def write_day(folder, count):
    """A day of trips that go out and come back in pairs, with two units each. Every other pair is a turn, which keeps
    both; the units of the others go through the yard."""
    trips, links = [], []
    for pair in range(count // 2):
        start = 2 * pair
        trips.append(f"T{start},X,{clock(start)},Y,{clock(start + 60)},10,0")
        trips.append(f"T{start + 1},Y,{clock(start + 100)},X,{clock(start + 200)},10,0")
        if pair % 2:
            links.append(f"turn,T{start},,T{start + 1},,no,rear,rear")
    write_tables(folder, {
        "types.csv": ["type,carriages,seats,metres,family", "A,3,200,80,r"],
        "stations.csv": ["station,platform,reallocation", "X,160,5", "Y,160,5"],
        "stock.csv": ["station,type,start,end", f"X,A,{count},{count}"],
        "trips.csv": ["trip,from,departure,to,arrival,km,demand"] + trips,
        "links.csv": ["kind,arriving,arriving2,departing,departing2,reverse,uncouple,couple"] + links,
        "weights.csv": ["carriage,shortage,shunting", "1,1,100"],
    })


def measure(program, count):
    """The instructions of one naming of the units of a day: a tenth of what eleven namings take more than one."""
    with tempfile.TemporaryDirectory() as folder:
        write_day(folder, count)
        assert run([program, folder])[0] == f"{2 * count} units on trips\n"
        return (instructions_of([program] + 11 * [folder]) - instructions_of([program, folder])) // 10


def main():
    if sys.argv[1] == "program":
        print(PROGRAM, end="")
        return
    print("| Trips | Instructions | |")
    print("|---|---|---|")
    program = os.path.abspath(sys.argv[1])
    first = None
    for count in DAYS:
        figure = measure(program, count)
        first = first or figure
        print(f"| {count} | {figure:,} | {figure / first:.2f} |", flush=True)


if __name__ == "__main__":
    main()
