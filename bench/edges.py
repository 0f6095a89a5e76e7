#!/usr/bin/env python3
"""Prints a program that builds the edges of a day of 400 trips with so many turns, and says how many edges there are.

    edges.py LINKS PLATFORM [exchange] > src/main.rt

With a platform of 302 metres there are 859 compositions. With the third word each turn may uncouple units in front and
couple others at the rear; there are then other types, and with a platform of 200 metres 883 compositions. The edges.md
beside it says how it is run and what is measured.
"""
import sys

PROGRAM = """#![tactic(auto)]

use anyhow::Result;
use rail_base::LinkNo;
use rail_csv::{{links, stations, stock, trips, types, weights}};
use timetable::{{Instance, Rows, Tables}};
use transitions::Graphs;

fn main(rt: HostRuntime) -> Result<()> {{
    let tables = Tables {{
        types: Rows::of(types(rt.alloc(), b"{types}")?),
        stations: Rows::of(stations(rt.alloc(), b"{stations}")?),
        stock: Rows::of(stock(rt.alloc(), b"station,type,start,end\\nX,A,2,2\\n")?),
        trips: Rows::of(trips(rt.alloc(), b"{trips}")?),
        links: Rows::of(links(rt.alloc(), b"{links}")?),
        weights: weights(rt.alloc(), b"carriage,shortage,shunting\\n1,1,100\\n")?,
    }};
    let day = Instance::build(rt.alloc(), tables)?;
    let graphs = Graphs::build(rt.alloc(), &day)?;
    let mut edges: u64 = 0;
    for link in 0..day.links() {{
        edges = edges.wrapping_add(graphs.edges(LinkNo(link)).len() as u64);
    }}
    println!(rt; "{{edges}} edges of {{}} compositions", day.catalogue().len())?;
    Ok(())
}}
"""


LINKS = "kind,arriving,arriving2,departing,departing2,reverse,uncouple,couple"


def clock(minute):
    return f"{minute // 60:02}:{minute % 60:02}"


def table(header, rows):
    """A table as the text of a byte string."""
    return "".join(row + "\\n" for row in [header] + rows)


def main():
    count, platform, exchanges = int(sys.argv[1]), sys.argv[2], sys.argv[3:] == ["exchange"]
    metres = [50, 50, 50, 50, 50, 66] if exchanges else [50, 50, 51]
    types = [f"{name},3,200,{long},r" for name, long in zip("ABCDEF", metres)]
    ends = "front,rear,yes" if exchanges else "rear,rear"
    trips, links = [], []
    for pair in range(200):
        start = 2 * pair
        trips.append(f"T{start},X,{clock(start)},Y,{clock(start + 60)},10,0")
        trips.append(f"T{start + 1},Y,{clock(start + 100)},X,{clock(start + 200)},10,0")
        links.append(f"turn,T{start},,T{start + 1},,{'yes' if pair % 2 else 'no'},{ends}")
    print(PROGRAM.format(
        types=table("type,carriages,seats,metres,family", types),
        stations=table("station,platform,reallocation", [f"X,{platform},5", f"Y,{platform},5"]),
        trips=table("trip,from,departure,to,arrival,km,demand", trips),
        links=table(LINKS + (",exchange" if exchanges else ""), links[:count]),
    ), end="")


main()
