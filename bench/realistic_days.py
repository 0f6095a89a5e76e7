#!/usr/bin/env python3
"""Makes days of lines and rotations, as railways have them, with a plan that is hidden in them.

    realistic_days.py KIND TRIPS SEED DIR

A day is built of rotations along a few lines, long chains of trips. A plan is made for it trip by trip; how many units
that needs at each station in the morning and leaves in the evening is the stock, so that the day has a plan. The same
words make the same tables, to the byte. KIND is

- `two`: two types of an intercity family and one of a local family, and trains that are split and joined;
- `three`: three intercity types and a local one, seats of a first class, exchange turns, and splits and joins;
- `flat`: as `two`, without splits;
- `rigid`: as `two`, and units stay together at the ends of the branches;
- `scarce`: as `two`, with less stock than the demand asks for.
"""
import math
import os
import random
import sys

from day_rules import Rules
from simulate import clock, write_tables

# The types of a day: name, carriages, seats, metres, family, and seats of the first class.
THREE_TYPES = [("IC-2", 2, 120, 54, "inter", 12), ("IC-3", 3, 190, 80, "inter", 24), ("IC-4", 4, 254, 107, "inter", 40),
               ("L-2", 2, 110, 45, "local", 0)]
TWO_TYPES = [("IC-3", 3, 190, 80, "inter", 0), ("IC-4", 4, 254, 107, "inter", 0), ("L-2", 2, 110, 45, "local", 0)]
# Stations that local trains alone serve.
LOCAL = {"F", "G", "K"}
# The legs of the line through M: origin, destination, minutes and kilometres.
THROUGH = (("A", "M", 28, 34), ("M", "E", 32, 40), ("E", "M", 32, 40), ("M", "A", 28, 34))


class Timetable:
    """The stations, trips and links of a day, made rotation by rotation of draws."""

    def __init__(self, kind, target, seed):
        self.kind, self.target = kind, target
        self.draw = random.Random(f"{'two' if kind == 'scarce' else kind}-{target}-{seed}")
        self.classes = self.exchanges = kind == "three"
        self.splits = kind != "flat"
        self.types = THREE_TYPES if kind == "three" else TWO_TYPES
        self.trips, self.links = [], []
        self.stations = self.made_stations()
        self.base = {"main": self.draw.randint(420, 560), "through": self.draw.randint(350, 480),
                     "hub": self.draw.randint(300, 420), "local": self.draw.randint(90, 140)}
        # At which end units are uncoupled and coupled at a station.
        self.ends = {station[0]: (self.draw.choice(["rear", "rear", "front"]), self.draw.choice(["rear", "front"]))
                     for station in self.stations}

    def made_stations(self):
        """Name, metres of the platform, and minutes until a unit that came in is ready."""
        three, choice = self.kind == "three", self.draw.choice
        long, branch = (330, 165) if three else (430, 215)
        stations = [("A", long, choice([15, 20, 30])), ("B", long, choice([15, 20])), ("M", long, choice([10, 20]))]
        if self.splits:
            stations += [("C", branch, choice([10, 20])), ("D", branch, choice([10, 20]))]
        stations += [("E", 275 if three else long, choice([15, 25])), ("F", 140, 10), ("G", 140, 10)]
        if self.target >= 100:
            stations.append(("H", 220 if three else 330, choice([15, 20])))
        if self.target >= 200:
            stations += [("K", 140, 15), ("N", long, 20)]
        return stations

    def demand(self, line, minute, inbound):
        """Travellers of a trip: more into the town in the morning, and out of it in the afternoon."""
        hour = minute / 60
        morning = math.exp(-((hour - 7.8) / 1.0) ** 2)
        evening = math.exp(-((hour - 17.2) / 1.3) ** 2)
        factor = 0.30 + (1.0 * morning + 0.45 * evening if inbound else 0.45 * morning + 1.0 * evening)
        if hour > 20:
            factor *= 0.6
        return int(self.base[line] * factor * self.draw.uniform(.85, 1.15))

    def trip(self, origin, leaves, leg, line, inbound, share=1.0):
        """Adds a trip along a leg (destination, minutes, kilometres); gives its name and its arrival."""
        goal, minutes, kilometres = leg
        demand = int(self.demand(line, leaves, inbound) * share)
        name = f"T{len(self.trips)}"
        first = int(demand * self.draw.uniform(.05, .12)) if self.classes else 0
        self.trips.append([name, origin, leaves, goal, leaves + minutes, kilometres, demand, first])
        return name, leaves + minutes

    def turn(self, arriving, departing, reverse, ends, exchange=0.0):
        """Adds a turn, which is an exchange turn by chance where units may be uncoupled and coupled."""
        uncouple, couple = ends
        may = self.exchanges and uncouple != "none" and couple != "none"
        said = "yes" if may and self.draw.random() < exchange else "no"
        self.links.append(["turn", arriving, "", departing, "", "yes" if reverse else "no", uncouple, couple, said])

    def branch_turn(self, arriving, departing, station):
        """Adds the turn at the end of a branch."""
        self.turn(arriving, departing, True, ("none", "none") if self.kind == "rigid" else self.ends[station])

    def run_main(self, minute, until, cycles):
        """A rotation of the main line: A to B, split to C and D, back, joined, and B to A."""
        before, choice = None, self.draw.choice
        for _ in range(cycles):
            if minute > until:
                break
            out, there = self.trip("A", minute, ("B", 35, 42), "main", False)
            if before:
                self.turn(before, out, True, self.ends["A"], .5)
            to_c, at_c = self.trip("B", there + 4, ("C", 25, 28), "main", False, .5)
            to_d, at_d = self.trip("B", there + 7, ("D", 22, 24), "main", False, .5)
            self.links.append(["split", out, "", to_c, to_d, "no", "none", "none", "no"])
            of_c, from_c = self.trip("C", at_c + choice([8, 10, 14]), ("B", 25, 28), "main", True, .5)
            of_d, from_d = self.trip("D", at_d + choice([8, 10, 14]), ("B", 22, 24), "main", True, .5)
            self.branch_turn(to_c, of_c, "C")
            self.branch_turn(to_d, of_d, "D")
            back, here = self.trip("B", max(from_c, from_d) + 5, ("A", 35, 42), "main", True)
            self.links.append(["join", of_c, of_d, back, "", "no", "none", "none", "no"])
            before, minute = back, here + choice([8, 12, 16])

    def run_through(self, minute, until, legs, start="A"):
        """A rotation of the line through M, where a train goes on without turning."""
        before, at = None, 0 if start == "A" else 2
        for _ in range(legs):
            if minute > until:
                break
            origin, goal, minutes, kilometres = THROUGH[at % 4]
            here, arrives = self.trip(origin, minute, (goal, minutes, kilometres), "through", at % 4 >= 2)
            if before:
                self.turn(before, here, origin != "M", self.ends[origin], .5 if origin == "A" else .3)
            before, at = here, at + 1
            minute = arrives + (3 if goal == "M" else self.draw.choice([8, 12, 15]))

    def run_shuttle(self, minute, until, legs, line, start=0):
        """A rotation to and fro between two stations."""
        one, other, minutes, kilometres, demand = line
        before, at = None, start
        for _ in range(legs):
            if minute > until:
                break
            origin, goal = (one, other) if at % 2 == 0 else (other, one)
            here, arrives = self.trip(origin, minute, (goal, minutes, kilometres), demand, at % 2 == 1)
            if before:
                self.turn(before, here, True, self.ends[origin] if self.draw.random() < .85 else ("none", "none"), .3)
            before, at = here, at + 1
            minute = arrives + self.draw.choice([6, 9, 12])

    def rotation(self, turn):
        """Adds a rotation, which is one of the peaks by chance, along the line whose turn it is."""
        left, whole, count = self.target - len(self.trips), self.draw.randint, self.target
        peak = self.draw.random() < .35
        if peak:
            start = self.draw.choice([whole(330, 400), whole(900, 960)])
            until = start + 210
        else:
            start, until = whole(300, 420), whole(1260, 1400)

        def legs(few, many):
            return min(left, whole(*few) if peak else whole(*many))

        line = turn % (8 if count >= 200 else 6)
        if line == 0 and self.splits and left >= 6:
            self.run_main(start, until - 150, min(left // 6, whole(1, 2) if peak else whole(3, 5)))
        elif line in (0, 1, 4):
            many = legs((4, 6), (10, 20))
            self.run_through(start, until - 60, many, self.draw.choice("AE"))
        elif line == 2:
            many = legs((4, 8), (10, 20))
            self.run_shuttle(start, until, many, ("B", "F", 18, 16, "local"), self.draw.randrange(2))
        elif line == 3 and count >= 100:
            many = legs((2, 4), (8, 14))
            self.run_shuttle(start, until, many, ("A", "H", 45, 60, "hub"), self.draw.randrange(2))
        elif line == 3:
            self.run_through(start, until - 60, min(left, whole(4, 6)), "A")
        else:
            many = min(left, whole(8, 16))
            shuttle = {5: ("M", "G", 14, 12, "local"), 6: ("B", "K", 25, 22, "local"), 7: ("M", "N", 30, 33, "hub")}
            self.run_shuttle(start, until, many, shuttle[line], self.draw.randrange(2))


class HiddenPlan:
    """A plan that is made trip by trip, with a look ahead to the next turn at which units may change."""

    def __init__(self, timetable, rules):
        self.rules, self.draw, self.scarce = rules, timetable.draw, timetable.kind == "scarce"
        self.trips = timetable.trips
        self.local = {at for at, trip in enumerate(self.trips) if {trip[1], trip[3]} & LOCAL}
        self.viable = self.made_viable()
        self.level = self.draw.uniform(.80, .95) if self.scarce else self.draw.uniform(.95, 1.05)
        self.next = {arriving: link["departing"] for link in rules.links for arriving in link["arriving"]}
        self.picks = [None] * len(self.trips)
        self.pick_all()

    def is_of_family(self, trip, pick):
        """A local train has local units here, and no other has; a planner is free in this."""
        units = self.rules.catalogue[pick]
        return (self.rules.types[units[0]][4] == "local") == (trip in self.local)

    def made_viable(self):
        """The compositions of each trip from which its chain can go on to its end."""
        viable = [set() for _ in self.trips]
        for chain in self.rules.chains:
            for place in reversed(range(len(chain))):
                for pick in self.rules.admissible[chain[place]]:
                    if self.is_of_family(chain[place], pick) and self.goes_on(viable, chain, place, pick):
                        viable[chain[place]].add(pick)
        return viable

    def goes_on(self, viable, chain, place, pick):
        if place + 1 == len(chain):
            return True
        leaving = self.rules.leaving[self.rules.link_between[chain[place], chain[place + 1]]]
        return any(after in viable[chain[place + 1]] for after, _ in leaving.get(pick, ()))

    def wanted(self, trip, depth=3):
        """The seats that a trip wants, and somewhat less those after it."""
        demand, here = self.trips[trip][6], trip
        for step in range(depth):
            if here not in self.next:
                break
            here = self.next[here][0]
            demand = max(demand, self.trips[here][6] * (.9 if step == 0 else .7))
        return demand * self.level

    def misfit(self, trip, pick):
        seats, wanted = self.rules.seats[pick], self.wanted(trip)
        short = max(0, wanted - seats) * (1.0 if self.scarce else 2.5)
        return short + max(0, seats - wanted) * .45 + self.draw.random() * 40

    def pick_all(self):
        for trip in sorted(range(len(self.trips)), key=lambda trip: (self.trips[trip][2], trip)):
            if self.picks[trip] is not None:
                continue
            if trip in self.rules.incoming:
                self.pick_after(self.rules.incoming[trip])
            else:
                self.picks[trip] = min((self.misfit(trip, pick), pick) for pick in self.viable[trip])[1]

    def pick_after(self, at):
        """Picks the compositions of the departing trips of a link."""
        link, leaving, picks = self.rules.links[at], self.rules.leaving[at], self.picks
        one, to = link["arriving"][0], link["departing"][0]
        if link["kind"] == "turn":
            picks[to] = min((self.misfit(to, after) + (60 if edge[0] or edge[1] else 0), after)
                            for after, edge in leaving[picks[one]] if after in self.viable[to])[1]
        elif link["kind"] == "split":
            second = link["departing"][1]
            _, picks[to], picks[second] = min(
                (self.misfit(to, after) + self.misfit(second, edge[2]), after, edge[2])
                for after, edge in leaving[picks[one]] if after in self.viable[to] and edge[2] in self.viable[second])
        else:
            second = link["arriving"][1]
            picks[to] = [after for after, edge in leaving[picks[one]] if edge[2] == picks[second]][0]


def stock_of(rules, draw, picks):
    """Units of each type at each station in the morning and in the evening, by the plan, and a spare one by chance."""
    counts, last = rules.counts(picks)
    stock = []
    for station, kind in counts:
        ends = last[station, kind]
        start = -min(counts[station, kind] + [0, ends])
        if start + max(0, ends) and draw.random() < .25:
            start += 1
        if start or start + ends:
            stock.append((rules.stations[station][0], rules.types[kind][0], start, start + ends))
    return stock


def make(kind, target, seed, folder):
    """Writes the tables of a day into a folder."""
    timetable = Timetable(kind, target, seed)
    turn = 0
    while len(timetable.trips) < target:
        timetable.rotation(turn)
        turn += 1
    weights = timetable.draw.choice([(3, 1, 200), (10, 10, 500), (2, 1, 150), (5, 2, 400)])
    rules = Rules(timetable.types, timetable.stations, timetable.trips, timetable.links)
    plan = HiddenPlan(timetable, rules)
    stock = stock_of(rules, timetable.draw, plan.picks)
    classes, exchanges = timetable.classes, timetable.exchanges
    os.makedirs(folder, exist_ok=True)
    write_tables(folder, {
        "types.csv": rows("type,carriages,seats,metres,family", timetable.types, 5, "first" if classes else None),
        "stations.csv": rows("station,platform,reallocation", timetable.stations, 3),
        "stock.csv": rows("station,type,start,end", stock, 4),
        "trips.csv": rows("trip,from,departure,to,arrival,km,demand",
                          [[name, origin, clock(leaves), goal, clock(arrives), *rest]
                           for name, origin, leaves, goal, arrives, *rest in timetable.trips], 7,
                          "first" if classes else None),
        "links.csv": rows("kind,arriving,arriving2,departing,departing2,reverse,uncouple,couple", timetable.links, 8,
                          "exchange" if exchanges else None),
        "weights.csv": rows("carriage,shortage,shunting", [weights], 3),
    })


def rows(header, values, columns, last=None):
    """The lines of a table, with one column more where it has a name."""
    head = [header + (f",{last}" if last else "")]
    return head + [",".join(map(str, value[:columns + (1 if last else 0)])) for value in values]


if __name__ == "__main__":
    make(sys.argv[1], int(sys.argv[2]), int(sys.argv[3]), sys.argv[4])
