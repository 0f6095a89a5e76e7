"""What the rules of a day allow, for `realistic_days.py`: compositions, which follow one another, and yards."""


class Rules:
    """The catalogue, the admissible compositions, the edges of links, the chains and the yard counts of a day."""

    def __init__(self, types, stations, trips, links):
        self.types, self.stations, self.trips = types, stations, trips
        self.catalogue = catalogue_of(types, max(platform for _, platform, _ in stations))
        self.number = {units: place for place, units in enumerate(self.catalogue)}
        self.seats = [sum(types[kind][2] for kind in units) for units in self.catalogue]
        metres = [sum(types[kind][3] for kind in units) for units in self.catalogue]
        place = {station[0]: at for at, station in enumerate(stations)}
        self.origin = [place[trip[1]] for trip in trips]
        self.goal = [place[trip[3]] for trip in trips]
        self.admissible = [
            [at for at in range(len(self.catalogue)) if metres[at] <= min(stations[origin][1], stations[goal][1])]
            for origin, goal in zip(self.origin, self.goal)]
        self.minutes = [sorted({trip[2] for trip, origin in zip(trips, self.origin) if origin == at})
                        for at in range(len(stations))]
        self.read_links(links)
        self.edges = [edges_of(self, link) for link in self.links]
        self.leaving = [by_first(edges) for edges in self.edges]

    def read_links(self, links):
        """The links with trips by number, and the chains: trips that lead on one to another by their first trips."""
        trip = {row[0]: at for at, row in enumerate(self.trips)}
        self.links, self.incoming, self.outgoing, follow = [], {}, {}, {}
        for at, (kind, one, other, to_one, to_other, reverse, uncouple, couple, exchange) in enumerate(links):
            link = {"kind": kind, "arriving": [trip[name] for name in (one, other) if name],
                    "departing": [trip[name] for name in (to_one, to_other) if name], "reverse": reverse == "yes",
                    "uncouple": uncouple, "couple": couple, "exchange": exchange == "yes"}
            self.links.append(link)
            self.outgoing.update({arriving: at for arriving in link["arriving"]})
            self.incoming.update({departing: at for departing in link["departing"]})
            follow[link["arriving"][0]] = link["departing"][0]
        self.link_between = {(one, to): self.outgoing[one] for one, to in follow.items()}
        led = set(follow.values())
        self.chains = [[first] for first in range(len(self.trips)) if first not in led]
        for chain in self.chains:
            while chain[-1] in follow:
                chain.append(follow[chain[-1]])

    def ready(self, trip):
        """The minute at which the units of a trip are ready in the yard where it ends."""
        return self.trips[trip][4] + self.stations[self.goal[trip]][2]

    def moves(self, picks):
        """By station and type, how many units the picks give and take, with the minutes."""
        moves = {}

        def move(station, units, minute, count):
            for kind in units:
                moves.setdefault((station, kind), []).append((minute, count))

        for trip, pick in enumerate(picks):
            if trip not in self.incoming:
                move(self.origin[trip], self.catalogue[pick], self.trips[trip][2], -1)
            if trip not in self.outgoing:
                move(self.goal[trip], self.catalogue[pick], self.ready(trip), 1)
        for at, link in enumerate(self.links):
            if link["kind"] == "turn":
                one, to = link["arriving"][0], link["departing"][0]
                given, taken, _ = self.edges[at][picks[one], picks[to]]
                move(self.goal[one], given, self.ready(one), 1)
                move(self.origin[to], taken, self.trips[to][2], -1)
        return moves

    def counts(self, picks):
        """By station and type, the counts after each departure minute there, and the last one, from 0 at the start."""
        moves = self.moves(picks)
        counts, last = {}, {}
        for station in range(len(self.stations)):
            for kind in range(len(self.types)):
                mine = moves.get((station, kind), [])
                counts[station, kind] = [sum(count for minute, count in mine if minute <= until)
                                         for until in self.minutes[station]]
                last[station, kind] = sum(count for _, count in mine)
        return counts, last


def catalogue_of(types, longest):
    """All lists of 1 to 6 types of one family that fit a length, the shorter ones first."""
    catalogue, level = [], [()]
    for _ in range(6):
        level = sorted(
            units + (kind,) for units in level for kind in range(len(types))
            if (not units or types[units[0]][4] == types[kind][4])
            and sum(types[one][3] for one in units + (kind,)) <= longest)
        catalogue += level
    return catalogue


def edges_of(rules, link):
    """Which compositions follow one another by a link, with the units given and taken, and the part of the second trip."""
    edges, catalogue = {}, rules.catalogue
    one, to = link["arriving"][0], link["departing"][0]
    for before in rules.admissible[one]:
        old = turned(link, catalogue[before])
        for after in rules.admissible[to]:
            new = catalogue[after]
            if link["kind"] == "turn":
                edge = turn_edge(link, old, new)
            elif link["kind"] == "join":
                edge = part_edge(rules, new, old, link["arriving"][1], link)
            else:
                edge = part_edge(rules, old, new, link["departing"][1], None)
            if edge:
                edges[before, after] = edge
    return edges


def turned(link, units):
    return units[::-1] if link["reverse"] else units


def turn_edge(link, old, new):
    """The units given and taken at a turn, where the longest list that can be kept decides; or None."""
    for kept in range(min(len(old), len(new)), 0, -1):
        there, here = place_of(link["uncouple"], len(old), kept), place_of(link["couple"], len(new), kept)
        if there is not None and here is not None and old[there:there + kept] == new[here:here + kept]:
            given, taken = old[:there] + old[there + kept:], new[:here] + new[here + kept:]
            fits = not given or not taken or link["exchange"] and len(given) <= 2 and len(taken) <= 2
            return (given, taken, None) if fits else None
    return None


def place_of(end, length, kept):
    """Where the units begin that are kept, by the end at which the others stand; None where no others may."""
    return {"rear": 0, "front": length - kept, "none": 0 if length == kept else None}[end]


def part_edge(rules, whole, front, second, link):
    """What is left of a whole behind its front, where the second trip may have it."""
    if len(whole) <= len(front) or whole[:len(front)] != front:
        return None
    rest = whole[len(front):]
    part = rules.number[turned(link, rest) if link else rest]
    return ((), (), part) if part in rules.admissible[second] else None


def by_first(edges):
    """The edges by their first composition, in order."""
    leaving = {}
    for (before, after), edge in sorted(edges.items()):
        leaving.setdefault(before, []).append((after, edge))
    return leaving
