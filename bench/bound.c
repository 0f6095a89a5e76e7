/* The least value of paths along the chains of a day, in plain C: the line that `bound` is measured against.

       bound PROBLEM TIMES [narrow]

   PROBLEM is a text of numbers that bound.py writes: the compositions, the trips with what units are priced at their
   departure and their arrival, the edges of each kind of turn, and the chains. The least value is found TIMES times,
   and the last is printed; that of the region which has the first composition alone on nine of ten trips, where `narrow`
   is said.

   Turns uncouple and couple at the rear, so that no edge is gone through for a value: a composition is led on from by
   those that it begins with, and by those that begin with it. Edges tell the next composition of a path alone. */
#include <stdint.h>
#include <stdio.h>
#include <stdlib.h>

#define MAX_UNITS 6
/* The value of what is not there: any that is there is below LIMIT, also with an edge's price and a worth more. */
#define NONE INT64_C(9100000000000000000)
#define LIMIT INT64_C(9050000000000000000)

typedef struct { int units, carriages, seats, types[MAX_UNITS]; } Composition;
typedef struct { int64_t *takes, *gives, *costs; int km, demand, next, kind, is_first, place; } Trip;
typedef struct { int from, to, shunted, coupled; } Edge;

/* Compositions are numbered from 1; 0 is the train without units. Each is its front and a unit of its last type. */
static int types, comps, trips, chains, kinds, shunting;
static Composition *compositions;
static int *fronts, *lasts, *turned;
static Trip *days_trips;
static Edge **edges_of;
static int **begins_of;
static unsigned char *region;
static int **chain_trips, *chain_lengths, *choice;
static int64_t *rows, *credits, *debits, *shorter, *longer;

static long number(FILE *file) {
    long found;
    if (fscanf(file, "%ld", &found) != 1) exit(1);
    return found;
}

static void *room(size_t count, size_t size) {
    void *found = calloc(count ? count : 1, size);
    if (!found) exit(1);
    return found;
}

/* The number of the composition of so many of these units, as they stand or turned; 0 where there is none. */
static int found(const int *units, int count, int is_turned) {
    for (int c = 1; c <= comps; c++) {
        int u = 0;
        if (compositions[c].units != count) continue;
        while (u < count && compositions[c].types[u] == units[is_turned ? count - 1 - u : u]) u++;
        if (u == count) return c;
    }
    return 0;
}

static void read_compositions(FILE *file) {
    compositions = room(comps + 1, sizeof(Composition));
    fronts = room(comps + 1, sizeof(int)), lasts = room(comps + 1, sizeof(int)), turned = room(comps + 1, sizeof(int));
    for (int c = 1; c <= comps; c++) {
        Composition *comp = &compositions[c];
        comp->units = number(file), comp->carriages = number(file), comp->seats = number(file);
        for (int u = 0; u < comp->units; u++) comp->types[u] = number(file);
    }
    for (int c = 1; c <= comps; c++) {
        const Composition *comp = &compositions[c];
        fronts[c] = found(comp->types, comp->units - 1, 0), lasts[c] = comp->types[comp->units - 1];
        turned[c] = found(comp->types, comp->units, 1);
    }
}

static void read_trip(FILE *file, int t) {
    Trip *trip = &days_trips[t];
    trip->km = number(file), trip->demand = number(file), trip->is_first = number(file);
    trip->takes = room(types, sizeof(int64_t)), trip->gives = room(types, sizeof(int64_t));
    trip->costs = room(comps + 1, sizeof(int64_t));
    for (int m = 0; m < types; m++) trip->takes[m] = number(file);
    for (int m = 0; m < types; m++) trip->gives[m] = number(file);
    for (int c = 1; c <= comps; c++) {
        int missing = trip->demand > compositions[c].seats ? trip->demand - compositions[c].seats : 0;
        trip->costs[c] = (int64_t)(compositions[c].carriages + missing) * trip->km;
        region[(size_t)t * (comps + 1) + c] = 1;
    }
}

static void read_turns(FILE *file) {
    kinds = number(file);
    edges_of = room(kinds, sizeof(Edge *)), begins_of = room(kinds, sizeof(int *));
    for (int k = 0; k < kinds; k++) {
        int count = number(file);
        edges_of[k] = room(count, sizeof(Edge)), begins_of[k] = room(comps + 2, sizeof(int));
        for (int e = 0; e < count; e++) {
            Edge *edge = &edges_of[k][e];
            edge->from = number(file) + 1, edge->to = number(file) + 1;
            edge->shunted = number(file), edge->coupled = number(file);
            begins_of[k][edge->from + 1] = e + 1;
        }
        for (int c = 1; c <= comps + 1; c++) if (!begins_of[k][c]) begins_of[k][c] = begins_of[k][c - 1];
    }
    for (int t = 0; t < trips; t++) days_trips[t].next = number(file), days_trips[t].kind = number(file);
}

static void read_chains(FILE *file) {
    chains = number(file);
    chain_trips = room(chains, sizeof(int *)), chain_lengths = room(chains, sizeof(int));
    for (int c = 0; c < chains; c++) {
        chain_lengths[c] = number(file);
        chain_trips[c] = room(chain_lengths[c], sizeof(int));
        for (int p = 0; p < chain_lengths[c]; p++) chain_trips[c][p] = number(file);
    }
}

static void read_problem(const char *path) {
    FILE *file = fopen(path, "r");
    if (!file) exit(1);
    types = number(file), comps = number(file), trips = number(file), shunting = number(file);
    read_compositions(file);
    days_trips = room(trips, sizeof(Trip)), choice = room(trips, sizeof(int));
    region = room((size_t)trips * (comps + 1), 1), rows = room((size_t)trips * (comps + 1), sizeof(int64_t));
    credits = room(comps + 1, sizeof(int64_t)), debits = room(comps + 1, sizeof(int64_t));
    shorter = room(comps + 1, sizeof(int64_t)), longer = room(comps + 1, sizeof(int64_t));
    for (int t = 0; t < trips; t++) read_trip(file, t);
    read_turns(file);
    read_chains(file);
    fclose(file);
}

static inline int64_t least_of(int64_t value, int64_t other) { return other < value ? other : value; }

static int64_t sum_of(const int64_t *prices, const int *list, int units) {
    int64_t sum = 0;
    for (int u = 0; u < units; u++) sum += prices[list[u]];
    return sum;
}

/* The values of a turn's edges, by what they lead from: first the least over all longer compositions, from the last of
   them on, then the least over all shorter ones, from the first on. The price of a composition's units is that of its
   front's units and that of the last one. */
static inline void fill_turn(int t, const int *place, const int64_t *ahead, int64_t *row) {
    const int64_t *gives = days_trips[t].gives, *takes = days_trips[days_trips[t].next].takes;
    for (int c = 1; c <= comps; c++) debits[c] = debits[fronts[c]] + takes[lasts[c]], longer[c] = NONE;
    for (int c = comps; c > 0; c--) {
        int64_t value = least_of(longer[c], ahead[c] + debits[c]);
        longer[fronts[c]] = least_of(longer[fronts[c]], value);
    }
    shorter[0] = NONE;
    for (int c = 1; c <= comps; c++) {
        int front = fronts[c];
        int64_t credit = credits[front] + gives[lasts[c]], fewer = shorter[front];
        int64_t changed = shunting + least_of(fewer - credit, longer[c] - debits[c]);
        row[place ? place[c] : c] = least_of(ahead[c], changed);
        credits[c] = credit, shorter[c] = least_of(fewer, ahead[c] + credit);
    }
}

/* The first composition that has the least value over the edges from a composition. */
static int next_of(int t, int from, const int64_t *ahead) {
    const Trip *trip = &days_trips[t];
    const int64_t *takes = days_trips[trip->next].takes;
    const Edge *edge = edges_of[trip->kind] + begins_of[trip->kind][from];
    const Edge *end = edges_of[trip->kind] + begins_of[trip->kind][from + 1];
    int next = 0;
    int64_t least = NONE, given = sum_of(trip->gives, compositions[from].types, compositions[from].units);
    for (; edge < end; edge++) {
        const Composition *comp = &compositions[edge->to];
        int kept = comp->units - edge->coupled;
        if (ahead[edge->to] >= LIMIT) continue;
        int64_t value = ahead[edge->to] - given + (edge->shunted ? shunting : 0);
        value += sum_of(trip->gives, comp->types, kept) + sum_of(takes, comp->types + kept, edge->coupled);
        if (value < least) least = value, next = edge->to;
    }
    return next;
}

static inline void weigh(int t, int is_first, int is_last, int64_t *row) {
    const Trip *trip = &days_trips[t];
    const unsigned char *set = &region[(size_t)t * (comps + 1)];
    row[0] = NONE;
    for (int c = 1; c <= comps; c++) {
        int64_t value = is_last ? 0 : row[c], worth = trip->costs[c];
        if (is_first) debits[c] = debits[fronts[c]] + trip->takes[lasts[c]], worth += debits[c];
        if (is_last) credits[c] = credits[fronts[c]] + trip->gives[lasts[c]], worth -= credits[c];
        row[c] = set[c] && value < LIMIT ? value + worth : NONE;
    }
}

static void fill_row(int t, const int64_t *ahead, int64_t *row) {
    if (ahead && days_trips[t].kind) fill_turn(t, turned, ahead, row);
    else if (ahead) fill_turn(t, NULL, ahead, row);
    if (days_trips[t].is_first) weigh(t, 1, !ahead, row);
    else if (ahead) weigh(t, 0, 0, row);
    else weigh(t, 0, 1, row);
}

static int64_t least(const int *chain, int length) {
    const size_t width = comps + 1;
    for (int p = length - 1; p >= 0; p--)
        fill_row(chain[p], p + 1 < length ? &rows[(p + 1) * width] : NULL, &rows[p * width]);
    int best = 0;
    for (int c = 1; c <= comps; c++) if (rows[c] < rows[best]) best = c;
    if (!best) exit(1);
    int64_t value = rows[best];
    for (int p = 0; p < length; p++) {
        choice[chain[p]] = best;
        if (p + 1 < length) best = next_of(chain[p], best, &rows[(p + 1) * width]);
    }
    return value;
}

static int64_t least_of_all(void) {
    int64_t value = 0;
    for (int c = 0; c < chains; c++) value += least(chain_trips[c], chain_lengths[c]);
    return value;
}

static void narrow(void) {
    for (int t = 0; t < trips; t++)
        for (int c = 2; c <= comps && t % 10 != t / 10 % 10; c++) region[(size_t)t * (comps + 1) + c] = 0;
}

int main(int argc, char **argv) {
    if (argc != 3 && argc != 4) return 1;
    read_problem(argv[1]);
    if (argc == 4) narrow();
    int64_t value = 0, first = 0;
    for (int times = atoi(argv[2]); times > 0; times--) value = least_of_all();
    for (int t = 0; t < trips; t++) first = (first * 31 + choice[t] - 1) % 1000003;
    printf("%ld %ld\n", (long)value, (long)first);
    return 0;
}
