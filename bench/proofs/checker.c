/* A plain checker of refutations, to measure beside: numbers are read by fscanf, and all clauses stand in one table. It takes a
   formula in DIMACS and a log in LRAT, whose form it does not ask, and says VERIFIED, NOT SHOWN and the entry's number, or
   NO REFUTATION. */
#include <stdio.h>
#include <stdlib.h>
#include <string.h>

static int *table;              /* the literals of each clause, and a 0 behind them */
static long filled, room;
static long *place, places;     /* where the clause of a number begins, or -1 */
static int *stamp, width;       /* by literal, the entry for which it was made true */

static void put(int literal) {
    if (filled == room) table = realloc(table, (room = 2 * room + 1024) * sizeof *table);
    table[filled++] = literal;
}

static void name(long id, long at) {
    if (id >= places) {
        place = realloc(place, (2 * id + 1024) * sizeof *place);
        memset(place + places, 0xff, (2 * id + 1024 - places) * sizeof *place);
        places = 2 * id + 1024;
    }
    place[id] = at;
}

static int *mark(int literal) {
    int size = abs(literal);
    if (size >= width) {
        stamp = realloc(stamp, (4 * (size_t)size + 1024) * sizeof *stamp);
        memset(stamp + 2 * width, 0, (4 * (size_t)size + 1024 - 2 * width) * sizeof *stamp);
        width = 2 * size + 512;
    }
    return stamp + 2 * size + (literal < 0);
}

/* Whether a hint's clause is a conflict (1), unit (0) or neither (-1). A unit's literal is made true. */
static int follow(long hint, int now) {
    int unit = 0;
    if (hint < 0 || hint >= places || place[hint] < 0) return -1;
    for (int *at = table + place[hint]; *at; at++) {
        if (*mark(-*at) == now) continue;
        if (unit && unit != *at) return -1;
        unit = *at;
    }
    if (!unit) return 1;
    *mark(unit) = now;
    return 0;
}

int main(int count, char **words) {
    long clauses, id, hint, start;
    int variables, literal, now = 0;
    FILE *text = count == 3 ? fopen(words[1], "r") : 0;
    if (!text || fscanf(text, " p cnf %d %ld", &variables, &clauses) != 2) return 64;
    for (long done = 0; done < clauses; done++) {
        name(done + 1, filled);
        do {
            if (fscanf(text, "%d", &literal) != 1) return 64;
            put(literal);
        } while (literal);
    }
    if (!(text = fopen(words[2], "r"))) return 64;
    while (fscanf(text, "%ld ", &id) == 1) {
        int next = getc(text), shown = 0;
        if (next == 'd') {
            while (fscanf(text, "%ld", &hint) == 1 && hint) continue;
            continue;
        }
        ungetc(next, text);
        start = filled, now++;
        while (fscanf(text, "%d", &literal) == 1 && literal) put(literal), *mark(-literal) = now;
        put(0);
        while (fscanf(text, "%ld", &hint) == 1 && hint)
            if (!shown) shown = follow(hint, now);
        if (shown != 1) return printf("NOT SHOWN %ld\n", id), 1;
        name(id, start);
        if (!table[start]) return puts("VERIFIED"), 0;
    }
    return puts("NO REFUTATION"), 1;
}
