// A plain checker of LRAT derivations, written from the format's definition, to set beside what the repository writes
// and reads:
//   lrat CLAUSES.cnf DERIVATION.lrat
// A line of a derivation is `ID LITERALS 0 HINTS 0`, or `ID d IDS 0`, which deletes clauses. A step holds if, its
// literals being false, each hint names a clause with one literal that isn't false, which becomes true, until one has
// false literals alone. Ids ascend. It prints `verified` and answers 0 where each step holds and one has no literals;
// else it prints the line and why, and answers 1.
#include <ctype.h>
#include <stdio.h>
#include <stdlib.h>

static int **clauses;          // by id, each ended by 0; none where there is no such clause
static long room;
static int *list;              // the numbers of one list, ended by 0
static long list_room;
static signed char *values;    // by variable: 1 true, -1 false, 0 neither
static long variables;
static long line = 1;

static void fail(const char *why) {
    printf("line %ld: %s\n", line, why);
    exit(1);
}

static void *grown(void *old, long *count, long needed, size_t size) {
    long more = *count;
    while (more <= needed) more = more * 2 + 1024;
    if (more == *count) return old;
    char *new = realloc(old, more * size);
    if (!new) fail("no memory");
    for (long at = *count * (long)size; at < more * (long)size; at++) new[at] = 0;
    *count = more;
    return new;
}

// the first byte behind blanks
static int byte(FILE *file) {
    int c;
    while (isspace(c = getc(file))) line += c == '\n';
    return c;
}

static long number(FILE *file) {
    long found;
    ungetc(byte(file), file);
    if (fscanf(file, "%ld", &found) != 1) fail("no number");
    return found;
}

// the numbers up to a 0; how many there are
static long numbers(FILE *file) {
    long count = 0, found;
    do {
        found = number(file);
        list = grown(list, &list_room, count, sizeof *list);
        list[count++] = found;
    } while (found != 0);
    return count - 1;
}

static void put(long id, long count) {
    clauses = grown(clauses, &room, id, sizeof *clauses);
    clauses[id] = malloc((count + 1) * sizeof **clauses);
    if (!clauses[id]) fail("no memory");
    for (long at = 0; at <= count; at++) clauses[id][at] = list[at];
    for (long at = 0; at < count; at++)
        values = grown(values, &variables, labs((long)list[at]), 1);
}

static int value(int literal) { return literal > 0 ? values[literal] : -values[-literal]; }

static void make_true(int literal) { values[abs(literal)] = literal > 0 ? 1 : -1; }

// the literal that a clause leaves; 0 where all are false
static int left_by(const int *clause) {
    int open = 0;
    for (; *clause; clause++) {
        if (value(*clause) > 0) fail("a hint names a clause that is true");
        if (value(*clause) < 0 || *clause == open) continue;
        if (open) fail("a hint names a clause with two literals");
        open = *clause;
    }
    return open;
}

static void step(long id, FILE *file) {
    long count = numbers(file), falsified = 0, marks = 0;
    static int *marked;
    static long marked_room;
    put(id, count);
    for (long at = 0; at < count; at++) {
        if (value(list[at]) > 0) fail("a clause with a literal and its negation");
        make_true(-list[at]);
    }
    long hints = numbers(file);
    for (long at = 0; at < hints && !falsified; at++) {
        if (list[at] < 0) fail("a step that isn't by propagation alone");
        if (list[at] >= id || !clauses[list[at]]) fail("a hint names no clause");
        int literal = left_by(clauses[list[at]]);
        falsified = literal == 0;
        if (falsified) break;
        make_true(literal);
        marked = grown(marked, &marked_room, marks, sizeof *marked);
        marked[marks++] = literal;
    }
    if (!falsified) fail("no clause is falsified");
    for (int *literal = clauses[id]; *literal; literal++) values[abs(*literal)] = 0;
    while (marks > 0) values[abs(marked[--marks])] = 0;
}

static long given(FILE *file) {
    long vars, count, id = 0;
    int c;
    while ((c = byte(file)) == 'c') while ((c = getc(file)) != '\n' && c != EOF) {}
    if (c != 'p' || fscanf(file, " cnf %ld %ld", &vars, &count) != 2) fail("no first line");
    while (id < count) put(++id, numbers(file));
    return id;
}

int main(int words, char **word) {
    FILE *cnf = words == 3 ? fopen(word[1], "r") : 0, *lrat = words == 3 ? fopen(word[2], "r") : 0;
    if (!cnf || !lrat) fail("two files are wanted");
    long last = given(cnf), empty = 0;
    int c;
    values = grown(values, &variables, 1, 1);
    for (line = 1; (c = byte(lrat)) != EOF;) {
        ungetc(c, lrat);
        long id = number(lrat);
        if ((c = byte(lrat)) == 'd') {
            for (long at = numbers(lrat); at > 0; at--)
                if (list[at - 1] > 0 && list[at - 1] < room) clauses[list[at - 1]] = 0;
            continue;
        }
        ungetc(c, lrat);
        if (id <= last) fail("ids don't ascend");
        step(last = id, lrat);
        empty |= !*clauses[id];
    }
    if (!empty) fail("no empty clause");
    printf("verified\n");
    return 0;
}
