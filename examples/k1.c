/* K1 (one processor: st x=1, ld x sees 1) through check, judge, search and chain table; then a record with no instruction, one of
 * UC memory with its domains, a lock that two processors take, a load of sixteen bytes, a record that is written out of lines
 * and instructions prepared apart, a copy without what was seen, and records that are equal but for the numbers of their
 * processors. k1.txt is what it prints. */
#include "oglindesh.h"
#include <stdio.h>

/* K1's record, as docs/FORMAT.md lays it out. Its operations are 0 (LV), 1 (RV) and 2 (R). */
static const uint8_t k1[] = {
    1,                                /* one processor */
    1,                                /* one line: */
    0, 0, 0, 0, 0, 0, 0, 0, 0,        /* WB, eight initial bytes */
    2,                                /* two instructions: */
    2, 0, 1, 1, 0, 0, 0, 0, 0, 0, 0,  /* st, address 0, size 1, writes 1 */
    0, 0, 1, 1, 0, 0, 0, 0, 0, 0, 0,  /* ld, address 0, size 1, sees 1 */
    0,                                /* no pair */
};

/* Two processors, one WB line of zeros, no instruction on either, no pair. It has no operation. */
static const uint8_t nothing[] = {2, 1, 0, 0, 0, 0, 0, 0, 0, 0, 0, 0, 0, 0};

/* Two UC lines, one after the other loaded: ld x sees 0, ld y sees 0. A UC line's attribute is 1 + 16 * d, d its domain. */
enum { Y_ATTRIBUTE = 2 + 9 };
static uint8_t uncacheable[] = {
    1,                                /* one processor */
    2,                                /* two lines: */
    1, 0, 0, 0, 0, 0, 0, 0, 0,        /* UC of domain 0, eight initial bytes */
    1, 0, 0, 0, 0, 0, 0, 0, 0,        /* the same */
    2,                                /* two instructions: */
    0, 0, 1, 0, 0, 0, 0, 0, 0, 0, 0,  /* ld, address 0, size 1, sees 0 */
    0, 8, 1, 0, 0, 0, 0, 0, 0, 0, 0,  /* ld, address 8, size 1, sees 0 */
    0,                                /* no pair */
};

/* Two processors take a lock, sem.acq x sees 0 writes 1: both see it free. The operations of the first are 0 (R), 1 (LV), 2 and 3
 * (RV), those of the second 4 to 7. */
static const uint8_t lock[] = {
    2,                                /* two processors */
    1,                                /* one line: */
    0, 0, 0, 0, 0, 0, 0, 0, 0,        /* WB, eight initial bytes */
    1,                                /* one instruction of the first: */
    5, 0, 1, 0, 0, 0, 0, 0, 0, 0, 0,  /* sem.acq, address 0, size 1, sees 0 */
    1, 0, 0, 0, 0, 0, 0, 0,           /* and writes 1 */
    1,                                /* one of the second: */
    5, 0, 1, 0, 0, 0, 0, 0, 0, 0, 0,  /* the same */
    1, 0, 0, 0, 0, 0, 0, 0,
    0,                                /* no pair */
};

/* The first processor writes two words, the second with a release; the other loads both at once: st8 x=1, st8.rel y=2 beside
 * ld16 x, which sees each half from its own store. The operations are 0 to 2 and 3 to 5 (LV, RV, RV) and 6 (R). */
enum { LOAD = 2 + 2 * 9 + 1 + 2 * 11 + 1, LOWER_HALF = LOAD + 3, UPPER_LINE = 2 + 9 };
static uint8_t halves[] = {
    2,                                /* two processors */
    2,                                /* two lines: */
    0, 0, 0, 0, 0, 0, 0, 0, 0,        /* WB, eight initial bytes */
    0, 0, 0, 0, 0, 0, 0, 0, 0,        /* the same, as both lines of the load have one attribute */
    2,                                /* two instructions of the first: */
    2, 0, 8, 1, 0, 0, 0, 0, 0, 0, 0,  /* st, address 0, size 8, writes 1 */
    3, 8, 8, 2, 0, 0, 0, 0, 0, 0, 0,  /* st.rel, address 8, size 8, writes 2 */
    1,                                /* one of the second: */
    0, 0, 16, 1, 0, 0, 0, 0, 0, 0, 0, /* ld, address 0, size 16, sees 1 in the lower half */
    2, 0, 0, 0, 0, 0, 0, 0,           /* and 2 in the upper half */
    0,                                /* no pair */
};

/* K11 with ld for ld.acq (st x=1, st x=2; ld x sees 2, ld x sees 1), its line and its instructions apart and without counts. An
 * instruction begins with the number of its processor; they stand in the order in which they were written down. */
static const uint8_t lines[] = {0, 0, 0, 0, 0, 0, 0, 0, 0}; /* WB, eight initial bytes */
static const uint8_t instructions[] = {
    1, 0, 0, 1, 2, 0, 0, 0, 0, 0, 0, 0, /* processor 1: ld, address 0, size 1, sees 2 */
    0, 2, 0, 1, 1, 0, 0, 0, 0, 0, 0, 0, /* processor 0: st, address 0, size 1, writes 1 */
    1, 0, 0, 1, 1, 0, 0, 0, 0, 0, 0, 0, /* processor 1: ld, address 0, size 1, sees 1 */
    0, 2, 0, 1, 2, 0, 0, 0, 0, 0, 0, 0, /* processor 0: st, address 0, size 1, writes 2 */
};

/* A lock is handed over with its data: st y=5, st.rel x=1; sem.acq x sees 1 writes 2, ld y sees 5. At first y is 3, so that in no
 * order it is seen as 0. */
enum { SEMAPHORE = 2 + 2 * 9 + 1 + 2 * 11 + 1, SEEN = SEMAPHORE + 3, WRITTEN = SEEN + 8, LOADED = WRITTEN + 8 + 3 };
static const uint8_t handed_over[] = {
    2,                                /* two processors */
    2,                                /* two lines: */
    0, 0, 0, 0, 0, 0, 0, 0, 0,        /* WB, eight initial bytes */
    0, 3, 0, 0, 0, 0, 0, 0, 0,        /* WB, y is 3 */
    2,                                /* two instructions of the first: */
    2, 8, 1, 5, 0, 0, 0, 0, 0, 0, 0,  /* st, address 8, size 1, writes 5 */
    3, 0, 1, 1, 0, 0, 0, 0, 0, 0, 0,  /* st.rel, address 0, size 1, writes 1 */
    2,                                /* two of the second: */
    5, 0, 1, 1, 0, 0, 0, 0, 0, 0, 0,  /* sem.acq, address 0, size 1, sees 1 */
    2, 0, 0, 0, 0, 0, 0, 0,           /* and writes 2 */
    0, 8, 1, 5, 0, 0, 0, 0, 0, 0, 0,  /* ld, address 8, size 1, sees 5 */
    0,                                /* no pair */
};

/* The same execution, of an author who numbers the processors the other way round. */
enum { TURNED_SEEN = 2 + 2 * 9 + 1 + 3 };
static uint8_t turned_round[] = {
    2,                                /* two processors */
    2,                                /* two lines: */
    0, 0, 0, 0, 0, 0, 0, 0, 0,        /* WB, eight initial bytes */
    0, 3, 0, 0, 0, 0, 0, 0, 0,        /* WB, y is 3 */
    2,                                /* two instructions of the first: */
    5, 0, 1, 1, 0, 0, 0, 0, 0, 0, 0,  /* sem.acq, address 0, size 1, sees 1 */
    2, 0, 0, 0, 0, 0, 0, 0,           /* and writes 2 */
    0, 8, 1, 5, 0, 0, 0, 0, 0, 0, 0,  /* ld, address 8, size 1, sees 5 */
    2,                                /* two of the second: */
    2, 8, 1, 5, 0, 0, 0, 0, 0, 0, 0,  /* st, address 8, size 1, writes 5 */
    3, 0, 1, 1, 0, 0, 0, 0, 0, 0, 0,  /* st.rel, address 0, size 1, writes 1 */
    0,                                /* no pair */
};

/* Two processors and no instruction, on a UC line of ones: no access touches it. */
static const uint8_t nothing_on_ones[] = {2, 1, 1, 1, 1, 1, 1, 1, 1, 1, 1, 0, 0, 0};

static void say_judgement(const uint8_t *record, size_t length, const uint8_t *order, size_t entries)
{
    uint32_t number = oglindesh_judge(record, length, order, entries);
    if (number > OGLINDESH_REFUSED)
        printf("question %u refuses the order\n", (unsigned)(number - OGLINDESH_REFUSED));
    else if (number != OGLINDESH_LEGAL)
        printf("the order breaks rule %u\n", (unsigned)number);
    else
        printf("the order is legal\n");
}

/* Searches in calls of so many steps each, and prints where each of them comes to. */
static void search_in_parts(const uint8_t *record, size_t length, uint32_t allowance)
{
    uint8_t buffer[OGLINDESH_MAX_OPERATIONS];
    struct oglindesh_search_reply reply = {OGLINDESH_UNFINISHED, 0, 0};
    uint64_t steps = 0;

    while (reply.answer == OGLINDESH_UNFINISHED) {
        reply = oglindesh_search(record, length, buffer, sizeof buffer, reply.length, allowance);
        steps += reply.steps;
        if (reply.answer > OGLINDESH_REFUSED) {
            printf("question %u refuses the search\n", (unsigned)(reply.answer - OGLINDESH_REFUSED));
            return;
        }
        if (reply.answer == OGLINDESH_FORBIDDEN) {
            printf("forbidden");
        } else {
            printf(reply.answer == OGLINDESH_ALLOWED ? "allowed" : "unfinished at");
            for (size_t i = 0; i < reply.length; i++)
                printf(" %u", (unsigned)buffer[i]);
        }
        printf(", %llu steps so far\n", (unsigned long long)steps);
    }
}

static void print_chains(void)
{
    uint8_t table[3 * 3];

    if (oglindesh_chains(k1, sizeof k1, table, sizeof table) != OGLINDESH_DONE)
        return;
    for (size_t a = 0; a < 3; a++)
        for (size_t b = 0; b < 3; b++)
            if (table[3 * a + b])
                printf("links lead from %zu to %zu\n", a, b);
}

/* Writes their record for so many processors, with these pairs, to a buffer of so many bytes, and searches it. */
static void write_and_search(uint8_t processors, const uint8_t *pairs, size_t pairs_length, size_t room)
{
    uint8_t record[OGLINDESH_MAX_RECORD];
    struct oglindesh_reply reply = oglindesh_write(processors, lines, sizeof lines, instructions, sizeof instructions, pairs,
                                                   pairs_length, record, room);

    if (reply.answer != OGLINDESH_DONE) {
        printf("question %u refuses to write the record\n", (unsigned)(reply.answer - OGLINDESH_REFUSED));
        return;
    }
    printf("%zu bytes are written\n", reply.length);
    search_in_parts(record, reply.length, 1000);
}

/* What its semaphore and its load see, and what the semaphore writes. */
static void say_values(const char *what, const uint8_t *record)
{
    printf("%s: the semaphore sees %u and writes %u, the load sees %u\n", what, (unsigned)record[SEEN],
           (unsigned)record[WRITTEN], (unsigned)record[LOADED]);
}

/* Copies so many bytes of that record to a buffer of so many, prints what the copy has, and searches both. */
static void copy_for_solvers(size_t length, size_t room)
{
    uint8_t copy[OGLINDESH_MAX_RECORD];
    struct oglindesh_reply reply = oglindesh_solvers_copy(handed_over, length, copy, room);
    size_t others = 0;

    if (reply.answer != OGLINDESH_DONE) {
        printf("question %u refuses the copy\n", (unsigned)(reply.answer - OGLINDESH_REFUSED));
        return;
    }
    for (size_t i = 0; i < reply.length; i++)
        others += copy[i] != handed_over[i];
    printf("%zu bytes are copied, %zu of them are others\n", reply.length, others);
    say_values("the record", handed_over);
    say_values("the copy", copy);
    search_in_parts(handed_over, length, 2000);
    search_in_parts(copy, reply.length, 2000);
}

/* Compares two records, and says which of them is handed back. */
static void say_comparison(const uint8_t *left, size_t left_length, const uint8_t *right, size_t right_length)
{
    uint32_t number = oglindesh_compare(left, left_length, right, right_length);
    uint32_t first = oglindesh_first(left, left_length, right, right_length);

    if (number > OGLINDESH_REFUSED)
        printf("question %u refuses the comparison", (unsigned)(number - OGLINDESH_REFUSED));
    else if (number == OGLINDESH_EQUAL)
        printf("the records are equal");
    else
        printf("the %s record stands first", number == OGLINDESH_LEFT_FIRST ? "left" : "right");
    if (first == OGLINDESH_EMPTY_PART)
        printf(": nothing is handed back\n");
    else
        printf(": the %s one is handed back\n", first == OGLINDESH_LEFT_RECORD ? "left" : "right");
}

int main(void)
{
    static const uint8_t local[] = {0, 2, 1}, remote_first[] = {1, 0, 2}, turned[] = {1, 0};
    static const uint8_t both_free[] = {0, 4, 1, 2, 3, 5, 7, 6};
    static const uint8_t loads[] = {2, 3}, as_they_stand[] = {0, 2};

    printf("check: %u\n", (unsigned)oglindesh_check(k1, sizeof k1));
    printf("check of a shorter record: %u\n", (unsigned)oglindesh_check(k1, sizeof k1 - 1));
    say_judgement(k1, sizeof k1, local, sizeof local);
    say_judgement(k1, sizeof k1, remote_first, sizeof remote_first);
    say_judgement(k1, sizeof k1, local, 2);
    search_in_parts(k1, sizeof k1, 2);
    print_chains();
    say_judgement(nothing, sizeof nothing, local, 0);
    search_in_parts(nothing, sizeof nothing, 2);
    say_judgement(uncacheable, sizeof uncacheable, turned, sizeof turned);
    uncacheable[Y_ATTRIBUTE] = 1 + 16 * 1;
    say_judgement(uncacheable, sizeof uncacheable, turned, sizeof turned);
    say_judgement(lock, sizeof lock, both_free, sizeof both_free);
    search_in_parts(lock, sizeof lock, 25);
    search_in_parts(halves, sizeof halves, 100);
    halves[LOWER_HALF] = 0; /* the upper half without the lower one, which was written before it */
    search_in_parts(halves, sizeof halves, 100);
    halves[UPPER_LINE] = 1; /* UC beside WB */
    search_in_parts(halves, sizeof halves, 100);
    write_and_search(2, loads, 0, OGLINDESH_MAX_RECORD); /* no pair */
    write_and_search(2, loads, sizeof loads, OGLINDESH_MAX_RECORD);
    /* In the record the loads are instructions 2 and 3, whose processor comes second; 0 and 2 are of two processors. */
    write_and_search(2, as_they_stand, sizeof as_they_stand, OGLINDESH_MAX_RECORD);
    write_and_search(2, loads, 1, OGLINDESH_MAX_RECORD);            /* half a pair */
    write_and_search(1, loads, sizeof loads, OGLINDESH_MAX_RECORD); /* without processor 1 */
    write_and_search(2, loads, sizeof loads, 59);                   /* a byte too little room */
    copy_for_solvers(sizeof handed_over, OGLINDESH_MAX_RECORD);
    copy_for_solvers(sizeof handed_over, sizeof handed_over - 1); /* a byte too little room */
    copy_for_solvers(sizeof handed_over - 1, 0);                  /* without its last byte, which is asked before the room */
    say_comparison(handed_over, sizeof handed_over, turned_round, sizeof turned_round);
    search_in_parts(turned_round, sizeof turned_round, 2000); /* allowed as well, by another order */
    turned_round[TURNED_SEEN] = 0;                            /* the semaphore of the right record sees less */
    say_comparison(handed_over, sizeof handed_over, turned_round, sizeof turned_round);
    say_comparison(nothing, sizeof nothing, nothing_on_ones, sizeof nothing_on_ones);
    say_comparison(nothing, sizeof nothing, handed_over, sizeof handed_over); /* one line stands before two */
    say_comparison(k1, sizeof k1 - 1, k1, sizeof k1);
    return 0;
}
