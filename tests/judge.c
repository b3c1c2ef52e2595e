/*
 * judge.c - the check of the table, asked about tables in which one octet was changed. Sound tables are built by calls; at each offset of
 * a sample the octet is changed to other values, and the listing says which values the engine takes as sound. A call for service 16
 * is answered 3 on a sound table and 2 on any other.
 *
 *   judge           the listing, to be compared with tests/judge.expected
 *   judge tables    the tables and the sample in hex
 *
 * tests/judge.expected was not copied from here: tests/judge.py computes it from the tables by the rules of 01 and docs/TABLE.md, without
 * the engine (`judge tables | tests/judge.py > tests/judge.expected`).
 */
#include "guard.h"

#include <stdio.h>
#include <stdlib.h>
#include <string.h>

/* of a place, docs/TABLE.md */
#define WAITING_LENGTH 10
#define WAITING_AT 44

static unsigned long tried;

static void receives(unsigned place, const char *list)
{
    struct octets ids = join(hex("48 03 07 08 09 49 04"), join(one(place), hex("00 00 00")));
    made(ask_receive(1, element(0x65, join(ids, *list ? element(0x6C, hex(list)) : none))));
}

/* ---- TABLES -------------------------------------------------------------------------------------------------------------------------- */

static void empty(void)
{
    made(ask_fresh(repeat(16, one(8)), repeat(16, one(64))));
}

/* Place 0 in Open: an invocation of each class in Pending, all waiting; place 1 in Sent; place 2 freed. Services 0 and 1. */
static void begin_some(void)
{
    made(ask_fresh(join(hex("02 04 7A"), repeat(13, one(0))), join(hex("03 04 80"), repeat(13, one(9)))));
    for (unsigned place = 0; place < 3; place++)
        made(ask(CALL_OPEN, place == 0 ? 0 : 1, 0));
    for (unsigned cls = 1; cls <= 4; cls++)
        made(ask_invoke(0, PLACE(0), (int)cls - 3, cls));
    made(with(ask_linked(0, PLACE(0), 127, -128, 2), hex("06 02 2A 03"), hex("30 80 04 01 00 1F 1F 00 00 00")));
    made(ask_invoke(1, PLACE(1), 5, 1));
    made(ask(CALL_BEGIN, 1, PLACE(1)));
    made(ask(CALL_END_PREARRANGED, 1, PLACE(2)));
}

/* Place 2 in Received with a waiting reject; place 3 in Active with invocations in every state, each component and 8 rejects waiting. */
static void mixed(void)
{
    begin_some();
    made(ask_receive(1, hex("62 0B 48 04 01 02 03 04 6C 03 A9 01 00")));
    made(ask(CALL_OPEN, 1, 0));
    for (int id = 1; id <= 5; id++)
        made(ask_invoke(1, PLACE(3), id, 1));
    made(ask(CALL_BEGIN, 1, PLACE(3)));
    receives(3, "A2 03 02 01 02 A7 03 02 01 03 A2 03 02 01 04");
    made(ask_reject(1, PLACE(3), 4, TCAP_MISTYPED_RESULT_PARAMETER));
    made(ask_invoke(1, PLACE(3), 6, 2));
    made(ask_id(CALL_RESULT_LAST, 1, PLACE(3), 7));
    made(with(ask_id(CALL_RESULT_NOT_LAST, 1, PLACE(3), 8), hex("02 01 01"), hex("A0 00")));
    made(with(ask_error(1, PLACE(3), 9), hex("02 04 01 02 03 04"), hex("BF 81 00 02 05 00")));
    made(ask_reject(1, PLACE(3), 9, TCAP_UNEXPECTED_LINKED_OPERATION));
    receives(3, "A2 03 02 01 40 A3 06 02 01 41 02 01 01 A1 09 02 01 42 80 01 43 02 01 01 A1 03 02 01 44");
    receives(3, "A2 03 02 01 01 A7 03 02 01 01 A9 00");
    receives(3, "A2 80 02 01");
    receives(3, "A8 03 02 01 80");
}

static void full(void)
{
    made(ask_fresh(repeat(16, one(8)), repeat(16, one(8))));
    for (unsigned place = 0; place < TCAP_PLACES; place++)
        made(ask(CALL_OPEN, place % 16, 0));
    made(with(ask_invoke(0, PLACE(0), 1, 1), hex("02 01 3B"), nested(15, 0x30)));
    for (int id = -4; id < 4; id++)
        made(ask_invoke(0, PLACE(64), id, 4));
    made(with(ask_invoke(15, PLACE(127), 1, 1), hex("02 01 3B"), primitive(231)));
}

static const struct { const char *name; void (*make)(void); unsigned places[6]; } tables[] = {
    { "empty", empty, { 0, 127, 128 } },
    { "mixed", mixed, { 0, 1, 2, 3, 4, 128 } },
    { "full", full, { 0, 64, 127, 128 } },
};

/* ---- THE SAMPLE ---------------------------------------------------------------------------------------------------------------------- */

typedef void visit(size_t first, size_t last, int all);

/* Map and shares, and of each place its head and its waiting octets with one more, with all values; the other octets with a few. */
static void sample(const unsigned *places, visit *each)
{
    each(0, PLACES_AT - 1, 1);
    for (; *places < TCAP_PLACES; places++) {
        size_t place = PLACES_AT + *places * PLACE_OCTETS, waiting = the_table[place + WAITING_LENGTH];
        size_t dense = WAITING_AT + (waiting < 100 ? waiting : 20) + 1;
        each(place, place + dense - 1, 1);
        each(place + dense, place + PLACE_OCTETS - 1, 0);
    }
}

static int sound(void)
{
    uint32_t answer = tcap_open(the_table, sizeof the_table, 16).answer;
    tried++;
    if (answer != TCAP_NO_SERVICE && answer != TCAP_BROKEN_TABLE)
        exit(1);
    return answer == TCAP_NO_SERVICE;
}

/* The values at this offset that are taken as sound, as "0 3-7 255"; few: only 0, 1, 128 and 255 are tried. */
static void accepted(size_t offset, int all, char *text)
{
    uint8_t held = the_table[offset];
    int from = -1;
    *text = 0;
    for (int value = 0; value <= 256; value++) {
        int taken = 0;
        if (value < 256 && (all || value <= 1 || value == 128 || value == 255)) {
            the_table[offset] = (uint8_t)value;
            taken = sound();
        }
        if (taken && from < 0)
            from = value;
        if (!taken && from >= 0) {
            text += sprintf(text, value - 1 > from ? " %d-%d" : " %d", from, value - 1);
            from = -1;
        }
    }
    the_table[offset] = held;
}

/* One line for each run of offsets with the same values. */
static void list(size_t first, size_t last, int all)
{
    static char now[1024], then[1024];
    size_t from = first;
    accepted(first, all, then);
    for (size_t offset = first + 1; offset <= last + 1; offset++) {
        if (offset <= last)
            accepted(offset, all, now);
        if (offset > last || strcmp(now, then) != 0) {
            printf("%zu-%zu%s:%s\n", from, offset - 1, all ? "" : " few", then);
            from = offset;
            strcpy(then, now);
        }
    }
}

static void name_sample(size_t first, size_t last, int all)
{
    printf("sample %zu %zu %d\n", first, last, all);
}

int main(int argc, char **argv)
{
    int as_hex = argc > 1 && strcmp(argv[1], "tables") == 0;
    for (size_t i = 0; i < sizeof tables / sizeof *tables; i++) {
        tables[i].make();
        printf("table %s\n", tables[i].name);
        if (as_hex) {
            for (size_t n = 0; n < sizeof the_table; n++)
                printf("%02X", the_table[n]);
            printf("\n");
        }
        sample(tables[i].places, as_hex ? name_sample : list);
    }
    if (!as_hex)
        printf("judge: %lu values tried\n", tried);
    return 0;
}
