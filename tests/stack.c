/*
 * stack.c - the deepest stack of each call. The call is made on a stack of its own, painted before; the octets without paint after it
 * are what was used. What the test's own function uses is measured the same way and taken off. Each call is made on octets that
 * nest to depth 16, with definite and with indefinite lengths, or have many elements side by side, and on tables whose waiting
 * components do, with 4 and with 128 dialogues.
 */
#define _XOPEN_SOURCE 700
#include "guard.h"

#include <stdio.h>
#include <stdlib.h>
#include <string.h>
#include <ucontext.h>

#define STACK_OCTETS 262144
#define PAINT 0x5A

static uint8_t stack[STACK_OCTETS], rows[TCAP_ROWS_OCTETS], space[TCAP_SPACE_OCTETS];
static struct request asked;
static struct tcap_reply reply;
static struct tcap_span span;
static ucontext_t here, there;

static void the_call(void)
{
    struct lent l = { the_table, rows, space, asked.first.octet, asked.second.octet };
    reply = make_call(&asked, &l);
}

static void nothing(void) { }

static void the_parameter(void)
{
    span = tcap_parameter(asked.first.octet, asked.first.count, 0, asked.first.count);
}

static void the_portion(void)
{
    reply = tcap_portion(asked.first.octet, asked.first.count, 0, asked.first.count, rows, sizeof rows);
}

static size_t depth(void (*on_own_stack)(void))
{
    size_t clean = 0;
    memset(stack, PAINT, sizeof stack);
    getcontext(&there);
    there.uc_stack.ss_sp = stack;
    there.uc_stack.ss_size = sizeof stack;
    there.uc_link = &here;
    makecontext(&there, on_own_stack, 0);
    swapcontext(&here, &there);
    while (clean < sizeof stack && stack[clean] == PAINT)
        clean++;
    return sizeof stack - clean;
}

/* ---- OCTETS THAT NEST DEEP ----------------------------------------------------------------------------------------------------------- */

static struct octets indefinite(size_t levels, unsigned tag, struct octets inner)
{
    return join(join(repeat(levels, join(one(tag), one(0x80))), inner), repeat(levels, hex("00 00")));
}

enum form { DEFINITE, INDEFINITE, AROUND_A_PRIMITIVE, SIDE_BY_SIDE, FORMS };

static struct octets parameter(enum form form, size_t levels)
{
    switch (form) {
    case DEFINITE: return nested(levels, 0x30);
    case INDEFINITE: return indefinite(levels, 0x30, none);
    case AROUND_A_PRIMITIVE: return indefinite(levels - 1, 0x30, hex("04 02 00 00"));
    default: return element(0x30, repeat(levels * 7, hex("04 00")));
    }
}

static struct octets message(enum form form, unsigned type, size_t levels)
{
    struct octets ids = type == 0x61 ? none : type == 0x62 ? hex("48 01 07") : type == 0x65 ? hex("48 01 07 49 04 03 00 00 00") :
                        hex("49 04 03 00 00 00");
    struct octets portion = element(0x6B, parameter(form, levels));
    struct octets part = join(hex("02 01 05 02 01 3B"), parameter(form, levels));
    struct octets list = indefinite(1, 0x6C, indefinite(1, 0xA1, part));
    if (form == DEFINITE)
        return element(type, join(ids, join(portion, type == 0x67 ? none : element(0x6C, element(0xA1, part)))));
    return indefinite(1, type, join(ids, join(portion, type == 0x67 ? none : list)));
}

/* ---- TABLES -------------------------------------------------------------------------------------------------------------------------- */

/* Places 0 to 3 in Open, Sent, Received and Active, each with a waiting component that nests to depth 16; 3 has the invocations 5 in
   Sent and 6 in Wait. Then, in a full table, 124 more as place 3. */
static void table(enum form form, int full)
{
    struct octets deep = parameter(form, 15);
    made(ask_fresh(repeat(16, one(0)), repeat(16, one(128))));
    for (unsigned place = 0; place < 2; place++)
        made(ask(CALL_OPEN, 3, 0));
    made(ask(CALL_BEGIN, 3, PLACE(1)));
    made(ask_receive(3, hex("62 03 48 01 07")));
    made(ask(CALL_OPEN, 3, 0));
    made(ask_invoke(3, PLACE(3), 5, 1));
    made(ask_invoke(3, PLACE(3), 6, 1));
    made(ask(CALL_BEGIN, 3, PLACE(3)));
    made(ask_receive(3, hex("65 10 48 01 07 49 04 03 00 00 00 6C 05 A2 03 02 01 06")));
    for (unsigned place = 0; place < 4; place++)
        made(with(ask_invoke(3, PLACE(place), 1, 4), hex("02 01 3B"), deep));
    if (full)
        copy_place(3, 4, TCAP_PLACES - 1);
}

/* ---- EACH CALL ----------------------------------------------------------------------------------------------------------------------- */

static uint8_t sound[TCAP_TABLE_OCTETS];
static size_t deepest;

static void measure(struct request r)
{
    size_t octets;
    asked = r;
    memcpy(the_table, sound, sizeof sound);
    octets = depth(the_call);
    if (octets > deepest)
        deepest = octets;
}

/* The call on octets of depth 16 and 17, for a dialogue in each state. */
static void measure_call(enum call call, enum form form, unsigned place)
{
    static const unsigned types[] = { 0x61, 0x62, 0x64, 0x65, 0x67 };
    int id = call == CALL_INVOKE || call == CALL_INVOKE_LINKED ? 9 : call == CALL_REJECT_TIMEOUT ? 6 : 5;
    struct request r = ask_id(call, 3, PLACE(place), id);
    r.number = call == CALL_REJECT ? (uint32_t)TCAP_DUPLICATE_INVOKE_ID : 1;
    for (size_t levels = 13; levels <= 16; levels++) {
        if (call == CALL_FRESH)
            measure(with(r, repeat(16, one(0)), repeat(16, one(128))));
        else if (call == CALL_ABORT)
            measure(with(r, element(0x6B, parameter(form, levels)), none));
        else if ((call >= CALL_BEGIN && call <= CALL_END) || call == CALL_UNIDIRECTIONAL)
            measure(with(r, hex("06 03 04 00 00"), element(0xBE, parameter(form, levels - 4))));
        else if (call == CALL_RECEIVE)
            for (size_t i = 0; i < sizeof types / sizeof *types; i++)
                measure(with(r, message(form, types[i], levels), none));
        else
            measure(with(r, hex("02 01 3B"), parameter(form, levels)));
    }
    if (call == CALL_RECEIVE)
        measure(with(r, element(0x61, element(0x6C, repeat(100, hex("A2 03 02 01 05")))), none));
}

static void measure_parameter(void)
{
    size_t most = 0;
    for (int form = 0; form < FORMS; form++) {
        size_t octets;
        asked.first = element(0xA1, join(hex("02 01 05 02 01 3B"), parameter((enum form)form, 15)));
        octets = depth(the_parameter);
        most = octets > most ? octets : most;
        if (span.start == 0)
            exit(1);
    }
    asked.first = none;
    printf("%-16s %6zu\n", "parameter", most - depth(nothing));
}

/* A response whose information nests to depth 16. */
static void measure_portion(void)
{
    size_t most = 0;
    for (int form = 0; form < FORMS; form++) {
        struct octets pdu = join(hex("80 02 07 80 A1 03 06 01 2A A2 03 02 01 00 A3 05 A1 03 02 01 00"),
                                 element(0xBE, parameter((enum form)form, 11)));
        size_t octets;
        asked.first = element(0x6B, element(0x28, join(hex("06 07 00 11 86 05 01 01 01"), element(0xA0, element(0x61, pdu)))));
        octets = depth(the_portion);
        most = octets > most ? octets : most;
        if (tcap_portion_number(rows, TCAP_PORTION_KIND) != TCAP_AARE)
            exit(1);
    }
    asked.first = none;
    printf("%-16s %6zu\n", "portion", most - depth(nothing));
}

int main(void)
{
    size_t own;
    asked = ask(CALLS, 0, 0);
    own = depth(the_call);
    for (int call = CALL_FRESH; call < CALLS; call++) {
        deepest = 0;
        for (int variant = 0; variant < 2 * FORMS; variant++) {
            table((enum form)(variant / 2), variant % 2);
            memcpy(sound, the_table, sizeof sound);
            for (unsigned place = 0; place < 4; place++)
                measure_call((enum call)call, (enum form)(variant / 2), place);
        }
        printf("%-16s %6zu\n", call_names[call], deepest - own);
    }
    measure_parameter();
    measure_portion();
    return 0;
}
