/*
 * cost.c - one case of work, repeated, for an instruction counter (tools/calls-cost): cost CASE REPETITIONS. Before each repetition the
 * table is put back as it was; the case `restore` is that alone, to be taken off. Without arguments: the names of the cases.
 */
#include "guard.h"

#include <stdio.h>
#include <stdlib.h>
#include <string.h>

static uint8_t rows[TCAP_ROWS_OCTETS], space[TCAP_SPACE_OCTETS], kept[TCAP_TABLE_OCTETS];
static struct octets message;

#define TABLE the_table, sizeof the_table
#define ROWS rows, sizeof rows
#define SPACE space, sizeof space

static void need(struct tcap_reply r, uint32_t answer)
{
    if (r.answer != answer) {
        fprintf(stderr, "cost: answer %u, not %u\n", r.answer, answer);
        exit(1);
    }
}

/* ---- TABLES -------------------------------------------------------------------------------------------------------------------------- */

static void empty(void)
{
    made(ask_fresh(repeat(16, one(0)), repeat(16, one(128))));
}

/* Place 0 is Active, service 3, with this many invocations Sent. */
static void active(int invocations)
{
    empty();
    made(ask(CALL_OPEN, 3, 0));
    for (int id = 0; id < invocations; id++)
        made(ask_invoke(3, 0, id, 1));
    made(ask(CALL_BEGIN, 3, 0));
    made(ask_receive(3, hex("65 09 48 01 07 49 04 00 00 00 00")));
}

static void dialogues_1(void) { active(0); }
static void dialogues_64(void) { active(0); copy_place(0, 1, 63); }
static void dialogues_128(void) { active(0); copy_place(0, 1, 127); }
static void invocations_8(void) { active(8); copy_place(0, 1, 127); }

static void waiting_results(void)
{
    active(0);
    for (int n = 0; n < 48; n++)
        made(ask_id(CALL_RESULT_LAST, 3, 0, n));
    copy_place(0, 1, 127);
}

static void waiting_invoke(struct octets parameter)
{
    active(0);
    made(with(ask_invoke(3, 0, 1, 1), hex("02 01 3B"), parameter));
    copy_place(0, 1, 127);
}

static void waiting_long(void) { waiting_invoke(primitive(231)); }
static void waiting_elements(void) { waiting_invoke(element(0x30, repeat(114, hex("04 00")))); }

static void waiting_rejects(void)
{
    active(0);
    for (int n = 0; n < 8; n++)
        made(ask_receive(3, hex("65 0D 48 01 07 49 04 00 00 00 00 6C 02 A9 00")));
    copy_place(0, 1, 127);
}

/* Place 0 is Open, with an invoke of this class waiting. */
static void asking(uint32_t cls)
{
    empty();
    made(ask(CALL_OPEN, 3, 0));
    made(ask_invoke(3, 0, 5, cls));
}

static void asking_1(void) { asking(1); }
static void asking_4(void) { asking(4); }

/* Active, or Received, with a result waiting. */
static void answering(void)
{
    active(0);
    made(ask_id(CALL_RESULT_LAST, 3, 0, 5));
}

static void answering_first(void)
{
    empty();
    made(ask_receive(3, hex("62 03 48 01 07")));
    made(ask_id(CALL_RESULT_LAST, 3, 0, 5));
}

/* ---- WORK ---------------------------------------------------------------------------------------------------------------------------- */

static void nothing(void) { }

/* The check of the table alone: the service is judged right after it. */
static void checked(void) { need(tcap_open(TABLE, 16), TCAP_NO_SERVICE); }

static void receive(void) { need(tcap_receive(TABLE, 3, message.octet, message.count, ROWS, SPACE), TCAP_DONE); }

static void transaction(void)
{
    static const uint8_t operation[] = { 0x02, 0x01, 0x3B };
    need(tcap_open(TABLE, 3), TCAP_DONE);
    need(tcap_invoke(TABLE, 3, 0, 5, 1, operation, sizeof operation, TCAP_NONE), TCAP_DONE);
    need(tcap_begin(TABLE, 3, 0, TCAP_NONE, TCAP_NONE, SPACE), TCAP_DONE);
    receive();
}

static const uint8_t name[] = { 0x06, 0x07, 0x04, 0x00, 0x00, 0x01, 0x00, 0x01, 0x03 };
#define NAME name, sizeof name

static void send_begin(void) { need(tcap_begin(TABLE, 3, 0, TCAP_NONE, TCAP_NONE, SPACE), TCAP_DONE); }
static void send_continue(void) { need(tcap_continue(TABLE, 3, 0, TCAP_NONE, TCAP_NONE, SPACE), TCAP_DONE); }
static void send_end(void) { need(tcap_end(TABLE, 3, 0, TCAP_NONE, TCAP_NONE, SPACE), TCAP_DONE); }
static void send_uni(void) { need(tcap_unidirectional(TABLE, 3, 0, TCAP_NONE, TCAP_NONE, SPACE), TCAP_DONE); }
static void send_abort(void) { need(tcap_abort(TABLE, 3, 0, TCAP_NONE, SPACE), TCAP_DONE); }
static void begin_named(void) { need(tcap_begin(TABLE, 3, 0, NAME, TCAP_NONE, SPACE), TCAP_DONE); }
static void continue_named(void) { need(tcap_continue(TABLE, 3, 0, NAME, TCAP_NONE, SPACE), TCAP_DONE); }
static void portion_read(void) { need(tcap_portion(message.octet, message.count, 0, message.count, ROWS), TCAP_DONE); }

#define RESPONSE "6B 2A 28 28 06 07 00 11 86 05 01 01 01 A0 1D 61 1B 80 02 07 80 A1 09 06 07 04 00 00 01 00 01 03 A2 03 02 01 00 A3 05 A1 03 02 01 00"
#define CONTINUE "65 13 48 01 07 49 04 00 00 00 00 6C 08 A1 06 02 01 05 02 01 3B"

static const struct { const char *name; void (*prepare)(void), (*once)(void); const char *message; } cases[] = {
    { "restore", empty, nothing, "" },
    { "continue-1", dialogues_1, receive, CONTINUE },
    { "continue-64", dialogues_64, receive, CONTINUE },
    { "continue-128", dialogues_128, receive, CONTINUE },
    { "transaction", empty, transaction, "64 0D 49 04 00 00 00 00 6C 05 A2 03 02 01 05" },
    { "malformed", empty, receive, "62 04 48 01 07" },
    { "unidirectional", empty, receive, "100 components" },
    { "send-begin", asking_1, send_begin, "" },
    { "send-continue", answering, send_continue, "" },
    { "send-end", answering, send_end, "" },
    { "send-uni", asking_4, send_uni, "" },
    { "send-abort", answering, send_abort, "" },
    { "begin-named", asking_1, begin_named, "" },
    { "continue-named", answering_first, continue_named, "" },
    { "portion-read", empty, portion_read, RESPONSE },
    { "check-empty", empty, checked, "" },
    { "check-64", dialogues_64, checked, "" },
    { "check-128", dialogues_128, checked, "" },
    { "check-invocations", invocations_8, checked, "" },
    { "check-rejects", waiting_rejects, checked, "" },
    { "check-long", waiting_long, checked, "" },
    { "check-results", waiting_results, checked, "" },
    { "check-elements", waiting_elements, checked, "" },
};

static struct octets message_of(const char *text)
{
    if (strcmp(text, "100 components") != 0)
        return hex(text);
    return element(0x61, element(0x6C, join(repeat(99, hex("A2 03 02 01 05")), hex("A1 07 02 01 05 02 02 01 3B"))));
}

int main(int argc, char **argv)
{
    for (size_t i = 0; i < sizeof cases / sizeof *cases; i++) {
        if (argc < 3)
            puts(cases[i].name);
        else if (strcmp(argv[1], cases[i].name) == 0) {
            cases[i].prepare();
            message = message_of(cases[i].message);
            memcpy(kept, the_table, sizeof kept);
            for (long n = atol(argv[2]); n > 0; n--) {
                memcpy(the_table, kept, sizeof kept);
                cases[i].once();
            }
            return 0;
        }
    }
    return argc < 3 ? 0 : 2;
}
