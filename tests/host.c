/*
 * host.c - every call of the engine as a C host makes it: each answer number at its edge, messages octet by octet, rows by number.
 * The whole list is run twice, with every space lent flush against an upper and then against a lower guard page.
 */
#include "guard.h"

#include <stdio.h>
#include <string.h>

#define OPERATION hex("02 01 3B")

/* ---- TABLES AND DIALOGUES TO START FROM ---------------------------------------------------------------------------------------------- */

/* Guarantees of 4 and limits of 64. */
static void start(void)
{
    ANSWERS(TCAP_DONE, ask_fresh(repeat(16, one(4)), repeat(16, one(64))));
}

static uint32_t opened(uint32_t service)
{
    const struct outcome *o = play(ask(CALL_OPEN, service, 0));
    CHECK(o->reply.answer == TCAP_DONE, "a dialogue is opened");
    return o->reply.dialogue;
}

/* A dialogue in Sent, whose invocation `id` is Sent. */
static uint32_t begun(uint32_t service, int id, uint32_t cls)
{
    uint32_t d = opened(service);
    ANSWERS(TCAP_DONE, ask_invoke(service, d, id, cls));
    CHECK(play(ask(CALL_BEGIN, service, d))->reply.answer == TCAP_DONE, "a dialogue is begun");
    return d;
}

static uint32_t received(uint32_t service)
{
    const struct outcome *o = play(ask_receive(service, hex("62 03 48 01 07")));
    CHECK(o->reply.rows == 1, "a Begin is received");
    return tcap_row(o->rows, 0, TCAP_ROW_DIALOGUE);
}

static struct octets local_id(uint32_t d)
{
    return join(join(one(d >> 24), one(d >> 16)), join(one(d >> 8), one(d)));
}

static struct octets components(struct octets list)
{
    return list.count > 0 ? element(0x6C, list) : none;
}

static struct octets continue_to(uint32_t d, struct octets list)
{
    return element(0x65, join(hex("48 01 07"), join(element(0x49, local_id(d)), components(list))));
}

static struct octets end_to(uint32_t d, struct octets list)
{
    return element(0x64, join(element(0x49, local_id(d)), components(list)));
}

/* A dialogue in Active with the peer's ID 07, whose invocation `id` is Sent. */
static uint32_t active(uint32_t service, int id, uint32_t cls)
{
    uint32_t d = begun(service, id, cls);
    CHECK(play(ask_receive(service, continue_to(d, none)))->reply.rows == 1, "a Continue is received");
    return d;
}

static void brings(uint32_t service, uint32_t d, const char *list)
{
    CHECK(play(ask_receive(service, continue_to(d, hex(list))))->reply.rows == 2, "a component is received");
}

/* Places 0 to 3 of service 15 are in Open, Sent, Received and Active; 5 is Sent in places 1 and 3, 6 is in Wait in place 3. */
static void four_states(void)
{
    start();
    ANSWERS(TCAP_DONE, ask_invoke(15, opened(15), 1, 4));
    begun(15, 5, 1);
    received(15);
    active(15, 6, 1);
    ANSWERS(TCAP_DONE, ask_invoke(15, PLACE(3), 5, 1));
    CHECK(play(ask(CALL_CONTINUE, 15, PLACE(3)))->reply.answer == TCAP_DONE, "5 is sent");
    brings(15, PLACE(3), "A2 03 02 01 06");
}

/* ---- WHAT ALL CALLS ON A TABLE REFUSE ------------------------------------------------------------------------------------------------ */

/* A request of this call that four_states() takes. */
static struct request sound(enum call call)
{
    switch (call) {
    case CALL_INVOKE: return ask_invoke(15, PLACE(0), 2, 1);
    case CALL_INVOKE_LINKED: return ask_linked(15, PLACE(0), 2, 9, 1);
    case CALL_ERROR: return ask_error(15, PLACE(3), 9);
    case CALL_REJECT: return ask_reject(15, PLACE(3), 9, TCAP_DUPLICATE_INVOKE_ID);
    case CALL_RESULT_LAST:
    case CALL_RESULT_NOT_LAST:
    case CALL_END: return ask(call, 15, PLACE(3));
    case CALL_CANCEL:
    case CALL_TIMEOUT: return ask_id(call, 15, PLACE(3), 5);
    case CALL_REJECT_TIMEOUT: return ask_id(call, 15, PLACE(3), 6);
    case CALL_CONTINUE: return ask(call, 15, PLACE(2));
    case CALL_NO_REACTION: return ask(call, 15, PLACE(1));
    case CALL_RECEIVE: return ask_receive(15, hex("62 03 48 01 07"));
    default: return ask(call, 15, PLACE(0));
    }
}

static void answers_sound(uint32_t answer, struct request r)
{
    uint32_t got;
    four_states();
    got = play(r)->reply.answer;
    CHECK(got == answer, "%s: answer %u, not %u", call_names[r.call], got, answer);
}

static void every_call_done(void)
{
    CHECK(tcap_table_size() == TCAP_TABLE_OCTETS, "table size %zu", tcap_table_size());
    for (int call = CALL_OPEN; call < CALLS; call++)
        answers_sound(TCAP_DONE, sound((enum call)call));
}

static void answer_1_table(void)
{
    static const size_t wrong[] = { 0, 1, TCAP_TABLE_OCTETS - 1, TCAP_TABLE_OCTETS + 1 };
    for (int call = CALL_OPEN; call < CALLS; call++)
        for (size_t i = 0; i < sizeof wrong / sizeof *wrong; i++) {
            struct request r = sound((enum call)call);
            r.table_octets = wrong[i];
            answers_sound(TCAP_WRONG_SIZE, r);
            r.service = 16;
            answers_sound(TCAP_WRONG_SIZE, r);
        }
}

static void answer_1_rows_and_space(void)
{
    for (int call = CALL_OPEN; call < CALLS; call++) {
        struct request r = sound((enum call)call);
        for (int more = -1; more <= 1; more++) {
            r.rows_octets = (size_t)(TCAP_ROWS_OCTETS + more);
            answers_sound(more < 0 && takes_rows(r.call) ? TCAP_WRONG_SIZE : TCAP_DONE, r);
        }
        for (int more = -1; more <= 1; more++) {
            r.space_octets = (size_t)(TCAP_SPACE_OCTETS + more);
            answers_sound(more < 0 && takes_space(r.call) ? TCAP_WRONG_SIZE : TCAP_DONE, r);
        }
        r.rows_octets = r.space_octets = 0;
        answers_sound(takes_rows(r.call) || takes_space(r.call) ? TCAP_WRONG_SIZE : TCAP_DONE, r);
    }
}

/* One octet of a sound table changed so that it breaks a rule: map, shares, a place in use, a free place. */
static void answer_2(void)
{
    static const struct { size_t offset; uint8_t value; } breaks[] = {
        { 0, 0xF1 }, { 8, 0x7F }, { 16, 65 }, { 32, 129 }, { 48 + 3, 5 }, { 48 + 284 + 5, 1 }, { 48 + 3 * 284 + 13, 0x05 },
        { TCAP_TABLE_OCTETS - 1, 1 },
    };
    for (int call = CALL_OPEN; call < CALLS; call++)
        for (size_t i = 0; i < sizeof breaks / sizeof *breaks; i++) {
            struct request r = sound((enum call)call);
            four_states();
            the_table[breaks[i].offset] = breaks[i].value;
            r.service = 15 + (i & 1);
            CHECK(play(r)->reply.answer == TCAP_BROKEN_TABLE, "%s: octet %zu changed", call_names[call], breaks[i].offset);
        }
}

static void answer_3(void)
{
    for (int call = CALL_OPEN; call < CALLS; call++) {
        struct request r = sound((enum call)call);
        r.service = 16;
        answers_sound(TCAP_NO_SERVICE, r);
        r.service = UINT32_MAX;
        r.dialogue = PLACE(127);
        answers_sound(TCAP_NO_SERVICE, r);
    }
}

static void answer_4(void)
{
    four_states();
    ANSWERS(TCAP_MESSAGE_SIZE, ask_receive(15, none));
    ANSWERS(TCAP_DONE, ask_receive(15, hex("62")));
    ANSWERS(TCAP_DONE, ask_receive(15, join(hex("7F 21"), repeat(510, one(0)))));
    ANSWERS(TCAP_MESSAGE_SIZE, ask_receive(15, join(hex("7F 21"), repeat(511, one(0)))));
    ANSWERS(TCAP_NO_SERVICE, ask_receive(16, none));
}

static void answer_5(void)
{
    for (int call = CALL_INVOKE; call < CALLS; call++) {
        struct request r = sound((enum call)call);
        const uint32_t wrong[] = { r.dialogue + 1, r.dialogue + 0x800000, r.dialogue | PLACE(128), PLACE(4), PLACE(127), UINT32_MAX };
        if (call == CALL_RECEIVE)
            continue;
        for (size_t i = 0; i < sizeof wrong / sizeof *wrong; i++) {
            r.dialogue = wrong[i];
            answers_sound(TCAP_NO_DIALOGUE, r);
        }
        r = sound((enum call)call);
        r.service = 14;
        answers_sound(TCAP_NO_DIALOGUE, r);
    }
}

/* ---- STATES -------------------------------------------------------------------------------------------------------------------------- */

/* What each call answers in Open, Sent, Received and Active, on the invocations of four_states(). */
static void answer_6(void)
{
    static const struct { enum call call; uint32_t answer[4]; } states[] = {
        { CALL_INVOKE, { 0, 0, 0, 0 } }, { CALL_INVOKE_LINKED, { 0, 0, 0, 0 } }, { CALL_RESULT_LAST, { 6, 0, 0, 0 } },
        { CALL_RESULT_NOT_LAST, { 6, 0, 0, 0 } }, { CALL_ERROR, { 6, 0, 0, 0 } }, { CALL_REJECT, { 6, 0, 0, 0 } },
        { CALL_CANCEL, { 9, 0, 9, 0 } }, { CALL_BEGIN, { 0, 6, 6, 6 } }, { CALL_CONTINUE, { 6, 6, 0, 0 } },
        { CALL_END, { 6, 6, 0, 0 } }, { CALL_END_PREARRANGED, { 0, 0, 0, 0 } }, { CALL_ABORT, { 0, 0, 0, 0 } },
        { CALL_UNIDIRECTIONAL, { 0, 6, 6, 6 } }, { CALL_TIMEOUT, { 9, 0, 9, 0 } }, { CALL_REJECT_TIMEOUT, { 9, 9, 9, 0 } },
        { CALL_NO_REACTION, { 6, 0, 6, 6 } },
    };
    for (size_t i = 0; i < sizeof states / sizeof *states; i++)
        for (unsigned place = 0; place < 4; place++) {
            struct request r = sound(states[i].call);
            r.dialogue = PLACE(place);
            answers_sound(states[i].answer[place], r);
        }
}

static void answer_6_before_the_next(void)
{
    four_states();
    ANSWERS(TCAP_WRONG_STATE, with(ask_error(15, PLACE(0), 9), none, none));
    ANSWERS(TCAP_WRONG_STATE, with(ask(CALL_RESULT_LAST, 15, PLACE(0)), OPERATION, none));
    ANSWERS(TCAP_WRONG_STATE, with(ask(CALL_RESULT_NOT_LAST, 15, PLACE(0)), none, OPERATION));
    ANSWERS(TCAP_WRONG_STATE, ask_reject(15, PLACE(0), 9, 5));
}

static void answer_6_unidirectional(void)
{
    uint32_t d;
    start();
    d = opened(3);
    ANSWERS(TCAP_WRONG_STATE, ask(CALL_UNIDIRECTIONAL, 3, d));
    ANSWERS(TCAP_DONE, ask_invoke(3, d, -128, 4));
    ANSWERS(TCAP_DONE, ask_linked(3, d, 127, -1, 4));
    WRITES("61 15 6C 13 A1 06 02 01 80 02 01 3B A1 09 02 01 7F 80 01 FF 02 01 3B", ask(CALL_UNIDIRECTIONAL, 3, d));
    ANSWERS(TCAP_NO_DIALOGUE, ask(CALL_UNIDIRECTIONAL, 3, d));
    d = opened(3);
    ANSWERS(TCAP_DONE, ask_invoke(3, d, 1, 4));
    ANSWERS(TCAP_DONE, ask_invoke(3, d, 2, 3));
    ANSWERS(TCAP_WRONG_STATE, ask(CALL_UNIDIRECTIONAL, 3, d));
}

static void answer_7(void)
{
    start();
    for (unsigned n = 0; n < 64; n++)
        OPENS(PLACE(n), ask(CALL_OPEN, 3, 0));
    ANSWERS(TCAP_NO_PLACE, ask(CALL_OPEN, 3, 0));
    WRITES("67 06 49 01 07 4A 01 04", ask_receive(3, hex("62 03 48 01 07")));
    OPENS(PLACE(64), ask(CALL_OPEN, 4, 0));
    ANSWERS(TCAP_DONE, ask(CALL_END_PREARRANGED, 3, PLACE(5)));
    OPENS(PLACE(5) + 1, ask(CALL_OPEN, 3, 0));
}

/* 01, "Octets to try": service 0 alone gets 125 of 128, since 3 are kept for service 1. */
static void guarantees_are_kept(void)
{
    ANSWERS(TCAP_DONE, ask_fresh(join(hex("02 03"), repeat(14, one(0))), join(hex("80 03"), repeat(14, one(0)))));
    for (unsigned n = 0; n < 125; n++)
        OPENS(PLACE(n), ask(CALL_OPEN, 0, 0));
    ANSWERS(TCAP_NO_PLACE, ask(CALL_OPEN, 0, 0));
    ANSWERS(TCAP_NO_PLACE, ask(CALL_OPEN, 2, 0));
    for (unsigned n = 125; n < 128; n++)
        OPENS(PLACE(n), ask(CALL_OPEN, 1, 0));
    ANSWERS(TCAP_NO_PLACE, ask(CALL_OPEN, 1, 0));
    ANSWERS(TCAP_DONE, ask(CALL_END_PREARRANGED, 1, PLACE(126)));
    ANSWERS(TCAP_NO_PLACE, ask(CALL_OPEN, 0, 0));
    OPENS(PLACE(126) + 1, ask(CALL_OPEN, 1, 0));
}

static void all_places(void)
{
    ANSWERS(TCAP_DONE, ask_fresh(repeat(16, one(0)), repeat(16, one(128))));
    for (unsigned n = 0; n < 128; n++)
        OPENS(PLACE(n), ask(CALL_OPEN, n % 16, 0));
    ANSWERS(TCAP_NO_PLACE, ask(CALL_OPEN, 9, 0));
    WRITES("67 06 49 01 07 4A 01 04", ask_receive(9, hex("62 03 48 01 07")));
}

/* A dialogue of service 3 that is freed at once: every way there is. */
#define WAYS 9
static uint32_t freed(unsigned way)
{
    uint32_t d = way < 3 ? opened(3) : way < 7 ? begun(3, 1, 1) : received(3);
    if (way == 2)
        ANSWERS(TCAP_DONE, ask_invoke(3, d, 1, 4));
    const struct request ways[WAYS] = {
        ask(CALL_END_PREARRANGED, 3, d), ask(CALL_ABORT, 3, d), ask(CALL_UNIDIRECTIONAL, 3, d), ask(CALL_NO_REACTION, 3, d),
        ask_receive(3, end_to(d, none)), ask_receive(3, element(0x67, element(0x49, local_id(d)))),
        ask_receive(3, join(continue_to(d, none), one(0))), ask(CALL_END, 3, d), ask_receive(3, continue_to(d, none)),
    };
    CHECK(play(ways[way])->reply.answer == TCAP_DONE, "way %u of freeing is done", way);
    return d;
}

/* A fresh table whose place 0 has this turn. */
static void start_at(uint32_t turn)
{
    start();
    for (unsigned i = 0; i < 3; i++)
        the_table[PLACES_AT + i] = (uint8_t)(turn >> (16 - 8 * i));
}

/* Too many calls would lead up to these turns, so the table is handed in with them: it keeps the rules. */
static void turns_go_round(void)
{
    static const uint32_t turns[][2] = {
        { 0, 1 }, { 0xFF, 0x100 }, { 0xFFFF, 0x10000 }, { 0x01FFFF, 0x020000 }, { 0xFFFFFE, 0xFFFFFF }, { 0xFFFFFF, 0 },
    };
    for (size_t i = 0; i < sizeof turns / sizeof *turns; i++)
        for (unsigned way = 0; way < WAYS; way++) {
            start_at(turns[i][0]);
            CHECK(freed(way) == turns[i][0], "way %u: the dialogue has turn %X", way, turns[i][0]);
            OPENS(turns[i][1], ask(CALL_OPEN, 3, 0));
            ANSWERS(TCAP_NO_DIALOGUE, ask(CALL_BEGIN, 3, turns[i][0]));
            ANSWERS(TCAP_DONE, ask(CALL_ABORT, 3, turns[i][1]));
        }
}

/* The turn's octets stand high first, in what is written and in what is looked for. */
static void turns_in_messages(void)
{
    start_at(0x010203);
    OPENS(0x010203, ask(CALL_OPEN, 3, 0));
    WRITES("62 06 48 04 00 01 02 03", ask(CALL_BEGIN, 3, 0x010203));
    WRITES("67 06 49 01 07 4A 01 01", ask_receive(3, continue_to(0x030201, none)));
    WRITES("67 06 49 01 07 4A 01 01", ask_receive(3, continue_to(0x010204, none)));
    WRITES("67 06 49 01 07 4A 01 01", ask_receive(3, continue_to(0x000203, none)));
    WRITES("67 06 49 01 07 4A 01 01", ask_receive(3, continue_to(0x010003, none)));
    SHOWS("3 66051 256 256 65535 0 0 0;", ask_receive(3, continue_to(0x010203, none)));
    WRITES("65 09 48 04 00 01 02 03 49 01 07", ask(CALL_CONTINUE, 3, 0x010203));
}

/* ---- REQUESTS ON COMPONENTS ---------------------------------------------------------------------------------------------------------- */

static void answer_8_classes(void)
{
    static const uint32_t classes[] = { 0, 1, 4, 5, 256 + 1, UINT32_MAX };
    for (size_t i = 0; i < sizeof classes / sizeof *classes; i++) {
        uint32_t answer = i == 1 || i == 2 ? TCAP_DONE : TCAP_WRONG_CODE;
        start();
        ANSWERS(answer, ask_invoke(3, opened(3), 5, classes[i]));
        ANSWERS(answer, ask_linked(3, opened(3), 5, 6, classes[i]));
    }
    four_states();
    ANSWERS(TCAP_WRONG_CODE, ask_invoke(15, PLACE(3), 5, 5));
    ANSWERS(TCAP_WRONG_CODE, ask_linked(15, PLACE(3), 6, 9, 0));
}

/* The user's problems by number; on an ID that isn't open those of a result or an error are 9. */
static void answer_8_problems(void)
{
    four_states();
    for (uint32_t problem = 0; problem < 1300; problem++) {
        int invoke = problem >= 256 && problem <= 263 && problem != 261;
        int result = problem == 514, error = problem >= 770 && problem <= 772;
        ANSWERS(invoke ? TCAP_DONE : result || error ? TCAP_WRONG_INVOCATION : TCAP_WRONG_CODE, ask_reject(15, PLACE(3), 9, problem));
    }
    ANSWERS(TCAP_WRONG_CODE, ask_reject(15, PLACE(3), 9, 65536 + 256));
    ANSWERS(TCAP_WRONG_CODE, ask_reject(15, PLACE(3), 9, UINT32_MAX));
    WRITES("65 43 48 04 03 00 00 00 49 01 07 6C 38"
           "A4 06 02 01 09 81 01 00 A4 06 02 01 09 81 01 01 A4 06 02 01 09 81 01 02 A4 06 02 01 09 81 01 03"
           "A4 06 02 01 09 81 01 04 A4 06 02 01 09 81 01 06 A4 06 02 01 09 81 01 07", ask(CALL_CONTINUE, 15, PLACE(3)));
}

/* An invocation's way through Pending, Sent, Wait and Rejecting to Idle, and who is refused where. */
static void answer_9(void)
{
    const uint32_t result = TCAP_MISTYPED_RESULT_PARAMETER, error = TCAP_UNEXPECTED_ERROR;
    uint32_t d;
    start();
    d = active(3, 1, 1);
    ANSWERS(TCAP_DONE, ask_invoke(3, d, 5, 1));
    ANSWERS(TCAP_WRONG_INVOCATION, ask_invoke(3, d, 5, 1));
    ANSWERS(TCAP_WRONG_INVOCATION, ask_linked(3, d, 5, 1, 1));
    ANSWERS(TCAP_WRONG_INVOCATION, ask_id(CALL_CANCEL, 3, d, 5));
    ANSWERS(TCAP_WRONG_INVOCATION, ask_id(CALL_TIMEOUT, 3, d, 5));
    WRITES("65 13 48 04 00 00 00 00 49 01 07 6C 08 A1 06 02 01 05 02 01 3B", ask(CALL_CONTINUE, 3, d));
    ANSWERS(TCAP_WRONG_INVOCATION, ask_reject(3, d, 5, result));
    ANSWERS(TCAP_WRONG_INVOCATION, ask_id(CALL_REJECT_TIMEOUT, 3, d, 5));
    brings(3, d, "A2 03 02 01 05");
    ANSWERS(TCAP_WRONG_INVOCATION, ask_invoke(3, d, 5, 1));
    ANSWERS(TCAP_WRONG_INVOCATION, ask_id(CALL_CANCEL, 3, d, 5));
    ANSWERS(TCAP_WRONG_INVOCATION, ask_id(CALL_TIMEOUT, 3, d, 5));
    ANSWERS(TCAP_DONE, ask_reject(3, d, 5, error));
    ANSWERS(TCAP_WRONG_INVOCATION, ask_reject(3, d, 5, error));
    ANSWERS(TCAP_WRONG_INVOCATION, ask_id(CALL_REJECT_TIMEOUT, 3, d, 5));
    ANSWERS(TCAP_WRONG_INVOCATION, ask_invoke(3, d, 5, 1));
    WRITES("65 13 48 04 00 00 00 00 49 01 07 6C 08 A4 06 02 01 05 83 01 03", ask(CALL_CONTINUE, 3, d));
    ANSWERS(TCAP_DONE, ask_invoke(3, d, 5, 1));
}

static void answer_9_after_a_result_not_last(void)
{
    uint32_t d;
    start();
    d = active(3, 5, 1);
    ANSWERS(TCAP_WRONG_INVOCATION, ask_reject(3, d, 5, TCAP_MISTYPED_RESULT_PARAMETER));
    brings(3, d, "A7 03 02 01 05");
    ANSWERS(TCAP_WRONG_INVOCATION, ask_reject(3, d, 5, TCAP_UNRECOGNIZED_ERROR));
    ANSWERS(TCAP_DONE, ask_reject(3, d, 5, TCAP_MISTYPED_RESULT_PARAMETER));
    ANSWERS(TCAP_WRONG_INVOCATION, ask_id(CALL_CANCEL, 3, d, 5));
}

static void answer_9_until_idle(void)
{
    uint32_t d;
    start();
    d = active(3, 5, 1);
    ANSWERS(TCAP_DONE, ask_id(CALL_CANCEL, 3, d, 5));
    ANSWERS(TCAP_WRONG_INVOCATION, ask_id(CALL_CANCEL, 3, d, 5));
    d = active(3, 5, 1);
    brings(3, d, "A3 06 02 01 05 02 01 01");
    ANSWERS(TCAP_DONE, ask_id(CALL_REJECT_TIMEOUT, 3, d, 5));
    ANSWERS(TCAP_WRONG_INVOCATION, ask_id(CALL_REJECT_TIMEOUT, 3, d, 5));
}

static void answer_10(void)
{
    uint32_t d;
    start();
    d = opened(3);
    for (int id = 0; id < 8; id++)
        ANSWERS(TCAP_DONE, ask_invoke(3, d, id - 128, 4));
    ANSWERS(TCAP_INVOCATIONS_FULL, ask_invoke(3, d, 127, 1));
    ANSWERS(TCAP_INVOCATIONS_FULL, ask_linked(3, d, 127, 0, 1));
    ANSWERS(TCAP_INVOCATIONS_FULL, with(ask_invoke(3, d, 127, 1), none, none));
    ANSWERS(TCAP_WRONG_INVOCATION, ask_invoke(3, d, -128, 1));
    ANSWERS(TCAP_WRONG_CODE, ask_invoke(3, d, -128, 5));
}

/* ---- OCTETS GIVEN -------------------------------------------------------------------------------------------------------------------- */

static const char *const codes[] = { "02 01 3B", "02 04 01 02 03 04", "06 01 80", "06 03 2A 03 04", NULL };
static const char *const no_codes[] = {
    "", "02", "02 00", "02 05 01 02 03 04 05", "06 00", "04 01 3B", "22 00", "02 01", "02 01 3B 00", "02 81 01 3B", "02 80 00 00", NULL
};
static const char *const parameters[] = {
    "", "04 00", "30 00", "30 80 00 00", "30 80 04 01 00 00 00", "1F 1F 00", "BF FF FF FF 7F 00", "20 00", NULL
};
static const char *const no_parameters[] = {
    "04", "04 01", "04 00 04 00", "00 00", "04 80 00 00", "30 80 00", "30 02 04 01", "1F 1E 00", "1F 80 1F 00", "1F FF FF FF FF 7F 00",
    "04 81 01 00", "04 83 00 00 01 00", "30 80 04 00 00 00 00", NULL
};

/* Every operation or error with every parameter, for one call; 11 where the sum of what is wrong isn't 0. */
static void each_octets(uint32_t answer, struct request r, const char *const *first, const char *const *second)
{
    for (const char *const *f = first; *f; f++)
        for (const char *const *s = second; *s; s++) {
            uint32_t got, wanted = answer;
            four_states();
            if (r.call == CALL_RESULT_LAST || r.call == CALL_RESULT_NOT_LAST)
                wanted = (**f == 0) != (**s == 0) ? TCAP_WRONG_OCTETS : **f == 0 ? TCAP_DONE : answer;
            got = play(with(r, hex(*f), hex(*s)))->reply.answer;
            CHECK(got == wanted, "%s '%s' '%s': answer %u, not %u", call_names[r.call], *f, *s, got, wanted);
        }
}

static void answer_11(void)
{
    static const enum call calls[] = { CALL_INVOKE, CALL_INVOKE_LINKED, CALL_RESULT_LAST, CALL_RESULT_NOT_LAST, CALL_ERROR };
    for (size_t i = 0; i < sizeof calls / sizeof *calls; i++) {
        struct request r = sound(calls[i]);
        each_octets(TCAP_DONE, r, codes, parameters);
        each_octets(TCAP_WRONG_OCTETS, r, codes, no_parameters);
        each_octets(TCAP_WRONG_OCTETS, r, no_codes, parameters);
        each_octets(TCAP_WRONG_OCTETS, r, no_codes, no_parameters);
    }
}

/* The element reaches depth 16 in what it becomes part of, and then 17. */
static void answer_11_depth(void)
{
    static const struct { enum call call; size_t deepest; } calls[] = {
        { CALL_INVOKE, 15 }, { CALL_INVOKE_LINKED, 15 }, { CALL_ERROR, 15 }, { CALL_RESULT_LAST, 14 }, { CALL_RESULT_NOT_LAST, 14 },
    };
    for (size_t i = 0; i < sizeof calls / sizeof *calls; i++) {
        struct request r = sound(calls[i].call);
        answers_sound(TCAP_DONE, with(r, OPERATION, nested(calls[i].deepest, 0x30)));
        answers_sound(TCAP_WRONG_OCTETS, with(r, OPERATION, nested(calls[i].deepest + 1, 0x30)));
        answers_sound(TCAP_WRONG_OCTETS, with(r, OPERATION, nested(100, 0x30)));
    }
    answers_sound(TCAP_DONE, with(sound(CALL_ABORT), element(0x6B, nested(15, 0x30)), none));
    answers_sound(TCAP_WRONG_OCTETS, with(sound(CALL_ABORT), element(0x6B, nested(16, 0x30)), none));
}

static void answer_11_portion(void)
{
    static const char *const portions[] = { "", "6B 00", "6B 02 04 00", "6B 80 00 00", NULL };
    static const char *const wrong[] = { "6B", "6C 00", "6B 01 04", "6B 00 00", "6B 80 00", "6B 00 6B 00", "4B 00", NULL };
    for (unsigned place = 0; place < 4; place++) {
        struct request r = ask(CALL_ABORT, 15, PLACE(place));
        for (const char *const *p = portions; *p; p++)
            answers_sound(TCAP_DONE, with(r, hex(*p), none));
        for (const char *const *p = wrong; *p; p++)
            answers_sound(TCAP_WRONG_OCTETS, with(r, hex(*p), none));
        answers_sound(TCAP_WRONG_OCTETS, with(r, repeat(300, one(0x6B)), none));
    }
}

/* Components of 240 octets in all are taken, 241 are not: the head has 9 octets besides a parameter of over 127, with a linked ID
   12, a result 9 + 3, an error as an invoke. */
static void answer_12(void)
{
    static const struct { enum call call; size_t head; } calls[] = {
        { CALL_INVOKE, 9 }, { CALL_INVOKE_LINKED, 12 }, { CALL_ERROR, 9 }, { CALL_RESULT_LAST, 12 }, { CALL_RESULT_NOT_LAST, 12 },
    };
    for (size_t i = 0; i < sizeof calls / sizeof *calls; i++) {
        struct request r = sound(calls[i].call);
        r.dialogue = PLACE(2);
        answers_sound(TCAP_DONE, with(r, OPERATION, primitive(240 - calls[i].head)));
        ANSWERS(TCAP_TOO_LONG, ask_reject(15, PLACE(2), 9, TCAP_DUPLICATE_INVOKE_ID));
        answers_sound(TCAP_TOO_LONG, with(r, OPERATION, primitive(241 - calls[i].head)));
        answers_sound(TCAP_TOO_LONG, with(r, OPERATION, primitive(500)));
    }
}

static void answer_12_reject_and_portion(void)
{
    four_states();
    ANSWERS(TCAP_DONE, with(ask_invoke(15, PLACE(2), 1, 1), OPERATION, primitive(232 - 9)));
    ANSWERS(TCAP_DONE, ask_reject(15, PLACE(2), 9, TCAP_RESOURCE_LIMITATION));
    four_states();
    ANSWERS(TCAP_DONE, with(ask_invoke(15, PLACE(2), 1, 1), OPERATION, primitive(233 - 9)));
    ANSWERS(TCAP_TOO_LONG, ask_reject(15, PLACE(2), 9, TCAP_RESOURCE_LIMITATION));
    answers_sound(TCAP_DONE, with(ask(CALL_ABORT, 15, PLACE(2)), element(0x6B, primitive(237)), none));
    answers_sound(TCAP_TOO_LONG, with(ask(CALL_ABORT, 15, PLACE(2)), element(0x6B, primitive(238)), none));
    answers_sound(TCAP_TOO_LONG, with(ask(CALL_ABORT, 15, PLACE(0)), element(0x6B, primitive(400)), none));
}

/* ---- THE DIALOGUE PORTION (02 a) ----------------------------------------------------------------------------------------------------- */

#define NAME hex("06 07 04 00 00 01 00 01 03")
#define INFORMATION hex("BE 02 05 00")
#define STRUCTURED "06 07 00 11 86 05 01 01 01"
#define UNSTRUCTURED "06 07 00 11 86 05 01 02 01"
#define ACCEPTED "A2 03 02 01 00 A3 05 A1 03 02 01 00"

/* A whole portion around a PDU. */
static struct octets portion(const char *identifier, struct octets pdu)
{
    return element(0x6B, element(0x28, join(hex(identifier), element(0xA0, pdu))));
}

static struct request give(enum call call, unsigned place, struct octets name, struct octets information)
{
    return with(ask(call, 15, PLACE(place)), name, information);
}

/* From Open, Received, Received and Open, octet by octet. */
static void portions_written(void)
{
    four_states();
    WRITES("62 2C 48 04 00 00 00 00 6B 1A 28 18 06 07 00 11 86 05 01 01 01 A0 0D 60 0B A1 09 06 07 04 00 00 01 00 01 03"
           "6C 08 A1 06 02 01 01 02 01 3B", give(CALL_BEGIN, 0, NAME, none));
    four_states();
    WRITES("65 35 48 04 02 00 00 00 49 01 07 6B 2A 28 28 06 07 00 11 86 05 01 01 01 A0 1D 61 1B A1 09 06 07 04 00 00 01 00 01 03"
           "A2 03 02 01 00 A3 05 A1 03 02 01 00 BE 02 05 00", give(CALL_CONTINUE, 2, NAME, INFORMATION));
    WRITES("64 03 49 01 07", give(CALL_END, 2, none, none));
    four_states();
    WRITES("64 2B 49 01 07 6B 26 28 24 06 07 00 11 86 05 01 01 01 A0 19 61 17 A1 09 06 07 04 00 00 01 00 01 03"
           "A2 03 02 01 00 A3 05 A1 03 02 01 00", give(CALL_END, 2, NAME, none));
    four_states();
    WRITES("61 2A 6B 1E 28 1C 06 07 00 11 86 05 01 02 01 A0 11 60 0F A1 09 06 07 04 00 00 01 00 01 03 BE 02 05 00"
           "6C 08 A1 06 02 01 01 02 01 3B", give(CALL_UNIDIRECTIONAL, 0, NAME, INFORMATION));
    four_states();
    WRITES("67 1B 49 01 07 6B 16 28 14 06 07 00 11 86 05 01 01 01 A0 09 64 07 80 01 00 BE 02 05 00", give(CALL_ABORT, 3, INFORMATION, none));
    WRITES("67 19 49 01 07 6B 14 28 12 06 07 00 11 86 05 01 01 01 A0 07 64 05 80 01 00 BE 00", give(CALL_ABORT, 2, hex("BE 00"), none));
    WRITES("", give(CALL_ABORT, 0, INFORMATION, none));
    WRITES("", give(CALL_ABORT, 1, INFORMATION, none));
}

/* Each call that takes a name, and a place whose state takes one. */
static const struct { enum call call; unsigned place; size_t around; } takers[] = {
    { CALL_BEGIN, 0, 24 }, { CALL_CONTINUE, 2, 36 }, { CALL_END, 2, 36 }, { CALL_UNIDIRECTIONAL, 0, 24 },
};
#define TAKERS (sizeof takers / sizeof *takers)

static void answer_11_name_and_information(void)
{
    static const char *const names[] = { "06 01 2A", "06 07 04 00 00 01 00 01 03", NULL };
    static const char *const no_names[] = {
        "06", "06 00", "06 02 2A", "06 01 2A 00", "06 01 2A 06 01 2A", "02 01 2A", "26 03 06 01 2A", "06 80 2A 00 00", "A1 03 06 01 2A", "BE 00",
        NULL
    };
    static const char *const informations[] = { "BE 00", "BE 02 05 00", "BE 80 05 00 00 00", "BE 04 05 00 05 00", NULL };
    static const char *const no_informations[] = {
        "BE", "BE 01", "BE 02 05", "BE 02 05 01", "BE 00 BE 00", "BE 80 00", "9E 00", "30 00", "06 01 2A", NULL
    };
    for (size_t i = 0; i < TAKERS; i++) {
        for (const char *const *n = names; *n; n++)
            for (const char *const *u = informations; *u; u++) {
                four_states();
                CHECK(play(give(takers[i].call, takers[i].place, hex(*n), hex(*u)))->reply.answer == TCAP_DONE, "%s and %s are taken", *n, *u);
            }
        for (const char *const *n = no_names; *n; n++)
            answers_sound(TCAP_WRONG_OCTETS, give(takers[i].call, takers[i].place, hex(*n), none));
        for (const char *const *u = no_informations; *u; u++) {
            answers_sound(TCAP_WRONG_OCTETS, give(takers[i].call, takers[i].place, NAME, hex(*u)));
            answers_sound(TCAP_WRONG_OCTETS, give(takers[i].call, takers[i].place, none, hex(*u)));
            if (u[0][0] == 'B')
                answers_sound(TCAP_WRONG_OCTETS, give(CALL_ABORT, 2, hex(*u), none));
        }
    }
}

/* The information stands at depth 5 of its portion. */
static void answer_11_information_depth(void)
{
    for (size_t i = 0; i < TAKERS; i++) {
        four_states();
        CHECK(play(give(takers[i].call, takers[i].place, NAME, element(0xBE, nested(11, 0x30))))->reply.answer == TCAP_DONE, "depth 16 is taken");
        answers_sound(TCAP_WRONG_OCTETS, give(takers[i].call, takers[i].place, NAME, element(0xBE, nested(12, 0x30))));
    }
    four_states();
    CHECK(play(give(CALL_ABORT, 2, element(0xBE, nested(11, 0x30)), none))->reply.answer == TCAP_DONE, "depth 16 is taken");
    answers_sound(TCAP_WRONG_OCTETS, give(CALL_ABORT, 2, element(0xBE, nested(12, 0x30)), none));
}

/* A name of so many octets in all, over 130. */
static struct octets name_of(size_t octets) { return element(0x06, repeat(octets - 3, one(0x2A))); }

/* Portion and waiting components of 240 octets together are taken, 241 aren't; 12 comes before 14. */
static void answer_12_with_a_portion(void)
{
    for (size_t i = 0; i < TAKERS; i++)
        for (size_t octets = 240; octets <= 241; octets++) {
            size_t waiting = takers[i].place == 0 ? 8 : 0;
            struct request r = give(takers[i].call, takers[i].place, name_of(octets - waiting - takers[i].around), none);
            four_states();
            CHECK(play(r)->reply.answer == (octets == 240 ? TCAP_DONE : TCAP_TOO_LONG), "%s with %zu octets", call_names[r.call], octets);
        }
    answers_sound(TCAP_TOO_LONG, give(CALL_BEGIN, 0, name_of(500), none));
    answers_sound(TCAP_TOO_LONG, give(CALL_BEGIN, 0, none, element(0xBE, primitive(500))));
    answers_sound(TCAP_TOO_LONG, give(CALL_CONTINUE, 3, name_of(205), none));
    answers_sound(TCAP_WRONG_PORTION, give(CALL_CONTINUE, 3, name_of(204), none));
    answers_sound(TCAP_TOO_LONG, give(CALL_BEGIN, 0, none, element(0xBE, primitive(220 - 8 - 3))));
    answers_sound(TCAP_WRONG_PORTION, give(CALL_BEGIN, 0, none, element(0xBE, primitive(219 - 8 - 3))));
    four_states();
    CHECK(play(give(CALL_ABORT, 2, element(0xBE, primitive(213)), none))->message.count == 246, "an ABRT of 240 octets");
    answers_sound(TCAP_TOO_LONG, give(CALL_ABORT, 2, element(0xBE, primitive(214)), none));
    answers_sound(TCAP_TOO_LONG, give(CALL_ABORT, 0, element(0xBE, primitive(400)), none));
}

/* A waiting reject of 7 octets goes along with a portion of 233 octets, and waits beside one of 234. */
static void rejects_beside_a_portion(void)
{
    for (size_t octets = 233; octets <= 234; octets++) {
        struct octets name = name_of(octets - 36), whole = portion(STRUCTURED, element(0x61, join(element(0xA1, name), hex(ACCEPTED))));
        struct octets list = octets == 233 ? hex("6C 07 A4 05 05 00 80 01 02") : none;
        start();
        SHOWS("2 0 256 256 65535 0 0 1;13 0 256 256 2 0 0 0;", ask_receive(3, hex("62 05 48 01 07 6C 00")));
        AT;
        expect(TCAP_DONE, 0, element(0x65, join(hex("48 04 00 00 00 00 49 01 07"), join(whole, list))), "",
               with(ask(CALL_CONTINUE, 3, 0), name, none));
        if (octets == 234)
            WRITES("65 12 48 04 00 00 00 00 49 01 07 6C 07 A4 05 05 00 80 01 02", ask(CALL_CONTINUE, 3, 0));
    }
}

/* In Open, Sent, Received and Active: the state (6) comes first, 11 before 14. */
static void answer_14(void)
{
    static const struct { enum call call; uint32_t named[4], unnamed[4]; } states[] = {
        { CALL_BEGIN, { 0, 6, 6, 6 }, { 14, 6, 6, 6 } }, { CALL_CONTINUE, { 6, 6, 0, 14 }, { 6, 6, 14, 14 } },
        { CALL_END, { 6, 6, 0, 14 }, { 6, 6, 14, 14 } }, { CALL_UNIDIRECTIONAL, { 0, 6, 6, 6 }, { 14, 6, 6, 6 } },
    };
    for (size_t i = 0; i < sizeof states / sizeof *states; i++)
        for (unsigned place = 0; place < 4; place++) {
            uint32_t wrong = states[i].unnamed[place] == 6 ? 6 : 11;
            answers_sound(states[i].named[place], give(states[i].call, place, NAME, none));
            answers_sound(states[i].named[place], give(states[i].call, place, NAME, INFORMATION));
            answers_sound(states[i].unnamed[place], give(states[i].call, place, none, INFORMATION));
            answers_sound(wrong, give(states[i].call, place, hex("06 00"), none));
            answers_sound(wrong, give(states[i].call, place, none, hex("BE 01")));
        }
}

static void portion_is(const char *row, struct octets message, size_t start_, size_t length)
{
    const char *got = rows_text(play_portion(message, start_, length, TCAP_ROWS_OCTETS));
    check(strcmp(got, row) == 0, "portion of %zu, %zu: '%s', not '%s'", start_, length, got, row);
}

#define READS(row, ...) do { struct octets p = __VA_ARGS__; AT; portion_is(row, p, 0, p.count); } while (0)
#define OPAQUE "1 0 0 0 0 65535 65535 65535;"
#define NOTHING "0 0 0 0 0 65535 65535 65535;"

static void portions_read(void)
{
    READS("2 19 9 0 0 65535 65535 65535;", portion(STRUCTURED, element(0x60, element(0xA1, NAME))));
    READS("2 23 9 32 4 65535 65535 65535;", portion(STRUCTURED, element(0x60, join(join(hex("80 02 07 80"), element(0xA1, NAME)), INFORMATION))));
    READS("3 19 9 0 0 0 256 65535;", portion(STRUCTURED, element(0x61, join(element(0xA1, NAME), hex(ACCEPTED)))));
    READS("3 19 3 34 2 1 514 65535;", portion(STRUCTURED, element(0x61, hex("A1 03 06 01 2A A2 03 02 01 01 A3 05 A2 03 02 01 02 BE 00"))));
    READS("4 0 0 0 0 65535 65535 1;", portion(STRUCTURED, element(0x64, hex("80 01 01"))));
    READS("4 0 0 20 4 65535 65535 0;", portion(STRUCTURED, element(0x64, join(hex("80 01 00"), INFORMATION))));
    READS("5 19 9 0 0 65535 65535 65535;", portion(UNSTRUCTURED, element(0x60, element(0xA1, NAME))));
    READS("3 19 3 42 4 0 257 65535;", hex("6B 80 28 80 " STRUCTURED "A0 80 61 80 A1 80 06 01 2A 00 00 A2 80 02 01 00 00 00 A3 80 A1 80 02 01 01"
                                          "00 00 00 00 BE 80 00 00 00 00 00 00 00 00 00 00"));
}

static void portions_opaque(void)
{
    static const char *const requests[] = {
        "", "A1 02 06 00", "A1 03 02 01 2A", "A1 06 06 01 2A 06 01 2A", "A1 03 06 01 2A 05 00", "BE 00 A1 03 06 01 2A", "A1 03 06 01 2A BE 00 BE 00",
        "A1 03 06 01 2A 80 02 07 80", "80 00 80 00 A1 03 06 01 2A", "A1 03 06 01 2A A2 03 02 01 00 A3 05 A1 03 02 01 00", NULL
    };
    static const char *const responses[] = {
        "A1 03 06 01 2A", "A1 03 06 01 2A A2 03 02 01 00", "A1 03 06 01 2A A2 03 02 01 02 A3 05 A1 03 02 01 00",
        "A1 03 06 01 2A A2 03 02 01 00 A3 05 A1 03 02 01 03", "A1 03 06 01 2A A2 03 02 01 00 A3 05 A0 03 02 01 00",
        "A1 03 06 01 2A A2 04 02 02 00 00 A3 05 A1 03 02 01 00", "A1 03 06 01 2A A3 05 A1 03 02 01 00 A2 03 02 01 00",
        "A1 03 06 01 2A A2 03 02 01 00 A3 07 A1 03 02 01 00 05 00", "A2 03 02 01 00 A3 05 A1 03 02 01 00", NULL
    };
    static const char *const aborts[] = { "", "BE 00", "80 01 02", "80 02 00 00", "80 02 07 80 80 01 00", "80 01 00 05 00", "BE 00 80 01 00", NULL };
    for (const char *const *c = requests; *c; c++)
        READS(OPAQUE, portion(STRUCTURED, element(0x60, hex(*c))));
    for (const char *const *c = responses; *c; c++)
        READS(OPAQUE, portion(STRUCTURED, element(0x61, hex(*c))));
    for (const char *const *c = aborts; *c; c++)
        READS(OPAQUE, portion(STRUCTURED, element(0x64, hex(*c))));
    READS(OPAQUE, portion(UNSTRUCTURED, element(0x61, join(element(0xA1, NAME), hex(ACCEPTED)))));
    READS(OPAQUE, portion(UNSTRUCTURED, element(0x64, hex("80 01 00"))));
    READS(OPAQUE, portion("06 07 00 11 86 05 01 01 02", element(0x60, element(0xA1, NAME))));
    READS(OPAQUE, portion(STRUCTURED, join(element(0x60, element(0xA1, NAME)), hex("05 00"))));
    READS(OPAQUE, hex("6B 00"));
    READS(OPAQUE, hex("6B 02 28 00"));
    READS(OPAQUE, element(0x6B, join(element(0x28, join(hex(STRUCTURED), element(0xA0, element(0x60, element(0xA1, NAME))))), hex("05 00"))));
    READS(OPAQUE, element(0x6B, element(0x28, join(hex(STRUCTURED), join(element(0xA0, element(0x60, element(0xA1, NAME))), hex("05 00"))))));
}

/* The run counts, wherever it stands; one that isn't a well-formed 6B inside the message is none, whatever its numbers. */
static void portions_by_their_run(void)
{
    struct octets p = portion(STRUCTURED, element(0x60, element(0xA1, NAME))), m = join(join(hex("62 21 48 01 07"), p), hex("6C 00"));
    AT, portion_is("2 24 9 0 0 65535 65535 65535;", m, 5, p.count);
    AT, portion_is(NOTHING, m, 5, p.count - 1);
    AT, portion_is(NOTHING, m, 5, p.count + 1);
    AT, portion_is(NOTHING, m, 4, p.count);
    AT, portion_is(NOTHING, m, 6, p.count);
    AT, portion_is(NOTHING, m, 0, m.count);
    AT, portion_is(NOTHING, m, 0, 0);
    AT, portion_is(NOTHING, m, m.count, 0);
    AT, portion_is(NOTHING, m, 5, m.count);
    AT, portion_is(NOTHING, m, SIZE_MAX, 2);
    AT, portion_is(NOTHING, m, SIZE_MAX - 4, p.count);
    AT, portion_is(NOTHING, m, 5, SIZE_MAX);
    AT, portion_is(NOTHING, none, 0, 0);
    READS(NOTHING, hex("6C 00"));
    READS(NOTHING, hex("6B 01 05"));
    READS(NOTHING, nested(17, 0x6B));
    READS(OPAQUE, nested(16, 0x6B));
    for (size_t n = TCAP_ROWS_OCTETS - 1; n <= TCAP_ROWS_OCTETS + 1; n++)
        play_portion(m, 5, p.count, n);
    play_portion(m, 5, p.count, 0);
}

/* ---- A FRESH TABLE ------------------------------------------------------------------------------------------------------------------- */

static void fresh_sizes(void)
{
    const struct octets zeros = repeat(16, one(0));
    struct request r = ask_fresh(zeros, zeros);
    ANSWERS(TCAP_DONE, r);
    ANSWERS(TCAP_WRONG_SIZE, ask_fresh(repeat(15, one(0)), zeros));
    ANSWERS(TCAP_WRONG_SIZE, ask_fresh(repeat(17, one(0)), zeros));
    ANSWERS(TCAP_WRONG_SIZE, ask_fresh(zeros, repeat(15, one(200))));
    ANSWERS(TCAP_WRONG_SIZE, ask_fresh(zeros, repeat(17, one(200))));
    ANSWERS(TCAP_WRONG_SIZE, ask_fresh(none, none));
    for (size_t n = TCAP_TABLE_OCTETS - 1; n <= TCAP_TABLE_OCTETS + 1; n++) {
        r.table_octets = n;
        ANSWERS(n == TCAP_TABLE_OCTETS ? TCAP_DONE : TCAP_WRONG_SIZE, r);
    }
    ANSWERS(TCAP_NO_PLACE, ask(CALL_OPEN, 0, 0));
}

static void answer_13(void)
{
    const struct octets none_kept = repeat(16, one(0)), all = repeat(16, one(128));
    ANSWERS(TCAP_DONE, ask_fresh(repeat(16, one(8)), repeat(16, one(8))));
    ANSWERS(TCAP_DONE, ask_fresh(join(one(128), repeat(15, one(0))), all));
    ANSWERS(TCAP_DONE, ask_fresh(none_kept, all));
    ANSWERS(TCAP_WRONG_SHARES, ask_fresh(none_kept, join(repeat(15, one(128)), one(129))));
    ANSWERS(TCAP_WRONG_SHARES, ask_fresh(join(repeat(15, one(8)), one(9)), all));
    ANSWERS(TCAP_WRONG_SHARES, ask_fresh(join(one(5), repeat(15, one(0))), repeat(16, one(4))));
    ANSWERS(TCAP_WRONG_SHARES, ask_fresh(repeat(16, one(255)), repeat(16, one(255))));
}

/* Fresh asks nothing of the octets that the table held, and leaves an empty table. */
static void fresh_on_any_octets(void)
{
    memset(the_table, 0xEE, sizeof the_table);
    ANSWERS(TCAP_BROKEN_TABLE, ask(CALL_OPEN, 0, 0));
    ANSWERS(TCAP_WRONG_SHARES, ask_fresh(repeat(16, one(9)), repeat(16, one(8))));
    start();
    CHECK(memcmp(the_table, repeat(16, one(0xFF)).octet, 16) == 0, "every place is free");
    for (size_t i = 48; i < sizeof the_table; i++)
        if (the_table[i] != 0)
            CHECK(0, "octet %zu of a fresh table is %u", i, the_table[i]);
}

/* ---- 01's CASES P1 TO P8 ------------------------------------------------------------------------------------------------------------- */

static void p1_to_p5(void)
{
    struct octets result = hex("65 10 48 01 07 49 04 00 00 00 00 6C 05 A2 03 02 01 05");
    start();
    OPENS(0, ask(CALL_OPEN, 3, 0));
    ANSWERS(TCAP_DONE, ask_invoke(3, 0, 5, 1));
    WRITES("62 10 48 04 00 00 00 00 6C 08 A1 06 02 01 05 02 01 3B", ask(CALL_BEGIN, 3, 0));
    SHOWS("3 0 256 256 65535 0 0 1;7 0 133 133 65535 13 11 0;",
          ask_receive(3, hex("65 16 48 01 07 49 04 00 00 00 00 6C 0B A1 09 02 01 05 80 01 05 02 01 3C")));
    SHOWS("3 0 256 256 65535 0 0 1;8 0 133 256 65535 13 5 0;", ask_receive(3, result));
    SHOWS("3 0 256 256 65535 0 0 1;13 0 133 256 512 13 5 0;", ask_receive(3, result));
    WRITES("65 13 48 04 00 00 00 00 49 01 07 6C 08 A4 06 02 01 05 82 01 00", ask(CALL_CONTINUE, 3, 0));
    ANSWERS(TCAP_DONE, ask_id(CALL_REJECT_TIMEOUT, 3, 0, 5));
}

static void p6_to_p8(void)
{
    start();
    WRITES("67 09 49 04 01 02 03 04 4A 01 01", ask_receive(3, hex("65 09 48 04 01 02 03 04 49 01 09")));
    WRITES("67 06 49 01 07 4A 01 00", ask_receive(3, hex("63 03 48 01 07")));
    WRITES("67 06 49 01 07 4A 01 02", ask_receive(3, hex("62 04 48 01 07")));
}

/* ---- MESSAGES WRITTEN ---------------------------------------------------------------------------------------------------------------- */

static void messages_of_every_kind(void)
{
    four_states();
    WRITES("62 10 48 04 00 00 00 00 6C 08 A1 06 02 01 01 02 01 3B", ask(CALL_BEGIN, 15, PLACE(0)));
    WRITES("65 09 48 04 02 00 00 00 49 01 07", ask(CALL_CONTINUE, 15, PLACE(2)));
    WRITES("64 03 49 01 07", ask(CALL_END, 15, PLACE(3)));
    ANSWERS(TCAP_NO_DIALOGUE, ask(CALL_END, 15, PLACE(3)));
    OPENS(PLACE(3) + 1, ask(CALL_OPEN, 15, 0));
    WRITES("62 06 48 04 03 00 00 01", ask(CALL_BEGIN, 15, PLACE(3) + 1));
}

static void aborts_written(void)
{
    static const char *const messages[] = { "", "", "67 05 49 01 07 6B 00", "67 05 49 01 07 6B 00" };
    for (unsigned place = 0; place < 4; place++) {
        four_states();
        WRITES(messages[place], with(ask(CALL_ABORT, 15, PLACE(place)), hex("6B 00"), none));
        ANSWERS(TCAP_NO_DIALOGUE, ask(CALL_ABORT, 15, PLACE(place)));
    }
    four_states();
    WRITES("67 03 49 01 07", ask(CALL_ABORT, 15, PLACE(3)));
    AT;
    expect(TCAP_DONE, 0, element(0x67, join(hex("49 01 07"), element(0x6B, primitive(237)))), "",
           with(ask(CALL_ABORT, 15, PLACE(2)), element(0x6B, primitive(237)), none));
}

static void every_component_written(void)
{
    struct octets parameter = hex("04 02 AA BB");
    four_states();
    ANSWERS(TCAP_DONE, with(ask_invoke(15, PLACE(2), -128, 2), hex("06 02 2A 03"), parameter));
    ANSWERS(TCAP_DONE, with(ask_linked(15, PLACE(2), 127, -1, 3), OPERATION, parameter));
    ANSWERS(TCAP_DONE, ask_id(CALL_RESULT_LAST, 15, PLACE(2), 1));
    ANSWERS(TCAP_DONE, with(ask_id(CALL_RESULT_NOT_LAST, 15, PLACE(2), 2), OPERATION, parameter));
    ANSWERS(TCAP_DONE, with(ask_error(15, PLACE(2), 3), OPERATION, parameter));
    ANSWERS(TCAP_DONE, ask_reject(15, PLACE(2), 4, TCAP_UNRECOGNIZED_OPERATION));
    WRITES("65 4E 48 04 02 00 00 00 49 01 07 6C 43 A1 0B 02 01 80 06 02 2A 03 04 02 AA BB A1 0D 02 01 7F 80 01 FF 02 01 3B 04 02 AA BB"
           "A2 03 02 01 01 A7 0C 02 01 02 30 07 02 01 3B 04 02 AA BB A3 0A 02 01 03 02 01 3B 04 02 AA BB A4 06 02 01 04 81 01 01",
           ask(CALL_CONTINUE, 15, PLACE(2)));
}

/* 240 octets of components: the outer length is in 81, the message has 258 octets; then the reject that had to wait. */
static void the_longest_message(void)
{
    struct octets parameter = primitive(240 - 9);
    struct octets list = element(0xA1, join(hex("02 01 01 02 01 3B"), parameter));
    start();
    SHOWS("2 0 256 256 65535 0 0 1;13 0 256 256 2 0 0 0;", ask_receive(3, hex("62 08 48 04 01 02 03 04 6C 00")));
    ANSWERS(TCAP_DONE, with(ask_invoke(3, 0, 1, 1), OPERATION, parameter));
    AT;
    expect(TCAP_DONE, 0, element(0x65, join(hex("48 04 00 00 00 00 49 04 01 02 03 04"), element(0x6C, list))), "",
           ask(CALL_CONTINUE, 3, 0));
    WRITES("65 15 48 04 00 00 00 00 49 04 01 02 03 04 6C 07 A4 05 05 00 80 01 02", ask(CALL_CONTINUE, 3, 0));
    WRITES("65 0C 48 04 00 00 00 00 49 04 01 02 03 04", ask(CALL_CONTINUE, 3, 0));
}

/* Waiting octets and rejects of 240 together go in one message, of 241 they don't: a reject has 7 octets here. */
static void rejects_that_fit(void)
{
    for (size_t octets = 233; octets <= 234; octets++) {
        struct octets parameter = primitive(octets - 9);
        struct octets list = element(0xA1, join(hex("02 01 01 02 01 3B"), parameter));
        start();
        SHOWS("2 0 256 256 65535 0 0 1;13 0 256 256 2 0 0 0;", ask_receive(3, hex("62 05 48 01 07 6C 00")));
        ANSWERS(TCAP_DONE, with(ask_invoke(3, 0, 1, 1), OPERATION, parameter));
        if (octets == 233)
            list = join(list, hex("A4 05 05 00 80 01 02"));
        AT;
        expect(TCAP_DONE, 0, element(0x64, join(hex("49 01 07"), element(0x6C, list))), "", ask(CALL_END, 3, 0));
    }
}

/* ---- MESSAGES RECEIVED --------------------------------------------------------------------------------------------------------------- */

static void rows_of_a_message(void)
{
    start();
    SHOWS("1 0 256 256 65535 2 4 1;7 0 133 256 65535 8 8 0;", ask_receive(3, hex("61 0E 6B 02 04 00 6C 08 A1 06 02 01 05 02 01 3B")));
    SHOWS("2 0 256 256 65535 5 2 0;", ask_receive(3, hex("62 05 48 01 07 6B 00")));
    SHOWS("5 16777216 256 256 65535 8 4 0;", (begun(3, 5, 1), ask_receive(3, hex("67 0A 49 04 01 00 00 00 6B 02 04 00"))));
    SHOWS("6 16777217 256 256 4 0 0 0;", (begun(3, 5, 1), ask_receive(3, hex("67 09 49 04 01 00 00 01 4A 01 04"))));
    SHOWS("5 16777218 256 256 65535 0 0 0;", (begun(3, 5, 1), ask_receive(3, hex("67 06 49 04 01 00 00 02"))));
    SHOWS("4 16777219 256 256 65535 0 0 0;", (begun(3, 5, 1), ask_receive(3, end_to(PLACE(1) + 3, none))));
}

static void rows_of_each_component(void)
{
    uint32_t d;
    start();
    d = active(3, 5, 1);
    ANSWERS(TCAP_DONE, ask_invoke(3, d, -128, 1));
    ANSWERS(TCAP_DONE, ask_invoke(3, d, 127, 2));
    CHECK(play(ask(CALL_CONTINUE, 3, d))->reply.length > 0, "two invokes are sent");
    SHOWS("3 0 256 256 65535 0 0 7;7 0 137 256 65535 13 8 0;9 0 133 256 65535 21 5 0;8 0 133 256 65535 26 5 0;10 0 0 256 65535 31 8 0;"
          "11 0 255 256 257 39 8 0;12 0 256 256 2 47 7 0;13 0 138 137 261 54 11 0;",
          ask_receive(3, continue_to(d, hex("A1 06 02 01 09 02 01 3B A7 03 02 01 05 A2 03 02 01 05 A3 06 02 01 80 02 01 01"
                                            "A4 06 02 01 7F 81 01 01 A4 05 05 00 80 01 02 A1 09 02 01 0A 80 01 09 02 01 3B"))));
    WRITES("65 13 48 04 00 00 00 00 49 01 07 6C 08 A4 06 02 01 0A 81 01 05", ask(CALL_CONTINUE, 3, d));
    ANSWERS(TCAP_WRONG_INVOCATION, ask_id(CALL_CANCEL, 3, d, 127));
    ANSWERS(TCAP_DONE, ask_id(CALL_REJECT_TIMEOUT, 3, d, 5));
    ANSWERS(TCAP_DONE, ask_id(CALL_REJECT_TIMEOUT, 3, d, -128));
}

/* A syntax fault ends the reading; the reject that answers it waits, in an End it doesn't. */
static void syntax_faults(void)
{
    uint32_t d;
    start();
    d = active(3, 5, 1);
    SHOWS("3 0 256 256 65535 0 0 1;13 0 133 256 1 13 5 0;",
          ask_receive(3, continue_to(d, hex("A1 03 02 01 05 A1 06 02 01 05 02 01 3B"))));
    SHOWS("3 0 256 256 65535 0 0 1;13 0 137 256 0 13 5 0;", ask_receive(3, continue_to(d, hex("A5 03 02 01 09"))));
    SHOWS("3 0 256 256 65535 0 0 1;14 0 133 256 1 13 8 0;", ask_receive(3, continue_to(d, hex("A4 06 02 01 05 82 01 09"))));
    SHOWS("3 0 256 256 65535 0 0 1;13 0 256 256 2 0 0 0;", ask_receive(3, continue_to(d, hex("A1 09 02 01 05"))));
    WRITES("65 22 48 04 00 00 00 00 49 01 07 6C 17 A4 06 02 01 05 80 01 01 A4 06 02 01 09 80 01 00 A4 05 05 00 80 01 02",
           ask(CALL_CONTINUE, 3, d));
    SHOWS("4 0 256 256 65535 0 0 1;14 0 256 256 0 10 2 0;", ask_receive(3, end_to(d, hex("A9 00"))));
}

static void a_ninth_reject(void)
{
    uint32_t d;
    start();
    d = received(3);
    CHECK(play(ask(CALL_CONTINUE, 3, d))->reply.length == 11, "the dialogue is Active");
    for (int n = 0; n < 9; n++) {
        const struct outcome *o = play(ask_receive(3, continue_to(d, hex("A9 03 02 01 05"))));
        CHECK(tcap_row(o->rows, 1, TCAP_ROW_KIND) == (n < 8 ? TCAP_L_REJECT : TCAP_L_REJECT_ONLY), "reject %d", n);
    }
    AT;
    expect(TCAP_DONE, 0, element(0x65, join(hex("48 04 00 00 00 00 49 01 07"), element(0x6C, repeat(8, hex("A4 06 02 01 05 80 01 00"))))),
           "", ask(CALL_CONTINUE, 3, d));
}

/* Each cause of a P-ABORT with an assigned destination, whose place is freed. */
static void faults_free_the_place(void)
{
    start();
    begun(3, 5, 1);
    AT;
    expect(TCAP_DONE, 0, hex("67 06 49 01 07 4A 01 00"), "6 0 256 256 0 0 0 0;", ask_receive(3, hex("66 09 48 01 07 49 04 00 00 00 00")));
    begun(3, 5, 1);
    AT;
    expect(TCAP_DONE, 0, hex("67 06 49 01 07 4A 01 02"), "6 1 256 256 2 0 0 0;", ask_receive(3, hex("65 0A 48 01 07 49 04 00 00 00 01")));
    WRITES("62 06 48 04 00 00 00 02", (opened(3), ask(CALL_BEGIN, 3, 2)));
    WRITES("67 06 49 01 07 4A 01 01", ask_receive(4, continue_to(2, none)));
    received(3);
    AT;
    expect(TCAP_DONE, 0, hex("67 06 49 01 07 4A 01 03"), "6 16777216 256 256 3 0 0 0;", ask_receive(3, continue_to(PLACE(1), none)));
}

static void dropped(void)
{
    static const char *const messages[] = {
        "7F 21 00", "62", "62 83 00 00 03 48 01 07", "62 81 03 48 01 07", "42 80 00 00", "64 06 49 04 00 00 00 09", "67 03 49 01 01",
        "61 02 6C 80", "64 05 49 01 01 6C 80", "62 02 49 00", "65 05 49 03 48 01 07", NULL
    };
    four_states();
    for (const char *const *m = messages; *m; m++)
        ANSWERS(TCAP_DONE, ask_receive(15, hex(*m)));
    ANSWERS(TCAP_DONE, ask_receive(15, end_to(PLACE(2), none)));
    ANSWERS(TCAP_DONE, ask_receive(15, element(0x67, element(0x49, local_id(PLACE(2))))));
}

/* A Unidirectional of 512 octets and 100 components: 101 rows. */
static void the_most_rows(void)
{
    struct octets list = join(repeat(99, hex("A2 03 02 01 05")), hex("A1 07 02 01 05 02 02 01 3B"));
    const struct outcome *o;
    start();
    o = play(ask_receive(3, element(0x61, element(0x6C, list))));
    CHECK(element(0x61, element(0x6C, list)).count == 512, "the message has 512 octets");
    CHECK(o->reply.answer == TCAP_DONE && o->reply.rows == 101 && o->reply.length == 0, "101 rows, not %u", o->reply.rows);
    CHECK(tcap_row(o->rows, 0, TCAP_ROW_FOLLOWING) == 100, "100 follow");
    for (size_t n = 1; n < 100; n++)
        CHECK(tcap_row(o->rows, n, TCAP_ROW_KIND) == TCAP_L_REJECT_ONLY && tcap_row(o->rows, n, TCAP_ROW_START) == 8 + 5 * (n - 1),
              "row %zu", n);
    CHECK(tcap_row(o->rows, 100, TCAP_ROW_KIND) == TCAP_INVOKE && tcap_row(o->rows, 100, TCAP_ROW_LENGTH) == 9, "the last row");
    AT;
    expect(TCAP_MESSAGE_SIZE, 0, none, "", ask_receive(3, join(element(0x61, element(0x6C, list)), one(0))));
}

/* ---- TIMER EVENTS -------------------------------------------------------------------------------------------------------------------- */

static void timers(void)
{
    uint32_t d;
    four_states();
    SHOWS("15 50331648 133 256 65535 0 0 0;", ask_id(CALL_TIMEOUT, 15, PLACE(3), 5));
    ANSWERS(TCAP_WRONG_INVOCATION, ask_id(CALL_TIMEOUT, 15, PLACE(3), 5));
    ANSWERS(TCAP_DONE, ask_id(CALL_REJECT_TIMEOUT, 15, PLACE(3), 6));
    SHOWS("6 16777216 256 256 65535 0 0 0;", ask(CALL_NO_REACTION, 15, PLACE(1)));
    ANSWERS(TCAP_NO_DIALOGUE, ask(CALL_NO_REACTION, 15, PLACE(1)));
    d = begun(15, -128, 4);
    ANSWERS(TCAP_DONE, ask_id(CALL_TIMEOUT, 15, d, -128));
    d = begun(15, 127, 3);
    SHOWS("15 67108864 255 256 65535 0 0 0;", ask_id(CALL_TIMEOUT, 15, d, 127));
}

/* ---- THE PARAMETER ------------------------------------------------------------------------------------------------------------------- */

static void parameter_is(struct octets message, size_t start_, size_t length, size_t at_, size_t octets)
{
    struct tcap_span s = play_parameter(message, start_, length);
    check(s.start == at_ && s.length == octets, "parameter of %zu, %zu: %zu, %zu", start_, length, s.start, s.length);
}

static void parameter_found(void)
{
    struct octets m = hex("62 2E 48 01 07 6C 29 A1 0A 02 01 05 02 01 3B 04 02 AA BB A2 0E 02 01 05 30 09 02 01 3B 30 04 04 02 AA BB"
                          "A3 06 02 01 05 02 01 01 A2 03 02 01 05");
    AT, parameter_is(m, 7, 12, 15, 4);
    AT, parameter_is(m, 19, 16, 29, 6);
    AT, parameter_is(m, 35, 8, 0, 0);
    AT, parameter_is(m, 43, 5, 0, 0);
    AT, parameter_is(m, 7, 11, 0, 0);
    AT, parameter_is(m, 7, 13, 0, 0);
    AT, parameter_is(m, 0, m.count, 0, 0);
    AT, parameter_is(m, 43, 6, 0, 0);
    AT, parameter_is(m, m.count, 0, 0, 0);
    AT, parameter_is(m, SIZE_MAX, 2, 0, 0);
    AT, parameter_is(m, 7, SIZE_MAX, 0, 0);
    AT, parameter_is(m, SIZE_MAX - 4, 12, 0, 0);
    AT, parameter_is(none, 0, 0, 0, 0);
    AT, parameter_is(hex("A1 80 02 01 05 02 01 3B 30 80 00 00 00 00"), 0, 14, 8, 4);
}

/* Comes last: by now every call has given each answer that it may give. */
static void every_answer(void)
{
    for (int call = CALL_FRESH; call < CALLS; call++)
        for (uint32_t answer = TCAP_DONE; answer <= TCAP_WRONG_PORTION; answer++)
            if (may_answer((enum call)call, answer))
                CHECK(answered[call][answer] > 0, "%s was never answered %u", call_names[call], answer);
}

/* ---- THE LIST ------------------------------------------------------------------------------------------------------------------------ */

#define T(test) { #test, test }
static const struct { const char *name; void (*run)(void); } tests[] = {
    T(every_call_done), T(answer_1_table), T(answer_1_rows_and_space), T(answer_2), T(answer_3), T(answer_4), T(answer_5), T(answer_6),
    T(answer_6_before_the_next), T(answer_6_unidirectional), T(answer_7), T(guarantees_are_kept), T(all_places), T(turns_go_round),
    T(turns_in_messages), T(answer_8_classes), T(answer_8_problems), T(answer_9), T(answer_9_after_a_result_not_last),
    T(answer_9_until_idle), T(answer_10), T(answer_11), T(answer_11_depth), T(answer_11_portion), T(answer_12),
    T(answer_12_reject_and_portion), T(portions_written), T(answer_11_name_and_information), T(answer_11_information_depth),
    T(answer_12_with_a_portion), T(rejects_beside_a_portion), T(answer_14), T(portions_read), T(portions_opaque),
    T(portions_by_their_run), T(fresh_sizes), T(answer_13), T(fresh_on_any_octets), T(p1_to_p5), T(p6_to_p8),
    T(messages_of_every_kind), T(aborts_written), T(every_component_written), T(the_longest_message), T(rejects_that_fit),
    T(rows_of_a_message), T(rows_of_each_component), T(syntax_faults), T(a_ninth_reject), T(faults_free_the_place), T(dropped),
    T(the_most_rows), T(timers), T(parameter_found), T(every_answer),
};

int main(void)
{
    guard_start();
    for (int side = FLUSH_UPPER; side <= FLUSH_LOWER; side++) {
        guard_flush((enum flush)side);
        for (size_t i = 0; i < sizeof tests / sizeof *tests; i++) {
            unsigned failed = checks_failed;
            tests[i].run();
            if (checks_failed > failed)
                printf("FAILED in %s, flush against the %s guard page\n", tests[i].name, side == FLUSH_UPPER ? "upper" : "lower");
        }
    }
    printf("host: %u passed, %u failed\n", checks_passed, checks_failed);
    return checks_failed > 0;
}
