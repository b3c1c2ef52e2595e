/*
 * random.c - random calls, seeded: random SEED CALLS. Two tables talk to each other, so that half of the messages received are sound;
 * the others are damaged copies of such, or made up. Now and then a call is made with spaces of a random size, or on a table with an
 * octet changed, or on random octets. Every call is made between guard pages, at the upper and the lower end by turns, and play()
 * checks what all calls promise: no fault, no octet changed by a refusal. A table handed on unaltered is never refused with 2.
 */
#include "guard.h"

#include <stdio.h>
#include <stdlib.h>
#include <string.h>

/* of a place, docs/TABLE.md */
#define STATE 3
#define SERVICE 4
#define INVOCATIONS_AT 12

/* ---- NUMBERS ------------------------------------------------------------------------------------------------------------------------- */

static uint64_t seed;

static uint32_t random_number(void)
{
    seed ^= seed >> 12;
    seed ^= seed << 25;
    seed ^= seed >> 27;
    return (uint32_t)(seed * 0x2545F4914F6CDD1Du >> 32);
}

static uint32_t below(uint32_t n) { return random_number() % n; }
static int once_in(uint32_t n) { return below(n) == 0; }

/* ---- OCTETS -------------------------------------------------------------------------------------------------------------------------- */

static struct octets random_octets(size_t count)
{
    struct octets o = none;
    while (count-- > 0)
        o = join(o, one(once_in(3) ? 0 : random_number() & 255));
    return o;
}

static struct octets indefinite(unsigned tag, struct octets contents)
{
    return join(join(one(tag), one(0x80)), join(contents, hex("00 00")));
}

static struct octets random_element(int levels)
{
    struct octets contents = none;
    unsigned tag = 0x20 | (4 + below(24)) | below(4) << 6;
    if (levels == 0 || once_in(3))
        return element(tag & 0xDF, random_octets(once_in(8) ? below(150) : below(6)));
    for (uint32_t n = below(3); n > 0 && contents.count < 100; n--)
        contents = join(contents, random_element(levels - 1));
    return once_in(3) ? indefinite(tag, contents) : element(tag, contents);
}

static struct octets random_code(void)
{
    if (once_in(20))
        return random_octets(below(4));
    return once_in(2) ? element(0x02, random_octets(1 + below(4))) : element(0x06, random_octets(1 + below(6)));
}

static struct octets random_parameter(void)
{
    if (once_in(20))
        return random_octets(below(20));
    return once_in(2) ? none : once_in(10) ? primitive(150 + below(100)) : random_element((int)below(18));
}

/* A context name and user information, most times none. */
static struct octets random_name(void)
{
    return once_in(2) ? none : once_in(10) ? random_code() : element(0x06, random_octets(1 + below(once_in(6) ? 220 : 9)));
}

static struct octets random_information(void)
{
    return once_in(2) ? none : once_in(10) ? random_parameter() : element(0xBE, random_element((int)below(14)));
}

static struct octets random_portion(void)
{
    struct octets version = once_in(2) ? hex("80 02 07 80") : none, name = element(0xA1, random_name()), pdu;
    struct octets accepted = join(element(0xA2, element(0x02, one(below(3)))), element(0xA3, element(0xA1 + below(2), element(0x02, one(below(4))))));
    switch (below(4)) {
    case 0: pdu = element(0x60, join(join(version, name), random_information())); break;
    case 1: pdu = element(0x61, join(join(version, name), join(accepted, random_information()))); break;
    case 2: pdu = element(0x64, join(element(0x80, one(below(3))), random_information())); break;
    default: return element(0x6B, random_element(3));
    }
    return element(0x6B, element(0x28, join(once_in(3) ? hex("06 07 00 11 86 05 01 02 01") : hex("06 07 00 11 86 05 01 01 01"), element(0xA0, pdu))));
}

/* Octets that were sound, with something changed, cut, put in or added. */
static struct octets damaged(struct octets o)
{
    size_t from = below((uint32_t)o.count + 1);
    struct octets head = o, rest = none;
    head.count = from;
    rest.count = o.count - from;
    memcpy(rest.octet, o.octet + from, rest.count);
    switch (below(4)) {
    case 0: return head;
    case 1: return join(join(head, random_octets(1 + below(3))), rest);
    case 2: return join(o, random_octets(1 + below(4)));
    default:
        if (from < o.count)
            o.octet[from] = (uint8_t)(once_in(2) ? random_number() : o.octet[from] ^ 1u << below(8));
        return o;
    }
}

/* ---- THE TWO TABLES AND WHAT THEY SAY TO EACH OTHER ---------------------------------------------------------------------------------- */

#define WAITING 16

static struct peer {
    uint8_t table[TCAP_TABLE_OCTETS];
    struct request inbox[WAITING];         /* received messages to come */
    size_t arrived, taken;
} peers[2];

static void post(struct peer *to, uint32_t service, struct octets message)
{
    to->inbox[to->arrived++ % WAITING] = ask_receive(service, message);
    if (to->arrived - to->taken > WAITING)
        to->taken++;
}

/* A place of the table, most times one in use. */
static const uint8_t *random_place(const uint8_t *table, uint32_t *id)
{
    const uint8_t *place = table;
    for (int tries = 0; tries < 12; tries++) {
        uint32_t p = below(once_in(2) ? 3 : once_in(2) ? 20 : TCAP_PLACES);
        place = table + PLACES_AT + p * PLACE_OCTETS;
        *id = p << 24 | (uint32_t)place[0] << 16 | (uint32_t)place[1] << 8 | place[2];
        if (place[STATE] != 0)
            break;
    }
    return place;
}

/* An invoke ID, now and then one of an invocation in this place. */
static int random_id(const uint8_t *place)
{
    static const int ids[] = { -128, -2, -1, 0, 1, 2, 3, 4, 5, 6, 7, 8, 127 };
    const uint8_t *invocation = place + INVOCATIONS_AT + 2 * below(TCAP_INVOCATIONS);
    return invocation[1] != 0 && once_in(3) ? (int8_t)invocation[0] : ids[below(sizeof ids / sizeof *ids)];
}

static struct octets random_component(const uint8_t *place)
{
    static const unsigned tags[] = { 0xA1, 0xA2, 0xA3, 0xA4, 0xA7, 0xA7, 0xA2, 0xA5 };
    unsigned tag = tags[below(8)];
    struct octets id = element(0x02, one((unsigned)random_id(place))), pieces = id;
    if (tag == 0xA4)
        pieces = join(once_in(4) ? hex("05 00") : id, element(0x80 + below(4), one(below(6))));
    else if (tag == 0xA2 || tag == 0xA7)
        pieces = once_in(2) ? id : join(id, element(0x30, join(random_code(), random_parameter())));
    else
        pieces = join(join(id, tag == 0xA1 && once_in(4) ? element(0x80, one((unsigned)random_id(place))) : none),
                      join(random_code(), random_parameter()));
    return once_in(4) ? indefinite(tag, pieces) : element(tag, pieces);
}

static struct octets random_message(const uint8_t *place, uint32_t dialogue)
{
    static const unsigned types[] = { 0x61, 0x62, 0x64, 0x65, 0x65, 0x65, 0x67, 0x66 };
    int takes_continue = place[STATE] == 2 || place[STATE] == 4;
    unsigned type = takes_continue && !once_in(4) ? 0x65 : types[below(8)];
    struct octets contents = none, list = none, id = hex("00 00 00 00");
    for (int i = 0; i < 4; i++)
        id.octet[i] = (uint8_t)(dialogue >> (24 - 8 * i));
    if (type == 0x62 || type == 0x65 || type == 0x66)
        contents = element(0x48, random_octets(1 + below(4)));
    if (type != 0x61 && type != 0x62)
        contents = join(contents, element(0x49, id));
    if (once_in(4))
        contents = join(contents, random_portion());
    if (type == 0x67 && once_in(2))
        contents = join(contents, element(0x4A, one(below(6))));
    for (uint32_t n = below(4); n > 0 && list.count < 150; n--)
        list = join(list, random_component(place));
    if (type != 0x67 && !once_in(4))
        contents = join(contents, once_in(3) ? indefinite(0x6C, list) : element(0x6C, list));
    return once_in(4) ? indefinite(type, contents) : element(type, contents);
}

/* ---- CALLS --------------------------------------------------------------------------------------------------------------------------- */

static struct request random_receive(struct peer *me, const uint8_t *place, uint32_t service, uint32_t dialogue)
{
    struct request r = ask_receive(service, random_message(place, dialogue));
    int sound = me->taken < me->arrived && !once_in(3);
    if (sound) {
        r = me->inbox[me->taken % WAITING];
        me->taken += !once_in(4);                /* some come twice */
    }
    if (once_in(sound ? 2 : 6))
        r.first = damaged(r.first);
    if (once_in(100))
        r.first = once_in(2) ? none : join(r.first, random_octets(513 - (r.first.count < 513 ? r.first.count : 513)));
    return r;
}

static struct request random_fresh(void)
{
    struct octets guarantees = none, limits = none;
    for (int s = 0; s < TCAP_SERVICES; s++) {
        guarantees = join(guarantees, one(below(once_in(40) ? 256 : 9)));
        limits = join(limits, one(once_in(40) ? below(256) : 9 + below(once_in(2) ? 3 : 120)));
    }
    return ask_fresh(guarantees, limits);
}

static uint32_t random_class_or_problem(enum call call)
{
    static const uint32_t problems[] = { 256, 257, 258, 259, 260, 262, 263, 514, 514, 770, 771, 772 };
    if (once_in(20))
        return once_in(2) ? random_number() : below(1100);
    return call == CALL_REJECT ? problems[below(12)] : 1 + below(4);
}

/* Every call, most often those that make dialogues and components. */
static enum call random_call(void)
{
    if (once_in(1000))
        return CALL_FRESH;
    if (once_in(4))
        return (enum call)(CALL_OPEN + below(CALLS - CALL_OPEN));
    if (once_in(2))
        return (enum call)(CALL_INVOKE + below(CALL_END - CALL_INVOKE));
    return once_in(5) ? CALL_OPEN : once_in(2) ? CALL_INVOKE : CALL_RECEIVE;
}

static struct request random_request(struct peer *me)
{
    enum call call = random_call();
    uint32_t dialogue;
    const uint8_t *place = random_place(me->table, &dialogue);
    uint32_t service = place[SERVICE];
    struct request r;
    if (once_in(20))
        service = once_in(2) ? below(20) : random_number();
    if (call == CALL_OPEN && !once_in(20))
        service = below(TCAP_SERVICES);
    if (call == CALL_RECEIVE)
        return random_receive(me, place, service, dialogue);
    if (call == CALL_FRESH)
        return random_fresh();
    r = ask_id(call, service, once_in(20) ? random_number() : dialogue, random_id(place));
    r.linked = (int8_t)random_id(place);
    r.number = random_class_or_problem(call);
    r = with(r, random_code(), random_parameter());
    if (call == CALL_ABORT)
        r.first = once_in(3) ? random_information() : once_in(10) ? random_octets(below(10)) : element(0x6B, random_parameter());
    if (call == CALL_BEGIN || call == CALL_CONTINUE || call == CALL_END || call == CALL_UNIDIRECTIONAL)
        r = with(r, random_name(), random_information());
    if ((call == CALL_RESULT_LAST || call == CALL_RESULT_NOT_LAST) && once_in(3))
        r.first = r.second = none;
    return r;
}

static size_t random_size(size_t right, size_t most)
{
    return once_in(2) ? right : once_in(2) ? right + below(3) - 1 : below((uint32_t)most + 1);
}

/* ---- TABLES -------------------------------------------------------------------------------------------------------------------------- */

enum kind { SOUND, ONE_OCTET, RANDOM };

static void alter_table(enum kind kind)
{
    uint32_t dialogue;
    size_t offset = below(TCAP_TABLE_OCTETS);
    if (once_in(2))
        offset = (size_t)(random_place(the_table, &dialogue) - the_table) + below(60);
    if (once_in(8))
        offset = below(PLACES_AT);
    if (kind == ONE_OCTET)
        the_table[offset] = (uint8_t)(once_in(2) ? random_number() : the_table[offset] ^ 1u << below(8));
    for (size_t i = 0; kind == RANDOM && i < TCAP_TABLE_OCTETS; i++)
        the_table[i] = (uint8_t)random_number();
}

static unsigned long answers[TCAP_WRONG_PORTION + 1], kinds[TCAP_L_CANCEL + 1];

static void count_outcome(const struct outcome *o)
{
    answers[o->reply.answer <= TCAP_WRONG_PORTION ? o->reply.answer : 0]++;
    for (size_t row = 0; row < o->reply.rows; row++) {
        uint32_t kind = tcap_row(o->rows, row, TCAP_ROW_KIND);
        check(kind >= TCAP_UNI && kind <= TCAP_L_CANCEL, "a row of kind %u", kind);
        kinds[kind % (TCAP_L_CANCEL + 1)]++;
    }
}

static void one_call(unsigned long n)
{
    struct peer *me = &peers[below(2)], *other = &peers[me == peers];
    enum kind kind = once_in(8) ? ONE_OCTET : once_in(500) ? RANDOM : SOUND;
    struct request r = random_request(me);
    const struct outcome *o;
    guard_flush((enum flush)(n % 2));
    memcpy(the_table, me->table, sizeof the_table);
    if (kind != SOUND)
        alter_table(kind);
    if (once_in(16)) {
        r.table_octets = random_size(r.table_octets, TCAP_TABLE_OCTETS + 400);
        r.rows_octets = random_size(r.rows_octets, 8000);
        r.space_octets = random_size(r.space_octets, 4000);
    }
    o = play(r);
    count_outcome(o);
    if (r.call == CALL_RECEIVE && o->reply.rows > 0) {
        size_t row = below(o->reply.rows), beside = once_in(4) ? below(3) : 0;
        uint32_t start = tcap_row(o->rows, row, TCAP_ROW_START), length = tcap_row(o->rows, row, TCAP_ROW_LENGTH);
        play_parameter(r.first, start + beside, length);
        play_portion(r.first, start + beside, length, TCAP_ROWS_OCTETS - once_in(20));
    }
    if (kind != SOUND)
        return;
    check(o->reply.answer != TCAP_BROKEN_TABLE, "%s: a sound table is refused", call_names[r.call]);
    memcpy(me->table, the_table, sizeof the_table);
    if (o->reply.length > 0)
        post(other, r.service, o->message);
}

/* How often each number came; in a long run every one has to. */
static void report(const char *what, const unsigned long *counts, size_t first, size_t last, int all)
{
    for (size_t n = first; n <= last; n++) {
        printf("%s %zu: %lu\n", what, n, counts[n]);
        CHECK(!all || counts[n] > 0, "%s %zu never came", what, n);
    }
}

int main(int argc, char **argv)
{
    unsigned long calls = argc > 2 ? strtoul(argv[2], NULL, 10) : 20000;
    seed = (argc > 1 ? strtoull(argv[1], NULL, 10) : 1) * 0x9E3779B97F4A7C15u + 1;
    guard_start();
    for (int p = 0; p < 2; p++) {
        CHECK(play(ask_fresh(repeat(16, one(4)), repeat(16, one(64))))->reply.answer == TCAP_DONE, "a fresh table");
        memcpy(peers[p].table, the_table, sizeof the_table);
    }
    for (unsigned long n = 1; n <= calls; n++) {
        at("random call", (int)n);
        one_call(n);
        if (n % 100000 == 0)
            fprintf(stderr, "random: %lu calls, %u failed\n", n, checks_failed);
    }
    report("answer", answers, TCAP_DONE, TCAP_WRONG_PORTION, calls >= 50000);
    report("row kind", kinds, TCAP_UNI, TCAP_L_CANCEL, calls >= 50000);
    printf("random: %lu calls, %u failed\n", calls, checks_failed);
    return checks_failed > 0;
}
