#define _DEFAULT_SOURCE
#include "guard.h"

#include <signal.h>
#include <stdarg.h>
#include <stdio.h>
#include <stdlib.h>
#include <string.h>
#include <sys/mman.h>
#include <unistd.h>

/* ---- OCTET STRINGS ------------------------------------------------------------------------------------------------------------------- */

const struct octets none;

struct octets one(unsigned octet)
{
    struct octets o = none;
    o.octet[o.count++] = (uint8_t)octet;
    return o;
}

struct octets join(struct octets a, struct octets b)
{
    if (a.count + b.count > OCTETS_MOST)
        abort();
    memcpy(a.octet + a.count, b.octet, b.count);
    a.count += b.count;
    return a;
}

struct octets hex(const char *text)
{
    struct octets o = none;
    unsigned digits = 0, octet = 0;
    for (; *text; text++) {
        if (*text == ' ')
            continue;
        octet = octet * 16 + (unsigned)(*text <= '9' ? *text - '0' : *text - 'A' + 10);
        if (++digits % 2 == 0) {
            o = join(o, one(octet));
            octet = 0;
        }
    }
    return o;
}

struct octets repeat(size_t times, struct octets a)
{
    struct octets o = none;
    while (times-- > 0)
        o = join(o, a);
    return o;
}

struct octets element(unsigned tag, struct octets contents)
{
    size_t n = contents.count;
    struct octets head = one(tag);
    if (n >= 256)
        head = join(head, join(one(0x82), one((unsigned)(n >> 8))));
    else if (n >= 128)
        head = join(head, one(0x81));
    return join(join(head, one(n & 255)), contents);
}

struct octets primitive(size_t octets)
{
    return element(0x04, repeat(octets - (octets < 130 ? 2 : octets < 259 ? 3 : 4), one(0)));
}

struct octets nested(size_t depth, unsigned tag)
{
    struct octets o = none;
    while (depth-- > 0)
        o = element(tag, o);
    return o;
}

/* ---- REQUESTS ------------------------------------------------------------------------------------------------------------------------ */

const char *const call_names[CALLS] = {
    "fresh", "open", "invoke", "invoke_linked", "result_last", "result_not_last", "error", "reject", "cancel", "begin", "continue",
    "end", "end_prearranged", "abort", "unidirectional", "receive", "timeout", "reject_timeout", "no_reaction",
};

struct request ask(enum call call, uint32_t service, uint32_t dialogue)
{
    struct request r = { call, service, dialogue, 0, 0, 0, none, none, TCAP_TABLE_OCTETS, TCAP_ROWS_OCTETS, TCAP_SPACE_OCTETS };
    return r;
}

struct request with(struct request r, struct octets first, struct octets second)
{
    r.first = first;
    r.second = second;
    return r;
}

struct request ask_id(enum call call, uint32_t service, uint32_t dialogue, int id)
{
    struct request r = ask(call, service, dialogue);
    r.id = (int8_t)id;
    return r;
}

struct request ask_invoke(uint32_t service, uint32_t dialogue, int id, uint32_t cls)
{
    struct request r = with(ask_id(CALL_INVOKE, service, dialogue, id), hex("02 01 3B"), none);
    r.number = cls;
    return r;
}

struct request ask_linked(uint32_t service, uint32_t dialogue, int id, int linked, uint32_t cls)
{
    struct request r = ask_invoke(service, dialogue, id, cls);
    r.call = CALL_INVOKE_LINKED;
    r.linked = (int8_t)linked;
    return r;
}

struct request ask_error(uint32_t service, uint32_t dialogue, int id)
{
    return with(ask_id(CALL_ERROR, service, dialogue, id), hex("02 01 3B"), none);
}

struct request ask_reject(uint32_t service, uint32_t dialogue, int id, uint32_t problem)
{
    struct request r = ask_id(CALL_REJECT, service, dialogue, id);
    r.number = problem;
    return r;
}

struct request ask_receive(uint32_t service, struct octets message)
{
    return with(ask(CALL_RECEIVE, service, 0), message, none);
}

struct request ask_fresh(struct octets guarantees, struct octets limits)
{
    return with(ask(CALL_FRESH, 0, 0), guarantees, limits);
}

int takes_rows(enum call call)
{
    return call == CALL_RECEIVE || call == CALL_TIMEOUT || call == CALL_NO_REACTION;
}

int takes_space(enum call call)
{
    return call == CALL_RECEIVE || call == CALL_ABORT || call == CALL_UNIDIRECTIONAL || (call >= CALL_BEGIN && call <= CALL_END);
}

int may_answer(enum call call, uint32_t answer)
{
    static const char *const answers[CALLS] = { /* as octets in hex */
        [CALL_FRESH] = "00 01 0D", [CALL_OPEN] = "00 01 02 03 07", [CALL_INVOKE] = "00 01 02 03 05 08 09 0A 0B 0C",
        [CALL_INVOKE_LINKED] = "00 01 02 03 05 08 09 0A 0B 0C", [CALL_RESULT_LAST] = "00 01 02 03 05 06 0B 0C",
        [CALL_RESULT_NOT_LAST] = "00 01 02 03 05 06 0B 0C", [CALL_ERROR] = "00 01 02 03 05 06 0B 0C",
        [CALL_REJECT] = "00 01 02 03 05 06 08 09 0C", [CALL_CANCEL] = "00 01 02 03 05 09", [CALL_BEGIN] = "00 01 02 03 05 06 0B 0C 0E",
        [CALL_CONTINUE] = "00 01 02 03 05 06 0B 0C 0E", [CALL_END] = "00 01 02 03 05 06 0B 0C 0E", [CALL_END_PREARRANGED] = "00 01 02 03 05",
        [CALL_ABORT] = "00 01 02 03 05 0B 0C", [CALL_UNIDIRECTIONAL] = "00 01 02 03 05 06 0B 0C 0E", [CALL_RECEIVE] = "00 01 02 03 04",
        [CALL_TIMEOUT] = "00 01 02 03 05 09", [CALL_REJECT_TIMEOUT] = "00 01 02 03 05 09", [CALL_NO_REACTION] = "00 01 02 03 05 06",
    };
    struct octets may = hex(answers[call]);
    return answer <= TCAP_WRONG_PORTION && memchr(may.octet, (int)answer, may.count) != NULL;
}

uint8_t the_table[TCAP_TABLE_OCTETS];

#define TABLE l->table, r->table_octets
#define ROWS l->rows, r->rows_octets
#define SPACE l->space, r->space_octets
#define FIRST l->first, r->first.count
#define SECOND l->second, r->second.count
#define WHOSE r->service, r->dialogue

struct tcap_reply make_call(const struct request *r, const struct lent *l)
{
    const struct tcap_reply nothing = { 99, 0, 0, 0 };
    switch (r->call) {
    case CALL_FRESH: return tcap_fresh(TABLE, FIRST, SECOND);
    case CALL_OPEN: return tcap_open(TABLE, r->service);
    case CALL_INVOKE: return tcap_invoke(TABLE, WHOSE, r->id, r->number, FIRST, SECOND);
    case CALL_INVOKE_LINKED: return tcap_invoke_linked(TABLE, WHOSE, r->id, r->linked, r->number, FIRST, SECOND);
    case CALL_RESULT_LAST: return tcap_result_last(TABLE, WHOSE, r->id, FIRST, SECOND);
    case CALL_RESULT_NOT_LAST: return tcap_result_not_last(TABLE, WHOSE, r->id, FIRST, SECOND);
    case CALL_ERROR: return tcap_error(TABLE, WHOSE, r->id, FIRST, SECOND);
    case CALL_REJECT: return tcap_reject(TABLE, WHOSE, r->id, r->number);
    case CALL_CANCEL: return tcap_cancel(TABLE, WHOSE, r->id);
    case CALL_BEGIN: return tcap_begin(TABLE, WHOSE, FIRST, SECOND, SPACE);
    case CALL_CONTINUE: return tcap_continue(TABLE, WHOSE, FIRST, SECOND, SPACE);
    case CALL_END: return tcap_end(TABLE, WHOSE, FIRST, SECOND, SPACE);
    case CALL_END_PREARRANGED: return tcap_end_prearranged(TABLE, WHOSE);
    case CALL_ABORT: return tcap_abort(TABLE, WHOSE, FIRST, SPACE);
    case CALL_UNIDIRECTIONAL: return tcap_unidirectional(TABLE, WHOSE, FIRST, SECOND, SPACE);
    case CALL_RECEIVE: return tcap_receive(TABLE, r->service, FIRST, ROWS, SPACE);
    case CALL_TIMEOUT: return tcap_timeout(TABLE, WHOSE, r->id, ROWS);
    case CALL_REJECT_TIMEOUT: return tcap_reject_timeout(TABLE, WHOSE, r->id);
    case CALL_NO_REACTION: return tcap_no_reaction(TABLE, WHOSE, ROWS);
    default: return nothing;
    }
}

void made(struct request r)
{
    static uint8_t rows[TCAP_ROWS_OCTETS], space[TCAP_SPACE_OCTETS];
    const struct lent l = { the_table, rows, space, r.first.octet, r.second.octet };
    uint32_t answer = make_call(&r, &l).answer;
    if (answer != TCAP_DONE) {
        fprintf(stderr, "%s is answered %u\n", call_names[r.call], answer);
        exit(1);
    }
}

void copy_place(size_t from, size_t first, size_t last)
{
    for (size_t p = first; p <= last; p++) {
        memcpy(the_table + PLACES_AT + p * PLACE_OCTETS, the_table + PLACES_AT + from * PLACE_OCTETS, PLACE_OCTETS);
        the_table[p / 8] = (uint8_t)(the_table[p / 8] & ~(1u << p % 8));
    }
}

/* ---- CHECKS -------------------------------------------------------------------------------------------------------------------------- */

unsigned checks_passed, checks_failed;
static const char *at_file = "?";
static int at_line;

void at(const char *file, int line)
{
    at_file = file;
    at_line = line;
}

void check(int holds, const char *what, ...)
{
    va_list more;
    if (holds) {
        checks_passed++;
        return;
    }
    checks_failed++;
    printf("FAILED %s:%d ", at_file, at_line);
    va_start(more, what);
    vprintf(what, more);
    va_end(more);
    printf("\n");
}

/* ---- CALLS BETWEEN GUARD PAGES ------------------------------------------------------------------------------------------------------- */

/* Pages between two that nobody may touch; a part of them that touches one is lent. */
struct region {
    size_t pages;
    uint8_t *start, *before;      /* what stood here before the call */
    uint8_t *lent;
};

enum { TABLE_REGION, ROWS_REGION, SPACE_REGION, FIRST_REGION, SECOND_REGION, REGIONS };

static struct region regions[REGIONS] = { { 9, 0, 0, 0 }, { 2, 0, 0, 0 }, { 1, 0, 0, 0 }, { 1, 0, 0, 0 }, { 1, 0, 0, 0 } };
static size_t page;
static enum flush flush_side;
unsigned long answered[CALLS][TCAP_WRONG_PORTION + 1];

static void faulted(int signal)
{
    printf("FAILED %s:%d signal %d: an octet outside the spaces lent was touched\n", at_file, at_line, signal);
    fflush(stdout);
    _exit(1);
}

void guard_start(void)
{
    page = (size_t)sysconf(_SC_PAGESIZE);
    for (struct region *g = regions; g < regions + REGIONS; g++) {
        size_t octets = g->pages * page;
        uint8_t *all = mmap(NULL, octets + 2 * page, PROT_NONE, MAP_PRIVATE | MAP_ANONYMOUS, -1, 0);
        if (all == MAP_FAILED || mprotect(all + page, octets, PROT_READ | PROT_WRITE) != 0) {
            perror("guard pages");
            exit(1);
        }
        g->start = all + page;
        g->before = malloc(octets);
    }
    signal(SIGSEGV, faulted);
    signal(SIGBUS, faulted);
}

void guard_flush(enum flush side)
{
    flush_side = side;
}

/* Lends octets of a region: first those held, the rest painted, in another colour each time. */
static uint8_t *lend(int which, size_t octets, const uint8_t *held, size_t held_octets)
{
    static uint8_t colour;
    struct region *g = &regions[which];
    size_t all = g->pages * page;
    if (octets > all)
        abort();
    memset(g->start, colour += 37, all);
    g->lent = g->start + (flush_side == FLUSH_UPPER ? all - octets : 0);
    memcpy(g->lent, held, held_octets < octets ? held_octets : octets);
    memcpy(g->before, g->start, all);
    return g->lent;
}

/* Nothing of the region changed but at most the first octets of what was lent. */
static int kept(int which, size_t but)
{
    const struct region *g = &regions[which];
    size_t ahead = (size_t)(g->lent - g->start), after = ahead + but, all = g->pages * page;
    return after <= all && memcmp(g->start, g->before, ahead) == 0 && memcmp(g->start + after, g->before + after, all - after) == 0;
}

static int all_kept(const struct tcap_reply *t)
{
    return kept(TABLE_REGION, t->answer == TCAP_DONE ? TCAP_TABLE_OCTETS : 0) && kept(ROWS_REGION, t->rows * TCAP_ROW_OCTETS)
        && kept(SPACE_REGION, t->length) && kept(FIRST_REGION, 0) && kept(SECOND_REGION, 0);
}

/* What every call promises, whatever it does. */
static void check_promises(const struct request *r, const struct tcap_reply *t)
{
    const char *name = call_names[r->call];
    check(may_answer(r->call, t->answer), "%s: answer %u", name, t->answer);
    if (t->answer != TCAP_DONE)
        check(t->rows == 0 && t->length == 0 && t->dialogue == 0, "%s: answer %u with rows, message or dialogue", name, t->answer);
    check(t->rows <= (takes_rows(r->call) ? TCAP_ROWS : 0), "%s: %u rows", name, t->rows);
    check(t->length <= (takes_space(r->call) ? TCAP_SPACE_OCTETS : 0), "%s: a message of %u octets", name, t->length);
    check(t->dialogue == 0 || r->call == CALL_OPEN, "%s: dialogue %08X", name, t->dialogue);
    check(all_kept(t), "%s: answer %u changed octets that it keeps", name, t->answer);
    if (r->call == CALL_RECEIVE && t->rows == 0 && t->length == 0)
        check(kept(TABLE_REGION, 0), "receive: a dropped message changed the table");
}

const struct outcome *play(struct request r)
{
    static struct outcome o;
    struct lent l;
    l.table = lend(TABLE_REGION, r.table_octets, the_table, TCAP_TABLE_OCTETS);
    l.rows = lend(ROWS_REGION, r.rows_octets, o.rows, 0);
    l.space = lend(SPACE_REGION, r.space_octets, o.rows, 0);
    l.first = lend(FIRST_REGION, r.first.count, r.first.octet, r.first.count);
    l.second = lend(SECOND_REGION, r.second.count, r.second.octet, r.second.count);
    o.reply = make_call(&r, &l);
    answered[r.call][o.reply.answer % (TCAP_WRONG_PORTION + 1)]++;
    check_promises(&r, &o.reply);
    o.message.count = o.reply.length <= OCTETS_MOST ? o.reply.length : 0;
    memcpy(o.message.octet, l.space, o.message.count);
    memcpy(o.rows, l.rows, o.reply.rows <= TCAP_ROWS ? o.reply.rows * TCAP_ROW_OCTETS : 0);
    if (r.table_octets == TCAP_TABLE_OCTETS)
        memcpy(the_table, l.table, TCAP_TABLE_OCTETS);
    return &o;
}

struct tcap_span play_parameter(struct octets message, size_t start, size_t length)
{
    const uint8_t *m = lend(FIRST_REGION, message.count, message.octet, message.count);
    struct tcap_span s = tcap_parameter(m, message.count, start, length);
    check(kept(FIRST_REGION, 0), "parameter: the message changed");
    check(s.start <= message.count && s.length <= message.count - s.start, "parameter: %zu, %zu isn't in the message", s.start, s.length);
    return s;
}

const struct outcome *play_portion(struct octets message, size_t start, size_t length, size_t rows_octets)
{
    static struct outcome o;
    const uint8_t *m = lend(FIRST_REGION, message.count, message.octet, message.count);
    uint8_t *rows = lend(ROWS_REGION, rows_octets, o.rows, 0);
    o.reply = tcap_portion(m, message.count, start, length, rows, rows_octets);
    check(o.reply.answer == (rows_octets < TCAP_ROWS_OCTETS ? TCAP_WRONG_SIZE : TCAP_DONE), "portion: answer %u", o.reply.answer);
    check(o.reply.rows == (o.reply.answer == TCAP_DONE) && o.reply.length == 0 && o.reply.dialogue == 0, "portion: what is told beside it");
    check(kept(FIRST_REGION, 0) && kept(ROWS_REGION, o.reply.rows * TCAP_ROW_OCTETS), "portion: octets changed that it keeps");
    memcpy(o.rows, rows, o.reply.rows * TCAP_ROW_OCTETS);
    return &o;
}

/* ---- WHAT A CALL IS EXPECTED TO GIVE ------------------------------------------------------------------------------------------------- */

const char *rows_text(const struct outcome *o)
{
    static char text[TCAP_ROWS * 90];
    size_t end = 0;
    text[0] = 0;
    for (size_t n = 0; n < o->reply.rows; n++)
        for (int field = TCAP_ROW_KIND; field <= TCAP_ROW_FOLLOWING; field++)
            end += (size_t)sprintf(text + end, "%u%s", tcap_row(o->rows, n, (enum tcap_row_field)field),
                                   field < TCAP_ROW_FOLLOWING ? " " : ";");
    return text;
}

static const char *hex_text(struct octets o)
{
    static char text[2][OCTETS_MOST * 2 + 1];
    static int turn;
    char *t = text[turn ^= 1];
    t[0] = 0;
    for (size_t i = 0; i < o.count; i++)
        sprintf(t + 2 * i, "%02X", o.octet[i]);
    return t;
}

void expect(uint32_t answer, uint32_t dialogue, struct octets message, const char *rows, struct request r)
{
    const struct outcome *o = play(r);
    const char *name = call_names[r.call], *shown = rows_text(o);
    check(o->reply.answer == answer, "%s: answer %u, not %u", name, o->reply.answer, answer);
    check(o->reply.dialogue == dialogue, "%s: dialogue %08X, not %08X", name, o->reply.dialogue, dialogue);
    check(o->message.count == message.count && memcmp(o->message.octet, message.octet, message.count) == 0,
          "%s: message '%s', not '%s'", name, hex_text(o->message), hex_text(message));
    check(strcmp(shown, rows) == 0, "%s: rows '%s', not '%s'", name, shown, rows);
}
