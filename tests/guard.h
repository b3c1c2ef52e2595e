/*
 * guard.h - what the C tests share: octet strings, one description for every call of the engine, and a way to make the call with
 * every space lent between two guard pages and every promise that all calls give checked.
 */
#ifndef GUARD_H
#define GUARD_H

#include "tcap.h"

/* ---- OCTET STRINGS, handed on by value ----------------------------------------------------------------------------------------------- */

#define OCTETS_MOST 1024

struct octets {
    size_t count;
    uint8_t octet[OCTETS_MOST];
};

extern const struct octets none;

struct octets hex(const char *text);                              /* "A1 06 02": capital digits, blanks don't count */
struct octets one(unsigned octet);
struct octets join(struct octets a, struct octets b);
struct octets repeat(size_t times, struct octets a);
struct octets element(unsigned tag, struct octets contents);      /* with a definite, shortest length */
struct octets primitive(size_t octets);                           /* an element 04 of so many octets in all */
struct octets nested(size_t depth, unsigned tag);                 /* so many constructors, one in another */

/* ---- A CALL AS A VALUE --------------------------------------------------------------------------------------------------------------- */

enum call {
    CALL_FRESH, CALL_OPEN, CALL_INVOKE, CALL_INVOKE_LINKED, CALL_RESULT_LAST, CALL_RESULT_NOT_LAST, CALL_ERROR, CALL_REJECT,
    CALL_CANCEL, CALL_BEGIN, CALL_CONTINUE, CALL_END, CALL_END_PREARRANGED, CALL_ABORT, CALL_UNIDIRECTIONAL, CALL_RECEIVE,
    CALL_TIMEOUT, CALL_REJECT_TIMEOUT, CALL_NO_REACTION, CALLS
};

extern const char *const call_names[CALLS];

struct request {
    enum call call;
    uint32_t service, dialogue, number;                           /* number: the class, or the problem */
    int8_t id, linked;
    struct octets first, second;  /* operation, error, portion, message, name or guarantees; parameter, information or limits */
    size_t table_octets, rows_octets, space_octets;               /* the sizes lent: the least ones, unless altered */
};

/* Each call's request; those not named have no more arguments than these. */
struct request ask(enum call call, uint32_t service, uint32_t dialogue);
struct request ask_id(enum call call, uint32_t service, uint32_t dialogue, int id);
struct request ask_invoke(uint32_t service, uint32_t dialogue, int id, uint32_t cls);      /* operation 02 01 3B, no parameter */
struct request ask_linked(uint32_t service, uint32_t dialogue, int id, int linked, uint32_t cls);
struct request ask_error(uint32_t service, uint32_t dialogue, int id);                     /* error 02 01 3B, no parameter */
struct request ask_reject(uint32_t service, uint32_t dialogue, int id, uint32_t problem);
struct request ask_receive(uint32_t service, struct octets message);
struct request ask_fresh(struct octets guarantees, struct octets limits);
struct request with(struct request r, struct octets first, struct octets second);

int takes_rows(enum call call);
int takes_space(enum call call);
int may_answer(enum call call, uint32_t answer);                  /* the answers that include/tcap.h names at the call */

/* Pointers to what a request lends, and the call itself. */
struct lent {
    uint8_t *table, *rows, *space;
    const uint8_t *first, *second;
};

struct tcap_reply make_call(const struct request *r, const struct lent *l);

extern uint8_t the_table[TCAP_TABLE_OCTETS];                      /* handed to every call; what a call left there is handed on */

/* ---- TABLES TO WORK ON ---------------------------------------------------------------------------------------------------------------- */

/* docs/TABLE.md */
#define PLACES_AT 48
#define PLACE_OCTETS 284

#define PLACE(place) ((uint32_t)(place) << 24)                    /* the dialogue in this place, turn 0 */

void made(struct request r);                                      /* the call on the_table; ends the program unless it is done */
void copy_place(size_t from, size_t first, size_t last);          /* makes these places as that one is, without the calls */

/* ---- CALLS BETWEEN GUARD PAGES ------------------------------------------------------------------------------------------------------- */

enum flush { FLUSH_UPPER, FLUSH_LOWER };                          /* which guard page the spaces touch */

struct outcome {
    struct tcap_reply reply;
    struct octets message;                                        /* what was written to the message space */
    uint8_t rows[TCAP_ROWS_OCTETS];
};

extern unsigned checks_passed, checks_failed;
extern unsigned long answered[CALLS][TCAP_WRONG_PORTION + 1];     /* how often each call gave each answer */

void guard_start(void);                                           /* maps the spaces; a fault from now on is a failure and the end */
void guard_flush(enum flush side);
const struct outcome *play(struct request r);                     /* makes the call; lasts until the next one */
struct tcap_span play_parameter(struct octets message, size_t start, size_t length);
const struct outcome *play_portion(struct octets message, size_t start, size_t length, size_t rows_octets);
const char *rows_text(const struct outcome *o);                   /* the rows as decimal numbers, a ';' after each; lasts until the next one */

/* ---- CHECKS -------------------------------------------------------------------------------------------------------------------------- */

void check(int holds, const char *what, ...);                     /* printf; says where by the last AT */
void at(const char *file, int line);
void expect(uint32_t answer, uint32_t dialogue, struct octets message, const char *rows, struct request r);

#define AT at(__FILE__, __LINE__)
#define CHECK(...) (AT, check(__VA_ARGS__))
/* Answer n; at 0 without a row or a message. */
#define ANSWERS(n, ...) (AT, expect(n, 0, none, "", __VA_ARGS__))
#define OPENS(id, ...) (AT, expect(TCAP_DONE, id, none, "", __VA_ARGS__))
/* Done, with this message in hex and no row. */
#define WRITES(text, ...) (AT, expect(TCAP_DONE, 0, hex(text), "", __VA_ARGS__))
/* Done, with these rows as decimal numbers, a ';' after each row, and no message. */
#define SHOWS(rows, ...) (AT, expect(TCAP_DONE, 0, none, rows, __VA_ARGS__))

#endif
