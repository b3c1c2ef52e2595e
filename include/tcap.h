/*
 * tcap.h - Cipthraku, a TCAP engine (ITU-T Q.773, Q.774) that is proved correct. docs/HOST.md tells how a host uses it; examples/host.c
 * is a first one.
 *
 * The engine has no memory of its own. The host lends it one table of tcap_table_size() octets with every call, and the table is the
 * whole state: keep it, hand it on unaltered to the next call, and use one table from one thread at a time (two tables know nothing
 * of each other).
 *
 * Every call on a table answers with a number. 0 is done; any other number is a refusal, and a refusal changes no octet of the table, the rows
 * or the message space. No call fails in any other way: every call ends, whatever octets and numbers it is given. Each call below lists
 * the answers that it can give; where several apply, it gives the lowest.
 *
 * A slice is two arguments, a pointer and a count of octets. A pointer is never NULL: for no octets pass TCAP_NONE. A space that the
 * engine writes (table, rows, message space) overlaps nothing else that is lent; octets that are only read may overlap each other.
 */
#ifndef TCAP_H
#define TCAP_H

#include <stddef.h>
#include <stdint.h>

#ifdef __cplusplus
extern "C" {
#endif

/* ---- SIZES -------------------------------------------------------------------------------------------------------------------- */

#define TCAP_TABLE_OCTETS 36400     /* the table; tcap_table_size() gives the same number */
#define TCAP_SERVICES 16            /* services (TC-users) are 0 to 15 */
#define TCAP_PLACES 128             /* dialogues at a time, of all services together */
#define TCAP_INVOCATIONS 8          /* open invocations of ours a dialogue */
#define TCAP_WAITING_OCTETS 240     /* octets of components that wait to be sent, a dialogue; together with the dialogue portion of a message */
#define TCAP_WAITING_REJECTS 8      /* rejects of the engine's own that wait to be sent, a dialogue */
#define TCAP_MESSAGE_OCTETS 512     /* the longest message received */
#define TCAP_SPACE_OCTETS 272       /* the least message space; no message written is longer */
#define TCAP_ROW_OCTETS 32          /* a row: 8 numbers of 4 octets, least significant octet first */
#define TCAP_ROWS 128               /* rows that the least row space holds; no call writes more */
#define TCAP_ROWS_OCTETS 4096       /* the least row space */

/* No octets: two arguments, as in tcap_invoke(.., operation, 3, TCAP_NONE). */
#define TCAP_NONE ((const uint8_t *)""), ((size_t)0)

/* A dialogue is a number, its local ID: place times 2^24, plus turn. The place, 0 to 127, may index what the host keeps of its dialogues;
 * compare the whole ID too, since a place is used again, with another turn. */
#define TCAP_PLACE_OF(dialogue) ((uint32_t)(dialogue) >> 24)

/* ---- ANSWERS: the lowest that applies ------------------------------------------------------------------------------------------ */

enum tcap_answer {
    TCAP_DONE = 0,            /* done; or a received message was dropped: no row, no message, no octet changed */
    TCAP_WRONG_SIZE = 1,      /* a lent space has less than its least size, or the table another than its one */
    TCAP_BROKEN_TABLE = 2,    /* the table breaks a rule: it isn't one that a call left */
    TCAP_NO_SERVICE = 3,      /* service above 15 */
    TCAP_MESSAGE_SIZE = 4,    /* received message of 0 or over 512 octets */
    TCAP_NO_DIALOGUE = 5,     /* no such dialogue: it never was or is over; or it is another service's */
    TCAP_WRONG_STATE = 6,     /* the dialogue's state doesn't take the request; Unidirectional with no component or with one not of class 4 */
    TCAP_NO_PLACE = 7,        /* open: no place for this service (its limit, or the others' guarantees) */
    TCAP_WRONG_CODE = 8,      /* class not 1 to 4, or a problem that the user may not send */
    TCAP_WRONG_INVOCATION = 9,/* the invoke ID is in a state other than the request needs (a new invoke needs an ID not in use) */
    TCAP_INVOCATIONS_FULL = 10,/* 8 invocations are open already */
    TCAP_WRONG_OCTETS = 11,   /* octets given aren't one well-formed element of their kind, or nest too deep; or only one of a result's
                                 operation and parameter is given */
    TCAP_TOO_LONG = 12,       /* waiting components and the dialogue portion that goes with them over 240 octets; an abort's portion alone */
    TCAP_WRONG_SHARES = 13,   /* fresh: a guarantee above its limit, a limit above 128, or guarantees over 128 together */
    TCAP_WRONG_PORTION = 14   /* a context name or user information with continue or end in Active; user information without a name, but in
                                 abort */
};

/* ---- ROWS: what a received message or a timer event tells ---------------------------------------------------------------------- */

enum tcap_row_field {         /* the eight numbers of a row; tcap_row() reads one */
    TCAP_ROW_KIND = 0,        /* enum tcap_row_kind */
    TCAP_ROW_DIALOGUE = 1,    /* the local ID; 0 in UNI and its components */
    TCAP_ROW_INVOKE_ID = 2,   /* invoke ID plus 128; TCAP_NO_ID: none */
    TCAP_ROW_LINKED_ID = 3,   /* linked ID plus 128; TCAP_NO_ID: none */
    TCAP_ROW_PROBLEM = 4,     /* a problem (TCAP_PROBLEM), or the cause in P-ABORT; TCAP_NO_PROBLEM: none */
    TCAP_ROW_START = 5,       /* start and length of the component or dialogue portion in the message; 0, 0: none, or no frame */
    TCAP_ROW_LENGTH = 6,
    TCAP_ROW_FOLLOWING = 7    /* in a dialogue row, the component rows that follow it; else 0 */
};

enum tcap_row_kind {
    TCAP_UNI = 1,             /* the dialogue rows; component rows follow 1 to 4 */
    TCAP_BEGIN = 2,           /* a new dialogue, of the partner's making */
    TCAP_CONTINUE = 3,
    TCAP_END = 4,             /* the dialogue is over at 4, 5 and 6: its ID is no longer taken */
    TCAP_U_ABORT = 5,         /* the partner's user aborts */
    TCAP_P_ABORT = 6,         /* the partner's engine aborts, or ours: a fault in a message, or the no-reaction timer */
    TCAP_INVOKE = 7,          /* the component rows */
    TCAP_RESULT_L = 8,
    TCAP_RESULT_NL = 9,
    TCAP_U_ERROR = 10,
    TCAP_U_REJECT = 11,       /* the partner's user rejects */
    TCAP_R_REJECT = 12,       /* the partner's component sub-layer rejects */
    TCAP_L_REJECT = 13,       /* the engine rejects, and the reject waits to be sent */
    TCAP_L_REJECT_ONLY = 14,  /* the engine rejects, and no reject waits: 8 wait already, or none may be sent (in UNI and END, of a reject) */
    TCAP_L_CANCEL = 15        /* an invocation timed out */
};

#define TCAP_NO_ID 256u
#define TCAP_NO_PROBLEM 65535u

/* A problem is one number: kind times 256, plus code. The kind is the problem's tag (80 to 83) less 128. */
#define TCAP_PROBLEM(kind, code) ((uint32_t)(kind) * 256u + (uint32_t)(code))

enum tcap_problem_kind {      /* problem / 256 */
    TCAP_GENERAL_PROBLEM = 0,
    TCAP_INVOKE_PROBLEM = 1,
    TCAP_RESULT_PROBLEM = 2,
    TCAP_ERROR_PROBLEM = 3
};

enum tcap_problem {           /* U: the user may send it with tcap_reject; the others only the engine sends */
    TCAP_UNRECOGNIZED_COMPONENT = 0,
    TCAP_MISTYPED_COMPONENT = 1,
    TCAP_BADLY_STRUCTURED_COMPONENT = 2,
    TCAP_DUPLICATE_INVOKE_ID = 256,             /* U */
    TCAP_UNRECOGNIZED_OPERATION = 257,          /* U */
    TCAP_MISTYPED_INVOKE_PARAMETER = 258,       /* U */
    TCAP_RESOURCE_LIMITATION = 259,             /* U */
    TCAP_INITIATING_RELEASE = 260,              /* U */
    TCAP_UNRECOGNIZED_LINKED_ID = 261,
    TCAP_LINKED_RESPONSE_UNEXPECTED = 262,      /* U */
    TCAP_UNEXPECTED_LINKED_OPERATION = 263,     /* U */
    TCAP_RESULT_UNRECOGNIZED_INVOKE_ID = 512,
    TCAP_RESULT_UNEXPECTED = 513,
    TCAP_MISTYPED_RESULT_PARAMETER = 514,       /* U */
    TCAP_ERROR_UNRECOGNIZED_INVOKE_ID = 768,
    TCAP_ERROR_UNEXPECTED = 769,
    TCAP_UNRECOGNIZED_ERROR = 770,              /* U */
    TCAP_UNEXPECTED_ERROR = 771,                /* U */
    TCAP_MISTYPED_ERROR_PARAMETER = 772         /* U */
};

enum tcap_cause {             /* of a P-ABORT row; TCAP_NO_PROBLEM where the no-reaction timer gave it */
    TCAP_UNRECOGNIZED_MESSAGE = 0,
    TCAP_UNRECOGNIZED_TRANSACTION = 1,
    TCAP_BADLY_FORMATTED_PORTION = 2,
    TCAP_INCORRECT_PORTION = 3,
    TCAP_RESOURCE_LIMIT = 4
};

/* One number of a row: tcap_row(rows, 0, TCAP_ROW_KIND) is the first row's kind. A row space is octets, so that it needs no alignment. */
static inline uint32_t tcap_row(const uint8_t *rows, size_t row, enum tcap_row_field field)
{
    const uint8_t *p = rows + row * TCAP_ROW_OCTETS + (size_t)field * 4;
    return (uint32_t)p[0] | (uint32_t)p[1] << 8 | (uint32_t)p[2] << 16 | (uint32_t)p[3] << 24;
}

/* The invoke or linked ID of a row, from a number that isn't TCAP_NO_ID: tcap_id(tcap_row(rows, 1, TCAP_ROW_INVOKE_ID)). */
static inline int8_t tcap_id(uint32_t number)
{
    return (int8_t)((int)number - 128);
}

/* ---- WHAT EVERY CALL RETURNS --------------------------------------------------------------------------------------------------- */

struct tcap_reply {
    uint32_t answer;          /* enum tcap_answer; at any but TCAP_DONE the other three are 0 */
    uint32_t rows;            /* rows written to the row space */
    uint32_t length;          /* octets of message written to the message space; 0: no message */
    uint32_t dialogue;        /* the local ID that tcap_open gives; 0 in every other call (0 is an ID too: the answer decides) */
};

/* ---- THE TABLE ----------------------------------------------------------------------------------------------------------------- */

/* The octets of a table, always TCAP_TABLE_OCTETS. */
size_t tcap_table_size(void);

/*
 * Makes an empty table, whatever the octets were. Guarantees and limits are 16 octets each, one a service: a service is never refused
 * a dialogue while it has fewer than its guarantee, and never has more than its limit.
 * Answers 0, 1, 13.
 */
struct tcap_reply tcap_fresh(uint8_t *table, size_t table_octets, const uint8_t *guarantees, size_t guarantees_octets,
                             const uint8_t *limits, size_t limits_octets);

/* ---- A NEW DIALOGUE -------------------------------------------------------------------------------------------------------------- */

/* Takes a place for a new dialogue of ours, in Open; the reply's `dialogue` is its local ID, which every later call on it is given. Sends
 * nothing. Answers 0, 1, 2, 3, 7. */
struct tcap_reply tcap_open(uint8_t *table, size_t table_octets, uint32_t service);

/* ---- REQUESTS ON COMPONENTS: they wait in the dialogue until a message is sent -------------------------------------------------- */
/*
 * An operation or an error is a whole element, tag and length with it: 02 with 1 to 4 octets or 06 with at least 1; a parameter is any
 * one whole element, or none (TCAP_NONE). Octets given are copied. An invoke is passed in any state of the dialogue; a result, error or
 * reject in Sent, Received and Active. An invoke ID of ours and one of the partner's have nothing to do with each other, also where they are equal.
 */

enum tcap_class {
    TCAP_CLASS_1 = 1,         /* success and failure are reported */
    TCAP_CLASS_2 = 2,         /* failure only */
    TCAP_CLASS_3 = 3,         /* success only */
    TCAP_CLASS_4 = 4          /* neither */
};

/* An invoke of class 1 to 4, with an ID of ours, any from -128 to 127 that isn't in use in this dialogue.
 * Answers 0, 1, 2, 3, 5, 8, 9, 10, 11, 12. */
struct tcap_reply tcap_invoke(uint8_t *table, size_t table_octets, uint32_t service, uint32_t dialogue, int8_t id, uint32_t cls,
                              const uint8_t *operation, size_t operation_octets, const uint8_t *parameter, size_t parameter_octets);

/* The same, linked to the partner's invoke `linked`: a question asked back before it is answered. Answers 0, 1, 2, 3, 5, 8, 9, 10, 11, 12. */
struct tcap_reply tcap_invoke_linked(uint8_t *table, size_t table_octets, uint32_t service, uint32_t dialogue, int8_t id,
                                     int8_t linked, uint32_t cls, const uint8_t *operation, size_t operation_octets,
                                     const uint8_t *parameter, size_t parameter_octets);

/* The last result of the partner's invoke `id`; operation and parameter both or neither. Answers 0, 1, 2, 3, 5, 6, 11, 12. */
struct tcap_reply tcap_result_last(uint8_t *table, size_t table_octets, uint32_t service, uint32_t dialogue, int8_t id,
                                   const uint8_t *operation, size_t operation_octets, const uint8_t *parameter,
                                   size_t parameter_octets);

/* A result of the partner's invoke `id` after which more follow; the same rules. Answers 0, 1, 2, 3, 5, 6, 11, 12. */
struct tcap_reply tcap_result_not_last(uint8_t *table, size_t table_octets, uint32_t service, uint32_t dialogue, int8_t id,
                                       const uint8_t *operation, size_t operation_octets, const uint8_t *parameter,
                                       size_t parameter_octets);

/* An error that answers the partner's invoke `id`. Answers 0, 1, 2, 3, 5, 6, 11, 12. */
struct tcap_reply tcap_error(uint8_t *table, size_t table_octets, uint32_t service, uint32_t dialogue, int8_t id,
                             const uint8_t *error, size_t error_octets, const uint8_t *parameter, size_t parameter_octets);

/*
 * A user's reject of a component received, with one of the problems marked U. With an invoke problem `id` is the partner's invoke; with a
 * result or error problem it is ours, and in Wait (or, a result, still Sent after a result not last was shown), else 9.
 * Answers 0, 1, 2, 3, 5, 6, 8, 9, 12.
 */
struct tcap_reply tcap_reject(uint8_t *table, size_t table_octets, uint32_t service, uint32_t dialogue, int8_t id, uint32_t problem);

/* Gives up an invocation of ours in Sent; its ID may be used again. Tells the partner nothing. Answers 0, 1, 2, 3, 5, 9. */
struct tcap_reply tcap_cancel(uint8_t *table, size_t table_octets, uint32_t service, uint32_t dialogue, int8_t id);

/* ---- REQUESTS ON THE DIALOGUE: they write a message to the message space --------------------------------------------------------- */
/*
 * The message takes a dialogue portion, if one is given; then the waiting components in order, and after them the engine's own waiting
 * rejects if all together, the portion too, have at most 240 octets. The reply's `length` is the message's octets; the host sends them.
 * `space` has at least TCAP_SPACE_OCTETS; octets after the message keep what they held.
 *
 * `name` is the application context's name, one whole element 06 with at least 1 octet, or none (TCAP_NONE); `information` is user
 * information, one whole element BE, or none. A name makes a dialogue portion, and information goes only with a name: a dialogue request
 * (AARQ) in Begin, a response (AARE: accepted, user, null) in Continue or End, which take them only in Received, and the unidirectional
 * PDU (AUDT) in Unidirectional. Neither: no dialogue portion.
 */

/* Sends Begin, from Open. Answers 0, 1, 2, 3, 5, 6, 11, 12, 14. */
struct tcap_reply tcap_begin(uint8_t *table, size_t table_octets, uint32_t service, uint32_t dialogue, const uint8_t *name,
                             size_t name_octets, const uint8_t *information, size_t information_octets, uint8_t *space,
                             size_t space_octets);

/* Sends Continue, from Received or Active. Answers 0, 1, 2, 3, 5, 6, 11, 12, 14. */
struct tcap_reply tcap_continue(uint8_t *table, size_t table_octets, uint32_t service, uint32_t dialogue, const uint8_t *name,
                                size_t name_octets, const uint8_t *information, size_t information_octets, uint8_t *space,
                                size_t space_octets);

/* Sends End, from Received or Active; the dialogue is over. Answers 0, 1, 2, 3, 5, 6, 11, 12, 14. */
struct tcap_reply tcap_end(uint8_t *table, size_t table_octets, uint32_t service, uint32_t dialogue, const uint8_t *name,
                           size_t name_octets, const uint8_t *information, size_t information_octets, uint8_t *space,
                           size_t space_octets);

/* Ends the dialogue without a message, in any state; drops what waits. Answers 0, 1, 2, 3, 5. */
struct tcap_reply tcap_end_prearranged(uint8_t *table, size_t table_octets, uint32_t service, uint32_t dialogue);

/* Ends the dialogue in any state; sends Abort in Received and Active: with `portion`, a whole element 6B, as it is; with user
 * information, one element BE, in an abort PDU (ABRT: user); or with none (TCAP_NONE). In Open and Sent there is no peer ID to send to,
 * and length is 0. Answers 0, 1, 2, 3, 5, 11, 12. */
struct tcap_reply tcap_abort(uint8_t *table, size_t table_octets, uint32_t service, uint32_t dialogue, const uint8_t *portion,
                             size_t portion_octets, uint8_t *space, size_t space_octets);

/* Sends Unidirectional, from Open, of one or more invokes, all of class 4; the dialogue is over. Answers 0, 1, 2, 3, 5, 6, 11, 12, 14. */
struct tcap_reply tcap_unidirectional(uint8_t *table, size_t table_octets, uint32_t service, uint32_t dialogue, const uint8_t *name,
                                      size_t name_octets, const uint8_t *information, size_t information_octets, uint8_t *space,
                                      size_t space_octets);

/* ---- A RECEIVED MESSAGE ---------------------------------------------------------------------------------------------------------- */

/*
 * Takes a message of 1 to 512 octets for the service that it is addressed to (the host knows which from SCCP). The rows tell what it
 * brought: one dialogue row, then a row for each component. A faulty message whose originating ID can be read is answered by an Abort in
 * the message space, to be sent back to the sender, and ends the dialogue that it was for, if there is one, with a P-ABORT row. No row
 * and no message: it was dropped.
 * Needs TCAP_ROWS_OCTETS of rows and TCAP_SPACE_OCTETS of space. Answers 0, 1, 2, 3, 4.
 */
struct tcap_reply tcap_receive(uint8_t *table, size_t table_octets, uint32_t service, const uint8_t *message, size_t message_octets,
                               uint8_t *rows, size_t rows_octets, uint8_t *space, size_t space_octets);

/* ---- TIMER EVENTS: the clocks are the host's ------------------------------------------------------------------------------------- */

/* An invocation of ours in Sent had no answer in time: one L-CANCEL row, none in class 4; the ID is free. Answers 0, 1, 2, 3, 5, 9. */
struct tcap_reply tcap_timeout(uint8_t *table, size_t table_octets, uint32_t service, uint32_t dialogue, int8_t id, uint8_t *rows,
                               size_t rows_octets);

/* The time in which the answer to our invocation in Wait may be rejected is over; the ID is free. Answers 0, 1, 2, 3, 5, 9. */
struct tcap_reply tcap_reject_timeout(uint8_t *table, size_t table_octets, uint32_t service, uint32_t dialogue, int8_t id);

/* A dialogue in Sent had no answer in time: one P-ABORT row without a cause, the dialogue is over. Answers 0, 1, 2, 3, 5, 6. */
struct tcap_reply tcap_no_reaction(uint8_t *table, size_t table_octets, uint32_t service, uint32_t dialogue, uint8_t *rows,
                                   size_t rows_octets);

/* ---- THE PARAMETER OF A COMPONENT -------------------------------------------------------------------------------------------------- */

/* A part of a message. */
struct tcap_span {
    size_t start;
    size_t length;
};

/* Where in the message the parameter stands of the component at start and length, as a row gives them; 0, 0 where there is none or that
 * run is no sound component. Takes no table. */
struct tcap_span tcap_parameter(const uint8_t *message, size_t message_octets, size_t start, size_t length);

/* ---- THE DIALOGUE PORTION OF A MESSAGE --------------------------------------------------------------------------------------------- */

enum tcap_portion_field {     /* the eight numbers of the row that tcap_portion writes; tcap_portion_number() reads one */
    TCAP_PORTION_KIND = 0,    /* enum tcap_portion_kind */
    TCAP_PORTION_NAME_START = 1,          /* the context name, its whole element 06, in the message; 0, 0: none */
    TCAP_PORTION_NAME_LENGTH = 2,
    TCAP_PORTION_INFORMATION_START = 3,   /* the user information, its whole element BE, in the message; 0, 0: none */
    TCAP_PORTION_INFORMATION_LENGTH = 4,
    TCAP_PORTION_RESULT = 5,              /* of a response: 0 accepted, 1 rejected for good; TCAP_NO_VALUE: none */
    TCAP_PORTION_DIAGNOSTIC = 6,          /* of a response: 256 plus value from the user, 512 plus value from the provider; TCAP_NO_VALUE: none */
    TCAP_PORTION_SOURCE = 7               /* of an abort: 0 user, 1 provider; TCAP_NO_VALUE: none */
};

enum tcap_portion_kind {
    TCAP_PORTION_NONE = 0,    /* the run isn't in the message, or isn't one well-formed element 6B */
    TCAP_PORTION_OPAQUE = 1,  /* of another form: the host may read its octets itself */
    TCAP_AARQ = 2,            /* dialogue request */
    TCAP_AARE = 3,            /* dialogue response */
    TCAP_ABRT = 4,            /* dialogue abort */
    TCAP_AUDT = 5             /* unidirectional dialogue */
};

#define TCAP_NO_VALUE 65535u

/*
 * Reads the dialogue portion at start and length of a message, as a dialogue row gives them, and writes one row of eight numbers (enum
 * tcap_portion_field). Takes no table and changes none: what a portion says is for the host to act on. A protocol version before the name
 * is stepped over. Needs TCAP_ROWS_OCTETS of rows. Answers 0, 1.
 */
struct tcap_reply tcap_portion(const uint8_t *message, size_t message_octets, size_t start, size_t length, uint8_t *rows, size_t rows_octets);

/* One number of that row: tcap_portion_number(rows, TCAP_PORTION_KIND). */
static inline uint32_t tcap_portion_number(const uint8_t *rows, enum tcap_portion_field field)
{
    return tcap_row(rows, 0, (enum tcap_row_field)field);
}

#ifdef __cplusplus
}
#endif

#endif
