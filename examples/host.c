/*
 * host.c - a first host. Two nodes, each with a table of its own, talk to each other: what one sends, the other receives. Every call is
 * printed with its answer, every message in hex, every row in words. docs/HOST.md explains; examples/run builds it and runs it.
 */
#include "tcap.h"

#include <stdio.h>

enum { MENU = 3, ROAMING = 6 };         /* the two services; any numbers from 0 to 15 */

struct node {
    const char *name;
    uint8_t table[TCAP_TABLE_OCTETS];   /* all that the engine knows */
    uint8_t rows[TCAP_ROWS_OCTETS];     /* rows of the last received message or timer event */
    uint8_t space[TCAP_SPACE_OCTETS];   /* the last message to be sent, */
    size_t length;                      /* and its octets */
};

static struct node home, partner;

/* A slice is two arguments: where the octets are and how many. */
#define ALL(octets) (octets), sizeof(octets)
#define TABLE(node) ALL((node).table)
#define ROWS(node) ALL((node).rows)
#define SPACE(node) ALL((node).space)

/* An operation is a whole element: 02, length, number. A parameter is any one element; these are text: 04, length, characters. */
static const uint8_t ask_menu[] = { 0x02, 0x01, 0x3B }, ask_back[] = { 0x02, 0x01, 0x3C };
static const uint8_t code[] = { 0x04, 0x05, '*', '1', '0', '0', '#' }, balance[] = { 0x04, 0x03, '4', '2', '!' };
/* An application context's name is a whole 06 element: location update, version 3 (0.4.0.0.1.0.1.3). User information is a whole BE element. */
static const uint8_t location_update[] = { 0x06, 0x07, 0x04, 0x00, 0x00, 0x01, 0x00, 0x01, 0x03 }, farewell[] = { 0xBE, 0x04, 0x04, 0x02, 'O', 'K' };

/* ---- WORDS ------------------------------------------------------------------------------------------------------------------------- */

static const char *const answer_words[] = {
    "done", "wrong size lent", "broken table", "no such service", "message too short or too long", "no such dialogue",
    "wrong dialogue state", "no place for this service", "wrong class or problem", "invoke ID in a wrong state",
    "8 invocations open already", "octets not well formed", "over 240 octets", "wrong shares", "name or information not taken here"
};
static const char *const portion_words[] = {
    "no dialogue portion", "of a form of its own", "a dialogue request", "a dialogue response", "a dialogue abort", "a unidirectional dialogue"
};
static const char *const kind_words[] = {
    "", "UNI", "BEGIN", "CONTINUE", "END", "U-ABORT", "P-ABORT", "INVOKE", "RESULT-L", "RESULT-NL", "U-ERROR", "U-REJECT", "R-REJECT",
    "L-REJECT (stored)", "L-REJECT (not stored)", "L-CANCEL"
};

static void print_octets(const char *label, const uint8_t *octets, size_t count)
{
    printf("           %s:", label);
    for (size_t i = 0; i < count; i++)
        printf(" %02X", octets[i]);
    printf("\n");
}

static void print_id(const char *label, uint32_t number)
{
    if (number != TCAP_NO_ID)
        printf(", %s %d", label, tcap_id(number));
}

static void print_unless(uint32_t none, const char *label, uint32_t number)
{
    if (number != none)
        printf(", %s %u", label, (unsigned)number);
}

/* The operation of an INVOKE stands behind the component's tag and length, the invoke ID and the linked ID; the engine has checked that. */
static void print_operation(const uint8_t *row, const uint8_t *message)
{
    size_t at = tcap_row(row, 0, TCAP_ROW_START) + 1;
    at += message[at] == 0x81 ? 2 : message[at] == 0x82 ? 3 : 1;
    at += tcap_row(row, 0, TCAP_ROW_LINKED_ID) == TCAP_NO_ID ? 3 : 6;
    print_octets("its operation", message + at, 2u + message[at + 1]);
}

/* What a dialogue portion says. The row it is told in is another than the message's rows, which are still being read. */
static void print_portion(const uint8_t *message, size_t octets, struct tcap_span part)
{
    static uint8_t said[TCAP_ROWS_OCTETS];
    tcap_portion(message, octets, part.start, part.length, ALL(said));
    printf("           which is %s", portion_words[tcap_portion_number(said, TCAP_PORTION_KIND)]);
    print_unless(TCAP_NO_VALUE, "result", tcap_portion_number(said, TCAP_PORTION_RESULT));
    print_unless(TCAP_NO_VALUE, "diagnostic", tcap_portion_number(said, TCAP_PORTION_DIAGNOSTIC));
    print_unless(TCAP_NO_VALUE, "from", tcap_portion_number(said, TCAP_PORTION_SOURCE));
    printf("\n");
    if (tcap_portion_number(said, TCAP_PORTION_NAME_LENGTH) > 0)
        print_octets("its context name", message + tcap_portion_number(said, TCAP_PORTION_NAME_START),
                     tcap_portion_number(said, TCAP_PORTION_NAME_LENGTH));
    if (tcap_portion_number(said, TCAP_PORTION_INFORMATION_LENGTH) > 0)
        print_octets("its user information", message + tcap_portion_number(said, TCAP_PORTION_INFORMATION_START),
                     tcap_portion_number(said, TCAP_PORTION_INFORMATION_LENGTH));
}

/* The row's octets in the message: of a component its parameter is shown, of a dialogue row the dialogue portion. */
static void print_part(const uint8_t *row, const uint8_t *message, size_t octets)
{
    struct tcap_span part = { tcap_row(row, 0, TCAP_ROW_START), tcap_row(row, 0, TCAP_ROW_LENGTH) };
    int is_component = tcap_row(row, 0, TCAP_ROW_KIND) >= TCAP_INVOKE;
    if (is_component)
        part = tcap_parameter(message, octets, part.start, part.length);
    if (part.length > 0)
        print_octets(is_component ? "its parameter" : "its dialogue portion", message + part.start, part.length);
    if (part.length > 0 && !is_component)
        print_portion(message, octets, part);
}

static void print_row(const char *name, const uint8_t *row, const uint8_t *message, size_t octets)
{
    uint32_t kind = tcap_row(row, 0, TCAP_ROW_KIND);
    printf("  %-8s row %s: dialogue %08X", name, kind_words[kind], (unsigned)tcap_row(row, 0, TCAP_ROW_DIALOGUE));
    print_id("invoke ID", tcap_row(row, 0, TCAP_ROW_INVOKE_ID));
    print_id("linked to", tcap_row(row, 0, TCAP_ROW_LINKED_ID));
    print_unless(TCAP_NO_PROBLEM, kind == TCAP_P_ABORT ? "cause" : "problem", tcap_row(row, 0, TCAP_ROW_PROBLEM));
    print_unless(0, "component rows after it:", tcap_row(row, 0, TCAP_ROW_FOLLOWING));
    printf("\n");
    if (kind == TCAP_INVOKE)
        print_operation(row, message);
    print_part(row, message, octets);
}

/* ---- CALLS: what each gave --------------------------------------------------------------------------------------------------------- */

/* Rows are handled before the next call on this node, which may write over them; then the message is sent. */
static void told(struct node *node, const char *call, struct tcap_reply reply, const uint8_t *message, size_t octets)
{
    printf("  %-8s %s: %s (%u)\n", node->name, call, answer_words[reply.answer], (unsigned)reply.answer);
    for (size_t row = 0; row < reply.rows; row++)
        print_row(node->name, node->rows + row * TCAP_ROW_OCTETS, message, octets);
    node->length = reply.length;
    if (reply.length > 0)
        print_octets("sends", node->space, reply.length);
}

/* A request or a timer event. */
static void did(struct node *node, const char *call, struct tcap_reply reply)
{
    told(node, call, reply, TCAP_NONE);
}

static uint32_t opened(struct node *node, uint32_t service)
{
    struct tcap_reply reply = tcap_open(TABLE(*node), service);
    did(node, service == MENU ? "open for MENU" : "open for ROAMING", reply);
    if (reply.answer == TCAP_DONE)
        printf("           its dialogue: %08X\n", (unsigned)reply.dialogue);
    return reply.dialogue;
}

/* Carries what one node wrote last to a service of the other; gives the dialogue that it is for. */
static uint32_t carried(struct node *from, struct node *to, uint32_t service)
{
    struct tcap_reply reply = tcap_receive(TABLE(*to), service, from->space, from->length, ROWS(*to), SPACE(*to));
    told(to, "receive", reply, from->space, from->length);
    return reply.rows > 0 ? tcap_row(to->rows, 0, TCAP_ROW_DIALOGUE) : 0;
}

/* ---- SCENES ------------------------------------------------------------------------------------------------------------------------ */

static void two_fresh_tables(void)
{
    uint8_t guarantees[TCAP_SERVICES] = { 0 }, limits[TCAP_SERVICES] = { 0 };
    guarantees[ROAMING] = 2;
    limits[ROAMING] = 8;
    limits[MENU] = TCAP_PLACES;
    home.name = "home";
    partner.name = "partner";
    printf("Two fresh tables: ROAMING has 2 places guaranteed, MENU none\n");
    did(&home, "fresh", tcap_fresh(TABLE(home), ALL(guarantees), ALL(limits)));
    did(&partner, "fresh", tcap_fresh(TABLE(partner), ALL(guarantees), ALL(limits)));
    opened(&partner, ROAMING);          /* takes the partner's place 0, so that the two ends' IDs differ below */
}

/* Home's MENU asks question 5, of class 1, in a new dialogue. */
static uint32_t asked(const uint8_t *parameter, size_t parameter_octets)
{
    uint32_t dialogue = opened(&home, MENU);
    did(&home, "invoke 5", tcap_invoke(TABLE(home), MENU, dialogue, 5, 1, ALL(ask_menu), parameter, parameter_octets));
    did(&home, "begin", tcap_begin(TABLE(home), MENU, dialogue, TCAP_NONE, TCAP_NONE, SPACE(home)));
    return dialogue;
}

static void question_and_answer(void)
{
    uint32_t theirs;
    printf("\n1. A question and its answer\n");
    asked(ALL(code));
    theirs = carried(&home, &partner, MENU);
    did(&partner, "result last of 5", tcap_result_last(TABLE(partner), MENU, theirs, 5, ALL(ask_menu), ALL(balance)));
    did(&partner, "end", tcap_end(TABLE(partner), MENU, theirs, TCAP_NONE, TCAP_NONE, SPACE(partner)));
    carried(&partner, &home, MENU);
}

static void five_inside_five(void)
{
    uint32_t ours, theirs;
    printf("\n2. The partner's question 5 inside our question 5: each end has an invocation of its own\n");
    ours = asked(TCAP_NONE);
    theirs = carried(&home, &partner, MENU);
    did(&partner, "invoke 5 linked to 5", tcap_invoke_linked(TABLE(partner), MENU, theirs, 5, 5, 1, ALL(ask_back), TCAP_NONE));
    did(&partner, "continue", tcap_continue(TABLE(partner), MENU, theirs, TCAP_NONE, TCAP_NONE, SPACE(partner)));
    carried(&partner, &home, MENU);
    did(&home, "invoke 5 again, while ours is still Sent", tcap_invoke(TABLE(home), MENU, ours, 5, 1, ALL(ask_menu), TCAP_NONE));
    did(&home, "result last of the partner's 5", tcap_result_last(TABLE(home), MENU, ours, 5, TCAP_NONE, TCAP_NONE));
    did(&home, "continue", tcap_continue(TABLE(home), MENU, ours, TCAP_NONE, TCAP_NONE, SPACE(home)));
    carried(&home, &partner, MENU);
    did(&partner, "result last of home's 5", tcap_result_last(TABLE(partner), MENU, theirs, 5, TCAP_NONE, TCAP_NONE));
    did(&partner, "end", tcap_end(TABLE(partner), MENU, theirs, TCAP_NONE, TCAP_NONE, SPACE(partner)));
    carried(&partner, &home, MENU);
}

static void no_answer(void)
{
    uint32_t ours;
    printf("\n3. The message is lost: the host's timers run out, first the invocation's, then the dialogue's\n");
    ours = asked(TCAP_NONE);
    did(&home, "timeout of 5", tcap_timeout(TABLE(home), MENU, ours, 5, ROWS(home)));
    did(&home, "no reaction", tcap_no_reaction(TABLE(home), MENU, ours, ROWS(home)));
}

static void user_abort(void)
{
    uint32_t theirs;
    printf("\n4. The partner's user aborts, with user information\n");
    asked(TCAP_NONE);
    theirs = carried(&home, &partner, MENU);
    did(&partner, "abort", tcap_abort(TABLE(partner), MENU, theirs, ALL(farewell), SPACE(partner)));
    carried(&partner, &home, MENU);
}

/* The first message names the application context; the first answer names it again. Later ones name none. */
static void named(void)
{
    uint32_t ours, theirs;
    printf("\n5. A location update opens with its context name, and is answered with it\n");
    ours = opened(&home, ROAMING);
    did(&home, "begin with a name", tcap_begin(TABLE(home), ROAMING, ours, ALL(location_update), TCAP_NONE, SPACE(home)));
    theirs = carried(&home, &partner, ROAMING);
    did(&partner, "continue with the name", tcap_continue(TABLE(partner), ROAMING, theirs, ALL(location_update), TCAP_NONE, SPACE(partner)));
    carried(&partner, &home, ROAMING);
    did(&home, "continue with a name, in Active", tcap_continue(TABLE(home), ROAMING, ours, ALL(location_update), TCAP_NONE, SPACE(home)));
    did(&home, "end", tcap_end(TABLE(home), ROAMING, ours, TCAP_NONE, TCAP_NONE, SPACE(home)));
    carried(&home, &partner, ROAMING);
}

static void flood(void)
{
    int count = 0;
    printf("\n6. MENU floods the partner: ROAMING still gets its guaranteed places, by a Begin and by an open\n");
    did(&partner, "prearranged end of dialogue 00000000", tcap_end_prearranged(TABLE(partner), ROAMING, 0));
    while (tcap_open(TABLE(partner), MENU).answer == TCAP_DONE)
        count++;
    printf("  %-8s opened %d dialogues for MENU; places in all: %d\n", partner.name, count, TCAP_PLACES);
    opened(&partner, MENU);
    asked(TCAP_NONE);
    carried(&home, &partner, MENU);     /* refused: Abort with cause 4, TCAP_RESOURCE_LIMIT */
    carried(&partner, &home, MENU);
    did(&home, "begin", tcap_begin(TABLE(home), ROAMING, opened(&home, ROAMING), TCAP_NONE, TCAP_NONE, SPACE(home)));
    carried(&home, &partner, ROAMING);
    opened(&partner, ROAMING);
}

int main(void)
{
    two_fresh_tables();
    question_and_answer();
    five_inside_five();
    no_answer();
    user_abort();
    named();
    flood();
    return 0;
}
