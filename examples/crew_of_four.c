/*
 * A crew of four agrees on a plan, though one of the four is Byzantine: crew 3,4,1,0,3,4, nodes 0 to 2 honest with
 * plans 5, 6 and 7, while node 3 tells each of them something else. In phase 1 it keeps them apart; in phase 2 they
 * decide. Then two of them show which slots counted when they decided, and the budget of the decided plan is split
 * among three shuttles. At the end another crew, of five, shows who speaks where three nodes validate in turn.
 * Every answer is checked. examples/check builds and runs it.
 */
#include "rail.h"

#include <stdio.h>
#include <stdlib.h>
#include <string.h>

enum { NODES = 4, HONEST = 3, BYZANTINE = 3, RUN = 1 };

/* The crew's numbers, as the calls take them: class, n, b, f, D, c. All nodes validate in every phase. */
#define CREW 3, NODES, 1, 0, 3, NODES

/* The value of an answer that has to be accepted. */
static uint64_t value(uint64_t answer, const char *what)
{
    if (RAIL_REFUSED(answer) != 0) {
        printf("%s: refused with %u\n", what, RAIL_REFUSED(answer));
        exit(1);
    }
    return RAIL_VALUE(answer);
}

/* That the crew is the smallest of class 3 in which one node may lie. */
static void show_least(void)
{
    uint64_t least = value(rail_least(3, 1, 0), "least");
    printf("class 3 with b 1 and f 0 needs %u nodes, and %u votes decide\n", RAIL_LEAST_N(least), RAIL_LEAST_D(least));
}

/* A message without entries, as a Byzantine node makes one: it need not use the engine. */
static void lie(uint8_t *slot, uint8_t kind, uint8_t phase, uint16_t plan, uint8_t stamp)
{
    static const uint8_t lengths[] = {0, 13, 11, 12};
    memset(slot, 0, RAIL_SLOT);
    slot[0] = lengths[kind];
    slot[2] = kind;
    slot[4] = RUN;
    slot[8] = phase;
    slot[9] = (uint8_t)(plan % 256);
    slot[10] = (uint8_t)(plan / 256);
    slot[11] = kind == 2 ? 0 : stamp;
}

/* What the Byzantine node sends in a round: plan 6 to node 0, plan 5 to node 1, rubbish to node 2. */
static void lie_to(uint8_t *slot, int to, uint8_t round, uint8_t phase)
{
    uint8_t stamp = round == 3 ? phase : 0;
    if (to == 2)
        memset(slot, 0xff, RAIL_SLOT);
    else
        lie(slot, round, phase, to == 0 ? 6 : 5, stamp);
}

/* A number of two bytes in a record or in fields. */
static unsigned two_bytes(const uint8_t *bytes, size_t at)
{
    return bytes[at] + 256u * bytes[at + 1];
}

static unsigned four_bytes(const uint8_t *bytes, size_t at)
{
    return two_bytes(bytes, at) + 65536u * two_bytes(bytes, at + 2);
}

/* What node 0 is about to say, read back. */
static void show_message(const uint8_t *record)
{
    uint8_t message[RAIL_SLOT], fields[RAIL_FIELDS];
    size_t length = value(rail_write(record, RAIL_RECORD, message, sizeof message), "write");
    value(rail_read(message, length, fields, sizeof fields), "read");
    printf("node 0 writes %u bytes: kind %u, phase %u, vote %u, stamp %u, entries", (unsigned)length,
           fields[RAIL_FIELDS_KIND], fields[RAIL_FIELDS_PHASE], two_bytes(fields, RAIL_FIELDS_PLAN),
           fields[RAIL_FIELDS_STAMP]);
    for (size_t i = 0; i < fields[RAIL_FIELDS_COUNT]; i++) {
        uint64_t entry = value(rail_entry(message, length, i), "entry");
        printf(" %u:%u", RAIL_ENTRY_PHASE(entry), (unsigned)RAIL_ENTRY_PLAN(entry));
    }
    printf("\n");
}

/* The same message with zeros after it, and with one byte after it, as an older, longer message leaves it there. */
static void show_residue(const uint8_t *record)
{
    uint8_t message[RAIL_SLOT] = {0}, fields[RAIL_FIELDS];
    size_t length = value(rail_write(record, RAIL_RECORD, message, sizeof message), "write");
    value(rail_read(message, sizeof message, fields, sizeof fields), "read with zeros behind it");
    message[length] = 5;
    printf("with a byte of an older message behind it, it is refused with %u\n",
           RAIL_REFUSED(rail_read(message, sizeof message, fields, sizeof fields)));
}

/* What asking answers, before the round is taken. */
static void show_selection(const uint8_t *record, const uint8_t *inbox)
{
    uint64_t selected = value(rail_ask(record, RAIL_RECORD, inbox, NODES * RAIL_SLOT), "ask");
    if (selected == RAIL_ANY)
        printf(" any");
    else if (selected == RAIL_NONE)
        printf(" none");
    else
        printf(" %u", (unsigned)selected);
}

/* What the absence window takes of a finished run: its number, then the marks of the slots that counted in the round
 * that decided. */
enum { FINISHED_MARKS = 4, FINISHED = 8 };

/* Lays a number of four bytes out, low byte first. */
static void put_four(uint8_t *bytes, uint32_t number)
{
    for (int i = 0; i < 4; i++)
        bytes[i] = (uint8_t)(number >> 8 * i);
}

/* Takes a round, and where it is the one that decided, lays run and marks out. The marks are told before the take:
 * after it the record is in the next round. */
static void take_round(uint8_t *record, const uint8_t *inbox, uint8_t *finished)
{
    uint64_t marks = value(rail_marks(record, RAIL_RECORD, inbox, NODES * RAIL_SLOT), "marks");
    uint64_t before = value(rail_result(record, RAIL_RECORD), "result");
    value(rail_take(record, RAIL_RECORD, inbox, NODES * RAIL_SLOT), "take");
    if (before != 0 || value(rail_result(record, RAIL_RECORD), "result") == 0)
        return;
    memcpy(finished, record + RAIL_RECORD_RUN, 4);
    put_four(finished + FINISHED_MARKS, (uint32_t)marks);
}

/* One whole round: every honest node writes, then every honest node takes its own inbox. Buffers and slots begin as
 * zeros, so that nothing is left behind a message. It prints what was selected in round 1, vote and stamp after round
 * 2, and the standing results after round 3. */
static void whole_round(uint8_t records[HONEST][RAIL_RECORD], uint8_t finished[HONEST][FINISHED])
{
    uint8_t written[HONEST][RAIL_SLOT] = {{0}}, inbox[NODES * RAIL_SLOT];
    uint8_t phase = records[0][RAIL_RECORD_PHASE], round = records[0][RAIL_RECORD_ROUND];
    for (int own = 0; own < HONEST; own++)
        value(rail_write(records[own], RAIL_RECORD, written[own], RAIL_SLOT), "write");
    printf("phase %u round %u:", phase, round);
    for (int own = 0; own < HONEST; own++) {
        uint8_t *record = records[own];
        memcpy(inbox, written, sizeof written);
        lie_to(inbox + RAIL_SLOT * BYZANTINE, own, round, phase);
        if (round == 1)
            show_selection(record, inbox);
        take_round(record, inbox, finished[own]);
        if (round == 2)
            printf(" %u/%u", two_bytes(record, RAIL_RECORD_VOTE), record[RAIL_RECORD_STAMP]);
        if (round == 3)
            printf(" %u", (unsigned)value(rail_result(record, RAIL_RECORD), "result"));
    }
    printf("\n");
}

/* What a node has for the absence window, byte by byte and in words. */
static void show_finished(int own, const uint8_t *finished)
{
    unsigned marks = four_bytes(finished, FINISHED_MARKS);
    printf("node %d keeps", own);
    for (int i = 0; i < FINISHED; i++)
        printf(" %02x", finished[i]);
    printf(": run %u was decided with slots", four_bytes(finished, 0));
    for (unsigned q = 0; q < NODES; q++)
        if (RAIL_MARKED(marks, q))
            printf(" %u", q);
    printf("\n");
}

/* Any node can split the budget of the decided plan, and all come to the same shares. Which plan has which budget is a
 * table of the site's own. */
static void show_split(unsigned plan)
{
    enum { SHUTTLES = 3 };
    static const uint32_t budgets[] = {[5] = 1000, [6] = 1001, [7] = 1200};
    static const uint32_t demands[SHUTTLES] = {400, 300, 500};
    uint32_t shares[SHUTTLES + 1];
    value(rail_split(demands, SHUTTLES, budgets[plan], shares, SHUTTLES), "split");
    printf("plan %u has %u mA for demands of", plan, (unsigned)budgets[plan]);
    for (int i = 0; i < SHUTTLES; i++)
        printf(" %u", (unsigned)demands[i]);
    printf(": shares of");
    for (int i = 0; i < SHUTTLES; i++)
        printf(" %u", (unsigned)shares[i]);
    printf("\nroom for one share more is refused with %u\n",
           RAIL_REFUSED(rail_split(demands, SHUTTLES, budgets[plan], shares, SHUTTLES + 1)));
}

/* Five nodes, of which three validate in a phase. All begin with plan 5 and hear each other in round 1. In round 2 a
 * node whose turn it is not answers silence, a length of 0 and no refusal: it has nothing to send. */
static void show_turns(void)
{
    enum { FIVE = 5, GROUP = 3 };
    uint8_t records[FIVE][RAIL_RECORD], inbox[FIVE * RAIL_SLOT] = {0}, message[RAIL_SLOT];
    for (int own = 0; own < FIVE; own++) {
        value(rail_start(2, FIVE, 1, 0, 4, GROUP, (uint8_t)own, RUN, 5, records[own], RAIL_RECORD), "start");
        value(rail_write(records[own], RAIL_RECORD, inbox + RAIL_SLOT * own, RAIL_SLOT), "write");
    }
    for (int own = 0; own < FIVE; own++)
        value(rail_take(records[own], RAIL_RECORD, inbox, sizeof inbox), "take");
    printf("where %d of %d validate, the nodes send in round 2 of phase 1 bytes:", GROUP, FIVE);
    for (int own = 0; own < FIVE; own++)
        printf(" %u", (unsigned)value(rail_write(records[own], RAIL_RECORD, message, sizeof message), "write"));
    printf("\na group of one, who may be a liar, is refused with %u\n",
           RAIL_REFUSED(rail_accept(2, FIVE, 1, 0, 4, 1)));
}

int main(void)
{
    static const uint16_t plans[HONEST] = {5, 6, 7};
    uint8_t records[HONEST][RAIL_RECORD], finished[HONEST][FINISHED] = {{0}};
    show_least();
    value(rail_accept(CREW), "accept");
    for (int own = 0; own < HONEST; own++)
        value(rail_start(CREW, (uint8_t)own, RUN, plans[own], records[own], RAIL_RECORD), "start");
    printf("a start with plan 0 is refused with %u\n",
           RAIL_REFUSED(rail_start(CREW, 0, RUN, 0, records[0], RAIL_RECORD)));
    for (int round = 0; round < 6; round++) {
        if (round % 3 == 0)
            show_message(records[0]);
        if (round == 0)
            show_residue(records[0]);
        whole_round(records, finished);
    }
    show_finished(0, finished[0]);
    show_finished(2, finished[2]);
    show_split((unsigned)value(rail_result(records[0], RAIL_RECORD), "result"));
    show_turns();
    return 0;
}
