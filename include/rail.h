/*
 * The rail agreement engine for C and C++: the functions of target/staticlib/libboundary.a, which rust/build_archive
 * proves and writes. docs/LINKING.md says how to build, link and call it, and what each function promises.
 *
 * Bytes are lent as a pointer and a length, and so are the numbers of rail_split, whose length is how many there are.
 * The pointer is not null, not even for a length of 0; what is lent to one call does not overlap; and no pointer is
 * kept after the call. Any values may stand there: the call tests them.
 */
#ifndef RAIL_H
#define RAIL_H

#include <stddef.h>
#include <stdint.h>

#ifdef __cplusplus
extern "C" {
#endif

/*
 * An answer is one number of 64 bits: a value below 2^56, or 2^56 times the number of a refusal. Where a call is
 * refused, nothing that was lent has been written.
 */
#define RAIL_REFUSED(answer) ((unsigned)((answer) >> 56))          /* the refusal's number, 0 where it was accepted */
#define RAIL_VALUE(answer) ((answer) & UINT64_C(0xffffffffffffff)) /* the value of an accepted call */

/* The refusals. The first that applies is given, in the order of docs/LINKING.md. */
#define RAIL_CLASS 1           /* class not 1 to 3 */
#define RAIL_SIZE 2            /* n not 1 to 32 */
#define RAIL_QUORUM_TOO_HIGH 3 /* D + b + f > n */
#define RAIL_QUORUM_TOO_LOW 4  /* D too low for the class */
#define RAIL_OWN 5             /* own number not below n */
#define RAIL_NO_PLAN 6         /* plan 0 */
#define RAIL_UNSOUND 7         /* record not sound; also asking outside round 1 */
#define RAIL_SPENT 8           /* all 63 phases are over */
#define RAIL_SHORT 9           /* buffer shorter than the message */
#define RAIL_CUT 10            /* the slice ends before the message or its header, or the length is under 9 */
#define RAIL_KIND 11           /* kind not 1 to 3 */
#define RAIL_LENGTH 12         /* length not that of the kind */
#define RAIL_BOUND 13          /* a field out of its bounds */
#define RAIL_INBOX 14          /* inbox not 202 times n bytes long */
#define RAIL_RANGE 15          /* a lookup outside the table: class not 1 to 3, b above 10 or f above 15 */
#define RAIL_RESIDUE 16        /* a byte that is not 0 after the message */
#define RAIL_GROUP 17          /* c above n or too low for the class; in class 1 other than n */
#define RAIL_COUNT 18          /* not 1 to 64 demands, or not as many shares as demands */
#define RAIL_AMOUNT 19         /* a demand above 100,000 mA or a budget above 1,000,000 mA */
#define RAIL_WRONG_RECORD 25   /* record not RAIL_RECORD bytes long */
#define RAIL_WRONG_FIELDS 26   /* fields not RAIL_FIELDS bytes long */
#define RAIL_NO_ENTRY 27       /* the message has no entry i */

/*
 * A record: its length, and where its fields stand, as crates/image/specs/Layout.antt has them. A field whose length is
 * not said has one byte. Numbers of two and four bytes are little-endian, here and in messages. Any bytes of this
 * length are the image of one record, and a record has one image: they may be stored, copied and compared as they are.
 */
#define RAIL_RECORD 150
#define RAIL_RECORD_CLASS 0
#define RAIL_RECORD_N 1
#define RAIL_RECORD_B 2
#define RAIL_RECORD_F 3
#define RAIL_RECORD_D 4
#define RAIL_RECORD_C 5        /* the group size: how many validate in a phase */
#define RAIL_RECORD_OWN 6      /* own number */
#define RAIL_RECORD_RUN 7      /* 4 bytes */
#define RAIL_RECORD_PHASE 11   /* 1 to 63; 64 means spent */
#define RAIL_RECORD_ROUND 12   /* the coming round: 1 selection, 2 validation, 3 decision */
#define RAIL_RECORD_VOTE 13    /* 2 bytes */
#define RAIL_RECORD_BASE 15    /* 2 bytes */
#define RAIL_RECORD_STAMP 17
#define RAIL_RECORD_SELECT 18  /* 2 bytes */
#define RAIL_RECORD_RESULT 20  /* 2 bytes */
#define RAIL_RECORD_HISTORY 22 /* 64 times 2 bytes, phase 0 first */

/* An inbox has n slots of so many bytes; slot q belongs to port q. A buffer of a slot's length fits every message. */
#define RAIL_SLOT 202

/*
 * A message has a header of 9 bytes: length (2, counting every byte of the message), kind (2), run (4) and phase (1).
 * Then, from byte 9 on, by kind, as crates/message/specs/Layout.antt has it:
 *   1 selection    vote (2), stamp (1), k (1), k entries of phase (1) and plan (2)    13 + 3k bytes, k at most 63
 *   2 validation   plan (2)                                                           11 bytes
 *   3 decision     vote (2), stamp (1)                                                12 bytes
 * Bounds: phase 1 to 63; plans not 0; stamp below the phase in kind 1, at most the phase in kind 3; entries whose
 * phases rise strictly and are below the message's phase. After the message every byte must be 0, up to the end of the
 * slot or of what rail_read is lent.
 */

/* The fields of a read message: their length, and where they stand. rail_entry tells the entries. */
#define RAIL_FIELDS 10
#define RAIL_FIELDS_KIND 0  /* 1 selection, 2 validation, 3 decision */
#define RAIL_FIELDS_RUN 1   /* 4 bytes */
#define RAIL_FIELDS_PHASE 5
#define RAIL_FIELDS_PLAN 6  /* 2 bytes: the vote, in kind 2 the plan */
#define RAIL_FIELDS_STAMP 8 /* 0 for kind 2 */
#define RAIL_FIELDS_COUNT 9 /* how many entries follow; 0 for kinds 2 and 3 */

/* Asking answers a plan, or one of these. RAIL_ANY is 2^32, which no plan's number is. */
#define RAIL_NONE 0
#define RAIL_ANY UINT64_C(4294967296)

/* The value of an entry is 2^32 times its phase, plus its plan. */
#define RAIL_ENTRY_PHASE(value) ((unsigned)((value) >> 32))
#define RAIL_ENTRY_PLAN(value) ((uint32_t)(value))

/* The value of a least crew is 256 times its n, plus its D. */
#define RAIL_LEAST_N(value) ((unsigned)((value) >> 8))
#define RAIL_LEAST_D(value) ((unsigned)((value) & 255))

/* The value of rail_marks is a number of 32 bits. Whether slot q, 0 to 31, is marked there: 1 or 0. */
#define RAIL_MARKED(value, q) ((unsigned)((value) >> (q) & 1))

/* How far a split goes: so many shuttles, and these amounts in mA. */
#define RAIL_MOST_SHUTTLES 64
#define RAIL_MOST_DEMAND 100000
#define RAIL_MOST_BUDGET 1000000

/* Accepts a crew. In a phase c of the n nodes validate; in class 1, which has no validation, c is n. The value is 0.
 * Refuses 1 to 4, 17. */
uint64_t rail_accept(uint8_t class_, uint8_t n, uint8_t b, uint8_t f, uint8_t d, uint8_t c);

/* The smallest crew of a class, b and f: the least n that any D lets be accepted, and the least D for that n; both 0
 * where n would pass 32. RAIL_LEAST_N and RAIL_LEAST_D take the value apart. docs/PLANNING.md has the table. Refuses
 * 15. */
uint64_t rail_least(uint8_t class_, uint8_t b, uint8_t f);

/* Starts a node and writes its record. All nodes of a crew have the same crew and run, each its own number from 0 on.
 * The value is 0. Refuses 25, 1 to 4, 17, 5, 6. */
uint64_t rail_start(uint8_t class_, uint8_t n, uint8_t b, uint8_t f, uint8_t d, uint8_t c, uint8_t own, uint32_t run,
                    uint16_t plan, uint8_t *record, size_t record_length);

/* Writes the coming message to the buffer's front. The value is its length, 0 for silence: in round 2 a node is silent
 * that selected nothing, or that does not validate in this phase. Bytes after the message keep their values: send no
 * more than the message, or clear the buffer before each write, the first too. A slot with anything but zeros after its
 * message is absent (RAIL_RESIDUE). Refuses 25, 7 to 9. */
uint64_t rail_write(const uint8_t *record, size_t record_length, uint8_t *buffer, size_t buffer_length);

/* Takes the coming round: the record becomes the next one. The value is 0. Refuses 25, 7, 8, 14. */
uint64_t rail_take(uint8_t *record, size_t record_length, const uint8_t *inbox, size_t inbox_length);

/* Asks for the coming selection. The value is a plan, RAIL_NONE or RAIL_ANY. Refuses 25, 7, 8, 14. */
uint64_t rail_ask(const uint8_t *record, size_t record_length, const uint8_t *inbox, size_t inbox_length);

/* Tells which slots count in the coming round. The value has the bit of weight 2^q set where slot q counts, and none
 * beyond the crew's n; RAIL_MARKED takes it apart. In round 2 only slots of nodes that validate in this phase count.
 * Call it before rail_take, with the same record and inbox: where that take decides, these are the slots that counted
 * in the round that decided. Refuses 25, 7, 8, 14. */
uint64_t rail_marks(const uint8_t *record, size_t record_length, const uint8_t *inbox, size_t inbox_length);

/* The record's standing result. The value is the plan, 0 before there is one. Refuses 25, 7. */
uint64_t rail_result(const uint8_t *record, size_t record_length);

/* Reads the message at the front of the bytes, after which all are 0, and writes its fields. The value is 0. Refuses
 * 26, 10 to 13, 16. */
uint64_t rail_read(const uint8_t *bytes, size_t bytes_length, uint8_t *fields, size_t fields_length);

/* Entry i, from 0 on, of the message that rail_read reads there. RAIL_ENTRY_PHASE and RAIL_ENTRY_PLAN take the value
 * apart. Refuses 10 to 13, 16, 27. */
uint64_t rail_entry(const uint8_t *bytes, size_t bytes_length, size_t i);

/* Splits a budget among shuttles, in mA: to each its demand where the budget is enough for all, else so much that the
 * shares sum to exactly the budget. The lengths are how many demands and shares there are, not how many bytes. All
 * shares are written. The value is 0. Refuses 18, 19. */
uint64_t rail_split(const uint32_t *demands, size_t demands_length, uint32_t budget, uint32_t *shares,
                    size_t shares_length);

#ifdef __cplusplus
}
#endif

#endif
