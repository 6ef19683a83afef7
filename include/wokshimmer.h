/*
 * Wokshimmer: judges, masks, cleans and builds GTPv2-C messages (3GPP TS 29.274), and counts their rows.
 *
 * Two libraries: libwokshimmer.a has wok_judge_copy, wok_rows, wok_clean and wok_build; libwokpieces.a has wok_start, wok_part and wok_end, which judge
 * a message that comes in parts. Either is linked without the other.
 * In place of wok_judge and wok_mask call wok_judge_copy: they are withdrawn, and a program that calls them does not link.
 * All seven functions answer for every input and ask only this of their caller:
 *   - each pointer is valid for the length that follows it, in octets; NULL is fine with length 0;
 *   - a buffer that is written (the table that is judged into, copy, five, clean, room, answer, state) overlaps nothing else that is passed.
 *   - what is read (the message or its part; the builder's table and values) does not change during a call, as a ring's buffer does that is refilled
 *     while it is read.
 * They keep nothing between calls but what stands in the state and the table, allocate nothing, call nothing but memset and memcpy, and may be called
 * from several threads at once.
 * For x86-64 alone. Stack: under 20 KiB for wok_judge_copy, under 19 KiB for wok_build, under 3 KiB for wok_rows, under 15 KiB for each other call; and
 * on the first call about 2 KiB more where the loader binds names late.
 */
#ifndef WOKSHIMMER_H
#define WOKSHIMMER_H

#include <stddef.h>
#include <stdint.h>

#ifdef __cplusplus
extern "C" {
#endif

/* Interface kinds. */
#define WOK_KIND_S11 1u
#define WOK_KIND_S4 2u
#define WOK_KIND_S5_S8 3u
#define WOK_KIND_S10 4u

/* Codes: the result of each function, and the first of the five numbers. 21 is tried right after 7, and is one of
   those that "1 to 9" and "1 to 12" name below. */
#define WOK_ACCEPTED 0u
#define WOK_UNKNOWN_KIND 1u       /* the kind is not 1 to 4 */
#define WOK_BAD_SIZE 2u           /* the message is empty or over 4,096 octets */
#define WOK_WRONG_VERSION 3u      /* the version is not 2 */
#define WOK_NO_HEADER 4u          /* the message is shorter than its header */
#define WOK_PIGGYBACKED 5u        /* P is set */
#define WOK_WRONG_LENGTH 6u       /* the length field + 4 is not the message's length */
#define WOK_UNKNOWN_MESSAGE 7u    /* the message type is listed on no kind */
#define WOK_WRONG_T 8u            /* T is wrong for the message type */
#define WOK_BAD_FRAMING 9u        /* an element does not lie in what its level has left; place. No group with such a fault inside is void */
#define WOK_TABLE_SHORT 10u       /* judge and copy, end: the table is too short for the rows */
#define WOK_MANDATORY_SHORT 11u   /* a mandatory element is short; place, type, instance */
#define WOK_MANDATORY_MISSING 12u /* a mandatory element is missing; place of the level, type, instance */
#define WOK_COPY_SHORT 13u        /* the buffer is shorter than the copy: judge and copy the message's length, clean the cleaned copy's */
#define WOK_NO_TABLE 14u          /* build: table, values or sequence number are not those of a message */
#define WOK_TOO_LARGE 15u         /* build: the message would pass 4,096 octets or the room */
#define WOK_NOT_WHOLE 16u         /* build: the message would not be accepted with every row kept */
#define WOK_NOT_TAKEN 17u         /* part, end: the end has been, or the table has another length than at the start; and any state that is too short */
#define WOK_OFF_KIND 21u          /* the message type is listed, but not on this kind: S10 has 1, 2 and 131, each other kind all but 131 */

/* Reply causes: the second of the five numbers, or 0. */
#define WOK_CAUSE_INVALID_LENGTH 67u
#define WOK_CAUSE_MANDATORY_IE_MISSING 70u

/* Standings: the last number of a row. Every row but a kept one is set aside, and no row stands inside a group that is. */
#define WOK_KEPT 0u
#define WOK_UNEXPECTED 1u         /* the pair is not listed at its level on this kind */
#define WOK_REPEATED 2u           /* it has stood at this level, and may stand once */
#define WOK_SHORT 3u              /* the value is below the least length of its type */
#define WOK_VOID 4u               /* message 67: an Overload Control Information (180/0) with more than ten APNs (71/0) directly inside */

/* Sizes. A number of the table or of the five is two octets, high octet first. */
#define WOK_LARGEST_MESSAGE 4096u /* octets */
#define WOK_MOST_ROWS 1022u       /* rows of a message of that size */
#define WOK_HEADER_NUMBERS 6u     /* rows; rows kept; where the first row starts, 6; how many numbers are used, 6 + 6 a row; message type; kind */
#define WOK_ROW_NUMBERS 6u        /* parent (0, or a row counted from 1), type, instance, value place, value length, standing */
#define WOK_TABLE_OCTETS 12276u   /* a table that holds 1,022 rows: 2 * (6 + 6 * 1,022) */
#define WOK_FIVE_OCTETS 10u       /* code, cause, place, type, instance */
#define WOK_ANSWER_OCTETS 12u     /* clean, build: the five numbers, and the length of what was written; rows: the five, and the rows */
#define WOK_LARGEST_SEQUENCE 16777215u
#define WOK_STATE_OCTETS 306u     /* start, part, end: what is known of a message between its parts */

/*
 * Judges a message and makes its masked copy, both of the same octets. Answers the code, the first that applies: 1 to 9; 13, where the copy's buffer is
 * shorter than the message; 10, where the table is too short; 11; 12; or 0.
 *   0          writes table and copy;
 *   11, 12     write the copy, and the table stays;
 *   any other  writes neither.
 * A caller that wants the copy alone lends a table of WOK_TABLE_OCTETS all the same, and has the copy with 0, 11 and 12. One that wants verdict and table
 * alone lends a copy buffer as long as the message all the same, or is told 13.
 * The table holds its header and one row an element, in octet order, depth first; a group that is set aside has its own row and none for what it holds,
 * and 11 and 12 are never given for that. What lies past the numbers used stays, and so does an odd last octet.
 * In the copy every octet that the rules cover is zero, every other one is the message's own. Covered are the values of IMSI (1), IP Address (74),
 * MEI (75), MSISDN (76), PCO (78), MM Context (103 to 108: keys) and private extensions (255), the places in User Location Information (86), the address
 * in PDN Address Allocation (79), and all values of standing WOK_UNEXPECTED and WOK_REPEATED; of a group of standing WOK_VOID each value directly inside
 * it, whole, but not the headers of these. NOT covered are other APNs, TEIDs, F-TEID addresses, traffic filters and whatever else: docs/COVERED.md.
 * Octets past the message's length stay. The copy, passed in the message's place with equal buffers, gives the same verdict, table and copy.
 * The five numbers are written, whatever the code, if their buffer has 10 octets or more; octets past 10 stay. A shorter buffer stays as it was, and
 * stops no other write.
 * The call takes a snapshot: it reads each octet of the message once and works on what it read. The message must not change during a call. If it does,
 * verdict, table and copy are still all of one string of octets; but that string may be neither what stood there before nor what stands there after.
 */
uint16_t wok_judge_copy(uint32_t kind, const uint8_t *message, size_t message_len, uint8_t *table, size_t table_len, uint8_t *copy, size_t copy_len,
                        uint8_t *five, size_t five_len);

/*
 * Counts the rows of a message, before a table is lent for them: one an element, kept or set aside, but none for what lies in a group that is set aside.
 * Answers the code: 1 to 9 as wok_judge_copy does, or 0; never 10 and never 13. What 11 and 12 refuse is counted, and they are not told.
 * Where it answers 0 and a copy's buffer is as long as the message, wok_judge_copy answers 10 with a table of fewer than WOK_HEADER_NUMBERS +
 * WOK_ROW_NUMBERS * rows numbers, two octets each, and never with so many; if it accepts, its table has so many rows. The masked copy has as many.
 * A message of n octets has at most (n - 8) / 4 rows, rounded down, and none under 8 octets: a table for so many is enough, without a call.
 * The five numbers and the rows (0 on a refusal) are written if their buffer has 12 octets or more; octets past 12 stay. A shorter buffer stays
 * as it was. Nothing else is written.
 */
uint16_t wok_rows(uint32_t kind, const uint8_t *message, size_t message_len, uint8_t *answer, size_t answer_len);

/*
 * Makes a cleaned copy of a message, to forward: without the elements set aside (every standing but WOK_KEPT) at all levels, a set-aside or void
 * group with all that is inside it; the lengths of the kept groups and of the header are put right, and every other octet is the message's own, in
 * its order. It masks nothing: the subscriber's values are in it.
 * Answers the code: 1 to 9, 11 and 12 as wok_judge_copy does with buffers that are large enough, then 13, or 0 where the copy is made; never 10. The
 * copy, judged on the same kind, is accepted with every row kept, and cleaned again is the same. It is never longer than the message, so a
 * buffer of the message's length is enough. Octets past the copy stay; on a refusal the whole buffer stays as it was.
 * The five numbers and the copy's length (0 on a refusal) are written if their buffer has 12 octets or more; octets past 12 stay. A shorter
 * buffer stays as it was, and stops no other write.
 */
uint16_t wok_clean(uint32_t kind, const uint8_t *message, size_t message_len, uint8_t *clean, size_t clean_len, uint8_t *answer, size_t answer_len);

/*
 * Builds a message, to send: from a TEID (which types 1 and 2 do not carry), a sequence number, a table as wok_judge_copy lays it, which says message
 * type and kind, and a buffer that the rows' values lie in, at their places. A group's place and length are not looked at but worked out from the
 * rows inside it; ignored bits are zero. A table for n rows starts with n, n, 6, 6 + 6 * n, type, kind.
 * Answers the code, the first that applies: 14 where fewer numbers are lent than a header has; 1; 7; 21;
 *   14: fewer numbers are lent than the header says are used; the header is not that of its rows; a row's parent is neither 0 nor a
 *       group that is open where the row stands (the row before, or one that it stands in); a row is not WOK_KEPT; its type does not fit in eight
 *       bits, its instance in four, or the sequence number in 24; a value that is no group's ends outside the buffer, be it empty;
 *   15: it is longer than WOK_LARGEST_MESSAGE, or than the room;
 *   16: wok_judge_copy, lent enough, refuses it or sets a row of it aside;
 * or 0 where it is built. What is built, judged on the table's kind, is accepted, with the same parents, types, instances and values. And a message
 * that is accepted with every row kept and has no ignored bit set is what is built of its own header and table, with the message lent as the
 * buffer of values.
 * Octets past the message stay; on a refusal the whole room stays as it was. The five numbers and the message's length as in wok_clean.
 */
uint16_t wok_build(uint32_t teid, uint32_t sequence, const uint8_t *table, size_t table_len, const uint8_t *values, size_t values_len, uint8_t *room,
                   size_t room_len, uint8_t *answer, size_t answer_len);

/*
 * The judge for a message that comes in parts, as a ring of buffers has it: a start, the parts in their order, an end. A part may have one octet,
 * or none. However the octets are cut, the end answers what wok_judge_copy does of all of them one behind the other, with a copy's buffer that is large
 * enough: these functions make no copy, and never answer 13. No octet need be kept for it: a part's buffer may be filled anew after the call.
 * Between start and end state and table are the functions' own, and are passed on as the last call left them; both are plain octets, and may be moved.
 * A table too short for the rows of a group that turns out to be WOK_VOID at its end is none the worse for them.
 * With other octets in them a call still answers something, 17 among it, and writes nothing but state, table and five.
 */

/*
 * Starts a message, whatever was going on in the state. Makes every number of the table zero; an odd last octet stays. Answers 0, for any
 * kind: one that is none is told at the end. But with fewer than WOK_STATE_OCTETS of state it answers 17 and writes nothing. Octets of the state past
 * these stay, here and below.
 */
uint16_t wok_start(uint32_t kind, uint8_t *state, size_t state_len, uint8_t *table, size_t table_len);

/*
 * Takes the next octets of the message. Answers 0, and five zeros: nothing is told of the message before its end. Octets past
 * WOK_LARGEST_MESSAGE are counted and not looked at.
 * Answers 17 where the end has been, where the table holds more or fewer 16-bit numbers than at the start, or with a state that is too short; then
 * state and table stay as they were, and the message may go on with the right ones. A caller looks at this: a part that was not taken and is not
 * given again is missing from the message. The five numbers as in wok_judge_copy, with 17 too.
 */
uint16_t wok_part(uint8_t *state, size_t state_len, const uint8_t *part, size_t part_len, uint8_t *table, size_t table_len, uint8_t *five, size_t five_len);

/*
 * Ends the message. Answers the code: 0, or 1 to 12. On acceptance the table is what wok_judge_copy makes of one that is all
 * zero; on a refusal every number of it is zero. After that every part and end answers 17 until the next start.
 * Answers 17 where wok_part does. The five numbers as there.
 */
uint16_t wok_end(uint8_t *state, size_t state_len, uint8_t *table, size_t table_len, uint8_t *five, size_t five_len);

#ifdef __cplusplus
}
#endif

#endif
