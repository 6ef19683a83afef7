/*
 * Judge and copy, rows, clean, build and the pieces form on a thread with a small stack, on buffers of exact size that end right before a page that may
 * not be touched and then on ones that start right after such a page. Run from the folder that holds samples/.
 */
#define _DEFAULT_SOURCE

#include <pthread.h>
#include <stdio.h>
#include <stdlib.h>
#include <string.h>
#include <sys/mman.h>

#include "stack.h"
#include "wokshimmer.h"

#define PAGE 4096u
#define ROOM (4 * PAGE)
#define PATTERN 0xA5u
#define SMALL_MESSAGE 264u
#define LEAST_LEFT 1024u /* octets of the stack that no call may write */
#define MOST_A_LEVEL 512u
#define USED 3u /* the header's number that says how many are used */

enum { JUDGE_COPY, ROWS, CLEAN, BUILD, START, PART, END, FUNCTIONS };

static const char *const names[FUNCTIONS] = {"judge and copy", "rows", "clean", "build", "start", "part", "end"};
/* a start answers its code alone */
static const size_t number_octets[FUNCTIONS] = {
    WOK_FIVE_OCTETS, WOK_ANSWER_OCTETS, WOK_ANSWER_OCTETS, WOK_ANSWER_OCTETS, 0, WOK_FIVE_OCTETS, WOK_FIVE_OCTETS};
/* the stack of a call, as the header has it */
static const size_t said[FUNCTIONS] = {20 * 1024, 3 * 1024, 15 * 1024, 19 * 1024, 15 * 1024, 15 * 1024, 15 * 1024};

/* What the builder has besides, of the message that it is to make again. */
struct head {
    uint32_t teid, sequence;
    const uint8_t *table;
    size_t table_len;
};

/* What is lent as the state of a message in parts, or as the masked copy. */
struct lent {
    uint8_t *octets;
    size_t len;
};

struct call {
    int which;
    uint32_t kind;
    const uint8_t *message; /* the builder's values; a part */
    size_t message_len;
    uint8_t *out;
    size_t out_len;
    uint8_t *numbers; /* the five, or the six of rows, cleaner and builder */
    size_t numbers_len;
    uint16_t code;
    size_t used;    /* octets of the stack, from the caller's frame down to the lowest one written */
    size_t written; /* how many of these were written; the others were set aside only */
    size_t left;    /* octets of the stack below these */
    size_t whole;   /* octets of the message that this is about */
};

static uint8_t *stack, *message_room, *table_room, *out_room, *copy_room, *numbers_room, *state_room;
static struct head head;  /* of the builder's next call */
static struct lent copy;  /* of the next judge and copy, besides the table */
static struct lent state; /* of the next call of the pieces form */
static size_t most_used[2][FUNCTIONS], most_written[2][FUNCTIONS]; /* by larger */
static size_t least_left = STACK_OCTETS;
static unsigned passed, failed, rebuilt, in_parts;

static void fail(const char *what) {
    perror(what);
    exit(1);
}

static void check(int is, const char *name, const char *what) {
    if (is) {
        passed++;
    } else {
        failed++;
        printf("%s: %s\n", name, what);
    }
}

/* Pages that may be used, between two that may not. */
static uint8_t *guarded(size_t len) {
    uint8_t *all = mmap(NULL, len + 2 * PAGE, PROT_NONE, MAP_PRIVATE | MAP_ANONYMOUS, -1, 0);
    if (all == MAP_FAILED || mprotect(all + PAGE, len, PROT_READ | PROT_WRITE) != 0) fail("pages");
    return all + PAGE;
}

/* So many octets of a room, at its end or at its start. */
static uint8_t *exact(uint8_t *room, size_t len, int at_end) {
    return at_end ? room + ROOM - len : room;
}

static uint16_t called(const struct call *c) {
    switch (c->which) {
    case JUDGE_COPY:
        return wok_judge_copy(c->kind, c->message, c->message_len, c->out, c->out_len, copy.octets, copy.len, c->numbers, c->numbers_len);
    case ROWS: return wok_rows(c->kind, c->message, c->message_len, c->numbers, c->numbers_len);
    case BUILD:
        return wok_build(head.teid, head.sequence, head.table, head.table_len, c->message, c->message_len, c->out, c->out_len, c->numbers,
                         c->numbers_len);
    case START: return wok_start(c->kind, state.octets, state.len, c->out, c->out_len);
    case PART: return wok_part(state.octets, state.len, c->message, c->message_len, c->out, c->out_len, c->numbers, c->numbers_len);
    case END: return wok_end(state.octets, state.len, c->out, c->out_len, c->numbers, c->numbers_len);
    default: return wok_clean(c->kind, c->message, c->message_len, c->out, c->out_len, c->numbers, c->numbers_len);
    }
}

static void *on_small_stack(void *argument) {
    struct call *c = argument;
    volatile uint8_t frame = 0;
    c->code = called(c);
    size_t top = (size_t)((uintptr_t)&frame - (uintptr_t)stack);
    while (c->left < top && stack[c->left] == PATTERN) c->left++;
    c->used = top - c->left;
    for (size_t at = c->left; at < top; at++) c->written += stack[at] != PATTERN;
    return NULL;
}

static void run(struct call *c) {
    pthread_t thread;
    pthread_attr_t small;
    memset(stack, PATTERN, STACK_OCTETS);
    if (pthread_attr_init(&small) != 0 || pthread_attr_setstack(&small, stack, STACK_OCTETS) != 0) fail("stack");
    if (pthread_create(&thread, &small, on_small_stack, c) != 0 || pthread_join(thread, NULL) != 0) fail("thread");
    pthread_attr_destroy(&small);
    int larger = c->whole > SMALL_MESSAGE;
    if (c->used > most_used[larger][c->which]) most_used[larger][c->which] = c->used;
    if (c->written > most_written[larger][c->which]) most_written[larger][c->which] = c->written;
    if (c->left < least_left) least_left = c->left;
}

struct given {
    const char *name;
    uint32_t kind;
    const uint8_t *message;
    size_t len;
    int at_end;
};

/* Runs a call on exact buffers filled with the pattern; the message's room is for reading only meanwhile. */
static struct call on_exact(int which, const struct given *g, size_t out_len, size_t numbers_len) {
    struct call c = {which, g->kind, NULL, g->len, NULL, out_len, NULL, numbers_len, 0, 0, 0, 0, g->len};
    uint8_t *own = exact(message_room, g->len, g->at_end);
    if (g->len != 0) memcpy(own, g->message, g->len);
    c.message = own;
    c.out = exact(out_room, out_len, g->at_end);
    c.numbers = exact(numbers_room, numbers_len, g->at_end);
    memset(out_room, PATTERN, ROOM);
    memset(numbers_room, PATTERN, ROOM);
    if (mprotect(message_room, ROOM, PROT_READ) != 0) fail("read only");
    run(&c);
    if (mprotect(message_room, ROOM, PROT_READ | PROT_WRITE) != 0) fail("read and write");
    return c;
}

static unsigned number(const uint8_t *octets, size_t at) {
    return octets[2 * at] * 256u + octets[2 * at + 1];
}

/* The room holds the pattern but for `len` octets where the buffer stands. */
static int rest_stays(const uint8_t *room, const uint8_t *buffer, size_t len) {
    for (const uint8_t *at = room; at < room + ROOM; at++)
        if (*at != PATTERN && (at < buffer || at >= buffer + len)) return 0;
    return 1;
}

/* The code, and what was written: of the table, cleaned copy or message so many octets if it accepts, and the numbers whole or not at all. Rows write
   none; they are the last of their numbers. */
static void check_call(const char *name, const struct call *c, const unsigned five[5], size_t written) {
    size_t len = number_octets[c->which];
    int whole = c->numbers_len >= len, same = c->code == five[0];
    for (size_t i = 0; whole && i < 5; i++) same = same && number(c->numbers, i) == five[i];
    if (whole && len == WOK_ANSWER_OCTETS) same = same && number(c->numbers, 5) == (c->code == WOK_ACCEPTED ? written : 0);
    check(same, name, names[c->which]);
    size_t out_written = c->code == WOK_ACCEPTED && c->which != ROWS ? written : 0;
    check(rest_stays(out_room, c->out, out_written), name, "a write outside the table, cleaned copy or message");
    check(rest_stays(numbers_room, c->numbers, whole ? len : 0), name, "a write outside the numbers answered");
}

/* A call, checked. */
static void try_call(int which, const struct given *g, size_t out_len, const unsigned five[5], size_t written) {
    struct call c = on_exact(which, g, out_len, number_octets[which]);
    check_call(g->name, &c, five, written);
}

/* Judge and copy with a table and a copy of these lengths, each at the edge of its own page. */
static struct call judge_copy_exact(const struct given *g, size_t table_len, size_t copy_len, size_t numbers_len) {
    copy = (struct lent){exact(copy_room, copy_len, g->at_end), copy_len};
    memset(copy_room, PATTERN, ROOM);
    return on_exact(JUDGE_COPY, g, table_len, numbers_len);
}

/* The same with room enough for any table and for the copy. */
static struct call judge_exact(const struct given *g, size_t table_len) {
    return judge_copy_exact(g, table_len, g->len, WOK_FIVE_OCTETS);
}

/* Is it one of the refusals by 1 to 9, 21 among them? */
static int is_early(unsigned code) {
    return (code >= WOK_UNKNOWN_KIND && code <= WOK_BAD_FRAMING) || code == WOK_OFF_KIND;
}

/* The five with these lengths, by the order of the refusals, from those with room enough: 1 to 9, then 13, then 10. `used` is what the rows need. */
static const unsigned *in_order(const struct given *g, const unsigned five[5], size_t table_len, size_t copy_len, size_t used) {
    static const unsigned table_short[5] = {WOK_TABLE_SHORT}, copy_short[5] = {WOK_COPY_SHORT};
    if (is_early(five[0])) return five;
    if (copy_len < g->len) return copy_short;
    return table_len < used ? table_short : five;
}

/* Is each octet the message's own or zero, and the header's eight its own? Then a copy was made. */
static int is_masked(const struct given *g, const uint8_t *masked) {
    for (size_t at = 0; at < g->len; at++)
        if (masked[at] != g->message[at] && (masked[at] != 0 || at < 8)) return 0;
    return 1;
}

/* Table and copy as a call with room enough left them; with 11 and 12 the former stays. */
static uint8_t whole_table[WOK_TABLE_OCTETS], whole_copy[WOK_LARGEST_MESSAGE];

/* One call with these lengths: the verdict, and what of both buffers was written. */
static void try_lengths(const struct given *g, const unsigned five[5], size_t table_len, size_t copy_len, size_t numbers_len, size_t used) {
    struct call c = judge_copy_exact(g, table_len, copy_len, numbers_len);
    const unsigned *expected = in_order(g, five, table_len, copy_len, used);
    int copied = expected[0] == WOK_ACCEPTED || expected[0] == WOK_MANDATORY_SHORT || expected[0] == WOK_MANDATORY_MISSING;
    check_call(g->name, &c, expected, used);
    check(rest_stays(copy_room, copy.octets, copied ? g->len : 0), g->name, "a write outside the masked copy");
    if (c.code == WOK_ACCEPTED) check(memcmp(c.out, whole_table, used) == 0, g->name, "another table in a buffer of another length");
    if (!copied) return;
    check(is_masked(g, copy.octets), g->name, "no masked copy");
    check(memcmp(copy.octets, whole_copy, g->len) == 0, g->name, "another masked copy in a buffer of another length");
}

/* How many octets of a table the rows need, found by lending ever longer ones where 11 or 12 leave none; the header's of a message that 1 to 9 refuse. */
static size_t table_octets(const struct given *g, const struct call *c) {
    if (c->code == WOK_ACCEPTED) return 2 * number(c->out, USED);
    size_t used = 2 * WOK_HEADER_NUMBERS;
    if (c->code != WOK_MANDATORY_SHORT && c->code != WOK_MANDATORY_MISSING) return used;
    while (used < WOK_TABLE_OCTETS && judge_exact(g, used).code == WOK_TABLE_SHORT) used += 2 * WOK_ROW_NUMBERS;
    return used;
}

/* Tables and copies around what they must hold, each length with each, and the five numbers in buffers around 10 octets. Answers what the rows need. */
static size_t lengths_exact(const struct given *g, const unsigned five[5]) {
    static const size_t numbers_lens[] = {WOK_FIVE_OCTETS, 0, WOK_FIVE_OCTETS - 1, WOK_FIVE_OCTETS + 1};
    struct call c = judge_exact(g, WOK_TABLE_OCTETS);
    check_call(g->name, &c, five, WOK_TABLE_OCTETS);
    memcpy(whole_table, c.out, sizeof whole_table);
    if (g->len <= sizeof whole_copy) memcpy(whole_copy, copy.octets, g->len);
    size_t used = table_octets(g, &c), turn = 0;
    if (c.code == WOK_ACCEPTED) {
        check(used == 2 * (WOK_HEADER_NUMBERS + WOK_ROW_NUMBERS * number(c.out, 0)), g->name, "numbers used do not match the rows");
        check(rest_stays(out_room, c.out, used), g->name, "a write past the numbers used");
    }
    if (used > WOK_TABLE_OCTETS) return used;
    const size_t tables[] = {0, used - 2, used - 1, used, used + 1, used + 2}, copies[] = {0, g->len - (g->len != 0), g->len, g->len + 1};
    for (size_t t = 0; t < sizeof tables / sizeof tables[0]; t++)
        for (size_t k = 0; k < sizeof copies / sizeof copies[0]; k++) {
            try_lengths(g, five, tables[t], copies[k], WOK_FIVE_OCTETS, used);
            try_lengths(g, five, tables[t], copies[k], numbers_lens[turn++ % 3 + 1], used);
        }
    return used;
}

/* Answer buffers around 12 octets: too short for the numbers, they stay, and the copy or message is made all the same. */
static void answers_around(int which, const struct given *g, const unsigned five[5], size_t out_len, size_t written) {
    static const size_t lens[] = {0, WOK_ANSWER_OCTETS - 1, WOK_ANSWER_OCTETS, WOK_ANSWER_OCTETS + 3};
    for (size_t i = 0; i < sizeof lens / sizeof lens[0]; i++) {
        struct call c = on_exact(which, g, out_len, lens[i]);
        check_call(g->name, &c, five, written);
    }
}

/* The rows of which a table needs so many octets; none where 1 to 9 refuse, and 11 and 12 are not told. */
static void rows_exact(const struct given *g, const unsigned five[5], size_t used) {
    static const unsigned accepted[5];
    size_t rows = (used / 2 - WOK_HEADER_NUMBERS) / WOK_ROW_NUMBERS;
    check(rows <= (g->len < 8 ? 0 : (g->len - 8) / 4), g->name, "more rows than the message has room for");
    answers_around(ROWS, g, is_early(five[0]) ? five : accepted, 0, rows);
}

/* The cleaner refuses as the judge does with room enough. Else its copy goes into a buffer of its own length, and of no shorter one. */
static void clean_exact(const struct given *g, const unsigned five[5]) {
    static const unsigned copy_short[5] = {WOK_COPY_SHORT};
    static uint8_t first[WOK_LARGEST_MESSAGE];
    struct call c = on_exact(CLEAN, g, g->len, WOK_ANSWER_OCTETS);
    size_t len = number(c.numbers, 5);
    check_call(g->name, &c, five, len);
    check(len <= g->len, g->name, "the cleaned copy is longer than the message");
    answers_around(CLEAN, g, five, len, len);
    if (c.code != WOK_ACCEPTED || len > g->len) return;
    c = on_exact(CLEAN, g, g->len + 1, WOK_ANSWER_OCTETS);
    check_call(g->name, &c, five, len);
    memcpy(first, c.out, len);
    c = on_exact(CLEAN, g, len, WOK_ANSWER_OCTETS);
    check_call(g->name, &c, five, len);
    check(memcmp(first, c.out, len) == 0, g->name, "another cleaned copy in a buffer of its length");
    try_call(CLEAN, g, len - 1, copy_short, 0);
    try_call(CLEAN, g, 0, copy_short, 0);
}

/* Are the bits that nothing reads zero, by the rows of a table? */
static int zero_bits(const uint8_t *message, const uint8_t *table) {
    size_t header = message[0] & 8 ? 12 : 8;
    int zero = (message[0] & 7) == 0 && message[header - 1] == 0;
    for (size_t row = 0; row < number(table, 0); row++)
        zero = zero && message[number(table, WOK_HEADER_NUMBERS + WOK_ROW_NUMBERS * row + 3) - 1] < 16;
    return zero;
}

static uint32_t big_endian(const uint8_t *octets, size_t len) {
    uint32_t n = 0;
    while (len-- > 0) n = n << 8 | *octets++;
    return n;
}

/* The head of a message whose table was just judged, in pages that are for reading only: so many octets of it, at their end or start. */
static void take_head(const struct given *g, const uint8_t *table, size_t len) {
    int t = (g->message[0] & 8) != 0;
    if (mprotect(table_room, ROOM, PROT_READ | PROT_WRITE) != 0) fail("read and write");
    uint8_t *own = exact(table_room, len, g->at_end);
    memcpy(own, table, len);
    if (mprotect(table_room, ROOM, PROT_READ) != 0) fail("read only");
    head = (struct head){t ? big_endian(g->message + 4, 4) : 0, big_endian(g->message + (t ? 8 : 4), 3), own, len};
}

/* An accepted message, built again from its own table: itself but for bits that nothing reads, in a room of its length and no shorter one; and 14
   where a row is not kept, or the table is an octet shorter. */
static void build_exact(const struct given *g, const unsigned five[5]) {
    static const unsigned no_table[5] = {WOK_NO_TABLE}, too_large[5] = {WOK_TOO_LARGE};
    static uint8_t table[WOK_TABLE_OCTETS];
    struct call c = judge_exact(g, WOK_TABLE_OCTETS);
    if (c.code != WOK_ACCEPTED) return;
    size_t used = 2 * number(c.out, USED);
    memcpy(table, c.out, used);
    take_head(g, table, used - 1);
    try_call(BUILD, g, g->len, no_table, 0);
    take_head(g, table, used);
    if (number(table, 0) != number(table, 1)) {
        try_call(BUILD, g, g->len, no_table, 0);
        return;
    }
    answers_around(BUILD, g, five, g->len, g->len);
    c = on_exact(BUILD, g, g->len, WOK_ANSWER_OCTETS);
    check(zero_bits(g->message, table) == (memcmp(c.out, g->message, g->len) == 0), g->name, "another message is built");
    rebuilt++;
    try_call(BUILD, g, g->len - 1, too_large, 0);
    try_call(BUILD, g, 0, too_large, 0);
}

/* One call of the pieces form, with so many octets of the message from there on as its part. State and table are as the last call left them, and
   the part's room is for reading only meanwhile. */
static struct call in_feed(int which, const struct given *g, size_t from, size_t len, size_t table_len) {
    struct call c = {which, g->kind, NULL, len, NULL, table_len, NULL, number_octets[which], 0, 0, 0, 0, g->len};
    uint8_t *own = exact(message_room, len, g->at_end);
    if (len != 0) memcpy(own, g->message + from, len);
    c.message = own;
    c.out = exact(out_room, table_len, g->at_end);
    c.numbers = exact(numbers_room, c.numbers_len, g->at_end);
    memset(numbers_room, PATTERN, ROOM);
    if (mprotect(message_room, ROOM, PROT_READ) != 0) fail("read only");
    run(&c);
    if (mprotect(message_room, ROOM, PROT_READ | PROT_WRITE) != 0) fail("read and write");
    return c;
}

/* Are the numbers these five, all of them where they belong? A start answers its code alone. */
static int answers(const struct call *c, const unsigned five[5]) {
    int same = c->code == five[0] && rest_stays(numbers_room, c->numbers, number_octets[c->which]);
    for (size_t i = 0; c->which != START && i < 5; i++) same = same && number(c->numbers, i) == five[i];
    return same;
}

/* Was nothing written but the table's numbers and the state's own octets? */
static int keeps_within(const struct call *c) {
    return rest_stays(out_room, c->out, c->out_len / 2 * 2) && rest_stays(state_room, state.octets, WOK_STATE_OCTETS);
}

static void check_feed(const char *name, const struct call *c, const unsigned five[5]) {
    check(answers(c, five), name, names[c->which]);
    check(keeps_within(c), name, "a write outside the table's numbers or the state");
}

/* Table and state as they were before a call. */
static uint8_t table_before[ROOM], state_before[ROOM];

static void keep_both(void) {
    memcpy(table_before, out_room, ROOM);
    memcpy(state_before, state_room, ROOM);
}

static int both_stay(void) {
    return memcmp(table_before, out_room, ROOM) == 0 && memcmp(state_before, state_room, ROOM) == 0;
}

/* A call that is not taken: state and table stay, whatever was lent. */
static void try_not_taken(int which, const struct given *g, size_t len, size_t table_len, size_t state_len, const char *what) {
    static const unsigned not_taken[5] = {WOK_NOT_TAKEN};
    struct lent own = state;
    keep_both();
    state.len = state_len;
    struct call c = in_feed(which, g, 0, len, table_len);
    state = own;
    check(answers(&c, not_taken) && both_stay(), g->name, what);
}

static int all_zero(const uint8_t *octets, size_t len) {
    while (len > 0 && octets[len - 1] == 0) len--;
    return len == 0;
}

/* A message in parts, each at the edge of a page, in a table of that length: the end says and leaves what a judge does in a table of zeros. */
static void feed_exact(const struct given *g, size_t table_len, size_t state_len) {
    static const size_t sizes[] = {1, 0, 2, 1, 5, 64, 300, WOK_LARGEST_MESSAGE + 1};
    static const unsigned zeros[5];
    static uint8_t expected[WOK_TABLE_OCTETS];
    unsigned five[5];
    struct call c = judge_exact(g, table_len);
    for (size_t i = 0; i < 5; i++) five[i] = number(c.numbers, i);
    memset(expected, 0, sizeof expected);
    if (c.code == WOK_ACCEPTED) memcpy(expected, c.out, 2 * number(c.out, USED));

    memset(out_room, PATTERN, ROOM);
    memset(state_room, PATTERN, ROOM);
    state = (struct lent){exact(state_room, state_len, g->at_end), state_len};
    try_not_taken(START, g, 0, table_len, WOK_STATE_OCTETS - 1, "a start with a state that is too short");
    c = in_feed(START, g, 0, 0, table_len);
    check_feed(g->name, &c, zeros);
    check(all_zero(c.out, table_len / 2 * 2), g->name, "a table that is not zero at the start");
    size_t from = 0;
    for (size_t i = 0; i < sizeof sizes / sizeof sizes[0]; i++) {
        size_t len = sizes[i] < g->len - from ? sizes[i] : g->len - from;
        c = in_feed(PART, g, from, len, table_len);
        check_feed(g->name, &c, zeros);
        if (i == 3) try_not_taken(PART, g, len, table_len + 2, state_len, "a part with another table");
        from += len;
    }
    try_not_taken(END, g, 0, table_len + 2, state_len, "an end with another table");
    try_not_taken(END, g, 0, table_len, WOK_STATE_OCTETS - 1, "an end with a state that is too short");
    c = in_feed(END, g, 0, 0, table_len);
    check_feed(g->name, &c, five);
    check(memcmp(c.out, expected, table_len / 2 * 2) == 0, g->name, "another table at the end");
    try_not_taken(PART, g, g->len < 5 ? g->len : 5, table_len, state_len, "a part after the end");
    try_not_taken(END, g, 0, table_len, state_len, "an end after the end");
    in_parts++;
}

/* With the largest table, one that just holds the rows, and one octet less; where it is refused, with hardly any. */
static void pieces_exact(const struct given *g) {
    struct call c = judge_exact(g, WOK_TABLE_OCTETS);
    size_t used = c.code == WOK_ACCEPTED ? 2 * number(c.out, USED) : 2;
    feed_exact(g, WOK_TABLE_OCTETS, WOK_STATE_OCTETS);
    feed_exact(g, used, WOK_STATE_OCTETS);
    feed_exact(g, used - 1, WOK_STATE_OCTETS + 5);
}

static void try_message(const char *name, uint32_t kind, const uint8_t *message, size_t len, const unsigned five[5]) {
    for (int at_end = 1; at_end >= 0; at_end--) {
        struct given g = {name, kind, message, len, at_end};
        rows_exact(&g, five, lengths_exact(&g, five));
        clean_exact(&g, five);
        build_exact(&g, five);
        pieces_exact(&g);
    }
}

static size_t read_sample(const char *name, uint8_t *message, size_t room) {
    char path[128];
    unsigned octet;
    size_t len = 0;
    snprintf(path, sizeof path, "samples/%s.hex", name);
    FILE *file = fopen(path, "r");
    if (file == NULL) fail(path);
    while (len < room && fscanf(file, "%2x", &octet) == 1) message[len++] = (uint8_t)octet;
    check(feof(file) && len > 0, name, "not read to its end");
    fclose(file);
    return len;
}

static unsigned try_samples(void) {
    static uint8_t message[WOK_LARGEST_MESSAGE];
    char line[256], name[64];
    unsigned kind, five[5], samples = 0;
    FILE *file = fopen("samples/expected.txt", "r");
    if (file == NULL) fail("samples/expected.txt");
    while (fgets(line, sizeof line, file) != NULL) {
        if (line[0] == '#' || line[0] == '\n') continue;
        int fields = sscanf(line, "%63s %u %u %u %u %u %u", name, &kind, &five[0], &five[1], &five[2], &five[3], &five[4]);
        check(fields == 7, line, "not seven fields");
        if (fields != 7) continue;
        try_message(name, kind, message, read_sample(name, message, sizeof message), five);
        samples++;
    }
    fclose(file);
    return samples;
}

/* A head and then elements of type 200 without a value, up to the length; octets that are left over at the end are the last one's. */
static void try_built(const char *name, uint32_t kind, const uint8_t *head, size_t head_len, size_t len, const unsigned five[5]) {
    static uint8_t message[WOK_LARGEST_MESSAGE + 1];
    static const uint8_t empty[4] = {200, 0, 0, 0};
    memcpy(message, head, head_len);
    size_t at = head_len;
    for (; at + 4 <= len; at += 4) memcpy(message + at, empty, 4);
    if (at < len) {
        message[at - 2] = (uint8_t)(len - at);
        memset(message + at, 1, len - at);
    }
    try_message(name, kind, message, len, five);
}

/* 4,096 octets of bearer contexts, every one kept: all of it is built again. */
static void try_kept(void) {
    static const unsigned accepted[5];
    static const uint8_t head_octets[] = {0x48, 66, 0x0F, 0xFC, 0, 0, 0, 1, 0, 0, 1, 0}, context[] = {93, 0, 5, 0, 73, 0, 1, 0, 5};
    static uint8_t message[WOK_LARGEST_MESSAGE];
    memcpy(message, head_octets, sizeof head_octets);
    size_t at = sizeof head_octets, rest = (sizeof message - sizeof head_octets) % sizeof context;
    for (; at + sizeof context <= sizeof message; at += sizeof context) memcpy(message + at, context, sizeof context);
    /* what is left over is the last element's, and its group's */
    message[at - 7] = (uint8_t)(5 + rest);
    message[at - 3] = (uint8_t)(1 + rest);
    try_message("bearer contexts in 4,096 octets", WOK_KIND_S11, message, sizeof message, accepted);
}

/* What message 131 must have, what a PDN connection (109/0) must have beside a bearer, and what that must have: 6, 31 and 31 octets. */
#define CAUSE 2, 0, 2, 0, 16, 0
#define CONNECTION 71, 0, 1, 0, 0, 73, 0, 1, 0, 5, 87, 0, 5, 0, 7, 0, 0, 0, 1, 72, 0, 8, 0, 0, 0, 0, 1, 0, 0, 0, 2
#define IN_BEARER 73, 0, 1, 0, 5, 80, 0, 22, 0, 0x68, 9, 0, 0, 0, 0, 0, 0, 0, 0, 0, 0, 0, 0, 0, 0, 0, 0, 0, 0, 0, 0
#define BEARER 93, 0, 31, 0, IN_BEARER

/* 4,096 octets of PDN connections with a bearer each, three levels, every element kept. */
static void try_connections(void) {
    static const unsigned accepted[5];
    static const uint8_t head_octets[] = {0x48, 131, 0x0F, 0xFC, 0, 0, 0, 1, 0, 0, 1, 0, CAUSE}, connection[] = {109, 0, 66, 0, BEARER, CONNECTION};
    static uint8_t message[WOK_LARGEST_MESSAGE];
    memcpy(message, head_octets, sizeof head_octets);
    size_t at = sizeof head_octets, rest = (sizeof message - sizeof head_octets) % sizeof connection;
    for (; at + sizeof connection <= sizeof message; at += sizeof connection) memcpy(message + at, connection, sizeof connection);
    /* what is left over is that of the last 72/0, and of its group */
    message[at - 68] = (uint8_t)(66 + rest);
    message[at - 10] = (uint8_t)(8 + rest);
    try_message("PDN connections in 4,096 octets", WOK_KIND_S10, message, sizeof message, accepted);
}

static void try_all_built(void) {
    static const unsigned accepted[5], bad_size[5] = {WOK_BAD_SIZE};
    static const unsigned no_recovery[5] = {WOK_MANDATORY_MISSING, WOK_CAUSE_MANDATORY_IE_MISSING, 0, 3, 0};
    static const uint8_t full[] = {0x40, 1, 0x0F, 0xFC, 0, 0, 1, 0};
    static const uint8_t most_rows[] = {0x40, 1, 0x0F, 0xF9, 0, 0, 1, 0, 3, 0, 1, 0, 7};
    static const uint8_t context[] = {0x48, 66, 0x0F, 0xFC, 0, 0, 0, 1, 0, 0, 1, 0, 93, 0x0F, 0xF0, 0, 73, 0, 1, 0, 5};
    static const uint8_t small[] = {0x40, 1, 1, 4, 0, 0, 1, 0};
    static const uint8_t small_context[] = {0x48, 66, 1, 4, 0, 0, 0, 1, 0, 0, 1, 0, 93, 0, 0xF8, 0, 73, 0, 1, 0, 5};
    static const uint8_t over_small[] = {0x40, 1, 1, 5, 0, 0, 1, 0, 3, 0, 1, 0, 7};
    /* one PDN connection with one bearer, whose level has all the rest */
    static const uint8_t bearer[] = {0x48, 131, 0x0F, 0xFC, 0, 0, 0, 1, 0, 0, 1, 0, CAUSE, 109, 0x0F, 0xEA, 0, CONNECTION, 93, 0x0F, 0xC7, 0, IN_BEARER};
    static const uint8_t small_bearer[] = {0x48, 131, 1, 4, 0, 0, 0, 1, 0, 0, 1, 0, CAUSE, 109, 0, 0xF2, 0, CONNECTION, 93, 0, 0xCF, 0, IN_BEARER};
    static uint8_t late_rows[8 + 5 + 4 + 3000] = {0x40, 1, 0x0F, 0xF9, 0, 0, 1, 0, 3, 0, 1, 0, 7, 200, 0x0B, 0xB8, 0};
    try_built("1,022 elements", WOK_KIND_S11, full, sizeof full, 4096, no_recovery);
    try_built("1,021 rows", WOK_KIND_S11, most_rows, sizeof most_rows, 4093, accepted);
    try_built("a full bearer context", WOK_KIND_S11, context, sizeof context, 4096, accepted);
    try_built("264 octets", WOK_KIND_S11, small, sizeof small, 264, no_recovery);
    try_built("a bearer context in 264 octets", WOK_KIND_S11, small_context, sizeof small_context, 264, accepted);
    try_built("265 octets", WOK_KIND_S11, over_small, sizeof over_small, 265, accepted);
    try_built("rows after a long value", WOK_KIND_S11, late_rows, sizeof late_rows, 4093, accepted);
    try_built("a bearer three levels deep in 4,096 octets", WOK_KIND_S10, bearer, sizeof bearer, 4096, accepted);
    try_built("a bearer three levels deep in 264 octets", WOK_KIND_S10, small_bearer, sizeof small_bearer, 264, accepted);
    try_built("4,097 octets", WOK_KIND_S11, full, sizeof full, 4097, bad_size);
    try_message("empty", WOK_KIND_S11, full, 0, bad_size);
}

static void try_null(int which, const uint8_t *message, size_t len, int has_out, int has_numbers, uint16_t code, const char *what) {
    static uint8_t out[WOK_TABLE_OCTETS], numbers[WOK_ANSWER_OCTETS];
    uint8_t *lent = has_out ? out : NULL, *answered = has_numbers ? numbers : NULL;
    struct call c = {which, WOK_KIND_S11, message, len, lent, has_out ? sizeof out : 0, answered, has_numbers ? number_octets[which] : 0, 0, 0, 0, 0, len};
    run(&c);
    check(c.code == code && (!has_numbers || number(numbers, 0) == code), names[which], what);
}

/* A NULL with length 0 for each pointer in turn, on a good message. */
static void try_nulls(void) {
    static const uint8_t echo[] = {0x40, 1, 0, 9, 0, 0, 1, 0, 3, 0, 1, 0, 7};
    static uint8_t own[sizeof echo];
    copy = (struct lent){own, sizeof own};
    try_null(JUDGE_COPY, NULL, 0, 1, 1, WOK_BAD_SIZE, "NULL for the message");
    try_null(JUDGE_COPY, echo, sizeof echo, 0, 1, WOK_TABLE_SHORT, "NULL for the table");
    try_null(JUDGE_COPY, echo, sizeof echo, 1, 0, WOK_ACCEPTED, "NULL for the numbers");
    copy = (struct lent){NULL, 0};
    try_null(JUDGE_COPY, echo, sizeof echo, 1, 1, WOK_COPY_SHORT, "NULL for the copy");
    try_null(JUDGE_COPY, echo, sizeof echo, 0, 1, WOK_COPY_SHORT, "NULL for table and copy");
    try_null(JUDGE_COPY, NULL, 0, 0, 0, WOK_BAD_SIZE, "NULL for all");
    try_null(ROWS, NULL, 0, 0, 1, WOK_BAD_SIZE, "NULL for the message");
    try_null(ROWS, echo, sizeof echo, 0, 0, WOK_ACCEPTED, "NULL for the numbers");
    try_null(ROWS, NULL, 0, 0, 0, WOK_BAD_SIZE, "NULL for all");
    try_null(CLEAN, NULL, 0, 1, 1, WOK_BAD_SIZE, "NULL for the message");
    try_null(CLEAN, echo, sizeof echo, 0, 1, WOK_COPY_SHORT, "NULL for the copy");
    try_null(CLEAN, echo, sizeof echo, 1, 0, WOK_ACCEPTED, "NULL for the numbers");
    try_null(CLEAN, NULL, 0, 0, 0, WOK_BAD_SIZE, "NULL for all");
    static const uint8_t table[] = {0, 1, 0, 1, 0, 6, 0, 12, 0, 1, 0, 1, 0, 0, 0, 3, 0, 0, 0, 12, 0, 1, 0, 0};
    head = (struct head){0, 1, table, sizeof table};
    try_null(BUILD, NULL, 0, 1, 1, WOK_NO_TABLE, "NULL for the values");
    try_null(BUILD, echo, sizeof echo, 0, 1, WOK_TOO_LARGE, "NULL for the room");
    try_null(BUILD, echo, sizeof echo, 1, 0, WOK_ACCEPTED, "NULL for the numbers");
    head.table = NULL, head.table_len = 0;
    try_null(BUILD, echo, sizeof echo, 1, 1, WOK_NO_TABLE, "NULL for the table");
    try_null(BUILD, NULL, 0, 0, 0, WOK_NO_TABLE, "NULL for all");
}

/* A NULL with length 0 for each pointer of the pieces form in turn. */
static void try_null_pieces(void) {
    static const uint8_t echo[] = {0x40, 1, 0, 9, 0, 0, 1, 0, 3, 0, 1, 0, 7};
    static uint8_t own[WOK_STATE_OCTETS], table[WOK_TABLE_OCTETS], five[WOK_FIVE_OCTETS];
    check(wok_start(1, NULL, 0, table, sizeof table) == WOK_NOT_TAKEN, "start", "NULL for the state");
    check(wok_part(NULL, 0, echo, sizeof echo, table, sizeof table, five, sizeof five) == WOK_NOT_TAKEN, "part", "NULL for the state");
    check(wok_end(NULL, 0, table, sizeof table, five, sizeof five) == WOK_NOT_TAKEN, "end", "NULL for the state");
    check(wok_start(1, own, sizeof own, NULL, 0) == WOK_ACCEPTED, "start", "NULL for the table");
    check(wok_part(own, sizeof own, echo, sizeof echo, NULL, 0, NULL, 0) == WOK_ACCEPTED, "part", "NULL for table and numbers");
    check(wok_part(own, sizeof own, NULL, 0, NULL, 0, five, sizeof five) == WOK_ACCEPTED, "part", "NULL for the part");
    check(wok_end(own, sizeof own, NULL, 0, NULL, 0) == WOK_TABLE_SHORT, "end", "NULL for table and numbers");
    check(wok_start(1, own, sizeof own, table, sizeof table) == WOK_ACCEPTED, "start", "a second message");
    check(wok_end(own, sizeof own, table, sizeof table, five, sizeof five) == WOK_BAD_SIZE, "end", "no part");
}

/* A number below a bound, the same in every run. */
static size_t some(size_t bound) {
    static uint32_t seed = 2024;
    seed = seed * 1664525u + 1013904223u;
    return (seed >> 8) % bound;
}

/* Parts and ends with states of any octets, and with ones of a message that was begun in which some were changed: each answers something, and
   writes no octet that is not its own. */
static void try_rubbish(void) {
    static const uint8_t message[] = {0x48, 66, 0, 26, 0, 0, 0, 1, 0, 0, 2, 0, 93, 0, 5, 0, 73, 0, 1, 0, 5, 86, 0, 5, 0, 0x10, 1, 2, 3, 4};
    static const uint8_t deep[] = {0x48, 131, 0, 84, 0, 0, 0, 1, 0, 0, 2, 0, CAUSE, 109, 0, 66, 0, CONNECTION, BEARER};
    for (unsigned turn = 0; turn < 2000; turn++) {
        struct given g = {"rubbish for a state", WOK_KIND_S11, message, sizeof message, (int)(turn & 1)};
        if (turn & 16) g.kind = WOK_KIND_S10, g.message = deep, g.len = sizeof deep;
        size_t table_len = some(130), len = some(g.len + 1);
        memset(out_room, PATTERN, ROOM);
        memset(state_room, PATTERN, ROOM);
        state = (struct lent){exact(state_room, WOK_STATE_OCTETS, g.at_end), WOK_STATE_OCTETS};
        for (size_t i = 0; i < WOK_STATE_OCTETS; i++) state.octets[i] = (uint8_t)some(256);
        if (turn & 2) {
            (void)in_feed(START, &g, 0, 0, table_len);
            (void)in_feed(PART, &g, 0, len, table_len);
            for (size_t i = some(4); i > 0; i--) state.octets[some(WOK_STATE_OCTETS)] = (uint8_t)(turn & 4 ? some(256) : 255 * some(2));
        }
        keep_both();
        struct call c = turn & 8 ? in_feed(PART, &g, 0, some(g.len + 1), table_len) : in_feed(END, &g, 0, 0, table_len);
        int known = c.code == WOK_ACCEPTED || c.code == WOK_NOT_TAKEN || (c.which == END && (is_early(c.code) || c.code <= WOK_MANDATORY_MISSING));
        check(known && number(c.numbers, 0) == c.code && rest_stays(numbers_room, c.numbers, WOK_FIVE_OCTETS), g.name, names[c.which]);
        check(c.code == WOK_NOT_TAKEN ? both_stay() : keeps_within(&c), g.name, "a write where none may be");
    }
}

/* What a level of the listings takes: a message with the kept group that it is in, against one without. */
static size_t level_octets(int which, struct given without, struct given with) {
    size_t less = which == JUDGE_COPY ? judge_exact(&without, WOK_TABLE_OCTETS).used : on_exact(which, &without, with.len, number_octets[which]).used;
    size_t more = which == JUDGE_COPY ? judge_exact(&with, WOK_TABLE_OCTETS).used : on_exact(which, &with, with.len, number_octets[which]).used;
    check(less < more && more - less <= MOST_A_LEVEL, names[which], "a level takes nothing, or too much");
    return more - less;
}

/* A level in the body, and one in a group there. */
static void print_levels(void) {
    static const uint8_t body[] = {0x48, 131, 0, 14, 0, 0, 0, 1, 0, 0, 2, 0, CAUSE};
    static const uint8_t group[] = {0x48, 131, 0, 49, 0, 0, 0, 1, 0, 0, 2, 0, CAUSE, 109, 0, 31, 0, CONNECTION};
    static const uint8_t inner[] = {0x48, 131, 0, 84, 0, 0, 0, 1, 0, 0, 2, 0, CAUSE, 109, 0, 66, 0, CONNECTION, BEARER};
    const struct given one = {"one level", WOK_KIND_S10, body, sizeof body, 1}, two = {"two levels", WOK_KIND_S10, group, sizeof group, 1};
    const struct given three = {"three levels", WOK_KIND_S10, inner, sizeof inner, 1};
    printf("stack: the second level takes %zu octets in judge and copy, ", level_octets(JUDGE_COPY, one, two));
    printf("%zu in rows, %zu in clean; the third ", level_octets(ROWS, one, two), level_octets(CLEAN, one, two));
    printf("%zu in judge and copy, ", level_octets(JUDGE_COPY, two, three));
    printf("%zu in rows, %zu in clean\n", level_octets(ROWS, two, three), level_octets(CLEAN, two, three));
}

static void print_stack(int larger, const char *which) {
    const size_t *used = most_used[larger], *written = most_written[larger];
    printf("stack:");
    for (int f = 0; f < FUNCTIONS; f++) printf(" %zu octets for %s (%zu of them written)%c", used[f], names[f], written[f], f + 1 < FUNCTIONS ? ',' : ';');
    printf(" %s\n", which);
}

int main(void) {
    stack = guarded(STACK_OCTETS);
    message_room = guarded(ROOM);
    table_room = guarded(ROOM);
    out_room = guarded(ROOM);
    copy_room = guarded(ROOM);
    numbers_room = guarded(ROOM);
    state_room = guarded(ROOM);
    unsigned samples = try_samples();
    check(samples > 30, "samples", "too few");
    check(rebuilt > 50, "samples built again", "too few");
    try_all_built();
    try_kept();
    try_connections();
    try_nulls();
    try_null_pieces();
    try_rubbish();
    check(in_parts > 400, "messages in parts", "too few");
    check(least_left >= LEAST_LEFT, "stack", "too little is left");
    for (int f = 0; f < FUNCTIONS; f++) check(most_used[0][f] < said[f] && most_used[1][f] < said[f], names[f], "more stack than the header says");
    printf("%u samples, %u times built again, %u times in parts\n", samples, rebuilt, in_parts);
    print_stack(0, "messages of up to 264 octets");
    print_stack(1, "larger messages");
    print_levels();
    printf("stack: %zu of %u octets never written\n", least_left, STACK_OCTETS);
    printf("%u passed, %u failed\n", passed, failed);
    return failed != 0;
}
