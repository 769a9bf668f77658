/* The seat of a group: one member in a process of its own, for C. The library is libderecho_c.a or .so.
 *
 * A seat does no input and no output. Its host does what dr_next tells it, one thing after the other; hands in what
 * packets come, whoever sent them; and calls dr_tick now and then, which is the only clock.
 *
 *     dr_seat seat = {0};
 *     dr_open(&seat, plan, plan_length, card, card_length, log, log_length);
 *     for (;;) {
 *         while (dr_next(&seat, &due, sizeof due, bytes, sizeof bytes) == DR_OK && due.kind != DR_WAIT) {
 *             ..write, sync, send..                then dr_did(&seat, due.number)
 *         }
 *         ..a packet..                             dr_came(&seat, packet, length)
 *         ..a millisecond has passed..             dr_tick(&seat)
 *     }
 *
 * WHAT A HOST OWES
 * For memory: a handle begins as zeros, is not copied, and serves one call at a time, in whichever thread: calls
 * are ordered by a lock, or by the start or end of a thread. A thread has 128 KiB of stack. Pointers point to as
 * many bytes as they are said to, and not into one another. malloc, realloc and free are of one allocator.
 * For agreement: the log's file is this seat's alone: nobody else writes it, and it is handed to dr_open whole. A
 * card and a log are made once, by dr_fresh: who makes them anew for a member that has been there loses what it has
 * promised. dr_did is called of a write or sync only where that has been done whole; where a call of the system
 * failed, dr_failed, never once more.
 * For durability: a sync that is told as done outlives whatever may stop the machine, so the folder is synced once
 * the file is made. Only entries below `durable` of dr_where are told to others.
 * For progress: packets arrive now and then, ticks come, also after DR_END, and dr_without is called where members
 * are gone. A packet may be lost, doubled, late, out of order, or changed: that is refused or does no harm.
 * Nothing is owed to liars: packets have no signature. DR_GROWTH says that somebody has lied: stop.
 *
 * WHAT IT MAY RELY ON
 * Of any two seats' histories in an age one is a front of the other. What a seat has told as durable stands at the
 * front of every history of a later age. Entries behind that may be gone in a later age.
 */
#ifndef DERECHO_H
#define DERECHO_H
#include <stddef.h>
#include <stdint.h>

/* of these structs and calls; dr_version tells that of the library */
#define DERECHO_VERSION 1

/* what calls answer */
enum {
    DR_OK = 0, DR_OLD = 1, DR_CLOSED = 2, DR_OPEN = 3, DR_NOT_DUE = 4, DR_ROOM = 5, DR_MEMORY = 6, DR_PLAN = 7,
    DR_TEST_PLAN = 8, DR_NO_MEMBER = 9, DR_NO_ENTRY = 10, DR_NO_CARD = 11, DR_EMPTY = 12, DR_DAMAGED = 13,
    DR_OLD_FORMAT = 14, DR_OTHER_GROUP = 15, DR_OTHER_PLAN = 16, DR_OTHER_AGE = 17, DR_SHORT = 18, DR_SUM = 19,
    DR_NOT_MINE = 20, DR_KIND = 21, DR_PLACE = 22, DR_FORM = 23, DR_GROWTH = 24, DR_NO_QUORUM = 25, DR_ENDED = 26,
    DR_VERSION = 27
};

static inline const char *dr_name(uint32_t code)
{
    static const char *const names[] = {
        "ok", "old", "closed", "open already", "not due", "too little room", "out of memory", "no plan",
        "a plan for tests", "no such member", "no such entry", "no card", "the log is lost", "the log is damaged",
        "a log of the older format", "of another group", "of another plan", "of another age", "too short",
        "changed on its way", "not for this member", "says nothing known", "a word for no place of its sender's",
        "a word not in form", "a word that hasn't grown", "too few are left", "the seat has ended",
        "another version of the library"};
    return code < sizeof names / sizeof *names ? names[code] : "no such answer";
}

/* what is due */
enum { DR_WAIT = 0, DR_WRITE = 1, DR_SYNC = 2, DR_SEND = 3, DR_END = 4 };

/* how a member ended its age */
enum {
    DR_DONE = 0, DR_CRASHED = 1, DR_SUSPECTED = 2, DR_EXCLUDED = 3, DR_NO_MAJORITY = 4, DR_DISK_FAULT = 5,
    DR_LOG_FULL = 6, DR_SPENT = 7, DR_ABSENT = 8
};

/* what a seat is about */
enum { DR_GATHERS = 0, DR_TRIES = 1, DR_RUNS = 2, DR_HAS_ENDED = 3, DR_BROKEN = 4 };

/* why the logs that were gathered make no start: nothing, or memory was wanting; an entry (second) of a member
 * (first) is none of this plan's; of a view (first - 1; or the roster where first is 0) second are there and third
 * needed; the logs of two members (first, second) differ at an entry (third); no age is left */
enum { DR_NOTHING = 0, DR_WANTS_MEMORY = 1, DR_FOREIGN = 2, DR_TOO_FEW = 3, DR_DISAGREE = 4, DR_USED_UP = 5 };

/* a handle: closed while it is zeros */
typedef struct { void *at; } dr_seat;

typedef struct {
    uint32_t kind;
    uint32_t to;      /* DR_SEND: the member */
    uint64_t number;  /* for dr_did and dr_failed: it never comes again */
    uint64_t at;      /* DR_WRITE: the place in the log's file */
    uint64_t length;  /* how many bytes there are; where the answer is DR_ROOM, how many are needed */
    uint32_t end;     /* DR_END: how the member ended */
    uint32_t spare;
    uint64_t detail;  /* by whom it was suspected, which view it is not in, .. */
} dr_due;

/* the age that is tried, runs or has ended, with its members; of a seat that gathers, who has handed in its log.
 * Of the entries of its history the first `logged` are on its log, and the first `durable` outlive whatever comes */
typedef struct {
    uint32_t stage, me, age, members, turns, why;
    uint64_t entries, logged, durable;
    uint64_t first, second, third;
} dr_where;

typedef struct {
    uint32_t kind;    /* 0: a view, 1: a message */
    uint32_t number;  /* of the view, or the sender */
    uint32_t index;   /* of the message among its sender's */
    uint32_t age, members;
    uint32_t length;  /* how many bytes the message has: at most 64 */
} dr_item;

/* the most bytes of a packet, of a write at first, and of a log; and how many a card and a new log have */
typedef struct {
    uint32_t members, window;
    uint64_t packet, write, log, card, fresh;
} dr_needs;

#ifdef __cplusplus
static_assert(sizeof(dr_due) == 48 && sizeof(dr_where) == 72, "sizes");
static_assert(sizeof(dr_item) == 24 && sizeof(dr_needs) == 48, "sizes");
extern "C" {
#else
_Static_assert(sizeof(dr_due) == 48 && sizeof(dr_where) == 72, "sizes");
_Static_assert(sizeof(dr_item) == 24 && sizeof(dr_needs) == 48, "sizes");
#endif

/* Each call that takes a handle answers DR_CLOSED where that is closed; and DR_VERSION where `size` is not that of
 * the struct in this library. Where it answers neither DR_OK nor DR_OLD, nothing has changed, memory wanting
 * aside. Bytes are a pointer and their number; by the macros below a null pointer goes with 0 bytes. */

/* that of the library: DERECHO_VERSION of the header that it goes with */
uint32_t dr_version(void);

/* the SHA-256 of a plan's text, into 32 bytes: two seats understand one another where it is the same */
uint32_t dr_digest(const uint8_t *plan, size_t plan_length, uint8_t *into, size_t room);

/* what a plan needs; DR_PLAN, DR_TEST_PLAN or DR_MEMORY */
uint32_t dr_need(const uint8_t *plan, size_t plan_length, dr_needs *into, size_t size);

/* the card (65 bytes) and the log (10 bytes) of a member that never was, of a group with a name of 16 bytes; DR_ROOM
 * where a length is another, DR_NO_MEMBER, or as dr_need */
uint32_t dr_fresh(const uint8_t *plan, size_t plan_length, const uint8_t *group, size_t group_length, uint32_t me,
                  uint8_t *card, size_t card_room, uint8_t *log, size_t log_room);

/* a seat on its card and log; it is in no age yet. DR_OPEN where the handle is open, else as dr_need, else
 * DR_NO_CARD, DR_OTHER_PLAN, DR_NO_MEMBER, DR_EMPTY (the log is lost), DR_DAMAGED, DR_OLD_FORMAT or DR_MEMORY */
uint32_t dr_open(dr_seat *seat, const uint8_t *plan, size_t plan_length, const uint8_t *card, size_t card_length,
                 const uint8_t *log, size_t log_length);

/* an opening begins anew, and does without the members of this mask; DR_NO_QUORUM where the others are too few, it is
 * one of them, or its log has failed; DR_NO_MEMBER for a mask of more than 16 bits */
uint32_t dr_without(dr_seat *seat, uint32_t missing);

/* what is due: the same until it is answered. DR_ROOM where `bytes` are too few: due->length tells how many it
 * wants */
uint32_t dr_next(dr_seat *seat, dr_due *due, size_t size, uint8_t *bytes, size_t room);

/* what has this number is done; DR_NOT_DUE where that isn't due */
uint32_t dr_did(dr_seat *seat, uint64_t number);

/* what has this number has failed: a packet is lost; of a write or sync nobody knows, so the seat ends (DR_BROKEN). A
 * log's file that is `full`, of this length, is told apart from a disk that fails. DR_NOT_DUE as above */
uint32_t dr_failed(dr_seat *seat, uint64_t number, uint32_t full, uint64_t length);

/* a packet, of anybody: DR_OK where it is news, DR_OLD where not, else why it was refused: DR_SHORT to DR_GROWTH,
 * DR_OTHER_GROUP, DR_OTHER_PLAN, DR_OTHER_AGE, DR_ENDED, DR_MEMORY */
uint32_t dr_came(dr_seat *seat, const uint8_t *packet, size_t length);

/* all last words for a member are due once more, as where a line to it was made anew; DR_NO_MEMBER from 16 on */
uint32_t dr_again(dr_seat *seat, uint32_t to);

/* a turn begins, or what an opening waits for is asked again; DR_NOT_DUE while something is due */
uint32_t dr_tick(dr_seat *seat);

uint32_t dr_standing(dr_seat *seat, dr_where *into, size_t size);

/* the entry of this number of its history, from 0; the bytes of a message go into `bytes`. DR_NO_ENTRY, DR_ROOM */
uint32_t dr_entry(dr_seat *seat, uint64_t number, dr_item *into, size_t size, uint8_t *bytes, size_t room);

/* frees it: the handle is closed */
uint32_t dr_close(dr_seat *seat);

#ifdef __cplusplus
}
#endif

/* The library itself takes no null pointer, also where there are no bytes: other languages pass some place. */
static inline const uint8_t *dr_from(const uint8_t *bytes)
{
    static const uint8_t none = 0;
    return bytes ? bytes : &none;
}

static inline uint8_t *dr_into(uint8_t *bytes)
{
    static uint8_t none;
    return bytes ? bytes : &none;
}

static inline uint32_t dr_digest_or_null(const uint8_t *plan, size_t plan_length, uint8_t *into, size_t room)
{
    return dr_digest(dr_from(plan), plan_length, dr_into(into), room);
}

static inline uint32_t dr_need_or_null(const uint8_t *plan, size_t plan_length, dr_needs *into, size_t size)
{
    return dr_need(dr_from(plan), plan_length, into, size);
}

static inline uint32_t dr_fresh_or_null(const uint8_t *plan, size_t plan_length, const uint8_t *group,
                                        size_t group_length, uint32_t me, uint8_t *card, size_t card_room,
                                        uint8_t *log, size_t log_room)
{
    return dr_fresh(dr_from(plan), plan_length, dr_from(group), group_length, me, dr_into(card), card_room,
                    dr_into(log), log_room);
}

static inline uint32_t dr_open_or_null(dr_seat *seat, const uint8_t *plan, size_t plan_length, const uint8_t *card,
                                       size_t card_length, const uint8_t *log, size_t log_length)
{
    return dr_open(seat, dr_from(plan), plan_length, dr_from(card), card_length, dr_from(log), log_length);
}

static inline uint32_t dr_next_or_null(dr_seat *seat, dr_due *due, size_t size, uint8_t *bytes, size_t room)
{
    return dr_next(seat, due, size, dr_into(bytes), room);
}

static inline uint32_t dr_came_or_null(dr_seat *seat, const uint8_t *packet, size_t length)
{
    return dr_came(seat, dr_from(packet), length);
}

static inline uint32_t dr_entry_or_null(dr_seat *seat, uint64_t number, dr_item *into, size_t size, uint8_t *bytes,
                                        size_t room)
{
    return dr_entry(seat, number, into, size, dr_into(bytes), room);
}

#define dr_digest(...) dr_digest_or_null(__VA_ARGS__)
#define dr_need(...) dr_need_or_null(__VA_ARGS__)
#define dr_fresh(...) dr_fresh_or_null(__VA_ARGS__)
#define dr_open(...) dr_open_or_null(__VA_ARGS__)
#define dr_next(...) dr_next_or_null(__VA_ARGS__)
#define dr_came(...) dr_came_or_null(__VA_ARGS__)
#define dr_entry(...) dr_entry_or_null(__VA_ARGS__)
#endif
