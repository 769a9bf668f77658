/* Each call of the library, over 300 seats: what it answers. With FAILING defined, and linked by
 * -Wl,--wrap=malloc,--wrap=realloc, also what becomes of it where memory is wanting: each allocation of an opening
 * fails in turn, and then each of a group's life. Run it under valgrind. */
#include "derecho.h"
#include <inttypes.h>
#include <stdio.h>
#include <stdlib.h>
#include <string.h>

#ifndef GROUPS
#define GROUPS 100
#endif

enum { MEMBERS = 3, CARD = 65, NEW_LOG = 10, FILE_ROOM = 1 << 14, GROUP = 16 };

static int failed;

static void want(int line, uint32_t is, uint32_t wanted)
{
    if (is == wanted) return;
    fprintf(stderr, "line %d: %s, wanted %s\n", line, dr_name(is), dr_name(wanted));
    failed = 1;
}

static void want_true(int line, int is)
{
    if (is) return;
    fprintf(stderr, "line %d: it isn't so\n", line);
    failed = 1;
}

#define WANT(code, wanted) want(__LINE__, code, wanted)
#define WANT_TRUE(is) want_true(__LINE__, is)

#define TEXT_OF(text) (const uint8_t *)text, sizeof text - 1
#define PLAN TEXT_OF(plan)

static const char plan[] = "{\"members\": 3, \"window\": 2, \"turns\": 200, \"patience\": 0, \"ages\": 1, "
                           "\"messages\": [[\"a\"], [\"b\", \"c\"], []], \"faults\": [], "
                           "\"schedule\": \"lockstep\"}";
static const char test_plan[] = "{\"members\": 1, \"window\": 2, \"turns\": 100, \"patience\": 0, \"ages\": 1, "
                                "\"messages\": [[]], \"faults\": [{\"age\": 0, \"member\": 0, \"crash\": [1, 0]}], "
                                "\"schedule\": 7}";
static const char other_plan[] = "{\"members\": 1, \"window\": 2, \"turns\": 100, \"patience\": 0, \"ages\": 1, "
                                 "\"messages\": [[]], \"faults\": [], \"schedule\": 7}";
static const uint8_t group[GROUP] = "smoke";

#ifdef FAILING
/* the allocation of this number fails; all others are the C library's */
static long countdown = -1;
extern void *__real_malloc(size_t);
extern void *__real_realloc(void *, size_t);
extern void *__wrap_malloc(size_t);
extern void *__wrap_realloc(void *, size_t);

static int fails_now(void)
{
    return countdown >= 0 && countdown-- == 0;
}

void *__wrap_malloc(size_t size)
{
    return fails_now() ? 0 : __real_malloc(size);
}

void *__wrap_realloc(void *at, size_t size)
{
    return fails_now() ? 0 : __real_realloc(at, size);
}
#endif

typedef struct {
    dr_seat seat;
    size_t length;
    uint8_t card[CARD], log[FILE_ROOM];
} member;

static member all[MEMBERS];

static void make_all(void)
{
    for (unsigned m = 0; m < MEMBERS; m++) {
        WANT(dr_fresh(PLAN, group, GROUP, m, all[m].card, CARD, all[m].log, NEW_LOG), DR_OK);
        all[m].length = NEW_LOG;
    }
}

static uint32_t open_one(member *it)
{
    return dr_open(&it->seat, PLAN, it->card, CARD, it->log, it->length);
}

static void send_to(member *it, const uint8_t *packet, size_t length)
{
    if (!it->seat.at) return;
    uint32_t code = dr_came(&it->seat, packet, length);
    if (code != DR_OK && code != DR_OTHER_AGE && code != DR_MEMORY) WANT(code, DR_OLD);
}

/* does all that is due of a member */
static void work(member *it)
{
    static uint8_t bytes[FILE_ROOM];
    dr_due due;
    for (;;) {
        WANT(dr_next(&it->seat, &due, sizeof due, bytes, sizeof bytes), DR_OK);
        if (due.kind == DR_WAIT) return;
        if (due.kind == DR_WRITE) {
            if (due.at + due.length > FILE_ROOM) abort();
            memcpy(it->log + due.at, bytes, due.length);
            if (due.at + due.length > it->length) it->length = due.at + due.length;
        }
        WANT(dr_did(&it->seat, due.number), DR_OK);
        if (due.kind == DR_SEND) send_to(&all[due.to], bytes, due.length);
    }
}

static void go_round(void)
{
    for (unsigned m = 0; m < MEMBERS; m++) {
        work(&all[m]);
        uint32_t code = dr_tick(&all[m].seat);
        if (code != DR_NOT_DUE) WANT(code, DR_OK);
        work(&all[m]);
    }
}

/* a member has delivered all three messages, and they are durable */
static void want_all(member *it)
{
    dr_where w;
    dr_item item;
    uint8_t text[64];
    WANT(dr_standing(&it->seat, &w, sizeof w), DR_OK);
    if (w.stage != DR_HAS_ENDED || w.durable != w.entries) {
        fprintf(stderr, "stage %u, %" PRIu64 " entries, %" PRIu64 " durable\n", w.stage, w.entries, w.durable);
        failed = 1;
        return;
    }
    unsigned messages = 0;
    for (uint64_t k = 0; k < w.entries; k++) {
        WANT(dr_entry(&it->seat, k, &item, sizeof item, text, sizeof text), DR_OK);
        messages += item.kind;
    }
    WANT_TRUE(messages == 3);
    WANT(dr_entry(&it->seat, w.entries, &item, sizeof item, text, sizeof text), DR_NO_ENTRY);
}

static void one_group(void)
{
    dr_item item;
    uint8_t text[64];
    make_all();
    for (unsigned m = 0; m < MEMBERS; m++) {
        WANT(open_one(&all[m]), DR_OK);
        WANT(open_one(&all[m]), DR_OPEN);
    }
    for (int round = 0; round < 200; round++) go_round();
    for (unsigned m = 0; m < MEMBERS; m++) {
        want_all(&all[m]);
        WANT(dr_entry(&all[m].seat, 2, &item, sizeof item, text, sizeof text), DR_OK);
        WANT_TRUE(item.kind == 1 && item.number == 1 && item.length == 1 && text[0] == 'b');
        WANT(dr_entry(&all[m].seat, 2, &item, sizeof item, 0, 0), DR_ROOM);
        WANT(dr_entry(&all[m].seat, 0, &item, sizeof item, 0, 0), DR_OK);
        WANT(dr_close(&all[m].seat), DR_OK);
        WANT(dr_close(&all[m].seat), DR_CLOSED);
    }
}

/* a handle that is closed, and structs of another size */
static void closed(void)
{
    dr_seat s = {0};
    dr_due due;
    dr_where w;
    dr_item item;
    uint8_t bytes[64] = {0};
    WANT(dr_next(&s, &due, sizeof due, bytes, sizeof bytes), DR_CLOSED);
    WANT(dr_next(&s, &due, 40, bytes, sizeof bytes), DR_VERSION);
    WANT(dr_standing(&s, &w, sizeof w), DR_CLOSED);
    WANT(dr_standing(&s, &w, 1), DR_VERSION);
    WANT(dr_entry(&s, 0, &item, sizeof item, bytes, 64), DR_CLOSED);
    WANT(dr_entry(&s, 0, &item, 1, bytes, 64), DR_VERSION);
    WANT(dr_did(&s, 1), DR_CLOSED);
    WANT(dr_failed(&s, 1, 0, 0), DR_CLOSED);
    WANT(dr_came(&s, bytes, 0), DR_CLOSED);
    WANT(dr_again(&s, 0), DR_CLOSED);
    WANT(dr_tick(&s), DR_CLOSED);
    WANT(dr_without(&s, 0), DR_CLOSED);
    WANT(dr_close(&s), DR_CLOSED);
}

/* plans and cards */
static void plans(void)
{
    dr_needs needs;
    uint8_t card[CARD], log[NEW_LOG], digest[32];
    WANT(dr_digest(PLAN, digest, 31), DR_ROOM);
    WANT(dr_digest(PLAN, 0, 0), DR_ROOM);
    WANT(dr_digest(PLAN, digest, 32), DR_OK);
    WANT(dr_digest(0, 0, digest, 32), DR_OK);
    /* SHA-256 of nothing, as anybody knows it */
    WANT_TRUE(digest[0] == 0xe3 && digest[1] == 0xb0 && digest[30] == 0xb8 && digest[31] == 0x55);
    WANT(dr_need(PLAN, &needs, sizeof needs), DR_OK);
    WANT_TRUE(needs.members == 3 && needs.window == 2 && needs.packet == 1400);
    WANT_TRUE(needs.card == CARD && needs.fresh == NEW_LOG);
    WANT(dr_need(PLAN, &needs, 4), DR_VERSION);
    WANT(dr_need(0, 0, &needs, sizeof needs), DR_PLAN);
    WANT(dr_need(TEXT_OF("{"), &needs, sizeof needs), DR_PLAN);
    WANT(dr_need(TEXT_OF(test_plan), &needs, sizeof needs), DR_TEST_PLAN);
    WANT(dr_fresh(PLAN, group, GROUP, 3, card, CARD, log, NEW_LOG), DR_NO_MEMBER);
    WANT(dr_fresh(PLAN, group, GROUP, 256, card, CARD, log, NEW_LOG), DR_NO_MEMBER);
    WANT(dr_fresh(PLAN, group, 15, 0, card, CARD, log, NEW_LOG), DR_ROOM);
    WANT(dr_fresh(TEXT_OF(test_plan), group, GROUP, 0, card, CARD, log, NEW_LOG), DR_TEST_PLAN);
}

/* files that no seat is opened on */
static void files(void)
{
    dr_seat s = {0};
    uint8_t card[CARD], log[NEW_LOG];
    WANT(dr_fresh(PLAN, group, GROUP, 0, card, CARD, log, NEW_LOG), DR_OK);
    WANT(dr_open(&s, 0, 0, card, CARD, log, NEW_LOG), DR_PLAN);
    WANT(dr_open(&s, PLAN, card, 64, log, NEW_LOG), DR_NO_CARD);
    WANT(dr_open(&s, PLAN, 0, 0, log, NEW_LOG), DR_NO_CARD);
    WANT(dr_open(&s, PLAN, card, CARD, log, 9), DR_EMPTY);
    WANT(dr_open(&s, PLAN, card, CARD, 0, 0), DR_EMPTY);
    log[0] ^= 1;
    WANT(dr_open(&s, PLAN, card, CARD, log, NEW_LOG), DR_DAMAGED);
    log[0] ^= 1;
    log[7] = '1';
    WANT(dr_open(&s, PLAN, card, CARD, log, NEW_LOG), DR_OLD_FORMAT);
    log[7] = '2';
    card[20] ^= 1;
    WANT(dr_open(&s, PLAN, card, CARD, log, NEW_LOG), DR_NO_CARD);
    card[20] ^= 1;
    WANT(dr_open(&s, TEXT_OF(other_plan), card, CARD, log, NEW_LOG), DR_OTHER_PLAN);
    WANT_TRUE(s.at == 0);
}

/* what a seat that is open refuses */
static void refusals(void)
{
    dr_seat s = {0};
    dr_due due;
    uint8_t card[CARD], log[NEW_LOG], bytes[2000] = "DRS1";
    WANT(dr_fresh(PLAN, group, GROUP, 0, card, CARD, log, NEW_LOG), DR_OK);
    WANT(dr_open(&s, PLAN, card, CARD, log, NEW_LOG), DR_OK);
    WANT(dr_came(&s, 0, 0), DR_SHORT);
    WANT(dr_came(&s, bytes, 100), DR_SUM);
    WANT(dr_did(&s, 0), DR_NOT_DUE);
    WANT(dr_failed(&s, 0, 0, 0), DR_NOT_DUE);
    WANT(dr_again(&s, 16), DR_NO_MEMBER);
    WANT(dr_again(&s, 15), DR_OK);
    WANT(dr_without(&s, 1 << 16), DR_NO_MEMBER);
    WANT(dr_without(&s, 1), DR_NO_QUORUM);
    WANT(dr_without(&s, 6), DR_NO_QUORUM);
    WANT(dr_without(&s, 4), DR_OK);
    WANT(dr_next(&s, &due, sizeof due, 0, 0), DR_OK);
    WANT_TRUE(due.kind == DR_SYNC);
    WANT(dr_tick(&s), DR_NOT_DUE);
    WANT(dr_did(&s, due.number), DR_OK);
    WANT(dr_next(&s, &due, sizeof due, 0, 0), DR_ROOM);
    WANT_TRUE(due.kind == DR_SEND && due.length == 84);
    WANT(dr_failed(&s, due.number, 0, 0), DR_OK);
    WANT(dr_close(&s), DR_OK);
}

/* a disk that fails, and a log that is full */
static void bad_disks(uint32_t full, uint32_t end)
{
    dr_seat s = {0};
    dr_due due;
    dr_where w;
    uint8_t card[CARD], log[NEW_LOG], bytes[2000];
    WANT(dr_fresh(PLAN, group, GROUP, 0, card, CARD, log, NEW_LOG), DR_OK);
    WANT(dr_open(&s, PLAN, card, CARD, log, NEW_LOG), DR_OK);
    WANT(dr_next(&s, &due, sizeof due, bytes, sizeof bytes), DR_OK);
    WANT(dr_failed(&s, due.number, full, 17), DR_OK);
    WANT(dr_standing(&s, &w, sizeof w), DR_OK);
    WANT_TRUE(w.stage == DR_BROKEN);
    WANT(dr_next(&s, &due, sizeof due, bytes, sizeof bytes), DR_OK);
    WANT_TRUE(due.kind == DR_END && due.end == end && due.detail == (full ? 17 : 0));
    WANT(dr_failed(&s, due.number, 0, 0), DR_NOT_DUE);
    WANT(dr_did(&s, due.number), DR_OK);
    WANT(dr_next(&s, &due, sizeof due, bytes, sizeof bytes), DR_OK);
    WANT_TRUE(due.kind == DR_WAIT);
    WANT(dr_tick(&s), DR_NOT_DUE);
    WANT(dr_close(&s), DR_OK);
}

#ifdef FAILING
/* each allocation of an opening fails in turn: the answer is DR_MEMORY, and nothing is lost */
static void without_memory(void)
{
    make_all();
    for (long n = 0;; n++) {
        countdown = n;
        uint32_t code = open_one(&all[0]);
        int met = countdown < 0;
        countdown = -1;
        WANT(code, met ? DR_MEMORY : DR_OK);
        WANT(dr_close(&all[0].seat), met ? DR_CLOSED : DR_OK);
        if (!met) {
            printf("%ld allocations of an opening failed in turn\n", n);
            return;
        }
    }
}

/* each allocation of a group's life fails in turn, from its seats on: the group ends all the same */
static void short_of_memory(void)
{
    for (long n = 0;; n++) {
        make_all();
        for (unsigned m = 0; m < MEMBERS; m++) WANT(open_one(&all[m]), DR_OK);
        countdown = n;
        for (int round = 0; round < 40; round++) go_round();
        int met = countdown < 0;
        countdown = -1;
        for (int round = 0; round < 200; round++) go_round();
        for (unsigned m = 0; m < MEMBERS; m++) {
            want_all(&all[m]);
            WANT(dr_close(&all[m].seat), DR_OK);
        }
        if (!met) {
            printf("%ld allocations while an age opens and runs failed in turn\n", n);
            return;
        }
    }
}
#endif

int main(void)
{
    WANT_TRUE(dr_version() == DERECHO_VERSION);
    closed();
    plans();
    files();
    refusals();
    bad_disks(0, DR_DISK_FAULT);
    bad_disks(1, DR_LOG_FULL);
    for (int k = 0; k < GROUPS; k++) one_group();
#ifdef FAILING
    without_memory();
    short_of_memory();
#endif
    printf(failed ? "failed\n" : "%d seats: as wanted\n", GROUPS * MEMBERS);
    return failed;
}
