/* Seats of a group in one process, over a net that loses, doubles, delays, reorders, changes and cuts, on disks that
 * lose what wasn't synced: fuzz FROM COUNT [-v | -l]. Each seed is a schedule. After each step it is asked whether
 * histories agree and what is durable has stayed; and at the end, over a calm net, whether all deliver everything.
 * With -l some packets are lies, with right digests: then it is only asked that nothing stops. */
#include "derecho.h"
#include <inttypes.h>
#include <stdio.h>
#include <stdlib.h>
#include <string.h>

enum { MOST = 5, AGES = 400, ENTRIES = 700, NET = 4096, PACKET = 1400, FILE_ROOM = 1 << 17 };

typedef struct { uint32_t kind, number, index, age, members, length; uint8_t bytes[64]; } entry;

static uint64_t state;
static uint32_t draw(uint32_t below)
{
    state = state * 6364136223846793005u + 1442695040888963407u;
    return (uint32_t)((state >> 33) % below);
}

static uint64_t seed, step_number, counts[16];
static int verbose, liars;
enum { KILLS, POWER, SENT, LOST, CHANGED, BEGUN, DONE_AGES, DISKS, OPENINGS, REFUSED, WITHOUTS, SYNCS };

#define FAIL_NOW(...) \
    (fprintf(stderr, "seed %" PRIu64 " step %" PRIu64 ": ", seed, step_number), fprintf(stderr, __VA_ARGS__), \
     fputc('\n', stderr), abort())
#define FAIL(...) \
    do { \
        if (!liars) FAIL_NOW(__VA_ARGS__); \
    } while (0)

/* ---- SHA-256, for lies */
static uint32_t turned(uint32_t x, int n)
{
    return x >> n | x << (32 - n);
}

static const uint32_t round_words[64] = {
    0x428a2f98, 0x71374491, 0xb5c0fbcf, 0xe9b5dba5, 0x3956c25b, 0x59f111f1, 0x923f82a4, 0xab1c5ed5,
    0xd807aa98, 0x12835b01, 0x243185be, 0x550c7dc3, 0x72be5d74, 0x80deb1fe, 0x9bdc06a7, 0xc19bf174,
    0xe49b69c1, 0xefbe4786, 0x0fc19dc6, 0x240ca1cc, 0x2de92c6f, 0x4a7484aa, 0x5cb0a9dc, 0x76f988da,
    0x983e5152, 0xa831c66d, 0xb00327c8, 0xbf597fc7, 0xc6e00bf3, 0xd5a79147, 0x06ca6351, 0x14292967,
    0x27b70a85, 0x2e1b2138, 0x4d2c6dfc, 0x53380d13, 0x650a7354, 0x766a0abb, 0x81c2c92e, 0x92722c85,
    0xa2bfe8a1, 0xa81a664b, 0xc24b8b70, 0xc76c51a3, 0xd192e819, 0xd6990624, 0xf40e3585, 0x106aa070,
    0x19a4c116, 0x1e376c08, 0x2748774c, 0x34b0bcb5, 0x391c0cb3, 0x4ed8aa4a, 0x5b9cca4f, 0x682e6ff3,
    0x748f82ee, 0x78a5636f, 0x84c87814, 0x8cc70208, 0x90befffa, 0xa4506ceb, 0xbef9a3f7, 0xc67178f2,
};

static void sha256_block(uint32_t h[8], const uint8_t *block)
{
    uint32_t w[64], s[8];
    for (int i = 0; i < 16; i++)
        w[i] = (uint32_t)block[4 * i] << 24 | (uint32_t)block[4 * i + 1] << 16 | (uint32_t)block[4 * i + 2] << 8 |
               block[4 * i + 3];
    for (int i = 16; i < 64; i++) {
        uint32_t low = turned(w[i - 15], 7) ^ turned(w[i - 15], 18) ^ w[i - 15] >> 3;
        uint32_t high = turned(w[i - 2], 17) ^ turned(w[i - 2], 19) ^ w[i - 2] >> 10;
        w[i] = w[i - 16] + low + w[i - 7] + high;
    }
    memcpy(s, h, sizeof s);
    for (int i = 0; i < 64; i++) {
        uint32_t choice = (s[4] & s[5]) ^ (~s[4] & s[6]), most = (s[0] & s[1]) ^ (s[0] & s[2]) ^ (s[1] & s[2]);
        uint32_t a = s[7] + (turned(s[4], 6) ^ turned(s[4], 11) ^ turned(s[4], 25)) + choice + round_words[i] + w[i];
        uint32_t c = (turned(s[0], 2) ^ turned(s[0], 13) ^ turned(s[0], 22)) + most;
        memmove(s + 1, s, 7 * sizeof *s);
        s[4] += a;
        s[0] = a + c;
    }
    for (int i = 0; i < 8; i++) h[i] += s[i];
}

static void sha256(const uint8_t *from, size_t length, uint8_t into[32])
{
    uint32_t h[8] = {0x6a09e667, 0xbb67ae85, 0x3c6ef372, 0xa54ff53a, 0x510e527f, 0x9b05688c, 0x1f83d9ab, 0x5be0cd19};
    uint8_t all[2048] = {0};
    size_t blocks = (length + 9 + 63) / 64;
    memcpy(all, from, length);
    all[length] = 0x80;
    for (int i = 0; i < 8; i++) all[blocks * 64 - 1 - i] = (uint8_t)((uint64_t)length * 8 >> (8 * i));
    for (size_t b = 0; b < blocks; b++) sha256_block(h, all + 64 * b);
    for (int i = 0; i < 32; i++) into[i] = (uint8_t)(h[i / 4] >> (24 - 8 * (i % 4)));
}

/* a lie: some bytes are others, and the digest is right */
static uint32_t lie(uint8_t *bytes, uint32_t length)
{
    uint8_t sum[32];
    uint32_t from = draw(4) ? 60 : 4;
    if (draw(8) == 0) bytes[4] = (uint8_t)(1 + draw(4));
    if (draw(8) == 0) {
        uint32_t other = 60 + draw(1300) + 8;
        for (uint32_t i = length; i < other; i++) bytes[i] = (uint8_t)draw(256);
        length = other;
    }
    for (uint32_t n = 1 + draw(8); n > 0 && length > from + 8; n--) {
        uint32_t room = length - 8 - from, near = room < 24 ? room : 24;
        uint32_t at = from + draw(draw(2) ? near : room);
        bytes[at] = (uint8_t)(draw(3) == 0 ? 255 : draw(3) == 0 ? 0 : draw(256));
    }
    memcpy(bytes + 12, "a group of seats", 16);
    sha256(bytes, length - 8, sum);
    memcpy(bytes + length - 8, sum, 8);
    return length;
}

/* ---- plans */
static char plan[8192];
static size_t plan_length;
static uint32_t members, total;

static void make_plan(void)
{
    char *at = plan;
    members = 2 + draw(4);
    total = 0;
    uint32_t window = 1 + draw(3), patience = draw(3) ? 3 + draw(12) : 0;
    at += sprintf(at, "{\"members\": %u, \"window\": %u, \"turns\": %u, \"patience\": %u, \"ages\": 1, ", members,
                  window, 60 + draw(400), patience);
    at += sprintf(at, "\"messages\": [");
    for (uint32_t m = 0; m < members; m++) {
        uint32_t count = draw(7);
        at += sprintf(at, "%s[", m ? ", " : "");
        for (uint32_t k = 0; k < count; k++) {
            at += sprintf(at, "%s\"%c%u", k ? ", " : "", 'a' + m, k);
            for (uint32_t l = draw(40); l > 0; l--) *at++ = 'x';
            at += sprintf(at, "\"");
            total++;
        }
        at += sprintf(at, "]");
    }
    at += sprintf(at, "], \"faults\": [], \"schedule\": \"lockstep\"}");
    plan_length = at - plan;
}

/* ---- disks: what is in the cache, and what a loss of power would leave for certain */
typedef struct {
    uint8_t cache[FILE_ROOM], safe[FILE_ROOM];
    size_t length, safe_length, first, behind, least, greatest;
    int full;
} disk;

static disk disks[MOST];

static void write_to(disk *d, size_t at, const uint8_t *bytes, size_t length)
{
    if (at + length > FILE_ROOM) FAIL("a log of %zu bytes", at + length);
    if (at > d->length) FAIL("a write behind the end");
    memcpy(d->cache + at, bytes, length);
    if (at + length > d->length) d->length = at + length;
    if (at < d->first) d->first = at;
    if (at + length > d->behind) d->behind = at + length;
    if (d->length > d->greatest) d->greatest = d->length;
}

static void sync_disk(disk *d)
{
    memcpy(d->safe, d->cache, d->length);
    d->safe_length = d->length;
    d->first = FILE_ROOM;
    d->behind = 0;
    d->least = d->greatest = d->length;
}

/* the power fails: of what was written since the last sync any bytes may be there */
static void lose_power(disk *d)
{
    size_t length = d->least + (d->greatest > d->least ? draw(d->greatest - d->least + 1) : 0);
    uint32_t how = draw(4);
    for (size_t i = 0; i < length; i++) {
        int open = (i >= d->first && i < d->behind) || i >= d->safe_length;
        if (!open) d->cache[i] = d->safe[i];
        else if (how == 0) d->cache[i] = i < d->safe_length ? d->safe[i] : 0;
        else if (how == 1) {}
        else if (how == 2) { if (draw(2)) d->cache[i] = i < d->safe_length ? d->safe[i] : 0; }
        else if (draw(2)) d->cache[i] = draw(256);
    }
    d->length = length;
}

/* ---- the net */
typedef struct { uint32_t to, length, from; uint8_t bytes[PACKET]; } packet;
static packet *net[NET];
static uint32_t on_way;
static packet *late[64]; /* some that are held back for long */
static uint32_t cut_from, cut_to; /* masks: between these nothing passes */
static uint32_t loss, calm;

static void put_on_way(uint32_t from, uint32_t to, const uint8_t *bytes, uint32_t length)
{
    if (to >= members || to == from) FAIL("a packet for %u by %u", to, from);
    counts[SENT]++;
    if (!calm && (draw(100) < loss || ((cut_from >> from & 1) && (cut_to >> to & 1)) ||
                  ((cut_from >> to & 1) && (cut_to >> from & 1)))) {
        counts[LOST]++;
        return;
    }
    uint32_t copies = !calm && draw(20) == 0 ? 2 : 1;
    while (copies--) {
        if (on_way == NET) {
            uint32_t k = draw(NET);
            free(net[k]);
            net[k] = net[--on_way];
            counts[LOST]++;
        }
        packet *p = malloc(sizeof *p);
        p->to = to;
        p->from = from;
        p->length = length;
        memcpy(p->bytes, bytes, length);
        if (liars && !calm && draw(8) == 0) p->length = lie(p->bytes, length);
        else if (!calm && draw(200) == 0) {
            p->bytes[draw(length)] ^= 1 << draw(8);
            counts[CHANGED]++;
        }
        uint32_t slot = draw(64);
        if (!calm && draw(40) == 0) {
            packet *other = late[slot];
            late[slot] = p;
            p = other;
        }
        if (p) net[on_way++] = p;
    }
}

/* ---- seats */
typedef struct {
    dr_seat handle;
    int up;
    uint8_t card[65];
    uint32_t stage, age, last_begun, waits, done, end;
    uint64_t seen, durable;
    int ever;
} seat;

static seat seats[MOST];

/* what has been seen: of each age its start, who began it, and its longest history; and the ages that were begun */
typedef struct {
    int begun;
    uint64_t start;
    uint32_t members, length, told_durable;
    entry entries[ENTRIES];
} age_seen;

static age_seen ages[AGES];
static uint32_t last_age;

static void entry_of(seat *s, uint64_t number, entry *e)
{
    dr_item item;
    memset(e, 0, sizeof *e);
    uint32_t code = dr_entry(&s->handle, number, &item, sizeof item, e->bytes, sizeof e->bytes);
    if (code != DR_OK) FAIL("entry %" PRIu64 ": %s", number, dr_name(code));
    e->kind = item.kind; e->number = item.number; e->index = item.index;
    e->age = item.age; e->members = item.members; e->length = item.length;
}

static void look(uint32_t m)
{
    seat *s = &seats[m];
    if (!s->up) return;
    dr_where w;
    if (dr_standing(&s->handle, &w, sizeof w) != DR_OK) FAIL("no standing");
    if (liars) {
        entry e;
        for (uint64_t i = w.entries > 3 ? w.entries - 3 : 0; i < w.entries; i++) entry_of(s, i, &e);
        s->stage = w.stage;
        s->age = w.age;
        return;
    }
    if (w.me != m) FAIL("it is %u", w.me);
    if (w.why != DR_NOTHING && w.why != DR_WANTS_MEMORY && w.why != DR_TOO_FEW) FAIL("member %u: why %u", m, w.why);
    int runs = w.stage == DR_RUNS || w.stage == DR_HAS_ENDED;
    int was = s->stage == DR_RUNS || s->stage == DR_HAS_ENDED;
    if (runs && (!was || s->age != w.age)) {
        /* it has begun an age */
        if (w.age >= AGES) FAIL("age %u", w.age);
        if (s->ever && w.age <= s->last_begun) FAIL("member %u begins age %u behind %u", m, w.age, s->last_begun);
        s->ever = 1;
        s->last_begun = w.age;
        s->seen = 0;
        s->done = 0;
        counts[BEGUN]++;
        age_seen *a = &ages[w.age];
        if (!a->begun) {
            a->begun = 1;
            a->members = w.members;
            a->start = w.entries - 1;
            a->length = 0;
            if (w.age > last_age) last_age = w.age;
        } else if (a->members != w.members || a->start > w.entries - 1) FAIL("two starts of age %u", w.age);
        if (w.durable < w.entries && w.durable < a->start + 1) FAIL("begun with %" PRIu64 " durable", w.durable);
    }
    if (runs) {
        age_seen *a = &ages[w.age];
        if (w.entries < s->seen) FAIL("a history has become shorter");
        for (uint64_t i = s->seen; i < w.entries; i++) {
            entry e;
            entry_of(s, i, &e);
            if (i >= ENTRIES) FAIL("too many entries");
            if (i < a->length) {
                if (memcmp(&e, &a->entries[i], sizeof e))
                    FAIL("member %u: entry %" PRIu64 " of age %u differs", m, i, w.age);
            } else if (i == a->length) a->entries[a->length++] = e;
        }
        if (s->seen == 0 && w.entries > 0) {
            /* each earlier age's durable entries stand at the front */
            entry *view = &a->entries[a->start];
            if (view->kind != 0 || view->age != w.age || view->number != 0) FAIL("no View 0 behind the start");
            for (uint32_t b = 0; b < w.age; b++) {
                if (!ages[b].begun) continue;
                if (ages[b].told_durable > a->start) FAIL("age %u lost durable entries of age %u", w.age, b);
                if (memcmp(ages[b].entries, a->entries, ages[b].told_durable * sizeof(entry)))
                    FAIL("age %u changed durable entries of age %u", w.age, b);
            }
        }
        s->seen = w.entries;
        if (w.durable > w.entries || w.logged > w.entries) FAIL("more than its history");
        if (w.durable > a->told_durable) {
            a->told_durable = w.durable;
            for (uint32_t b = w.age + 1; b <= last_age; b++) {
                if (!ages[b].begun) continue;
                if (w.durable > ages[b].start) FAIL("age %u was begun without what is durable in age %u", b, w.age);
                if (memcmp(ages[b].entries, a->entries, w.durable * sizeof(entry)))
                    FAIL("age %u has other entries than are durable in age %u", b, w.age);
            }
        }
    }
    if (w.durable < s->durable) FAIL("fewer are durable");
    s->durable = w.durable;
    s->stage = w.stage;
    s->age = w.age;
}

static void open_seat(uint32_t m)
{
    seat *s = &seats[m];
    disk *d = &disks[m];
    uint8_t *copy = malloc(d->length ? d->length : 1);
    memcpy(copy, d->cache, d->length);
    uint32_t code = dr_open(&s->handle, (uint8_t *)plan, plan_length, s->card, sizeof s->card, copy, d->length);
    free(copy);
    if (code != DR_OK) {
        FAIL("member %u isn't opened: %s", m, dr_name(code));
        return;
    }
    counts[OPENINGS]++;
    s->up = 1;
    s->stage = DR_GATHERS;
    s->waits = 0;
    s->durable = 0;
    s->done = 0;
    d->full = 0;
}

static void crash(uint32_t m, int power)
{
    seat *s = &seats[m];
    if (!s->up) return;
    dr_close(&s->handle);
    s->up = 0;
    counts[power ? POWER : KILLS]++;
    if (power) lose_power(&disks[m]);
}

/* does what is due of a member; answers whether something was */
static int work(uint32_t m)
{
    static uint8_t bytes[FILE_ROOM];
    seat *s = &seats[m];
    dr_due due, twice;
    uint32_t code = dr_next(&s->handle, &due, sizeof due, bytes, sizeof bytes);
    if (code != DR_OK) FAIL("next: %s", dr_name(code));
    if (draw(16) == 0) {
        code = dr_next(&s->handle, &twice, sizeof twice, bytes, sizeof bytes);
        if (code != DR_OK || memcmp(&due, &twice, sizeof due)) FAIL("another thing is due");
    }
    if (due.kind == DR_WAIT) return 0;
    if (dr_did(&s->handle, due.number + 1) != DR_NOT_DUE) FAIL("another number");
    switch (due.kind) {
    case DR_WRITE:
        if (!calm && disks[m].full) {
            if (dr_failed(&s->handle, due.number, 0, 0) != DR_OK) FAIL("failed");
            counts[DISKS]++;
            return 1;
        }
        write_to(&disks[m], due.at, bytes, due.length);
        break;
    case DR_SYNC:
        sync_disk(&disks[m]);
        counts[SYNCS]++;
        break;
    case DR_SEND:
        put_on_way(m, due.to, bytes, due.length);
        break;
    case DR_END:
        s->done = due.end == DR_DONE;
        s->end = due.end;
        if (due.end == DR_DONE) counts[DONE_AGES]++;
        break;
    }
    if (dr_did(&s->handle, due.number) != DR_OK) FAIL("did");
    if (dr_did(&s->handle, due.number) != DR_NOT_DUE) FAIL("done twice");
    return 1;
}

static void deliver(uint32_t k, int keep)
{
    packet *p = net[k];
    seat *s = &seats[p->to];
    if (s->up) {
        uint8_t *copy = malloc(p->length);
        memcpy(copy, p->bytes, p->length);
        uint32_t code = dr_came(&s->handle, copy, p->length);
        free(copy);
        if (code > DR_OLD) {
            counts[REFUSED]++;
            if (code != DR_SUM && code != DR_OTHER_AGE && code != DR_ENDED && code != DR_SHORT)
                FAIL("member %u refuses a packet of %u: %s", p->to, p->from, dr_name(code));
        }
        look(p->to);
    }
    if (!keep) {
        free(p);
        net[k] = net[--on_way];
    }
}

static void stuck(uint32_t m, uint32_t most)
{
    seat *s = &seats[m];
    int idle = s->stage == DR_GATHERS || s->stage == DR_TRIES || (s->stage == DR_HAS_ENDED && !s->done);
    if (!idle) { s->waits = 0; return; }
    if (++s->waits < most) return;
    s->waits = 0;
    uint32_t missing = 0;
    for (uint32_t k = 0; k < members; k++) if (k != m && (calm ? !seats[k].up : draw(3) == 0)) missing |= 1u << k;
    uint32_t code = dr_without(&s->handle, missing);
    if (code == DR_NO_QUORUM) code = dr_without(&s->handle, 0);
    if (code != DR_OK && s->stage != DR_BROKEN) FAIL("without: %s", dr_name(code));
    counts[WITHOUTS]++;
    look(m);
}

static int everything_is_there(uint32_t m)
{
    seat *s = &seats[m];
    dr_where w;
    dr_standing(&s->handle, &w, sizeof w);
    uint32_t messages = 0;
    for (uint64_t i = 0; i < w.entries; i++) {
        entry e;
        entry_of(s, i, &e);
        messages += e.kind == 1;
    }
    return messages == total && w.durable == w.entries;
}

static void run(void)
{
    state = seed * 0x9e3779b97f4a7c15u + 12345;
    for (int i = 0; i < 8; i++) draw(2);
    memset(seats, 0, sizeof seats);
    for (uint32_t a = 0; a <= last_age; a++) { ages[a].begun = 0; ages[a].told_durable = 0; ages[a].length = 0; }
    last_age = 0;
    on_way = 0;
    calm = 0;
    cut_from = cut_to = 0;
    loss = draw(3) ? draw(30) : 0;
    make_plan();
    uint8_t group[16] = "a group of seats", log[10];
    for (uint32_t m = 0; m < members; m++) {
        memset(&disks[m], 0, sizeof(disk));
        if (dr_fresh((uint8_t *)plan, plan_length, group, 16, m, seats[m].card, 65, log, 10) != DR_OK) FAIL("fresh");
        memcpy(disks[m].cache, log, 10);
        disks[m].length = 10;
        sync_disk(&disks[m]);
        open_seat(m);
    }
    uint32_t steps = 2000 + draw(12000), crashes = draw(4) ? 1 + draw(30) : 0;
    for (step_number = 0; step_number < steps; step_number++) {
        uint32_t m = draw(members);
        uint32_t what = draw(1000);
        if (what < crashes / 4 + (crashes != 0)) crash(m, draw(2));
        else if (what < 60) { if (!seats[m].up && draw(4) == 0) { open_seat(m); look(m); } }
        else if (what < 62) { cut_from = draw(1u << members); cut_to = draw(1u << members); }
        else if (what < 68) cut_from = 0;
        else if (what < 69) { if (crashes && draw(8) == 0) disks[m].full = 1; }
        else if (what < 450) { if (on_way) deliver(draw(4) && on_way > 8 ? draw(8) : draw(on_way), draw(30) == 0); }
        else if (seats[m].up) {
            if (!work(m)) {
                dr_tick(&seats[m].handle);
                stuck(m, 10 + draw(40));
            }
            look(m);
        }
    }
    if (liars) goto end;
    /* a calm net, and all are there */
    calm = 1;
    cut_from = 0;
    uint32_t rounds;
    for (rounds = 0; rounds < 6000; rounds++) {
        uint32_t done = 0;
        for (uint32_t m = 0; m < members; m++) {
            step_number++;
            if (seats[m].up && seats[m].stage == DR_BROKEN) crash(m, 0);
            if (!seats[m].up) open_seat(m);
            while (work(m)) {}
            look(m);
            dr_tick(&seats[m].handle);
            stuck(m, 40 + 10 * m);
            while (work(m)) {}
            look(m);
        }
        while (on_way) deliver(0, 0);
        for (uint32_t m = 0; m < members; m++)
            done += seats[m].stage == DR_HAS_ENDED && seats[m].done && seats[m].age == seats[0].age;
        if (done == members) {
            uint32_t all = 0;
            for (uint32_t m = 0; m < members; m++) all += everything_is_there(m);
            if (all == members) break;
        }
    }
    if (rounds == 6000) {
        for (uint32_t m = 0; m < members; m++)
            fprintf(stderr, "member %u: stage %u age %u end %u\n", m, seats[m].stage, seats[m].age, seats[m].end);
        FAIL("no end over a calm net");
    }
    if (verbose)
        printf("seed %" PRIu64 ": %u members, %u messages, %" PRIu64 " steps, %u rounds, last age %u\n", seed,
               members, total, step_number, rounds, last_age);
end:
    for (uint32_t m = 0; m < members; m++) dr_close(&seats[m].handle);
    while (on_way) free(net[--on_way]);
    for (int k = 0; k < 64; k++) { free(late[k]); late[k] = 0; }
}

int main(int argc, char **argv)
{
    uint64_t from = argc > 1 ? strtoull(argv[1], 0, 10) : 1, count = argc > 2 ? strtoull(argv[2], 0, 10) : 100;
    verbose = argc > 3 && !strcmp(argv[3], "-v");
    liars = argc > 3 && !strcmp(argv[3], "-l");
    for (seed = from; seed < from + count; seed++) run();
    static const char *const names[] = {"killed", "by loss of power", "packets sent", "lost", "changed",
                                        "ages begun by a member", "done", "disks failed", "seats opened", "refused",
                                        "openings anew", "syncs"};
    printf("%" PRIu64 " schedules", count);
    for (size_t k = 0; k < sizeof names / sizeof *names; k++) printf(", %" PRIu64 " %s", counts[k], names[k]);
    printf("\n");
    return 0;
}
