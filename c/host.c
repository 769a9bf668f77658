/* A member of a group in a process of its own, over TCP, with its log in a file.
 *
 *     host new PLAN FOLDER ME GROUP       makes member-ME.log and member-ME.card, which must not be there
 *     host run PLAN FOLDER ME PORT [PAUSE [PATIENCE [BAD [FULL]]]]
 *
 * Member K listens at PORT + K of this machine; or, where the variable HOSTS of the environment is a list of IPv4
 * addresses with commas between them, of the machine with the address of number K. A turn begins every PAUSE
 * microseconds (1000); what an opening waits for is gone after PATIENCE milliseconds (500). Of 100 packets BAD (0)
 * are lost, doubled, held back or changed, and the write of number FULL fails, for tests. It prints each entry once
 * it is durable, and runs until it is told to stop by SIGTERM, so that others may come back and ask it.
 *
 * It ends with 0 where it was told to; 2 where it can't begin or go on; 3 where its disk failed; 4 where a false word
 * has come from another member. */
#define _GNU_SOURCE
#include "derecho.h"
#include <arpa/inet.h>
#include <errno.h>
#include <fcntl.h>
#include <inttypes.h>
#include <netinet/tcp.h>
#include <poll.h>
#include <signal.h>
#include <stdio.h>
#include <stdlib.h>
#include <string.h>
#include <sys/file.h>
#include <sys/stat.h>
#include <time.h>
#include <unistd.h>

enum {
    MOST_MEMBERS = 16,
    PACKET = 1400,
    FRAME = 2 + PACKET,      /* a packet, with its length before it */
    MOST_LINES = 40,         /* on which others send */
    OUT_ROOM = 1 << 18,
    IN_ROOM = 1 << 16,
    CONNECT_AGAIN = 20,      /* milliseconds */
    DRAIN = 300
};

static void stop_with(int status, const char *what)
{
    fprintf(stderr, "host: %s: %s\n", what, errno ? strerror(errno) : "stopped");
    exit(status);
}

static void *room_for(size_t size)
{
    void *at = malloc(size);
    if (!at) stop_with(2, "memory");
    return at;
}

/* milliseconds, from some moment on */
static double now(void)
{
    struct timespec t;
    clock_gettime(CLOCK_MONOTONIC, &t);
    return (double)t.tv_sec * 1e3 + (double)t.tv_nsec / 1e6;
}

/* ---- files */

static uint8_t *read_file(const char *path, size_t *length)
{
    int file = open(path, O_RDONLY | O_CLOEXEC);
    struct stat is;
    if (file < 0 || fstat(file, &is)) stop_with(2, path);
    size_t size = (size_t)is.st_size;
    uint8_t *into = room_for(size + 1);
    for (*length = 0; *length < size;) {
        ssize_t n = read(file, into + *length, size - *length);
        if (n < 0 && errno == EINTR) continue;
        if (n <= 0) stop_with(2, path);
        *length += (size_t)n;
    }
    close(file);
    return into;
}

static int write_whole(int file, const uint8_t *bytes, size_t length, off_t at)
{
    while (length > 0) {
        ssize_t n = pwrite(file, bytes, length, at);
        if (n < 0 && errno == EINTR) continue;
        if (n <= 0) return -1;
        bytes += n;
        length -= (size_t)n;
        at += n;
    }
    return 0;
}

static void make_file(const char *path, const uint8_t *bytes, size_t length)
{
    int file = open(path, O_WRONLY | O_CREAT | O_EXCL | O_CLOEXEC, 0600);
    if (file < 0 || write_whole(file, bytes, length, 0) || fsync(file) || close(file)) stop_with(2, path);
}

typedef struct { char text[4096]; } file_name;

static file_name name_in(const char *folder, unsigned member, const char *ending)
{
    file_name name;
    int length = snprintf(name.text, sizeof name.text, "%s/member-%u.%s", folder, member, ending);
    if (length < 0 || (size_t)length >= sizeof name.text) stop_with(2, "the folder's name is too long");
    return name;
}

static int make_new(char **words)
{
    size_t length;
    uint8_t *plan = read_file(words[2], &length), card[65], log[10], group[16] = {0};
    const char *folder_name = words[3];
    unsigned member = (unsigned)strtoul(words[4], 0, 10);
    memcpy(group, words[5], strnlen(words[5], sizeof group));
    uint32_t code = dr_fresh(plan, length, group, sizeof group, member, card, sizeof card, log, sizeof log);
    free(plan);
    if (code != DR_OK) {
        fprintf(stderr, "host: %s\n", dr_name(code));
        return 2;
    }
    /* the log first: who has a card has a log */
    make_file(name_in(folder_name, member, "log").text, log, sizeof log);
    make_file(name_in(folder_name, member, "card").text, card, sizeof card);
    int folder = open(folder_name, O_RDONLY | O_DIRECTORY | O_CLOEXEC);
    if (folder < 0 || fsync(folder)) stop_with(2, folder_name);
    close(folder);
    return 0;
}

/* ---- the net: a line to each other member, on which only this one sends, and lines on which others send */

typedef struct {
    int socket;
    int open;                /* whether it is connected */
    double again;            /* when to connect again */
    uint8_t *bytes;
    size_t length, sent;
} out_line;

typedef struct {
    int socket;
    size_t length;
    uint8_t bytes[IN_ROOM];
} in_line;

static out_line outs[MOST_MEMBERS];
static in_line *ins[MOST_LINES];
static int listener = -1, port;
static unsigned me, members, bad;
static dr_seat seat;
static uint64_t random_state, refused[DR_VERSION + 1];

static unsigned draw(unsigned below)
{
    random_state = random_state * 6364136223846793005u + 1442695040888963407u;
    return (unsigned)((random_state >> 33) % below);
}

/* the place at which a member listens */
static struct sockaddr_in place_of(unsigned member)
{
    struct sockaddr_in place = {.sin_family = AF_INET, .sin_port = htons((uint16_t)(port + (int)member))};
    place.sin_addr.s_addr = htonl(INADDR_LOOPBACK);
    const char *at = getenv("HOSTS");
    for (unsigned k = 0; at && k < member; k++) {
        at = strchr(at, ',');
        if (at) at++;
    }
    if (at) {
        char text[INET_ADDRSTRLEN] = "";
        size_t length = strcspn(at, ",");
        if (length < sizeof text) memcpy(text, at, length);
        if (inet_pton(AF_INET, text, &place.sin_addr) != 1) stop_with(2, "HOSTS has no address");
    }
    return place;
}

static void close_out(unsigned k)
{
    out_line *o = &outs[k];
    if (o->socket >= 0) close(o->socket);
    o->socket = -1;
    o->open = 0;
    o->length = o->sent = 0;
    o->again = now() + CONNECT_AGAIN;
}

static void connect_out(unsigned k)
{
    out_line *o = &outs[k];
    struct sockaddr_in to = place_of(k), own;
    socklen_t size = sizeof own;
    int one = 1;
    if (o->socket < 0) {
        if (now() < o->again) return;
        o->socket = socket(AF_INET, SOCK_STREAM | SOCK_NONBLOCK | SOCK_CLOEXEC, 0);
        if (o->socket < 0) stop_with(2, "socket");
        setsockopt(o->socket, IPPROTO_TCP, TCP_NODELAY, &one, sizeof one);
    }
    if (connect(o->socket, (struct sockaddr *)&to, sizeof to) != 0 && errno != EISCONN) {
        if (errno != EINPROGRESS && errno != EALREADY && errno != EINTR) close_out(k);
        return;
    }
    /* a loopback port at which nobody listens may connect to itself */
    if (getsockname(o->socket, (struct sockaddr *)&own, &size) == 0 && own.sin_port == to.sin_port) {
        close_out(k);
        return;
    }
    o->open = 1;
    dr_again(&seat, k);
}

static void flush_out(unsigned k)
{
    out_line *o = &outs[k];
    while (o->open && o->sent < o->length) {
        ssize_t n = send(o->socket, o->bytes + o->sent, o->length - o->sent, MSG_NOSIGNAL);
        if (n < 0 && errno == EINTR) continue;
        if (n < 0 && (errno == EAGAIN || errno == EWOULDBLOCK)) return;
        if (n <= 0) {
            close_out(k);
            return;
        }
        o->sent += (size_t)n;
    }
    o->length = o->sent = 0;
}

/* a packet is lost where its line isn't open, or is full */
static void put_frame(unsigned to, const uint8_t *packet, size_t length)
{
    out_line *o = &outs[to];
    if (!o->open) return;
    if (o->sent > 0) {
        memmove(o->bytes, o->bytes + o->sent, o->length - o->sent);
        o->length -= o->sent;
        o->sent = 0;
    }
    if (o->length + FRAME > OUT_ROOM) return;
    o->bytes[o->length++] = (uint8_t)(length >> 8);
    o->bytes[o->length++] = (uint8_t)(length & 255);
    memcpy(o->bytes + o->length, packet, length);
    o->length += length;
}

/* what becomes of a packet that fares badly */
static void send_badly(unsigned to, const uint8_t *packet, size_t length)
{
    static uint8_t held[MOST_MEMBERS][PACKET];
    static size_t held_length[MOST_MEMBERS];
    uint8_t changed[PACKET];
    switch (draw(5)) {
    case 0:
        return;
    case 1:
        put_frame(to, packet, length);
        put_frame(to, packet, length);
        return;
    case 2:
        if (held_length[to]) put_frame(to, held[to], held_length[to]);
        memcpy(held[to], packet, length);
        held_length[to] = length;
        return;
    case 3:
        memcpy(changed, packet, length);
        changed[draw((unsigned)length)] ^= (uint8_t)(1 << draw(8));
        put_frame(to, changed, length);
        return;
    default:
        if (draw(20) == 0) close_out(to);
    }
}

static void send_packet(unsigned to, const uint8_t *packet, size_t length)
{
    if (to >= members || length > PACKET) return;
    if (bad && draw(100) < bad) send_badly(to, packet, length);
    else put_frame(to, packet, length);
}

static void accept_in(void)
{
    int got = accept4(listener, 0, 0, SOCK_NONBLOCK | SOCK_CLOEXEC);
    if (got < 0) return;
    for (int k = 0; k < MOST_LINES; k++)
        if (!ins[k]) {
            ins[k] = room_for(sizeof(in_line));
            ins[k]->socket = got;
            ins[k]->length = 0;
            return;
        }
    close(got);
}

static void close_in(int k)
{
    close(ins[k]->socket);
    free(ins[k]);
    ins[k] = 0;
}

/* hands in the packets that have come on a line; answers whether it is in order */
static int take_frames(in_line *i)
{
    size_t at = 0;
    while (i->length - at >= 2) {
        size_t length = (size_t)i->bytes[at] << 8 | i->bytes[at + 1];
        if (length == 0 || length > PACKET) return 0;
        if (i->length - at < 2 + length) break;
        uint32_t code = dr_came(&seat, i->bytes + at + 2, length);
        if (code <= DR_VERSION) refused[code]++;
        if (code == DR_GROWTH) {
            errno = 0;
            stop_with(4, "a false word has come before");
        }
        at += 2 + length;
    }
    memmove(i->bytes, i->bytes + at, i->length - at);
    i->length -= at;
    return 1;
}

static void read_in(int k)
{
    in_line *i = ins[k];
    ssize_t n = recv(i->socket, i->bytes + i->length, IN_ROOM - i->length, 0);
    if (n < 0 && (errno == EAGAIN || errno == EWOULDBLOCK || errno == EINTR)) return;
    if (n > 0) i->length += (size_t)n;
    if (n <= 0 || !take_frames(i)) close_in(k);
}

/* ---- what is due */

static int log_file;
static uint8_t *due_bytes;
static size_t room = 1 << 16;
static uint64_t writes, full;
static int ended, done, all_told;

static void tell_end(const dr_due *due)
{
    static const char *const ends[] = {"done", "crashed", "suspected", "excluded", "no majority", "disk fault",
                                       "log full", "spent", "absent"};
    ended = 1;
    done = due->end == DR_DONE;
    all_told = 0;
    fprintf(stderr, "member %u: %s %" PRIu64 "\n", me, due->end <= DR_ABSENT ? ends[due->end] : "?", due->detail);
}

/* answers whether it was done */
static int do_one(const dr_due *due)
{
    switch (due->kind) {
    case DR_WRITE:
        writes++;
        return writes != full && write_whole(log_file, due_bytes, due->length, (off_t)due->at) == 0;
    case DR_SYNC:
        return fdatasync(log_file) == 0;
    case DR_SEND:
        send_packet(due->to, due_bytes, due->length);
        return 1;
    case DR_END:
        tell_end(due);
        return 1;
    default:
        return 1;
    }
}

static void work(void)
{
    dr_due due;
    for (;;) {
        uint32_t code = dr_next(&seat, &due, sizeof due, due_bytes, room);
        if (code == DR_ROOM) {
            free(due_bytes);
            room = due.length;
            due_bytes = room_for(room);
            continue;
        }
        if (code != DR_OK || due.kind == DR_WAIT) return;
        if (!do_one(&due)) {
            dr_failed(&seat, due.number, 0, 0);
            errno = 0;
            stop_with(3, "its disk failed");
        }
        dr_did(&seat, due.number);
    }
}

static void print_entry(uint64_t number)
{
    dr_item item;
    uint8_t text[64];
    if (dr_entry(&seat, number, &item, sizeof item, text, sizeof text) != DR_OK) stop_with(2, "no entry");
    if (item.kind == 0) {
        printf("view %u %u %x\n", item.age, item.number, item.members);
        return;
    }
    printf("msg %u %u ", item.number, item.index);
    for (unsigned i = 0; i < item.length; i++) printf("%02x", text[i]);
    printf("\n");
}

static void print_durable(void)
{
    static uint64_t printed;
    dr_where w;
    if (dr_standing(&seat, &w, sizeof w) != DR_OK) return;
    for (; printed < w.durable; printed++) print_entry(printed);
    if (done && !all_told && w.stage == DR_HAS_ENDED && w.durable == w.entries) {
        printf("all %" PRIu64 "\n", w.entries);
        all_told = 1;
    }
    fflush(stdout);
}

/* where it stood as it was told to stop, and what packets it has refused */
static void tell_standing(void)
{
    dr_where w;
    if (dr_standing(&seat, &w, sizeof w) != DR_OK) return;
    fprintf(stderr, "member %u: stopped in stage %u of age %u, turn %u: %" PRIu64 " entries, %" PRIu64 " durable", me,
            w.stage, w.age, w.turns, w.entries, w.durable);
    for (uint32_t code = DR_OLD + 1; code <= DR_VERSION; code++)
        if (refused[code]) fprintf(stderr, "; %" PRIu64 " packets %s", refused[code], dr_name(code));
    fprintf(stderr, "\n");
}

/* ---- time */

static volatile sig_atomic_t told_to_stop;

static void on_term(int number)
{
    told_to_stop = number;
}

/* what an opening has waited for too long is gone; each time that this is thought it is waited twice as long,
 * until an age has run for a while, so that slow members don't leave one another out for ever */
static void judge(double patience)
{
    static double since, more = 1;
    static uint32_t stage = DR_BROKEN + 1, age;
    dr_where w;
    if (dr_standing(&seat, &w, sizeof w) != DR_OK) return;
    if (w.stage != stage || w.age != age) {
        stage = w.stage;
        age = w.age;
        since = now();
        return;
    }
    if (w.stage == DR_RUNS) {
        if (now() - since > 8 * patience) more = 1;
        return;
    }
    if (w.stage == DR_HAS_ENDED && (done || !ended)) return;
    if (now() - since < more * patience * (1 + draw(100) / 100.0)) return;
    if (more < 32) more *= 2;
    uint32_t missing = 0;
    for (unsigned k = 0; k < members; k++)
        if (k != me && !outs[k].open) missing |= 1u << k;
    if (dr_without(&seat, missing) != DR_OK) dr_without(&seat, 0);
    since = now();
    ended = 0;
}

/* ---- one member */

static void open_seat(const char *plan_name, const char *folder)
{
    size_t length, card_length, log_length;
    dr_needs needs;
    dr_where w;
    uint8_t *plan = read_file(plan_name, &length);
    uint8_t *card = read_file(name_in(folder, me, "card").text, &card_length);
    file_name log_name = name_in(folder, me, "log");
    log_file = open(log_name.text, O_RDWR | O_CLOEXEC);
    if (log_file < 0 || flock(log_file, LOCK_EX | LOCK_NB)) stop_with(2, log_name.text);
    uint8_t *log = read_file(log_name.text, &log_length);
    uint32_t code = dr_version() == DERECHO_VERSION ? dr_need(plan, length, &needs, sizeof needs) : DR_VERSION;
    if (code == DR_OK) code = dr_open(&seat, plan, length, card, card_length, log, log_length);
    if (code == DR_OK) code = dr_standing(&seat, &w, sizeof w);
    if (code == DR_OK && w.me != me) code = DR_NO_CARD;
    free(plan);
    free(card);
    free(log);
    if (code != DR_OK) {
        fprintf(stderr, "host: %s\n", dr_name(code));
        exit(2);
    }
    members = needs.members;
}

static void listen_at_port(void)
{
    struct sockaddr_in at = place_of(me);
    int one = 1;
    listener = socket(AF_INET, SOCK_STREAM | SOCK_NONBLOCK | SOCK_CLOEXEC, 0);
    if (listener < 0) stop_with(2, "socket");
    setsockopt(listener, SOL_SOCKET, SO_REUSEADDR, &one, sizeof one);
    if (bind(listener, (struct sockaddr *)&at, sizeof at) || listen(listener, MOST_LINES)) stop_with(2, "listen");
}

/* waits at most so many milliseconds for lines on which something may be done, and reads */
static void wait_for_lines(double most)
{
    struct pollfd polled[1 + MOST_LINES + MOST_MEMBERS];
    int line_of[1 + MOST_LINES + MOST_MEMBERS];
    nfds_t n = 1;
    polled[0] = (struct pollfd){.fd = listener, .events = POLLIN};
    for (int k = 0; k < MOST_LINES; k++)
        if (ins[k]) {
            line_of[n] = k;
            polled[n++] = (struct pollfd){.fd = ins[k]->socket, .events = POLLIN};
        }
    nfds_t lines = n;
    for (unsigned k = 0; k < members; k++)
        if (outs[k].open && outs[k].length) polled[n++] = (struct pollfd){.fd = outs[k].socket, .events = POLLOUT};
    long wait = most > 0 ? (long)(most * 1e6) : 0;
    struct timespec until = {wait / 1000000000, wait % 1000000000};
    if (ppoll(polled, n, &until, 0) <= 0) return;
    if (polled[0].revents) accept_in();
    for (nfds_t p = 1; p < lines; p++)
        if (polled[p].revents) read_in(line_of[p]);
}

static void flush_all(void)
{
    for (unsigned k = 0; k < members; k++) flush_out(k);
}

/* the last words go out, and what others still send is read, so that no line is reset */
static void close_lines(void)
{
    double until = now() + DRAIN;
    for (unsigned k = 0; k < members; k++) {
        flush_out(k);
        if (outs[k].open) shutdown(outs[k].socket, SHUT_WR);
    }
    close(listener);
    for (int k = 0; k < MOST_LINES; k++)
        while (ins[k] && now() < until) {
            struct pollfd one = {.fd = ins[k]->socket, .events = POLLIN};
            ssize_t n = poll(&one, 1, 10) > 0 ? recv(one.fd, ins[k]->bytes, IN_ROOM, 0) : -1;
            if (n <= 0) break;
        }
}

static int run(int count, char **words)
{
    me = (unsigned)strtoul(words[4], 0, 10);
    port = (int)strtol(words[5], 0, 10);
    double pause = (count > 6 ? strtod(words[6], 0) : 1000) / 1e3, patience = count > 7 ? strtod(words[7], 0) : 500;
    bad = count > 8 ? (unsigned)strtoul(words[8], 0, 10) : 0;
    full = count > 9 ? strtoull(words[9], 0, 10) : 0;
    open_seat(words[2], words[3]);
    due_bytes = room_for(room);
    random_state = (uint64_t)time(0) * 16 + me + (uint64_t)getpid() * 65536;
    struct sigaction term = {.sa_handler = on_term};
    sigaction(SIGTERM, &term, 0);
    sigaction(SIGINT, &term, 0);
    listen_at_port();
    for (unsigned k = 0; k < members; k++) outs[k] = (out_line){.socket = -1, .bytes = room_for(OUT_ROOM)};
    double turn = now();
    while (!told_to_stop) {
        wait_for_lines(turn - now());
        for (unsigned k = 0; k < members; k++)
            if (k != me && !outs[k].open) connect_out(k);
        work();
        if (now() >= turn) {
            dr_tick(&seat);
            turn = now() + pause;
            work();
            judge(patience);
            work();
        }
        flush_all();
        print_durable();
    }
    tell_standing();
    close_lines();
    dr_close(&seat);
    return 0;
}

int main(int count, char **words)
{
    if (count == 6 && !strcmp(words[1], "new")) return make_new(words);
    if (count >= 6 && !strcmp(words[1], "run")) return run(count, words);
    fprintf(stderr, "host new PLAN FOLDER ME GROUP\nhost run PLAN FOLDER ME PORT [PAUSE [PATIENCE [BAD [FULL]]]]\n");
    return 1;
}
