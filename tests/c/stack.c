// Peak stack of each exported function: the stack is painted, the function runs on it, and the paint that is gone is counted.
// It is painted twice with different bytes, so that a byte equal to one paint shows in the other; both runs start from the
// same volume. The return address counts. Every reply is compared, so that no refused call is measured for a done one.
// A call may take LIMIT bytes, and ONE_SECTOR if it isn't vol_write, which chooses a slot too: with a second working sector
// each would take more.
#include <stdint.h>
#include <stdio.h>
#include <string.h>

#include "../../include/volume.h"

enum { LIMIT = 1024, ONE_SECTOR = 640, ROOM = 65536, LENGTH = 262144, CLIENTS = 4, FILES = 16, LAST = 16, ENTRIES = 62 };
// Reading holds of one client: of all files, and of the last.
enum { ALL_FILES = 0xFFFF, LAST_BIT = 1 << (LAST - 1) };
// The files end before sector 821. The last one's map names its first 120 slots of 240, so that new pages go behind them.
enum { FIRST_SLOT = 821 - 240, LAST_SECTOR = FIRST_SLOT + 120 + ENTRIES - 1 };

struct call {
    void (*make)(struct call *);
    vol_session session;
    uint8_t client, file, page, budget;
    // The length of a page to be written.
    size_t count;
    // What is handed back; the session is a new one if there is none.
    vol_reply reply;
};

void on_stack(void (*fn)(struct call *), void *top, struct call *arg);

static uint8_t room[ROOM] __attribute__((aligned(64)));
static uint8_t volume[LENGTH];
static uint8_t before[LENGTH];
static uint8_t written[LENGTH];
static uint8_t page[256];
static uint8_t text[VOL_LIST_ROOM];
static size_t highest;
static int failed;

static const vol_session new_session, by_1 = {.active = 1}, by_4 = {.active = 8};

// The largest volume: four clients, sixteen files, the last of them with the largest map.
static const uint8_t shape[32] = {1, 1, 2, 4, 3, 9, 4, 16, 5, 25, 6, 36, 7, 49, 8, 64, 9, 81, 10, 100, 11, 121,
                                  12, 12, 13, 13, 14, 14, 15, 15, 120, 240};

static void take(struct call *c, vol_answer answer) {
    c->reply.kind = answer.kind;
    c->reply.number = answer.number;
}

// Sessions and replies are structs, and some calls have more arguments than registers: these functions pass them. Their own
// frames and the arguments on the stack are on the painted stack too, and nothing is subtracted for them.
static void format_on(struct call *c) {
    take(c, vol_format(volume, LENGTH, CLIENTS, shape, sizeof shape));
}

static void is_sound_on(struct call *c) {
    c->reply.number = (uint16_t)vol_is_sound(volume, LENGTH);
}

static void begin_on(struct call *c) {
    c->reply = vol_begin(volume, LENGTH, c->session, c->client, c->budget);
}

static void open_on(struct call *c) {
    c->reply = vol_open(volume, LENGTH, c->session, c->client, c->file, c->budget);
}

static void open_read_on(struct call *c) {
    c->reply = vol_open_read(volume, LENGTH, c->session, c->client, c->file, c->budget);
}

static void read_on(struct call *c) {
    take(c, vol_read(volume, LENGTH, c->session, c->client, c->file, c->page));
}

static void look_on(struct call *c) {
    take(c, vol_look(volume, LENGTH, c->file, c->page));
}

static void spare_on(struct call *c) {
    take(c, vol_spare(volume, LENGTH, c->file));
}

static void write_on(struct call *c) {
    c->reply = vol_write(volume, LENGTH, c->session, c->client, c->file, c->page, page, c->count, c->budget);
}

static void commit_on(struct call *c) {
    c->reply = vol_commit(volume, LENGTH, c->session, c->client, c->budget);
}

static void abort_on(struct call *c) {
    c->reply = vol_abort(volume, LENGTH, c->session, c->client, c->budget);
}

static void list_on(struct call *c) {
    c->reply.number = (uint16_t)vol_list(volume, LENGTH, text, sizeof text);
}

static struct call by(void (*make)(struct call *), vol_session session, uint8_t client, uint8_t file) {
    return (struct call){.make = make, .session = session, .client = client, .file = file, .budget = 255};
}

static struct call look_at(uint8_t number) {
    struct call c = by(look_on, new_session, 0, LAST);
    c.page = number;
    return c;
}

static struct call spare_of(uint8_t file) {
    return by(spare_on, new_session, 0, file);
}

static struct call write_by(vol_session session, uint8_t client, uint8_t file, uint8_t number, size_t count) {
    struct call c = by(write_on, session, client, file);
    c.page = number, c.count = count;
    return c;
}

static vol_reply reply(unsigned kind, vol_session session, unsigned number) {
    return (vol_reply){session, (uint8_t)kind, (uint16_t)number};
}

static int same(vol_reply a, vol_reply b) {
    return a.kind == b.kind && a.number == b.number && a.session.active == b.session.active &&
           memcmp(a.session.reading, b.session.reading, sizeof a.session.reading) == 0;
}

static void expect(const char *name, int right) {
    if (right) return;
    printf("stack: %s: not as expected\n", name);
    failed = 1;
}

static void print_reply(vol_reply r) {
    printf(" %u %u, session %u", r.kind, r.number, r.session.active);
    for (int k = 0; k < CLIENTS; k++) printf(" %x", r.session.reading[k]);
}

static void expect_reply(const char *name, vol_reply got, vol_reply expected) {
    if (same(got, expected)) return;
    printf("stack: %s: reply", name);
    print_reply(got);
    printf(", expected");
    print_reply(expected);
    printf("\n");
    failed = 1;
}

// The bytes that the call takes of the stack, painted with this byte.
static size_t peak(const char *name, struct call call, vol_reply expected, uint8_t fill) {
    memset(room, fill, ROOM);
    on_stack(call.make, room + ROOM, &call);
    expect_reply(name, call.reply, expected);
    size_t i = 0;
    while (i < ROOM && room[i] == fill) i++;
    return ROOM - i;
}

static void report(const char *name, struct call call, vol_reply expected) {
    memcpy(before, volume, LENGTH);
    size_t worst = peak(name, call, expected, 0xA5);
    memcpy(volume, before, LENGTH);
    size_t again = peak(name, call, expected, 0x5A);
    if (again > worst) worst = again;
    printf("stack: %-40s %5zu bytes\n", name, worst);
    if (worst > highest) highest = worst;
    if (worst > (call.make == write_on ? LIMIT : ONE_SECTOR)) failed = 1;
}

// Makes a call that isn't measured.
static void done(struct call call, vol_session next, unsigned count) {
    call.make(&call);
    expect_reply("a call between", call.reply, reply(VOL_DONE, next, count));
}

// Client 4 opens every file.
static void begin_and_open(void) {
    const vol_session read_by_4 = {8, {0, 0, 0, LAST_BIT}};
    report("vol_format", by(format_on, new_session, 0, 0), reply(VOL_DONE, new_session, 0));
    report("vol_is_sound", by(is_sound_on, new_session, 0, 0), reply(VOL_DONE, new_session, 1));
    report("vol_begin", by(begin_on, new_session, 4, 0), reply(VOL_DONE, by_4, 1));
    report("vol_open_read", by(open_read_on, by_4, 4, LAST), reply(VOL_DONE, read_by_4, 0));
    for (uint8_t f = 1; f < LAST; f++) done(by(open_on, by_4, 4, f), by_4, 1);
    report("vol_open", by(open_on, by_4, 4, LAST), reply(VOL_DONE, by_4, 1));
    report("vol_open_read, held already", by(open_read_on, by_4, 4, LAST), reply(VOL_DONE, by_4, 0));
}

// A page in its file's last slot: the search goes on from slot 0, and finds the slot that the map had for the page.
static void write_from_0(void) {
    memcpy(written, volume, LENGTH);
    volume[256 * (FIRST_SLOT - 1) + 8 + ENTRIES - 1] = 239;
    report("vol_write, from slot 0 again", write_by(by_4, 4, LAST, ENTRIES - 1, 256), reply(VOL_DONE, by_4, 2));
    expect("the page written", memcmp(volume + 256 * (FIRST_SLOT + ENTRIES - 1), page, 256) == 0);
    memcpy(volume, written, LENGTH);
}

// Its record gets as many entries as it can have.
static void write_pages(void) {
    const uint8_t last = ENTRIES - 1;
    for (uint8_t p = 0; p < last; p++) done(write_by(by_4, 4, LAST, p, 256), by_4, 2);
    write_from_0();
    report("vol_write, refused: no free slot", write_by(by_4, 4, 1, 0, 256), reply(VOL_REFUSED, by_4, 11));
    report("vol_write, the last entry", write_by(by_4, 4, LAST, last, 256), reply(VOL_DONE, by_4, 2));
    report("vol_write, the same page again", write_by(by_4, 4, LAST, last, 256), reply(VOL_DONE, by_4, 1));
    report("vol_write, refused: record full", write_by(by_4, 4, LAST, ENTRIES, 256), reply(VOL_REFUSED, by_4, 12));
    report("vol_write, refused: page length", write_by(by_4, 4, LAST, ENTRIES, 255), reply(VOL_REFUSED, by_4, 10));
}

// Of the first file, of the last, which has the largest map, and refused: there is no such file, or its mark is wrong.
static void spares(void) {
    uint8_t *mark = volume + 256 * (FIRST_SLOT - 1);
    report("vol_spare", spare_of(LAST), reply(VOL_COUNT, new_session, 240 - 120));
    report("vol_spare, the first file", spare_of(1), reply(VOL_COUNT, new_session, 0));
    report("vol_spare, refused: no file", spare_of(LAST + 1), reply(VOL_REFUSED, new_session, 6));
    mark[0] ^= 1;
    report("vol_spare, refused: no mark", spare_of(LAST), reply(VOL_REFUSED, new_session, 1));
    mark[0] ^= 1;
}

// The last client holds the file, and its record is full and open.
static void read_and_list(void) {
    struct call read = by(read_on, by_4, 4, LAST);
    read.page = ENTRIES - 1;
    report("vol_read", read, reply(VOL_SECTOR, new_session, LAST_SECTOR));
    expect("the page read", memcmp(volume + 256 * LAST_SECTOR, page, 256) == 0);
    report("vol_look", look_at(ENTRIES - 1), reply(VOL_SECTOR, new_session, FIRST_SLOT + ENTRIES - 1));
    spares();
    uint64_t length = vol_list(volume, LENGTH, text, sizeof text);
    expect("the listing has text", length > 0);
    report("vol_list", by(list_on, new_session, 0, 0), reply(VOL_DONE, new_session, (unsigned)length));
}

static void commit_and_abort(void) {
    memcpy(written, volume, LENGTH);
    report("vol_commit", by(commit_on, by_4, 4, 0), reply(VOL_DONE, new_session, FILES + 2));
    memcpy(volume, written, LENGTH);
    report("vol_abort", by(abort_on, by_4, 4, 0), reply(VOL_DONE, new_session, FILES + 1));
    memcpy(volume, written, LENGTH);
}

// The holder's record is full and decided: it has the page in its last entry, or doesn't have it.
static void looks(void) {
    report("vol_look, decided", look_at(ENTRIES - 1), reply(VOL_SECTOR, new_session, LAST_SECTOR));
    report("vol_look, decided without the page", look_at(119), reply(VOL_SECTOR, new_session, FIRST_SLOT + 119));
    report("vol_look, refused: no page", look_at(120), reply(VOL_REFUSED, new_session, 9));
}

// A commit that is cut after its first store: the next call recovers it, in all sixteen files.
static void recover(void) {
    const vol_session no_session = {.active = 16}, read_by_1 = {1, {LAST_BIT}};
    struct call cut = by(commit_on, by_4, 4, 0);
    cut.budget = 1;
    report("vol_commit, cut", cut, reply(VOL_CUT, new_session, 1));
    looks();
    memcpy(written, volume, LENGTH);
    report("vol_begin, with a recovery", by(begin_on, new_session, 4, 0), reply(VOL_DONE, by_4, FILES + 2));
    memcpy(volume, written, LENGTH);
    done(by(begin_on, new_session, 1, 0), by_1, 1);
    memcpy(written, volume, LENGTH);
    report("vol_open, with a recovery", by(open_on, by_1, 1, LAST), reply(VOL_DONE, by_1, FILES + 2));
    memcpy(volume, written, LENGTH);
    report("vol_open_read, with a recovery", by(open_read_on, by_1, 1, LAST), reply(VOL_DONE, read_by_1, FILES + 1));
    report("vol_begin, refused: no session", by(begin_on, no_session, 2, 0), reply(VOL_REFUSED, no_session, 2));
    done(by(commit_on, read_by_1, 1, 0), new_session, 2);
}

// Clients 1 to `clients` read all files.
static vol_session all_read_by(int clients) {
    vol_session s = {.active = (uint8_t)((1 << clients) - 1)};
    for (int k = 0; k < clients; k++) s.reading[k] = ALL_FILES;
    return s;
}

// The session after the client has opened files 1 to `files` for reading.
static vol_session reads(vol_session s, uint8_t client, uint8_t files) {
    for (uint8_t f = 1; f <= files; f++) {
        struct call c = by(open_read_on, s, client, f);
        s.reading[client - 1] |= (uint16_t)(1 << (f - 1));
        done(c, s, 0);
    }
    return s;
}

// Every client reads every file: the session has as many reading holds as it can have.
static void readers(void) {
    const vol_session three = all_read_by(CLIENTS - 1), four = all_read_by(CLIENTS);
    vol_session s = new_session, next = new_session;
    for (uint8_t k = 1; k < CLIENTS; k++) {
        next.active |= (uint8_t)(1 << (k - 1));
        done(by(begin_on, s, k, 0), next, 1);
        s = next = reads(next, k, FILES);
    }
    next.active = four.active;
    report("vol_begin, three read all", by(begin_on, three, 4, 0), reply(VOL_DONE, next, 1));
    s = reads(next, 4, FILES - 1);
    report("vol_open_read, all read all", by(open_read_on, s, 4, LAST), reply(VOL_DONE, four, 0));
    report("vol_read, all read all", by(read_on, four, 4, LAST), reply(VOL_SECTOR, new_session, FIRST_SLOT + 120));
    report("vol_open, refused: others read it", by(open_on, four, 4, LAST), reply(VOL_REFUSED, four, 7));
    report("vol_write, refused: for reading only", write_by(four, 4, LAST, 0, 256), reply(VOL_REFUSED, four, 16));
    memcpy(written, volume, LENGTH);
    report("vol_commit, all read all", by(commit_on, four, 4, 0), reply(VOL_DONE, three, 2));
    memcpy(volume, written, LENGTH);
    report("vol_abort, all read all", by(abort_on, four, 4, 0), reply(VOL_DONE, three, 1));
    expect("the volume is sound", vol_is_sound(volume, LENGTH) == 1);
}

int main(void) {
    for (int i = 0; i < 256; i++) page[i] = (uint8_t)(255 - i);
    begin_and_open();
    write_pages();
    read_and_list();
    commit_and_abort();
    recover();
    readers();
    printf("stack: the highest is %zu bytes, %d are allowed; %d where no page is written\n", highest, LIMIT, ONE_SECTOR);
    return failed;
}
