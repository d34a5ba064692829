#include "order.h"

#include <string.h>

uint8_t volume[ROOM] __attribute__((aligned(4096)));
size_t length;
int failed;

static uint8_t page[512];
static uint8_t text[VOL_LIST_ROOM];

static const uint8_t shape[2] = {1, 1};

static uint16_t bit(uint8_t number) {
    return (uint16_t)(1 << (number - 1));
}

vol_session marked(uint8_t active) {
    return (vol_session){.active = active};
}

vol_session reading(vol_session s, uint8_t client, uint8_t file) {
    s.reading[client - 1] |= bit(file);
    return s;
}

static struct call by(enum what what, vol_session s, uint8_t client, uint8_t file) {
    return (struct call){.what = what, .session = s, .next = s, .client = client, .file = file};
}

struct call begin_by(vol_session s, uint8_t client) {
    struct call c = by(BEGIN, s, client, 0);
    c.next.active |= (uint8_t)bit(client);
    return c;
}

struct call open_by(vol_session s, uint8_t client, uint8_t file) {
    struct call c = by(OPEN, s, client, file);
    c.next.reading[client - 1] &= (uint16_t)~bit(file);
    return c;
}

struct call open_read_by(vol_session s, uint8_t client, uint8_t file) {
    struct call c = by(OPEN_READ, s, client, file);
    c.next = reading(s, client, file);
    return c;
}

struct call write_by(vol_session s, uint8_t client, uint8_t file, uint8_t number, uint8_t fill) {
    struct call c = by(WRITE, s, client, file);
    c.page = number, c.fill = fill, c.count = 256;
    return c;
}

// A transaction of the client ends: its mark and its reading holds.
static struct call end_by(enum what what, vol_session s, uint8_t client) {
    struct call c = by(what, s, client, 0);
    c.next.active &= (uint8_t)~bit(client);
    c.next.reading[client - 1] = 0;
    return c;
}

struct call commit_by(vol_session s, uint8_t client) {
    return end_by(COMMIT, s, client);
}

struct call abort_by(vol_session s, uint8_t client) {
    return end_by(ABORT, s, client);
}

struct call read_by(vol_session s, uint8_t client, uint8_t file, uint8_t number) {
    struct call c = by(READ, s, client, file);
    c.page = number;
    return c;
}

struct call look_at(uint8_t file, uint8_t number) {
    struct call c = by(LOOK, marked(0), 0, file);
    c.page = number;
    return c;
}

struct call spare_of(uint8_t file) {
    return by(SPARE, marked(0), 0, file);
}

// An answer as a reply, with the session given.
static vol_reply answered(struct call c, vol_answer answer) {
    return (vol_reply){c.session, answer.kind, answer.number};
}

static vol_reply tested(struct call c, int yes) {
    return (vol_reply){c.session, VOL_DONE, (uint16_t)yes};
}

vol_reply make(struct call c, uint8_t budget) {
    memset(page, c.fill, sizeof page);
    switch (c.what) {
    case BEGIN: return vol_begin(volume, length, c.session, c.client, budget);
    case OPEN: return vol_open(volume, length, c.session, c.client, c.file, budget);
    case OPEN_READ: return vol_open_read(volume, length, c.session, c.client, c.file, budget);
    case WRITE: return vol_write(volume, length, c.session, c.client, c.file, c.page, page, c.count, budget);
    case COMMIT: return vol_commit(volume, length, c.session, c.client, budget);
    case ABORT: return vol_abort(volume, length, c.session, c.client, budget);
    case READ: return answered(c, vol_read(volume, length, c.session, c.client, c.file, c.page));
    case LOOK: return answered(c, vol_look(volume, length, c.file, c.page));
    case SPARE: return answered(c, vol_spare(volume, length, c.file));
    case FORMAT: return answered(c, vol_format(volume, c.count, c.fill, shape, sizeof shape));
    case IS_SOUND: return tested(c, vol_is_sound(volume, length) == 1);
    default: return tested(c, vol_list(volume, length, text, sizeof text) > 0);
    }
}

int is_reply(vol_reply reply, struct call c, unsigned kind, unsigned number) {
    vol_session s = kind == VOL_DONE ? c.next : kind == VOL_CUT ? marked(0) : c.session;
    return reply.kind == kind && reply.number == number && reply.session.active == s.active &&
           memcmp(reply.session.reading, s.reading, sizeof s.reading) == 0;
}
