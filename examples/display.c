// A wall display looks at a card (file 1) and its curve (file 2) while a client commits new ones, and the supply fails
// after 0, 1, 2 .. stores of the commit. What the display shows belongs together each time: both are old, or both are
// new. It holds nothing and has no session: the client doesn't wait for it, and it doesn't wait for the client.
#include <stdio.h>
#include <stdlib.h>
#include <string.h>

#include "volume.h"

enum { KILN = 1 };
enum { CARD = 1, CURVE = 2 };
// A step of the curve is a page.
enum { STEPS = 3 };
enum { OLD = 1, NEW = 2 };

// One client; the card has one page with two sectors, the curve three pages with six: 12 sectors.
static uint8_t chip[12 * VOL_SECTOR_SIZE];
static const uint8_t shape[] = {1, 2, STEPS, 2 * STEPS};

// The client's. The display doesn't need it.
static vol_session session;
static const vol_session new_session;

// What the display shows: copies, since a sector may have other bytes after the next store.
struct picture {
    uint8_t card, curve[STEPS];
};

static void stop(const char *what, unsigned number) {
    printf("%s %u\n", what, number);
    exit(1);
}

// Takes in a reply. Whatever the display looks at meanwhile, no call of the client may be refused.
static vol_reply taken(vol_reply reply) {
    if (reply.kind == VOL_REFUSED) stop("refused", reply.number);
    session = reply.session;
    return reply;
}

static void write_number(uint8_t file, uint8_t page, uint8_t number) {
    const uint8_t bytes[VOL_SECTOR_SIZE] = {number};
    taken(vol_write(chip, sizeof chip, session, KILN, file, page, bytes, sizeof bytes, 255));
}

// The first byte of the page that a read or a look has found.
static uint8_t number_at(vol_answer answer) {
    if (answer.kind != VOL_SECTOR) stop("refused", answer.number);
    return chip[VOL_SECTOR_SIZE * answer.number];
}

// The client begins, and takes and writes both files; it hasn't committed.
static void load(uint8_t number) {
    taken(vol_begin(chip, sizeof chip, session, KILN, 255));
    taken(vol_open(chip, sizeof chip, session, KILN, CARD, 255));
    taken(vol_open(chip, sizeof chip, session, KILN, CURVE, 255));
    write_number(CARD, 0, number);
    for (uint8_t step = 0; step < STEPS; step++) write_number(CURVE, step, number);
}

// The display: it looks at all that belongs together with no store between, and no byte changes.
static struct picture look(void) {
    static uint8_t before[sizeof chip];
    memcpy(before, chip, sizeof chip);
    struct picture seen = {.card = number_at(vol_look(chip, sizeof chip, CARD, 0))};
    for (uint8_t step = 0; step < STEPS; step++)
        seen.curve[step] = number_at(vol_look(chip, sizeof chip, CURVE, step));
    if (memcmp(before, chip, sizeof chip) != 0) stop("the display has changed the volume: card", seen.card);
    return seen;
}

// Shows what is seen, and looks again: without a call between, it is the same.
static struct picture show(unsigned budget, const char *when, unsigned number) {
    struct picture seen = look(), again = look();
    printf("budget %u: %s %u, card %u, curve %u\n", budget, when, number, seen.card, seen.curve[0]);
    for (int step = 0; step < STEPS; step++)
        if (seen.curve[step] != seen.card) stop("the card doesn't belong to step", (unsigned)step);
    if (memcmp(&seen, &again, sizeof seen) != 0) stop("another card a moment later:", again.card);
    return seen;
}

// The next start: begin recovers. Then the client opens both files and reads what the display shows.
static void start(unsigned budget, struct picture shown) {
    session = new_session;
    vol_reply reply = taken(vol_begin(chip, sizeof chip, session, KILN, 255));
    struct picture seen = show(budget, "begin done", reply.number);
    if (memcmp(&seen, &shown, sizeof seen) != 0) stop("another card after the start:", seen.card);
    taken(vol_open_read(chip, sizeof chip, session, KILN, CARD, 255));
    taken(vol_open_read(chip, sizeof chip, session, KILN, CURVE, 255));
    uint8_t card = number_at(vol_read(chip, sizeof chip, session, KILN, CARD, 0));
    uint8_t curve = number_at(vol_read(chip, sizeof chip, session, KILN, CURVE, STEPS - 1));
    if (card != shown.card || curve != shown.card) stop("the client reads card", card);
}

// A new card is committed with this budget. Answers whether the commit was done.
static int round_of(uint8_t budget) {
    vol_answer formatted = vol_format(chip, sizeof chip, 1, shape, sizeof shape);
    if (formatted.kind != VOL_DONE) stop("refused", formatted.number);
    session = new_session;
    load(OLD);
    taken(vol_commit(chip, sizeof chip, session, KILN, 255));
    load(NEW);
    show(budget, "held by client", KILN);
    vol_reply reply = taken(vol_commit(chip, sizeof chip, session, KILN, budget));
    struct picture shown = show(budget, reply.kind == VOL_CUT ? "commit cut" : "commit done", reply.number);
    start(budget, shown);
    return reply.kind == VOL_DONE;
}

int main(void) {
    uint8_t budget = 0;
    while (!round_of(budget)) budget++;
    return 0;
}
