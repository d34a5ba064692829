// A kiln controller's loop. It loads a card (file 1) and notes the flask on it (file 2) in one transaction, and the
// supply fails after 0, 1, 2 .. stores of it. After each start the two belong together: both are old, or both are new.
// Then it fires by the curve (file 3), and a second kiln reads the same curve meanwhile: neither waits for the other.
// Before a curve is written, the controller asks whether there is room for all its steps.
#include <stdio.h>
#include <stdlib.h>

#include "volume.h"

enum { KILN = 1, KILN_2 = 2 };
enum { CARD = 1, FLASK = 2, CURVE = 3 };
// The stores of a whole load (begin 1, two opens 2, two writes 4, commit 4), and how many of them up to the one that
// decides.
enum { WHOLE = 11, DECIDING = 8 };
// A step of the curve is a page.
enum { STEPS = 3 };

// Two clients; card and flask have one page with two sectors each, the curve three pages with six: 16 sectors. A
// controller lends its chip in place of this array, if it keeps the order of the stores (docs/STORE_ORDER.md).
static uint8_t chip[16 * VOL_SECTOR_SIZE];
static const uint8_t shape[] = {1, 2, 1, 2, STEPS, 2 * STEPS};

// All that a controller keeps between calls, and loses when the supply fails.
static vol_session session;
static const vol_session new_session;

// The simulation: how many more stores the supply lasts for.
static unsigned supply;

static uint8_t budget(void) {
    return (uint8_t)(supply < 255 ? supply : 255);
}

// Here a refusal that the program doesn't ask for is a mistake in it.
static void refused(unsigned number) {
    printf("refused %u\n", number);
    exit(1);
}

// Takes in a reply; answers whether the call was done.
static int done(vol_reply reply) {
    if (reply.kind == VOL_REFUSED) refused(reply.number);
    session = reply.session;
    supply -= reply.number;
    return reply.kind == VOL_DONE;
}

static int begin(uint8_t client) {
    return done(vol_begin(chip, sizeof chip, session, client, budget()));
}

static int open_file(uint8_t client, uint8_t file) {
    return done(vol_open(chip, sizeof chip, session, client, file, budget()));
}

static int open_read(uint8_t client, uint8_t file) {
    return done(vol_open_read(chip, sizeof chip, session, client, file, budget()));
}

static int commit(uint8_t client) {
    return done(vol_commit(chip, sizeof chip, session, client, budget()));
}

static int write_number(uint8_t client, uint8_t file, uint8_t page, unsigned number) {
    uint8_t bytes[VOL_SECTOR_SIZE] = {0};
    bytes[0] = (uint8_t)(number / 256);
    bytes[1] = (uint8_t)(number % 256);
    return done(vol_write(chip, sizeof chip, session, client, file, page, bytes, sizeof bytes, budget()));
}

static unsigned read_number(uint8_t client, uint8_t file, uint8_t page) {
    vol_answer answer = vol_read(chip, sizeof chip, session, client, file, page);
    if (answer.kind != VOL_SECTOR) refused(answer.number);
    const uint8_t *bytes = chip + VOL_SECTOR_SIZE * answer.number;
    return 256u * bytes[0] + bytes[1];
}

// How many pages of the file a transaction can write. This needs no session and no transaction.
static unsigned room_in(uint8_t file) {
    vol_answer answer = vol_spare(chip, sizeof chip, file);
    if (answer.kind != VOL_COUNT) refused(answer.number);
    return answer.number;
}

// Starts a transaction with card and flask. If the supply failed in the last one, begin recovers it.
static int take_files(void) {
    return begin(KILN) && open_file(KILN, CARD) && open_file(KILN, FLASK);
}

static int note(unsigned number) {
    return write_number(KILN, CARD, 0, number) && write_number(KILN, FLASK, 0, number);
}

// Answers 0 if the supply failed on the way; then a start comes next.
static int load(unsigned number) {
    return take_files() && note(number) && commit(KILN);
}

static void list(void) {
    uint8_t text[VOL_LIST_ROOM];
    uint64_t length = vol_list(chip, sizeof chip, text, sizeof text);
    fwrite(text, 1, (size_t)length, stdout);
}

// What a controller does when the supply comes back. A chip that was never formatted isn't sound; nor is one that was
// damaged, so a real controller asks before it formats.
static void start(void) {
    session = new_session;
    supply = 1000;
    if (vol_is_sound(chip, sizeof chip)) return;
    vol_answer answer = vol_format(chip, sizeof chip, 2, shape, sizeof shape);
    if (answer.kind == VOL_REFUSED) refused(answer.number);
    printf("formatted\n");
}

// Answers whether card and flask belong together.
static int check(void) {
    if (!take_files()) return 0;
    unsigned card = read_number(KILN, CARD, 0), flask = read_number(KILN, FLASK, 0);
    printf("start: card %u, flask %u\n", card, flask);
    return done(vol_abort(chip, sizeof chip, session, KILN, budget())) && card == flask;
}

// Loads a card while the supply lasts for this many stores, and starts again. Answers whether the check passed.
static int round_of(unsigned number, unsigned stores) {
    start();
    supply = stores;
    int loaded = load(number);
    printf("load %u: %s after %u stores\n", number, loaded ? "done" : "the supply fails", stores);
    if (stores == DECIDING) list();
    start();
    return check();
}

// The second kiln writes the curve; `degrees` is for its last step. It may: only it holds the curve then.
static int write_curve(unsigned degrees) {
    unsigned room = room_in(CURVE);
    printf("room for %u steps\n", room);
    if (room < STEPS || !open_file(KILN_2, CURVE)) return 0;
    for (uint8_t step = 0; step < STEPS; step++)
        if (!write_number(KILN_2, CURVE, step, degrees * (step + 1u) / STEPS)) return 0;
    printf("curve written\n");
    return commit(KILN_2);
}

// The kiln fires the next flask by the curve, and the second one reads it meanwhile. Both hold it for reading: no
// step of it changes while they do, and to write it is refused. Answers whether both read the same.
static int fire(unsigned number) {
    if (!(take_files() && open_read(KILN, CURVE) && begin(KILN_2) && open_read(KILN_2, CURVE))) return 0;
    for (uint8_t step = 0; step < STEPS; step++) {
        unsigned first = read_number(KILN, CURVE, step), second = read_number(KILN_2, CURVE, step);
        printf("flask %u, step %u: %u degrees, and %u for the second kiln\n", number, step, first, second);
        if (first != second) return 0;
    }
    // The session stays as it is: a refusal hands back the one given.
    vol_reply reply = vol_open(chip, sizeof chip, session, KILN_2, CURVE, budget());
    if (reply.kind != VOL_REFUSED || reply.number != VOL_FILE_IN_USE) return 0;
    printf("the curve is in use\n");
    return note(number) && commit(KILN);
}

int main(void) {
    for (unsigned stores = 0; stores <= WHOLE; stores++)
        if (!round_of(stores + 1, stores)) return 1;
    list();
    start();
    if (!(begin(KILN_2) && write_curve(900))) return 1;
    // Once the first kiln has given the curve back, the second alone reads it, and writes the next one.
    if (!(fire(WHOLE + 2) && write_curve(1200) && fire(WHOLE + 3))) return 1;
    start();
    return check() ? 0 : 1;
}
