// A chip that is written by commands. The library works on a copy in memory, and budgets make its stores one at a time:
// each is written to the chip as a whole before the next one is made, in whatever order the compiled code writes bytes.
#include <stdio.h>
#include <stdlib.h>
#include <string.h>

#include "volume.h"

enum { SECTORS = 11, LENGTH = VOL_SECTOR_SIZE * SECTORS };

// In a controller this is the chip, and the memcpy to one of its sectors is the command that writes a sector.
static uint8_t chip[LENGTH];
// The working copy, and the copy kept from before the call. Between calls both are the same as the chip.
static uint8_t work[LENGTH], start[LENGTH];
static vol_session session;

static const uint8_t shape[] = {2, 3, 1, 3};
static const uint8_t page[VOL_SECTOR_SIZE] = {1, 2, 3};

static vol_reply begin(uint8_t budget) {
    return vol_begin(work, LENGTH, session, 1, budget);
}

static vol_reply open_1(uint8_t budget) {
    return vol_open(work, LENGTH, session, 1, 1, budget);
}

static vol_reply open_2(uint8_t budget) {
    return vol_open(work, LENGTH, session, 1, 2, budget);
}

static vol_reply write_1(uint8_t budget) {
    return vol_write(work, LENGTH, session, 1, 1, 0, page, sizeof page, budget);
}

static vol_reply write_2(uint8_t budget) {
    return vol_write(work, LENGTH, session, 1, 2, 0, page, sizeof page, budget);
}

static vol_reply commit(uint8_t budget) {
    return vol_commit(work, LENGTH, session, 1, budget);
}

// Writes the sector in which the chip differs from the working copy. There is at most one.
static void write_to_chip(void) {
    int written = 0;
    for (size_t s = 0; s < SECTORS; s++) {
        size_t at = VOL_SECTOR_SIZE * s;
        if (memcmp(chip + at, work + at, VOL_SECTOR_SIZE) == 0) continue;
        memcpy(chip + at, work + at, VOL_SECTOR_SIZE);
        printf(" %zu", s);
        written++;
    }
    if (written > 1) exit(1);
}

// With budget n the working copy is as after the first n stores of the call, so the chip is one store behind it. The
// supply may fail at any moment: the chip then has the first stores of the call, and the next start has a new session.
static void store_by_store(const char *name, vol_reply (*call)(uint8_t budget)) {
    vol_reply reply;
    uint8_t budget = 0;
    printf("%s:", name);
    memcpy(start, work, LENGTH);
    do {
        memcpy(work, start, LENGTH);
        reply = call(++budget);
        write_to_chip();
    } while (reply.kind == VOL_CUT);
    session = reply.session;
    printf(", %s %u\n", reply.kind == VOL_DONE ? "done" : "refused", reply.number);
}

int main(void) {
    vol_format(work, LENGTH, 2, shape, sizeof shape);
    memcpy(chip, work, LENGTH);
    store_by_store("begin", begin);
    store_by_store("open 1", open_1);
    store_by_store("open 2", open_2);
    store_by_store("write 1", write_1);
    store_by_store("write 2", write_2);
    store_by_store("commit", commit);
    // The transaction is over: VOL_NOT_ACTIVE.
    store_by_store("commit", commit);
    return memcmp(chip, work, LENGTH) != 0;
}
