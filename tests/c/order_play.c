// For a tracer of writes: each call is made with every budget, between two marks. Planning, it prints what the trace
// must show, and compares it with the budgets; traced, it does nothing else, since a tracer is slow.
#include <stdio.h>
#include <string.h>

#include "order.h"

static int planning;
static volatile uint8_t marks[2];
// The sectors of the call's stores, before it.
static uint8_t start[MOST_STORES][256];
static uint8_t before[LENGTH];
// For each store of the call, the bytes of its sector that it changes.
static uint8_t changed[MOST_STORES][256];

// The call between the marks, with its line of the plan.
static void play(const char *name, struct call c, int budget, unsigned kind, unsigned number) {
    marks[0] = 1;
    vol_reply reply = make(c, (uint8_t)budget);
    marks[1] = 1;
    if (planning) printf("call %s, budget %d\n", name, budget);
    if (is_reply(reply, c, kind, number)) return;
    fprintf(stderr, "order: %s, budget %d: reply %u %u, session %u", name, budget, reply.kind, reply.number,
            reply.session.active);
    for (int k = 0; k < 4; k++) fprintf(stderr, " %x", reply.session.reading[k]);
    fprintf(stderr, "\n");
    failed = 1;
}

static void print_store(const struct store *store, const uint8_t *bytes) {
    printf("store %d ", store->sector);
    for (int i = 0; i < 256; i++) putchar(bytes[i] ? '1' : '0');
    printf(" %s\n", store->name);
}

// One store more than before changed this sector, and no other.
static void note_store(const char *name, int sector, uint8_t *bytes) {
    int others = 0;
    for (size_t i = 0; i < length; i++) {
        int differs = volume[i] != before[i];
        if (i / 256 == (size_t)sector)
            bytes[i % 256] = (uint8_t)differs;
        else
            others += differs;
    }
    if (others == 0 && memchr(bytes, 1, 256) != NULL) return;
    fprintf(stderr, "order: %s: by the budgets its store isn't to sector %d alone\n", name, sector);
    failed = 1;
}

static void play_stores(const char *name, struct call call, const struct store *list, int budget, int count) {
    int made = budget < count ? budget : count;
    play(name, call, budget, budget < count ? VOL_CUT : VOL_DONE, (unsigned)made);
    if (!planning) return;
    if (made == budget && made > 0) note_store(name, list[made - 1].sector, changed[made - 1]);
    for (int i = 0; i < made; i++) print_store(&list[i], changed[i]);
    memcpy(before, volume, length);
}

static void keep_sectors(const struct store *list, int count) {
    for (int i = 0; i < count; i++) memcpy(start[i], volume + 256 * list[i].sector, 256);
}

static void bring_back(const struct store *list, int count) {
    for (int i = 0; i < count; i++) memcpy(volume + 256 * list[i].sector, start[i], 256);
}

void set_up(int count, char **words) {
    planning = count > 1 && strcmp(words[1], "plan") == 0;
    if (!planning) return;
    printf("volume %zx %d\n", (size_t)volume, LENGTH);
    printf("marks %zx\n", (size_t)marks);
}

void stores(const char *name, struct call call, const struct store *list, int count) {
    if (planning) memcpy(before, volume, length);
    keep_sectors(list, count);
    for (int budget = 0; budget <= count; budget++) {
        play_stores(name, call, list, budget, count);
        bring_back(list, count);
    }
    play_stores(name, call, list, 255, count);
}

void stores_nothing(const char *name, struct call call, unsigned kind, unsigned number) {
    if (planning) memcpy(before, volume, length);
    play(name, call, 0, kind, number);
    play(name, call, 255, kind, number);
    if (!planning || memcmp(volume, before, length) == 0) return;
    fprintf(stderr, "order: %s: the volume has changed\n", name);
    failed = 1;
}

void sum_up(void) {
}
