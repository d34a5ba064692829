// The plan of the stores: each call with the sectors that the rules make it store, in order. Every store of it changes a
// byte of its sector.
#include <stdio.h>
#include <string.h>

#include "order.h"

#define COUNT(list) ((int)(sizeof(list) / sizeof(list)[0]))
#define STORES(name, call, ...)                                                                                        \
    do {                                                                                                               \
        const struct store list[] = {__VA_ARGS__};                                                                     \
        stores(name, call, list, COUNT(list));                                                                         \
    } while (0)

static const char opened[] = "record open", decided[] = "record decided", idle[] = "record idle";
static const char held[] = "header held", freed[] = "header freed", redone[] = "header redone";
static const char new_page[] = "page", entry[] = "record with the entry";

static uint8_t kept[LENGTH];

// The header of file 16 on the large volume.
enum { LAST_HEADER = 5 + 241 + 14 + 13 * 3 };

static void check(const char *kind, int right) {
    if (right) return;
    fprintf(stderr, "order: a call between those of the plan isn't %s\n", kind);
    failed = 1;
}

static void format(size_t bytes, uint8_t clients, const uint8_t *shape, size_t count) {
    length = bytes;
    check("done", vol_format(volume, length, clients, shape, count).kind == VOL_DONE);
}

// Makes a call that isn't played.
static void done(struct call call) {
    check("done", make(call, 255).kind == VOL_DONE);
}

// A commit that is cut after its first store: the client's record is decided.
static void decide(vol_session session, uint8_t client) {
    check("cut", make(commit_by(session, client), 1).kind == VOL_CUT);
}

static void keep(void) {
    memcpy(kept, volume, length);
}

static void back(void) {
    memcpy(volume, kept, length);
}

// The small volume V: records in sectors 1 and 2, headers in 3 and 7, slots from 4 and from 8.
static void format_v(void) {
    static const uint8_t shape[4] = {2, 3, 1, 3};
    format(2816, 2, shape, sizeof shape);
}

// Begin: record k open. Open: f's header with holder k. Write: the page, then the record with the entry; again: the
// page.
static void e2(void) {
    const vol_session s = marked(1);
    format_v();
    STORES("begin", begin_by(marked(0), 1), {1, opened});
    STORES("open", open_by(s, 1, 1), {3, held});
    STORES("open", open_by(s, 1, 2), {7, held});
    STORES("write", write_by(s, 1, 1, 0, 10), {6, new_page}, {1, entry});
    STORES("write", write_by(s, 1, 2, 0, 20), {9, new_page}, {1, entry});
    STORES("write again", write_by(s, 1, 1, 0, 30), {6, new_page});
    keep();
}

// The next transaction. Page 0 of file 1 is in its last slot, and goes to slot 0; that of file 2 goes from slot 1 to 2.
static void pages_again(void) {
    const vol_session s = marked(1);
    STORES("begin", begin_by(marked(0), 1), {1, opened});
    STORES("open", open_by(s, 1, 1), {3, held});
    STORES("open", open_by(s, 1, 2), {7, held});
    STORES("write, from slot 0 again", write_by(s, 1, 1, 0, 40), {4, new_page}, {1, entry});
    STORES("write", write_by(s, 1, 2, 0, 50), {10, new_page}, {1, entry});
}

// Commit: record k decided; then recovery: each header naming k, rising, and last the record idle. Abort: recovery
// alone.
static void commit_and_abort(void) {
    STORES("commit", commit_by(marked(1), 1), {1, decided}, {3, redone}, {7, redone}, {1, idle});
    pages_again();
    back();
    STORES("abort", abort_by(marked(1), 1), {3, freed}, {7, freed}, {1, idle});
    back();
}

// Begin: recover k, then its record open. Open: recover the holder, then f's header with holder k; for reading, recover
// the holder.
static void recover_open_record(void) {
    const vol_session s = marked(2);
    STORES("begin, undoing", begin_by(marked(0), 1), {3, freed}, {7, freed}, {1, idle}, {1, opened});
    back();
    STORES("begin of another", begin_by(marked(0), 2), {2, opened});
    STORES("open, undoing", open_by(s, 2, 1), {3, freed}, {7, freed}, {1, idle}, {3, held});
    back();
    done(begin_by(marked(0), 2));
    STORES("open_read, undoing", open_read_by(s, 2, 1), {3, freed}, {7, freed}, {1, idle});
    back();
}

// As before, with a commit cut after its first store: the record is decided.
static void recover_decided_record(void) {
    const vol_session s = marked(2);
    decide(marked(1), 1);
    keep();
    STORES("begin, redoing", begin_by(marked(0), 1), {3, redone}, {7, redone}, {1, idle}, {1, opened});
    back();
    done(begin_by(marked(0), 2));
    STORES("open, redoing", open_by(s, 2, 2), {3, redone}, {7, redone}, {1, idle}, {7, held});
    back();
    done(begin_by(marked(0), 2));
    STORES("open_read, redoing", open_read_by(s, 2, 2), {3, redone}, {7, redone}, {1, idle});
}

// A look writes nothing, whatever record the file's holder has. It finds a page by the map while the record is open,
// and by the entries once it is decided; where the header was stored since, by the new map.
static void looks(void) {
    format_v();
    stores_nothing("look, nobody holds it", look_at(1, 0), VOL_SECTOR, 4);
    back();
    stores_nothing("look, the record is open", look_at(1, 0), VOL_SECTOR, 4);
    stores_nothing("look, the record is open", look_at(2, 0), VOL_SECTOR, 8);
    decide(marked(1), 1);
    stores_nothing("look, the record is decided", look_at(1, 0), VOL_SECTOR, 6);
    stores_nothing("look, decided without the page", look_at(1, 1), VOL_SECTOR, 5);
    stores_nothing("look, the record is decided", look_at(2, 0), VOL_SECTOR, 9);
    back();
    check("cut", make(commit_by(marked(1), 1), 2).kind == VOL_CUT);
    stores_nothing("look, redone", look_at(1, 0), VOL_SECTOR, 6);
    stores_nothing("look, not yet redone", look_at(2, 0), VOL_SECTOR, 9);
    back();
}

// Nor does a refused one.
static void looks_refused(void) {
    stores_nothing("look, refused", look_at(0, 0), VOL_REFUSED, 6);
    stores_nothing("look, refused", look_at(3, 2), VOL_REFUSED, 6);
    stores_nothing("look, refused", look_at(1, 2), VOL_REFUSED, 9);
    volume[0] = 0;
    stores_nothing("look, refused", look_at(1, 0), VOL_REFUSED, 1);
    back();
}

// A spare writes nothing, whatever record the file's holder has, and answers the same: a commit takes a slot of the file
// and gives one back.
static void spares(void) {
    format_v();
    stores_nothing("spare, nobody holds it", spare_of(1), VOL_COUNT, 1);
    stores_nothing("spare, nobody holds it", spare_of(2), VOL_COUNT, 2);
    back();
    stores_nothing("spare, the record is open", spare_of(1), VOL_COUNT, 1);
    stores_nothing("spare, the record is open", spare_of(2), VOL_COUNT, 2);
    decide(marked(1), 1);
    stores_nothing("spare, the record is decided", spare_of(1), VOL_COUNT, 1);
    back();
    check("cut", make(commit_by(marked(1), 1), 2).kind == VOL_CUT);
    stores_nothing("spare, redone", spare_of(1), VOL_COUNT, 1);
    stores_nothing("spare, not yet redone", spare_of(2), VOL_COUNT, 2);
    back();
}

// Nor does a refused one, or one on a volume that isn't sound: a wrong count stays as it is.
static void spares_of_damaged(void) {
    volume[256 * 3 + 3] = 9;
    stores_nothing("spare, the count is wrong", spare_of(1), VOL_COUNT, 9);
    volume[256 * 3] = 0;
    stores_nothing("spare, refused", spare_of(1), VOL_REFUSED, 1);
    stores_nothing("spare, another header is damaged", spare_of(2), VOL_COUNT, 2);
    stores_nothing("spare, refused", spare_of(0), VOL_REFUSED, 6);
    stores_nothing("spare, refused", spare_of(3), VOL_REFUSED, 6);
    volume[0] = 0;
    stores_nothing("spare, refused", spare_of(2), VOL_REFUSED, 1);
    back();
}

// Reads, tests and listings write nothing, and nor does an open, of either kind, of a file that the client holds.
static void no_stores(void) {
    struct call open_read = open_read_by(marked(1), 1, 1);
    open_read.next = marked(1);
    stores_nothing("read", read_by(marked(1), 1, 1, 0), VOL_SECTOR, 6);
    stores_nothing("is_sound", (struct call){.what = IS_SOUND}, VOL_DONE, 1);
    stores_nothing("list", (struct call){.what = LIST}, VOL_DONE, 1);
    stores_nothing("open of a held file", open_by(marked(1), 1, 1), VOL_DONE, 0);
    stores_nothing("open_read of a held file", open_read, VOL_DONE, 0);
}

// Nor do refused calls.
static void refused(void) {
    const vol_session s = marked(1);
    struct call write = write_by(s, 1, 1, 1, 40);
    write.count = 255;
    stores_nothing("begin, refused", begin_by(marked(16), 1), VOL_REFUSED, 2);
    stores_nothing("begin, refused", begin_by(s, 3), VOL_REFUSED, 3);
    stores_nothing("begin, refused", begin_by(s, 1), VOL_REFUSED, 4);
    stores_nothing("commit, refused", commit_by(s, 2), VOL_REFUSED, 5);
    stores_nothing("abort, refused", abort_by(marked(0), 1), VOL_REFUSED, 5);
    stores_nothing("open, refused", open_by(s, 1, 3), VOL_REFUSED, 6);
    stores_nothing("open_read, refused", open_read_by(reading(s, 2, 1), 1, 1), VOL_REFUSED, 2);
    stores_nothing("open_read, refused", open_read_by(reading(s, 1, 2), 1, 1), VOL_REFUSED, 2);
    stores_nothing("open_read, refused", open_read_by(s, 3, 1), VOL_REFUSED, 3);
    stores_nothing("open_read, refused", open_read_by(s, 2, 1), VOL_REFUSED, 5);
    stores_nothing("open_read, refused", open_read_by(s, 1, 3), VOL_REFUSED, 6);
    stores_nothing("write, refused", write_by(s, 1, 1, 2, 40), VOL_REFUSED, 9);
    stores_nothing("write, refused", write, VOL_REFUSED, 10);
    stores_nothing("write, refused", write_by(s, 1, 1, 1, 40), VOL_REFUSED, 11);
    stores_nothing("read, refused", read_by(marked(0), 1, 1, 0), VOL_REFUSED, 5);
    stores_nothing("format, refused", (struct call){.what = FORMAT, .fill = 1, .count = 300}, VOL_REFUSED, 13);
    stores_nothing("format, refused", (struct call){.what = FORMAT, .fill = 0, .count = 2816}, VOL_REFUSED, 14);
    stores_nothing("format, refused", (struct call){.what = FORMAT, .fill = 1, .count = 512}, VOL_REFUSED, 15);
}

static void refused_to_another(void) {
    const vol_session s = marked(3);
    done(begin_by(marked(1), 2));
    stores_nothing("open, refused", open_by(s, 2, 1), VOL_REFUSED, 7);
    stores_nothing("open_read, refused", open_read_by(s, 2, 1), VOL_REFUSED, 7);
    stores_nothing("write, refused", write_by(s, 2, 1, 0, 40), VOL_REFUSED, 8);
    volume[0] = 0;
    stores_nothing("commit, refused", commit_by(marked(1), 1), VOL_REFUSED, 1);
    stores_nothing("open_read, refused", open_read_by(marked(1), 1, 1), VOL_REFUSED, 1);
    stores_nothing("is_sound, no", (struct call){.what = IS_SOUND}, VOL_DONE, 0);
    stores_nothing("list, refused", (struct call){.what = LIST}, VOL_DONE, 0);
    back();
}

// Both clients have begun and hold nothing. A reading hold is in the session alone, and a call that is refused beside a
// reader stores nothing.
static void readers(void) {
    const vol_session both = marked(3), one = reading(both, 1, 1), two = reading(one, 2, 1);
    format_v();
    done(begin_by(marked(0), 1));
    done(begin_by(marked(1), 2));
    keep();
    stores_nothing("open_read", open_read_by(both, 1, 1), VOL_DONE, 0);
    stores_nothing("open_read beside a reader", open_read_by(one, 2, 1), VOL_DONE, 0);
    stores_nothing("open_read of a file it reads", open_read_by(two, 2, 1), VOL_DONE, 0);
    stores_nothing("read by a reader", read_by(two, 2, 1, 1), VOL_SECTOR, 5);
    stores_nothing("open, refused", open_by(one, 2, 1), VOL_REFUSED, 7);
    stores_nothing("open, refused", open_by(two, 1, 1), VOL_REFUSED, 7);
    stores_nothing("write, refused", write_by(two, 1, 1, 0, 40), VOL_REFUSED, 16);
    stores_nothing("write, refused", write_by(two, 1, 1, 2, 40), VOL_REFUSED, 16);
    stores_nothing("write, refused", write_by(one, 2, 1, 0, 40), VOL_REFUSED, 8);
    stores_nothing("read, refused", read_by(one, 2, 1, 0), VOL_REFUSED, 8);
}

// The commit of a client that only reads: its record decided, and idle. Its abort: the record idle.
static void readers_end(void) {
    const vol_session both_read = reading(reading(marked(3), 1, 1), 2, 1);
    STORES("commit of a reader", commit_by(both_read, 1), {1, decided}, {1, idle});
    back();
    STORES("abort of a reader", abort_by(both_read, 2), {2, idle});
    back();
}

// The client that alone reads a file opens it. Both read file 2, whose header gets no store.
static void reader_writes(void) {
    const vol_session s = reading(reading(marked(3), 1, 2), 2, 2);
    STORES("open by the only reader", open_by(reading(s, 1, 1), 1, 1), {3, held});
    stores_nothing("open_read, refused", open_read_by(s, 2, 1), VOL_REFUSED, 7);
    STORES("write beside a reader", write_by(s, 1, 1, 0, 60), {6, new_page}, {1, entry});
    keep();
    STORES("abort beside a reader", abort_by(s, 1), {3, freed}, {1, idle});
    back();
    STORES("commit beside a reader", commit_by(s, 1), {1, decided}, {3, redone}, {1, idle});
    back();
}

// Client 1's transaction was interrupted, and client 2 reads file 2 already. A cut ends that hold too.
static void reader_recovers(void) {
    const vol_session s = reading(marked(2), 2, 2);
    done(begin_by(marked(0), 2));
    keep();
    STORES("open_read by a reader, undoing", open_read_by(s, 2, 1), {3, freed}, {1, idle});
    back();
    STORES("open by a reader, undoing", open_by(s, 2, 1), {3, freed}, {1, idle}, {3, held});
    back();
    STORES("begin beside a reader, undoing", begin_by(s, 1), {3, freed}, {1, idle}, {1, opened});
}

// A large volume: client 4 holds sixteen files and has written a page of each. Headers from the second on are above
// 255.
static const uint8_t large_shape[32] = {120, 240, 11, 13, 1, 2, 1, 2, 1, 2, 1, 2, 1, 2, 1, 2,
                                        1,   2,   1,  2,  1, 2, 1, 2, 1, 2, 1, 2, 1, 2, 1, 2};

// The store `first` if it has a name, each header by this name, then the last ones; the very last if it has a name.
static void over_all(const char *name, struct call call, struct store first, const char *header, struct store last,
                     struct store very_last) {
    struct store list[MOST_STORES];
    int count = 0, sector = 5;
    if (first.name) list[count++] = first;
    for (int f = 0; f < 16; f++) {
        list[count++] = (struct store){sector, header};
        sector += 1 + large_shape[2 * f + 1];
    }
    list[count++] = last;
    if (very_last.name) list[count++] = very_last;
    stores(name, call, list, count);
}

static void sixteen_files(void) {
    const vol_session s = marked(8);
    format(LENGTH, 4, large_shape, sizeof large_shape);
    done(begin_by(marked(0), 4));
    for (uint8_t f = 1; f <= 16; f++) {
        done(open_by(s, 4, f));
        done(write_by(s, 4, f, 0, f));
    }
    keep();
}

static void full_record(void) {
    const vol_session s = marked(8);
    for (uint8_t page = 1; page <= 46; page++) done(write_by(s, 4, 1, page, 0));
    stores_nothing("write, refused", write_by(s, 4, 1, 47, 40), VOL_REFUSED, 12);
    stores_nothing("look, an open record of 62", look_at(1, 46), VOL_SECTOR, 6 + 46);
    stores_nothing("spare, an open record of 62", spare_of(1), VOL_COUNT, 120);
    decide(s, 4);
    stores_nothing("look, the last of 62 decided", look_at(1, 46), VOL_SECTOR, 6 + 120 + 46);
    stores_nothing("look, 62 decided without the page", look_at(1, 47), VOL_SECTOR, 6 + 47);
    back();
}

static const struct store none = {0, NULL}, is_idle = {4, idle}, is_open = {4, opened}, is_held = {LAST_HEADER, held};

// The volume is as kept; client 4's transaction was interrupted. Each header is stored by this name.
static void recover_all(const char *begin, const char *open, const char *open_read, const char *header) {
    const vol_session s = marked(1);
    over_all(begin, begin_by(marked(0), 4), none, header, is_idle, is_open);
    back();
    done(begin_by(marked(0), 1));
    over_all(open, open_by(s, 1, 16), none, header, is_idle, is_held);
    back();
    done(begin_by(marked(0), 1));
    over_all(open_read, open_read_by(s, 1, 16), none, header, is_idle, none);
    back();
}

static void large(void) {
    const vol_session s = marked(8);
    sixteen_files();
    full_record();
    over_all("commit of 16 files", commit_by(s, 4), (struct store){4, decided}, redone, is_idle, none);
    back();
    over_all("abort of 16 files", abort_by(s, 4), none, freed, is_idle, none);
    back();
    recover_all("begin, undoing 16 files", "open, undoing 16 files", "open_read, undoing 16 files", freed);
    decide(s, 4);
    keep();
    recover_all("begin, redoing 16 files", "open, redoing 16 files", "open_read, redoing 16 files", redone);
}

// With a second word, small, the large volume is left out.
int main(int count, char **words) {
    set_up(count, words);
    e2();
    no_stores();
    refused();
    refused_to_another();
    looks();
    looks_refused();
    spares();
    spares_of_damaged();
    commit_and_abort();
    recover_open_record();
    recover_decided_record();
    readers();
    readers_end();
    reader_writes();
    reader_recovers();
    if (count < 3) large();
    sum_up();
    return failed;
}
