// A crash-safe transactional volume in one lent byte array. No call allocates or keeps anything; tests/stack measures
// that each takes at most 1,024 bytes of stack on x86-64.
//
// A slice is a pointer and a count of bytes. The slices of one call must not overlap.
//
// A session says which clients (1 to 4) have a transaction running, and which files each of them holds for reading. A
// volume has one session for all its clients. All zero is a new session: start with one, give each call the session of
// the last reply, and start with a new one again after a crash. Don't make sessions up, and don't go back to an older
// one: it has forgotten the holds noted since. One that doesn't fit the volume is refused by 2, or by 1 if the array
// isn't a sound volume; so is one with a bit of `active` above the fourth. vol_look and vol_spare take no
// session.
//
// A call that takes a session and a budget hands back a reply; vol_format, vol_read, vol_look and vol_spare an answer,
// without a session:
//   VOL_DONE: number is the count of stores; the session is the one for the next call.
//   VOL_CUT: the budget ran out; number is the count of stores made, all of them whole; the session is a new one: the
//     transactions and holds of all clients are over.
//   VOL_REFUSED: number is the refusal; nothing was stored; the session is the one given.
//   VOL_SECTOR (vol_read and vol_look only): number is the sector.
//   VOL_COUNT (vol_spare only): number is the count of sectors.
// A budget is the number of sector stores that a call may make; 255 is always enough.
#ifndef VOLUME_H
#define VOLUME_H

#include <stddef.h>
#include <stdint.h>

#ifdef __cplusplus
extern "C" {
#endif

typedef struct {
    uint8_t active;       // bit k - 1: client k has a transaction running
    uint16_t reading[4];  // bit f - 1 of reading[k - 1]: client k holds file f for reading
} vol_session;

// The reply of a call that takes a session and a budget.
typedef struct {
    vol_session session;
    uint8_t kind;
    uint16_t number;
} vol_reply;

// The answer of a call that hands back no session.
typedef struct {
    uint8_t kind;
    uint16_t number;
} vol_answer;

// The library was built for these places and sizes: with another layout of structs this line doesn't compile.
typedef char vol_layout[sizeof(vol_session) == 10 && offsetof(vol_session, active) == 0 &&
                                offsetof(vol_session, reading) == 2 && sizeof(vol_reply) == 14 &&
                                offsetof(vol_reply, session) == 0 && offsetof(vol_reply, kind) == 10 &&
                                offsetof(vol_reply, number) == 12 && sizeof(vol_answer) == 4 &&
                                offsetof(vol_answer, kind) == 0 && offsetof(vol_answer, number) == 2
                            ? 1
                            : -1];

// The kinds of a reply and of an answer.
enum { VOL_DONE = 0, VOL_CUT = 1, VOL_REFUSED = 2, VOL_SECTOR = 3, VOL_COUNT = 4 };

// The refusals: the number beside VOL_REFUSED. A call gives the lowest that applies; 16 is tested after 8 and before 9,
// and vol_spare tests 1 again after 6, for the header.
enum {
    VOL_NOT_SOUND = 1,           // the array is not a sound volume; for vol_spare: in what it tests
    VOL_BAD_SESSION = 2,         // the session doesn't fit the volume: a mark without a transaction there, or a
                                 // reading hold without a mark, of no file, or of a file that has a holder
    VOL_NO_CLIENT = 3,           // there is no such client
    VOL_ALREADY_ACTIVE = 4,      // the client has a transaction running already
    VOL_NOT_ACTIVE = 5,          // the client has no transaction running
    VOL_NO_FILE = 6,             // there is no such file
    VOL_FILE_IN_USE = 7,         // another client's running transaction holds the file for writing; or for reading, and
                                 // this one is to write it
    VOL_NOT_HELD = 8,            // the client holds the file neither for writing nor for reading
    VOL_NO_PAGE = 9,             // the file has no such page
    VOL_BAD_PAGE_LENGTH = 10,    // a page takes 256 bytes, no more and no fewer
    VOL_NO_FREE_SLOT = 11,       // no sector of the file is left for a new page: the transaction has written as many
                                 // pages of it as vol_spare answers
    VOL_RECORD_FULL = 12,        // the client's record is full (62 pages)
    VOL_BAD_VOLUME_LENGTH = 13,  // the length is not 256 * N, N at most 1,024
    VOL_BAD_SHAPE = 14,          // the number of clients or the shape is out of range
    VOL_TOO_FEW_SECTORS = 15,    // the files need more sectors than there are
    VOL_READ_ONLY = 16           // the client holds the file for reading only
};

// The bytes of a sector, and so of a page.
#define VOL_SECTOR_SIZE 256

// The bytes that any listing fits in.
#define VOL_LIST_ROOM 664

// Formats the array for `clients` clients (1 to 4) and 1 to 16 files. The next call takes a new session.
// `shape` has two bytes for each file: its pages (1 to 120), then the sectors for them (its pages to 240).
// Answer: done with number 0, or refused.
// Refused by 13, 14, 15; the array is then as it was. A crash during format isn't covered: format again.
vol_answer vol_format(uint8_t *volume, size_t len, uint8_t clients, const uint8_t *shape, size_t shape_len);

// Whether the array, of any length and content, is a sound volume: 1 or 0.
// It reads the control sectors only, so it can't tell whether a page was changed from outside.
uint64_t vol_is_sound(const uint8_t *volume, size_t len);

// Starts a transaction of the client.
// If a crash interrupted the client's last transaction, that is recovered first: kept if it was decided, else dropped.
// Reply: done with the session that marks the client; cut; or refused.
// Refused by 1, 2, 3, 4.
vol_reply vol_begin(uint8_t *volume, size_t len, vol_session session, uint8_t client, uint8_t budget);

// Gives the file (1 to the number of files) to the client for reading and writing, until it commits or aborts.
// It must be nobody else's: 7 if another client's running transaction holds the file for writing or for reading.
// If a crash interrupted the holder's transaction, that is recovered first, in all its files.
// A file that the client alone holds for reading it holds for writing from then on, and no longer for reading.
// Reply: done, with one store after the recovery's, or none if the client holds the file for writing already; cut; or
// refused.
// Refused by 1, 2, 3, 5, 6, 7.
vol_reply vol_open(uint8_t *volume, size_t len, vol_session session, uint8_t client, uint8_t file, uint8_t budget);

// Gives the file to the client for reading only, until it commits or aborts, or opens the file by vol_open.
// Any number of clients may hold a file so at the same time: 7 only if another client's running transaction holds it
// for writing. While they do, no page of it changes.
// The hold is noted in the session and takes no store. If a crash interrupted the holder's transaction, that is
// recovered first, in all its files; these are the only stores. A file that the client holds already, either way, stays
// as it is.
// Reply: done with the session that has the hold, or the session given if the client holds the file already; cut; or
// refused.
// Refused by 1, 2, 3, 5, 6, 7.
vol_reply vol_open_read(uint8_t *volume, size_t len, vol_session session, uint8_t client, uint8_t file,
                        uint8_t budget);

// Finds the page (from 0) of a file that the client holds, either way, with the client's own writes. It stores nothing.
// Answer: sector, and the page's 256 bytes are at volume + 256 * number until the next call that stores; or refused.
// Go on with the session given.
// Refused by 1, 2, 3, 5, 6, 8, 9.
vol_answer vol_read(const uint8_t *volume, size_t len, vol_session session, uint8_t client, uint8_t file, uint8_t page);

// Finds the page (from 0) of a file for one that only looks, such as a display. It takes no session, holds nothing and
// stores nothing: it makes no client wait, and no client makes it wait.
// The page is that of the decided content: a running transaction isn't seen, nor is one whose commit was cut with
// number 0; one whose commit was cut with 1 or more is seen whole, before any call has recovered it.
// Looks with no store between them show one content: of each transaction all pages or none. Across a store nothing is
// promised: look at all pages that belong together, and copy what is to be shown, before the next call that stores.
// Answer: sector, and the page's 256 bytes are at volume + 256 * number until the next call that stores; or refused.
// Refused by 1, 6, 9.
vol_answer vol_look(const uint8_t *volume, size_t len, uint8_t file, uint8_t page);

// Tells how many sectors of a file are left: those that its map doesn't use, so that no page is in them. It takes no
// session, holds nothing and stores nothing.
// Ask it before a long load: a transaction can write so many different pages of the file, and one more is refused by
// 11. Of all its files together it can write 62, the room of its record; then one more is refused by 12.
// The number doesn't fall while a transaction writes: its new pages are in sectors that count as left until its commit
// has been carried out, and then those of the old pages count instead.
// It is byte 3 of the file's header. Before it is answered, the array's length and sector 0 are tested (1), then the
// file (6), then the header's mark (1), and nothing else: so this call is far cheaper than the others, and it still
// answers where a record, another header or the rest of this one is damaged. On a sound volume the number is right.
// A volume that was formatted before there was this count has 0 there. It isn't sound unless each of its files has as
// many sectors as pages: format it anew.
// Answer: count, or refused.
// Refused by 1, 6.
vol_answer vol_spare(const uint8_t *volume, size_t len, uint8_t file);

// Writes 256 bytes as the page of a file that the client holds for writing; others see them after the commit.
// The first write of a page in a transaction takes a free sector of the file: the first above the page's own, and after
// the file's last sector from its first again. Later ones go to the same sector.
// `bytes` must not lie in the volume: copy a page that was read before it is written elsewhere.
// Reply: done with 2 stores, or 1 for a page that this transaction wrote before; cut; or refused.
// Refused by 1, 2, 3, 5, 6, 8, 16, 9, 10, 11, 12, tested in this order.
vol_reply vol_write(uint8_t *volume, size_t len, vol_session session, uint8_t client, uint8_t file, uint8_t page,
                    const uint8_t *bytes, size_t bytes_len, uint8_t budget);

// Ends the client's transaction: its pages become the files' content, all of them or none. It gives its files back,
// those that it reads too.
// Reply: done with 2 stores and one for each file that it holds for writing, and the session that no longer marks the
// client; cut; or refused.
// Cut with number 0, nothing is kept; cut with 1 or more, everything is: the client's next begin, or an open of one of
// its files, for writing or for reading, does the rest.
// Refused by 1, 2, 3, 5.
vol_reply vol_commit(uint8_t *volume, size_t len, vol_session session, uint8_t client, uint8_t budget);

// Ends the client's transaction: its pages are dropped, and it gives its files back, those that it reads too.
// Reply: done with 1 store and one for each file that it holds for writing, and the session that no longer marks the
// client; cut; or refused.
// Cut, the pages are dropped as well: the client's next begin, or an open of one of its files, does the rest.
// Refused by 1, 2, 3, 5.
vol_reply vol_abort(uint8_t *volume, size_t len, vol_session session, uint8_t client, uint8_t budget);

// Writes the listing of the volume, ASCII text without a zero byte at its end, to the front of `out`.
// The rest of `out` is as it was; `out` must not lie in the volume.
// The length of the text; 0, with nothing written, if `out` has fewer than VOL_LIST_ROOM bytes or the array is not a
// sound volume.
uint64_t vol_list(const uint8_t *volume, size_t len, uint8_t *out, size_t out_len);

#ifdef __cplusplus
}
#endif

#endif
