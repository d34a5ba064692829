// The calls of order.c and what they store, played in one of two ways: order_play.c for a tracer of writes,
// order_step.c in single steps.
#ifndef ORDER_H
#define ORDER_H

#include <stddef.h>
#include <stdint.h>

#include "../../include/volume.h"

// The room has whole memory pages.
enum { LENGTH = 77312, ROOM = 77824, MOST_STORES = 18 };

enum what { BEGIN, OPEN, OPEN_READ, WRITE, COMMIT, ABORT, READ, LOOK, SPARE, FORMAT, IS_SOUND, LIST };

struct call {
    enum what what;
    // The session given, and the one handed back if the call is done.
    vol_session session, next;
    uint8_t client, file, page;
    // The byte that fills a page to be written, and its length; the clients of a format, and the volume's length.
    uint8_t fill;
    size_t count;
};

struct store {
    int sector;
    const char *name;
};

extern uint8_t volume[ROOM];
// The bytes of the volume that are lent.
extern size_t length;
extern int failed;

// The session that marks these clients, bit k - 1 for client k, and has no reading hold.
vol_session marked(uint8_t active);

// The session with the client's reading hold of the file too.
vol_session reading(vol_session session, uint8_t client, uint8_t file);

// The calls of a client. The file of open_read_by is one that it doesn't hold for writing.
struct call begin_by(vol_session session, uint8_t client);
struct call open_by(vol_session session, uint8_t client, uint8_t file);
struct call open_read_by(vol_session session, uint8_t client, uint8_t file);
struct call write_by(vol_session session, uint8_t client, uint8_t file, uint8_t page, uint8_t fill);
struct call commit_by(vol_session session, uint8_t client);
struct call abort_by(vol_session session, uint8_t client);
struct call read_by(vol_session session, uint8_t client, uint8_t file, uint8_t page);

// A look and a spare, which no client makes.
struct call look_at(uint8_t file, uint8_t page);
struct call spare_of(uint8_t file);

// Makes the call. For one that hands back no session it is the one given; a test answers its number as a reply does.
vol_reply make(struct call call, uint8_t budget);

// Whether the call's reply is of this kind and number, with the session that goes with the kind.
int is_reply(vol_reply reply, struct call call, unsigned kind, unsigned number);

// Before the first call; the words are the program's.
void set_up(int count, char **words);

// The call stores what is listed: with budget n the first n of them. The volume is as the whole call leaves it.
void stores(const char *name, struct call call, const struct store *list, int count);

// The call answers this kind and number, with any budget, and writes nothing.
void stores_nothing(const char *name, struct call call, unsigned kind, unsigned number);

// After the last call.
void sum_up(void);

#endif
