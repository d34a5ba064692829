// The library with a mistake that no reply and no byte shows after any call: the call is made on a copy, and the volume
// is then brought up to the copy in a wrong way. -DWRONG=n chooses it; a trace of the writes shows 1 to 6, 9 and
// 10, and single steps show 7 and 8:
//   1 commit stores its sectors in falling order
//   2 commit stores its record once, idle, and never decided
//   3 begin stores its record once, open, and never idle after a recovery
//   4 commit writes the front of every sector before the rest of them
//   5 commit writes over the border of a sector
//   6 a refused commit writes a byte as it was
//   7 commit writes its record as idle for a moment, before it is decided
//   8 open_read names its client in the file's header for a moment
//   9 look writes a byte as it was
//  10 spare puts the count in the file's header, where it is
#include <string.h>

#include "../../include/volume.h"

enum { LENGTH = 2816, SECTORS = 11 };

static uint8_t copy[LENGTH];

vol_reply __real_vol_begin(uint8_t *volume, size_t len, vol_session session, uint8_t client, uint8_t budget);
vol_reply __real_vol_commit(uint8_t *volume, size_t len, vol_session session, uint8_t client, uint8_t budget);
vol_reply __real_vol_open_read(uint8_t *volume, size_t len, vol_session session, uint8_t client, uint8_t file,
                               uint8_t budget);
vol_answer __real_vol_look(const uint8_t *volume, size_t len, uint8_t file, uint8_t page);
vol_answer __real_vol_spare(const uint8_t *volume, size_t len, uint8_t file);

// The header of the file.
static int header_of(uint8_t file) {
    return file == 1 ? 3 : 7;
}

static void bring(uint8_t *volume, int from, int bytes) {
    if (memcmp(volume + from, copy + from, (size_t)bytes) != 0) memcpy(volume + from, copy + from, (size_t)bytes);
}

static void bring_all(uint8_t *volume, vol_reply reply) {
    if (WRONG == 6 && reply.kind == VOL_REFUSED) memcpy(volume, copy, 1);
    for (int s = 0; s < SECTORS && WRONG == 4; s++) bring(volume, 256 * s, 4);
    for (int s = 0; s < SECTORS; s++) bring(volume, 256 * (WRONG == 1 ? SECTORS - 1 - s : s), 256);
}

// Another byte 2 of the sector, for a moment: the state of a record, the holder in a header.
static void glance(volatile uint8_t *volume, int sector, uint8_t byte) {
    uint8_t old = volume[256 * sector + 2];
    volume[256 * sector + 2] = byte;
    volume[256 * sector + 2] = old;
}

vol_reply __wrap_vol_commit(uint8_t *volume, size_t len, vol_session session, uint8_t client, uint8_t budget) {
    int accepted = vol_is_sound(volume, len) && session.active >> (client - 1) & 1;
    if (WRONG == 7 && budget > 0 && accepted) glance(volume, client, 0);
    if (WRONG == 3 || WRONG > 6 || len != LENGTH) return __real_vol_commit(volume, len, session, client, budget);
    if (WRONG == 5) memcpy(volume + 255, (uint16_t[]){(uint16_t)(volume[255] + 256 * volume[256])}, 2);
    memcpy(copy, volume, len);
    vol_reply reply = __real_vol_commit(copy, len, session, client, budget);
    bring_all(volume, reply);
    return reply;
}

vol_reply __wrap_vol_begin(uint8_t *volume, size_t len, vol_session session, uint8_t client, uint8_t budget) {
    if (WRONG != 3 || len != LENGTH) return __real_vol_begin(volume, len, session, client, budget);
    memcpy(copy, volume, len);
    vol_reply reply = __real_vol_begin(copy, len, session, client, budget);
    // Headers first, the record last, as a recovery does.
    for (int s = 3; s < SECTORS; s++) bring(volume, 256 * s, 256);
    for (int s = 0; s < 3; s++) bring(volume, 256 * s, 256);
    return reply;
}

vol_reply __wrap_vol_open_read(uint8_t *volume, size_t len, vol_session session, uint8_t client, uint8_t file,
                               uint8_t budget) {
    vol_reply reply = __real_vol_open_read(volume, len, session, client, file, budget);
    if (WRONG == 8 && len == LENGTH && reply.kind == VOL_DONE) glance(volume, header_of(file), client);
    return reply;
}

vol_answer __wrap_vol_look(const uint8_t *volume, size_t len, uint8_t file, uint8_t page) {
    vol_answer answer = __real_vol_look(volume, len, file, page);
    if (WRONG == 9 && len == LENGTH && answer.kind == VOL_SECTOR) *(volatile uint8_t *)volume = volume[0];
    return answer;
}

vol_answer __wrap_vol_spare(const uint8_t *volume, size_t len, uint8_t file) {
    vol_answer answer = __real_vol_spare(volume, len, file);
    volatile uint8_t *count = (volatile uint8_t *)volume + 256 * header_of(file) + 3;
    if (WRONG == 10 && len == LENGTH && answer.kind == VOL_COUNT) *count = (uint8_t)answer.number;
    return answer;
}
