/* A plain stand-in for the C library, to try the test driver with.
 *
 * It keeps the rules. With MISSTEP=n in the environment it makes the n-th
 * mistake, which the driver must find:
 *   1 recovery makes the record idle before the headers
 *   2 open recovers only the opened file and idles the record
 *   3 a decided list is redone on files that no longer name the client
 *   4 a free real is chosen by the map alone
 *   5 commit handles only the first held file
 *   6 refusal 12 goes before refusal 11
 *   7 a call is cut one store early
 *   8 the soundness test misses a (file, real) given twice
 *   9 one byte behind the volume is read
 *  10 a cut keeps the session
 *  11 one byte behind the data is read
 *  12 the third condition of refusal 2 is missing
 *  13 open stores the map from before the recovery
 *  14 the last byte of a header isn't tested
 *  15 one byte before the volume is read
 *  16 the lowest free real is chosen
 *  17 the search for a free real begins two above the page's
 *  18 the search doesn't go round
 *  19 the search begins above page 0's real
 *  20 the search begins above the next page's real
 *  21 commit keeps the client's reading holds
 *  22 abort keeps the client's reading holds
 *  23 a cut keeps the reading holds
 *  24 open is done beside a reader
 *  25 open_read is done beside an active writer
 *  26 open_read leaves out the recovery
 *  27 refusal 16 is tested after 9
 *  28 open keeps the client's own reading hold
 *  29 refusal 2 misses a reading hold of a file that is held
 *  30 refusal 2 misses a reading hold of a client that isn't marked
 *  31 refusal 2 misses a reading hold of a file above the last
 *  32 open_read notes a hold beside the client's own writing hold
 *  33 open_read stores the header
 *  34 commit ends all clients' reading holds
 *  35 write is refused by 8 in place of 16
 *  36 a refusal drops the reading holds
 *  37 open is refused by 7 because of the client's own reading hold
 *  38 open_read recovers only the opened file and idles the record
 *  39 open_read is refused by 7 beside another reader
 *  40 a reader may write
 *  41 read is refused by 8 for a reader
 *  42 a second open_read ends the hold
 *  43 open ends all reading holds of the client
 *  44 a reader may open the file beside another reader
 *  45 a session with a bit that is no mark is taken
 *  46 refusal 2 misses the reading holds of client 4
 *  47 open is done beside a reader of file 16
 *  48 begin ends all reading holds
 *  49 open_read notes no hold after a recovery
 *  50 open_read without a store is cut at budget 0
 *  51 look goes by the map alone
 *  52 look goes by the entries of an open record
 *  53 look goes by the entries of a decided record whose client the header doesn't name
 *  54 look is refused by 7 while a client's record is open
 *  55 look tests the page before the file
 *  56 look takes the page's entry of any file
 *  57 look makes the stores of the recovery
 *  58 look stores the header of the file
 *  59 look tests the file before the soundness
 *  60 look misses the last entry of a full record
 *  61 format leaves byte 3 of the headers 00
 *  62 the soundness test misses byte 3 of a header
 *  63 recovery takes the entries of the record off byte 3
 *  64 spare answers R
 *  65 spare answers how many reals the map uses
 *  66 spare counts from the map
 *  67 spare falls while a transaction writes
 *  68 spare goes by the next file's header
 *  69 spare tests the whole volume
 *  70 spare misses the header's mark
 *  71 spare misses the second byte of the header's mark
 *  72 spare tests the file before sector 0
 *  73 spare tests a header's mark before the file
 *  74 spare tests only that the array is long enough for N sectors
 *  75 spare passes over bytes behind the last sector
 *  76 spare puts byte 3 right
 *  77 a call never ends when the record is full
 */
#include <stdlib.h>
#include <string.h>

#include "../../../include/volume.h"

static int misstep(void)
{
	static int number = -1;
	const char *text = number < 0 ? getenv("MISSTEP") : NULL;
	if (number < 0)
		number = text ? atoi(text) : 0;
	return number;
}

#define MISSTEP misstep()

static vol_reply refused(vol_session session, unsigned number)
{
	if (MISSTEP == 36)
		memset(session.reading, 0, sizeof session.reading);
	return (vol_reply){session, VOL_REFUSED, number};
}

static vol_answer answer(unsigned kind, unsigned number) { return (vol_answer){kind, number}; }

static int marked(vol_session session, int client) { return session.active >> (client - 1) & 1; }

static int reads(vol_session session, int client, int file) { return session.reading[client - 1] >> (file - 1) & 1; }

static unsigned word(const uint8_t *at) { return at[0] + 256u * at[1]; }

static int zero(const uint8_t *at, int from, int to)
{
	for (int i = from; i < to; i++)
		if (at[i])
			return 0;
	return 1;
}

static const uint8_t *entry_of(const uint8_t *volume, int file) { return volume + 4 + 4 * file; }
static unsigned header_of(const uint8_t *volume, int file) { return word(entry_of(volume, file)); }
static int holder_of(const uint8_t *volume, int file) { return volume[256 * (size_t)header_of(volume, file) + 2]; }

/* The length and sector 0. */
static int table_is_sound(const uint8_t *volume, size_t len)
{
	if (len == 0 || len % 256 || len / 256 > 1024)
		return 0;
	const uint8_t *z = volume;
	if (z[0] != 0x4B || z[1] != 0x56 || word(z + 2) != len / 256)
		return 0;
	int clients = z[4], files = z[5];
	if (clients < 1 || clients > 4 || files < 1 || files > 16 || z[6] || z[7])
		return 0;
	unsigned place = clients + 1;
	for (int f = 1; f <= files; f++) {
		const uint8_t *e = entry_of(volume, f);
		if (word(e) != place || e[2] < 1 || e[2] > 120 || e[3] < e[2] || e[3] > 240)
			return 0;
		place += 1 + e[3];
	}
	return place <= len / 256 && zero(z, 8 + 4 * files, 256);
}

/* How many of the file's reals its map uses: each is looked for in it. */
static int mapped(const uint8_t *volume, int file)
{
	const uint8_t *e = entry_of(volume, file), *map = volume + 256 * (size_t)word(e) + 8;
	int count = 0;
	for (int real = 0; real < e[3]; real++)
		count += memchr(map, real, e[2]) != NULL;
	return count;
}

static int unmapped(const uint8_t *volume, int file) { return entry_of(volume, file)[3] - mapped(volume, file); }

uint64_t vol_is_sound(const uint8_t *volume, size_t len)
{
	if (MISSTEP == 9 && len && volume[len] == 77)
		return 0;
	if (MISSTEP == 15 && len && *(volume - 1) == 77)
		return 0;
	if (!table_is_sound(volume, len))
		return 0;
	int clients = volume[4], files = volume[5];
	for (int k = 1; k <= clients; k++) {
		const uint8_t *r = volume + 256 * k;
		int count = r[3];
		if (r[0] != 0x4B || r[1] != 0x49 || r[2] > 2 || count > 62 || !zero(r, 4, 8))
			return 0;
		if ((r[2] == 0 && count) || !zero(r, 8 + 4 * count, 256))
			return 0;
		for (int i = 0; i < count; i++) {
			const uint8_t *e = r + 8 + 4 * i;
			if (e[0] < 1 || e[0] > files || e[3])
				return 0;
			const uint8_t *file = entry_of(volume, e[0]);
			if (e[1] >= file[2] || e[2] >= file[3])
				return 0;
			for (int j = 0; j < i; j++) {
				const uint8_t *o = r + 8 + 4 * j;
				if (o[0] == e[0] && (o[1] == e[1] || (o[2] == e[2] && MISSTEP != 8)))
					return 0;
			}
		}
	}
	for (int f = 1; f <= files; f++) {
		const uint8_t *e = entry_of(volume, f);
		const uint8_t *h = volume + 256 * (size_t)word(e);
		int last = MISSTEP == 14 ? 255 : 256;
		if (h[0] != 0x4B || h[1] != 0x46 || h[2] > clients || !zero(h, 4, 8) || !zero(h, 8 + e[2], last))
			return 0;
		if (h[3] != unmapped(volume, f) && MISSTEP != 62)
			return 0;
		char used[256] = {0};
		for (int p = 0; p < e[2]; p++) {
			if (h[8 + p] >= e[3] || used[h[8 + p]])
				return 0;
			used[h[8 + p]] = 1;
		}
		if (h[2]) {
			const uint8_t *r = volume + 256 * h[2];
			if (r[2] == 0)
				return 0;
			for (int i = 0; i < r[3]; i++)
				if (r[8 + 4 * i] == f && used[r[8 + 4 * i + 2]])
					return 0;
		}
	}
	return 1;
}

static int marks_fit(const uint8_t *volume, vol_session session)
{
	for (int k = 1; k <= 4; k++) {
		if (!marked(session, k))
			continue;
		const uint8_t *r = volume + 256 * k;
		if (k > volume[4] || r[2] != 1)
			return 0;
		for (int i = 0; i < r[3] && MISSTEP != 12; i++)
			if (holder_of(volume, r[8 + 4 * i]) != k)
				return 0;
	}
	return session.active < 16 || MISSTEP == 45;
}

static int hold_fits(const uint8_t *volume, vol_session session, int client, int file)
{
	if (!marked(session, client) && MISSTEP != 30)
		return 0;
	if (file > volume[5])
		return MISSTEP == 31;
	return holder_of(volume, file) == 0 || MISSTEP == 29;
}

static int holds_fit(const uint8_t *volume, vol_session session)
{
	int clients = MISSTEP == 46 ? 3 : 4;
	for (int k = 1; k <= clients; k++)
		for (int f = 1; f <= 16; f++)
			if (reads(session, k, f) && !hold_fits(volume, session, k, f))
				return 0;
	return 1;
}

/* Refusals 1 to 5; 0 if none applies. */
static unsigned early(const uint8_t *volume, size_t len, vol_session session, uint8_t client, int begin)
{
	if (!vol_is_sound(volume, len))
		return 1;
	if (!marks_fit(volume, session) || !holds_fit(volume, session))
		return 2;
	if (client < 1 || client > volume[4])
		return 3;
	if (begin)
		return marked(session, client) ? 4 : 0;
	return marked(session, client) ? 0 : 5;
}

/* Refusals 1 to 6. */
static unsigned early_with_file(const uint8_t *volume, size_t len, vol_session session, uint8_t client, uint8_t file)
{
	unsigned no = early(volume, len, session, client, 0);
	return no ? no : file < 1 || file > volume[5] ? 6 : 0;
}

struct supply {
	uint8_t *volume;
	unsigned budget, made;
	int cut;
};

static void store(struct supply *s, unsigned sector, const uint8_t *bytes)
{
	if (s->cut || s->made + (MISSTEP == 7 && s->budget == 3) >= s->budget) {
		s->cut = 1;
		return;
	}
	memmove(s->volume + 256 * (size_t)sector, bytes, 256);
	s->made++;
}

static void store_record(struct supply *s, int client, int state)
{
	uint8_t work[256] = {0x4B, 0x49, state};
	store(s, client, work);
}

static void recover_file(struct supply *s, int client, int file, int state)
{
	uint8_t work[256];
	const uint8_t *r = s->volume + 256 * client;
	unsigned header = header_of(s->volume, file);
	memcpy(work, s->volume + 256 * (size_t)header, 256);
	if (work[2] == client)
		work[2] = 0;
	if (state == 2)
		for (int i = 0; i < r[3]; i++)
			if (r[8 + 4 * i] == file)
				work[8 + r[8 + 4 * i + 1]] = r[8 + 4 * i + 2];
	if (MISSTEP == 63)
		work[3] -= r[3];
	store(s, header, work);
}

static int has_entry(const uint8_t *r, int file)
{
	for (int i = 0; i < r[3]; i++)
		if (r[8 + 4 * i] == file)
			return 1;
	return 0;
}

static void recover(struct supply *s, int client, int only, int first)
{
	uint8_t *v = s->volume;
	int state = v[256 * client + 2];
	if (MISSTEP == 1)
		store_record(s, client, 0);
	for (int f = 1; f <= v[5]; f++) {
		int named = holder_of(v, f) == client;
		if (MISSTEP == 3 && state == 2)
			named |= has_entry(v + 256 * client, f);
		if (!named || (only && f != only))
			continue;
		recover_file(s, client, f, state);
		if (first)
			break;
	}
	if (MISSTEP != 1)
		store_record(s, client, 0);
}

static vol_reply finish(struct supply *s, vol_session given, vol_session after)
{
	vol_session new = {0};
	if (!s->cut)
		return (vol_reply){after, VOL_DONE, s->made};
	if (MISSTEP == 10)
		new = given;
	if (MISSTEP == 23)
		memcpy(new.reading, given.reading, sizeof new.reading);
	return (vol_reply){new, VOL_CUT, s->made};
}

vol_answer vol_format(uint8_t *volume, size_t len, uint8_t clients, const uint8_t *shape, size_t shape_len)
{
	if (len % 256 || len / 256 > 1024)
		return answer(VOL_REFUSED, 13);
	if (clients < 1 || clients > 4 || shape_len % 2 || shape_len < 2 || shape_len > 32)
		return answer(VOL_REFUSED, 14);
	size_t needed = 1 + clients;
	for (size_t i = 0; i < shape_len; i += 2) {
		if (shape[i] < 1 || shape[i] > 120 || shape[i + 1] < shape[i] || shape[i + 1] > 240)
			return answer(VOL_REFUSED, 14);
		needed += 1 + shape[i + 1];
	}
	if (needed > len / 256)
		return answer(VOL_REFUSED, 15);
	memset(volume, 0, len);
	uint8_t front[6] = {0x4B, 0x56, len / 256 % 256, len / 65536, clients, shape_len / 2};
	memcpy(volume, front, 6);
	for (int k = 1; k <= clients; k++)
		memcpy(volume + 256 * k, "KI", 2);
	unsigned place = clients + 1;
	for (size_t i = 0; i < shape_len; i += 2) {
		uint8_t entry[4] = {place % 256, place / 256, shape[i], shape[i + 1]};
		memcpy(volume + 8 + 2 * i, entry, 4);
		uint8_t *h = volume + 256 * (size_t)place;
		memcpy(h, "KF", 2);
		h[3] = MISSTEP == 61 ? 0 : shape[i + 1] - shape[i];
		for (int p = 0; p < shape[i]; p++)
			h[8 + p] = p;
		place += 1 + shape[i + 1];
	}
	return answer(VOL_DONE, 0);
}

vol_reply vol_begin(uint8_t *volume, size_t len, vol_session session, uint8_t client, uint8_t budget)
{
	unsigned no = early(volume, len, session, client, 1);
	if (no)
		return refused(session, no);
	struct supply s = {volume, budget, 0, 0};
	if (volume[256 * client + 2])
		recover(&s, client, 0, 0);
	store_record(&s, client, 1);
	vol_session after = session;
	after.active |= 1 << (client - 1);
	if (MISSTEP == 48)
		memset(after.reading, 0, sizeof after.reading);
	return finish(&s, session, after);
}

static vol_session without(vol_session session, int client, int keeps_holds)
{
	session.active &= ~(1 << (client - 1));
	if (!keeps_holds)
		session.reading[client - 1] = 0;
	return session;
}

vol_reply vol_commit(uint8_t *volume, size_t len, vol_session session, uint8_t client, uint8_t budget)
{
	unsigned no = early(volume, len, session, client, 0);
	if (no)
		return refused(session, no);
	struct supply s = {volume, budget, 0, 0};
	uint8_t work[256];
	memcpy(work, volume + 256 * client, 256);
	work[2] = 2;
	store(&s, client, work);
	recover(&s, client, 0, MISSTEP == 5);
	vol_session after = without(session, client, MISSTEP == 21);
	if (MISSTEP == 34)
		memset(after.reading, 0, sizeof after.reading);
	return finish(&s, session, after);
}

vol_reply vol_abort(uint8_t *volume, size_t len, vol_session session, uint8_t client, uint8_t budget)
{
	unsigned no = early(volume, len, session, client, 0);
	if (no)
		return refused(session, no);
	struct supply s = {volume, budget, 0, 0};
	recover(&s, client, 0, 0);
	return finish(&s, session, without(session, client, MISSTEP == 22));
}

/* Whether another client's running transaction holds the file for writing. */
static int written_elsewhere(const uint8_t *volume, vol_session session, int client, int file)
{
	int holder = holder_of(volume, file);
	return holder && holder != client && marked(session, holder);
}

static int read_elsewhere(vol_session session, int client, int file)
{
	for (int k = 1; k <= 4; k++)
		if (k != client && reads(session, k, file))
			return 1;
	return 0;
}

/* Whether readers keep the client from opening the file for writing. */
static int readers_forbid(vol_session session, int client, int file)
{
	if (MISSTEP == 24 || (MISSTEP == 47 && file == 16) || (MISSTEP == 44 && reads(session, client, file)))
		return 0;
	return read_elsewhere(session, client, file) || (MISSTEP == 37 && reads(session, client, file));
}

static vol_session opened(vol_session session, int client, int file)
{
	if (MISSTEP == 43)
		session.reading[client - 1] = 0;
	if (MISSTEP != 28)
		session.reading[client - 1] &= ~(1 << (file - 1));
	return session;
}

vol_reply vol_open(uint8_t *volume, size_t len, vol_session session, uint8_t client, uint8_t file, uint8_t budget)
{
	unsigned no = early_with_file(volume, len, session, client, file);
	if (!no && (written_elsewhere(volume, session, client, file) || readers_forbid(session, client, file)))
		no = 7;
	if (no)
		return refused(session, no);
	unsigned header = header_of(volume, file);
	int holder = holder_of(volume, file);
	struct supply s = {volume, budget, 0, 0};
	if (holder != client) {
		uint8_t work[256];
		memcpy(work, volume + 256 * (size_t)header, 256);
		if (holder)
			recover(&s, holder, MISSTEP == 2 ? file : 0, 0);
		if (MISSTEP != 13)
			memcpy(work, volume + 256 * (size_t)header, 256);
		work[2] = client;
		store(&s, header, work);
	}
	return finish(&s, session, opened(session, client, file));
}

/* The stores of open_read. */
static void free_for_reading(struct supply *s, int client, int file)
{
	int holder = holder_of(s->volume, file);
	if (holder == client)
		return;
	if (holder && MISSTEP != 26)
		recover(s, holder, MISSTEP == 38 ? file : 0, 0);
	if (MISSTEP == 33) {
		uint8_t work[256];
		memcpy(work, s->volume + 256 * (size_t)header_of(s->volume, file), 256);
		work[2] = client;
		store(s, header_of(s->volume, file), work);
	}
	if (MISSTEP == 50 && s->budget == 0)
		s->cut = 1;
}

static vol_session opened_for_reading(vol_session session, int holder, int client, int file)
{
	uint16_t bit = 1 << (file - 1);
	if ((holder == client && MISSTEP != 32) || (holder != 0 && MISSTEP == 49))
		return session;
	if (MISSTEP == 42)
		session.reading[client - 1] ^= bit;
	else
		session.reading[client - 1] |= bit;
	return session;
}

vol_reply vol_open_read(uint8_t *volume, size_t len, vol_session session, uint8_t client, uint8_t file, uint8_t budget)
{
	unsigned no = early_with_file(volume, len, session, client, file);
	int written = !no && written_elsewhere(volume, session, client, file);
	if ((written && MISSTEP != 25) || (!no && MISSTEP == 39 && read_elsewhere(session, client, file)))
		no = 7;
	if (no)
		return refused(session, no);
	int holder = holder_of(volume, file);
	struct supply s = {volume, budget, 0, 0};
	if (!written)
		free_for_reading(&s, client, file);
	return finish(&s, session, opened_for_reading(session, holder, client, file));
}

/* Refusals 1 to 9 of read, and of write with 16. */
static unsigned middle(const uint8_t *volume, size_t len, vol_session session, uint8_t client, uint8_t file,
		       uint8_t page, int write)
{
	unsigned no = early_with_file(volume, len, session, client, file);
	if (no)
		return no;
	int read_only = holder_of(volume, file) != client;
	if (read_only && (!reads(session, client, file) || MISSTEP == (write ? 35 : 41)))
		return 8;
	int no_page = page >= entry_of(volume, file)[2];
	if (MISSTEP == 27 && no_page)
		return 9;
	if (write && read_only && MISSTEP != 40)
		return 16;
	return no_page ? 9 : 0;
}

static int given(const uint8_t *r, uint8_t file, uint8_t page)
{
	for (int i = 0; i < r[3]; i++)
		if (r[8 + 4 * i] == file && r[8 + 4 * i + 1] == page)
			return r[8 + 4 * i + 2];
	return -1;
}

vol_answer vol_read(const uint8_t *volume, size_t len, vol_session session, uint8_t client, uint8_t file, uint8_t page)
{
	unsigned no = middle(volume, len, session, client, file, page, 0);
	if (no)
		return answer(VOL_REFUSED, no);
	unsigned header = header_of(volume, file);
	int real = given(volume + 256 * client, file, page);
	if (real < 0)
		real = volume[256 * (size_t)header + 8 + page];
	return answer(VOL_SECTOR, header + 1 + real);
}

/* Refusals 1, 6 and 9 of look. */
static unsigned look_refusal(const uint8_t *volume, size_t len, uint8_t file, uint8_t page)
{
	if (MISSTEP == 59 && len > 0 && (file < 1 || file > 16))
		return 6;
	if (!vol_is_sound(volume, len))
		return 1;
	for (int k = 1; k <= volume[4] && MISSTEP == 54; k++)
		if (volume[256 * k + 2] == 1)
			return 7;
	int no_file = file < 1 || file > volume[5];
	if (MISSTEP == 55 && no_file && page >= 120)
		return 9;
	return no_file ? 6 : page >= entry_of(volume, file)[2] ? 9 : 0;
}

/* The client by whose record a look goes, or 0. */
static int decider_of(const uint8_t *volume, int file)
{
	int holder = holder_of(volume, file);
	for (int k = 1; k <= volume[4] && MISSTEP == 53 && holder == 0; k++)
		if (volume[256 * k + 2] == 2 && has_entry(volume + 256 * k, file))
			return k;
	if (holder == 0 || MISSTEP == 51)
		return 0;
	int state = volume[256 * holder + 2];
	return state == 2 || (state == 1 && MISSTEP == 52) ? holder : 0;
}

/* The real that the record gives for the page to a look; -1 if it gives none. */
static int looked_up(const uint8_t *r, uint8_t file, uint8_t page)
{
	uint8_t shorter[256];
	memcpy(shorter, r, 256);
	if (MISSTEP == 60 && r[3] == 62)
		shorter[3]--;
	for (int i = 0; i < r[3] && MISSTEP == 56; i++)
		if (r[8 + 4 * i + 1] == page)
			return r[8 + 4 * i + 2];
	return given(shorter, file, page);
}

/* The stores that a look shouldn't make. */
static void stores_of_look(uint8_t *volume, int decider, int file)
{
	struct supply s = {volume, 255, 0, 0};
	if (MISSTEP == 57 && decider)
		recover(&s, decider, 0, 0);
	if (MISSTEP == 58 && decider)
		recover_file(&s, decider, file, 2);
}

vol_answer vol_look(const uint8_t *volume, size_t len, uint8_t file, uint8_t page)
{
	unsigned no = look_refusal(volume, len, file, page);
	if (no)
		return answer(VOL_REFUSED, no);
	unsigned header = header_of(volume, file);
	int decider = decider_of(volume, file);
	int real = decider ? looked_up(volume + 256 * decider, file, page) : -1;
	if (real < 0)
		real = volume[256 * (size_t)header + 8 + page];
	stores_of_look((uint8_t *)volume, decider, file);
	return answer(VOL_SECTOR, header + 1 + real);
}

/* Whether the question takes the length and sector 0. */
static int table_serves(const uint8_t *volume, size_t len)
{
	if (MISSTEP == 69)
		return vol_is_sound(volume, len);
	if (MISSTEP == 74 && len >= 256 && len / 256 > word(volume + 2))
		len = 256 * (size_t)word(volume + 2);
	if (MISSTEP == 75)
		len -= len % 256;
	return table_is_sound(volume, len);
}

static int has_mark(const uint8_t *header)
{
	return MISSTEP == 70 || (header[0] == 0x4B && (header[1] == 0x46 || MISSTEP == 71));
}

/* Refusal 1 for sector 0, 6, and 1 for the header. */
static unsigned spare_refusal(const uint8_t *volume, size_t len, uint8_t file)
{
	if (MISSTEP == 72 && len > 0 && (file < 1 || file > 16))
		return 6;
	if (!table_serves(volume, len))
		return 1;
	if (MISSTEP == 73 && !has_mark(volume + 256 * (size_t)header_of(volume, 1)))
		return 1;
	if (file < 1 || file > volume[5])
		return 6;
	return has_mark(volume + 256 * (size_t)header_of(volume, file)) ? 0 : 1;
}

/* How many entries an open record has for the file that its client holds. */
static int written(const uint8_t *volume, int file)
{
	int holder = holder_of(volume, file), count = 0;
	if (holder < 1 || holder > volume[4] || volume[256 * holder + 2] != 1)
		return 0;
	const uint8_t *r = volume + 256 * holder;
	for (int i = 0; i < r[3] && i < 62; i++)
		count += r[8 + 4 * i] == file;
	return count;
}

vol_answer vol_spare(const uint8_t *volume, size_t len, uint8_t file)
{
	unsigned no = spare_refusal(volume, len, file);
	if (no)
		return answer(VOL_REFUSED, no);
	int from = MISSTEP == 68 ? file % volume[5] + 1 : file;
	uint8_t count = volume[256 * (size_t)header_of(volume, from) + 3];
	switch (MISSTEP) {
	case 64:
		count = entry_of(volume, file)[3];
		break;
	case 65:
		count = mapped(volume, file);
		break;
	case 66:
		count = unmapped(volume, file);
		break;
	case 67:
		count -= written(volume, file);
		break;
	case 76:
		((uint8_t *)volume)[256 * (size_t)header_of(volume, file) + 3] = unmapped(volume, file);
		break;
	}
	return answer(VOL_COUNT, count);
}

/* Where the search for a free real begins. */
static int start_of(const uint8_t *map, int pages, int page)
{
	switch (MISSTEP) {
	case 16:
		return 0;
	case 17:
		return map[page] + 2;
	case 19:
		return map[0] + 1;
	case 20:
		return map[(page + 1) % pages] + 1;
	default:
		return map[page] + 1;
	}
}

/* The first real from the start on, round past the last, that isn't used; -1 if there is none. */
static int free_real(const char *used, int reals, int start)
{
	int tries = MISSTEP == 18 ? reals - start : reals;
	for (int i = 0; i < tries; i++)
		if (!used[(start + i) % reals])
			return (start + i) % reals;
	return -1;
}

vol_reply vol_write(uint8_t *volume, size_t len, vol_session session, uint8_t client, uint8_t file, uint8_t page,
		    const uint8_t *bytes, size_t bytes_len, uint8_t budget)
{
	unsigned no = middle(volume, len, session, client, file, page, 1);
	if (!no && bytes_len != 256)
		no = 10;
	if (no)
		return refused(session, no);
	unsigned header = header_of(volume, file);
	const uint8_t *h = volume + 256 * (size_t)header, *r = volume + 256 * client;
	const uint8_t *e = entry_of(volume, file);
	int real = given(r, file, page), fresh = real < 0;
	while (MISSTEP == 77 && fresh && r[3] == 62)
		__asm__ volatile("");
	if (fresh) {
		char used[256] = {0};
		for (int p = 0; p < e[2]; p++)
			used[h[8 + p]] = 1;
		for (int i = 0; i < r[3] && MISSTEP != 4; i++)
			if (r[8 + 4 * i] == file)
				used[r[8 + 4 * i + 2]] = 1;
		real = free_real(used, e[3], start_of(h + 8, e[2], page));
		if (MISSTEP == 6 && r[3] == 62)
			return refused(session, 12);
		if (real < 0)
			return refused(session, 11);
		if (r[3] == 62)
			return refused(session, 12);
	}
	struct supply s = {volume, budget, 0, 0};
	if (MISSTEP == 11 && bytes[256] == 77 && bytes[0] == 5)
		return (vol_reply){{0}, 0, 0};
	store(&s, header + 1 + real, bytes);
	if (fresh) {
		uint8_t work[256], entry[4] = {file, page, real, 0};
		memcpy(work, r, 256);
		memcpy(work + 8 + 4 * work[3], entry, 4);
		work[3]++;
		store(&s, client, work);
	}
	return finish(&s, session, session);
}

static size_t put(uint8_t *out, size_t at, const char *text)
{
	size_t length = strlen(text);
	memcpy(out + at, text, length);
	return at + length;
}

static size_t put_number(uint8_t *out, size_t at, unsigned number)
{
	if (number >= 10)
		at = put_number(out, at, number / 10);
	out[at] = '0' + number % 10;
	return at + 1;
}

uint64_t vol_list(const uint8_t *volume, size_t len, uint8_t *out, size_t out_len)
{
	static const char *states[] = {" idle ", " open ", " decided "};
	if (!vol_is_sound(volume, len) || out_len < 664)
		return 0;
	size_t at = 0;
	for (int k = 1; k <= volume[4]; k++) {
		at = put_number(out, put(out, at, "kiln "), k);
		at = put_number(out, put(out, at, states[volume[256 * k + 2]]), volume[256 * k + 3]);
		at = put(out, at, "\n");
	}
	for (int f = 1; f <= volume[5]; f++) {
		const uint8_t *e = entry_of(volume, f);
		at = put_number(out, put(out, at, "file "), f);
		at = put_number(out, put(out, at, " kiln "), volume[256 * (size_t)word(e) + 2]);
		at = put_number(out, put(out, at, " pages "), e[2]);
		at = put_number(out, put(out, at, " sectors "), e[3]);
		at = put(out, at, "\n");
	}
	return at;
}
