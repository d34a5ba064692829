// Compares a trace of writes with the plan: order_trace PLAN < TRACE. A line of the trace is ' S address,size', or M in
// place of S, the address hexadecimal; other lines are passed over, so any tracer will do. The plan is what
// order_play.c prints.
//
// Of each call it must be so: every write to the volume lies in one sector; the sectors written are those of the plan's
// stores, in order, and none is returned to before its next store; every byte that a store changes is written in it.
// Where the plan stores one sector twice running, a byte that both change is written twice. That a store writes all 256
// bytes is not asked for: how many it writes, how often at most and in which widths is printed.
#include <stdint.h>
#include <stdio.h>
#include <stdlib.h>
#include <string.h>

enum { MOST_STORES = 18, MOST_CALLS = 1000, MOST_NAMES = 20, NONE = -1 };

struct store {
    int sector;
    char changed[257], name[60];
};

struct call {
    char name[60];
    int count;
    struct store stores[MOST_STORES];
};

// What was seen of all stores of one name.
struct seen {
    char name[130];
    int stores, least, most, times;
    // A sum of powers of two, as every width is one.
    unsigned widths;
};

static struct call calls[MOST_CALLS];
static struct seen names[MOST_NAMES];
static size_t volume, volume_length, marks;
static int planned, played, inside, name_count, store_count;
// The stores to the current sector: the first of them, how many, how often each byte was written, and the widths.
static int first, together, written[256];
static unsigned widths;

static const struct call *current(void) {
    return &calls[played];
}

// The rest of the trace is read, so that the tracer can end.
static void fail(const char *what, int sector, int byte) {
    printf("order: %s: %s (sector %d, byte %d)\n", current()->name, what, sector, byte);
    while (getchar() != EOF) continue;
    exit(1);
}

static void read_plan_line(const char *line) {
    struct call *call = &calls[planned > 0 ? planned - 1 : 0];
    if (sscanf(line, "volume %zx %zu", &volume, &volume_length) == 2) return;
    if (sscanf(line, "marks %zx", &marks) == 1) return;
    if (strncmp(line, "call ", 5) == 0 && planned < MOST_CALLS) {
        sscanf(line, "call %59[^\n]", calls[planned++].name);
        return;
    }
    struct store *store = &call->stores[call->count];
    if (call->count < MOST_STORES &&
        sscanf(line, "store %d %256s %59[^\n]", &store->sector, store->changed, store->name) == 3) {
        call->count++;
        return;
    }
    printf("order: the plan has the line: %s", line);
    exit(1);
}

static void read_plan(const char *path) {
    char line[512];
    FILE *file = fopen(path, "r");
    while (file != NULL && fgets(line, sizeof line, file) != NULL) read_plan_line(line);
    if (file != NULL && planned > 0 && volume != 0 && marks != 0) return;
    printf("order: there is no plan\n");
    exit(1);
}

// The row of the stores with this name; two stores to one sector, one right after the other, have a row together.
static struct seen *row(void) {
    char name[130];
    const struct store *stores = &current()->stores[first];
    snprintf(name, sizeof name, "%s%s%s", stores[0].name, together > 1 ? ", " : "", together > 1 ? stores[1].name : "");
    for (int i = 0; i < name_count; i++)
        if (strcmp(names[i].name, name) == 0) return &names[i];
    if (name_count == MOST_NAMES) fail("there are too many names", 0, 0);
    strcpy(names[name_count].name, name);
    names[name_count].least = 256;
    return &names[name_count++];
}

static void count_stores(void) {
    int bytes = 0, times = 0;
    for (int i = 0; i < 256; i++) {
        bytes += written[i] > 0;
        if (written[i] > times) times = written[i];
    }
    struct seen *seen = row();
    seen->stores += together;
    if (bytes < seen->least) seen->least = bytes;
    if (bytes > seen->most) seen->most = bytes;
    if (times > seen->times) seen->times = times;
    seen->widths |= widths;
    store_count += together;
}

static int stores_that_change(int byte) {
    int count = 0;
    for (int i = first; i < first + together; i++) count += current()->stores[i].changed[byte] == '1';
    return count;
}

// The stores to the current sector have ended.
static void end_of_stores(void) {
    if (together == 0) return;
    for (int i = 0; i < 256; i++)
        if (written[i] < stores_that_change(i)) fail("a store leaves out a byte", current()->stores[first].sector, i);
    count_stores();
    first += together;
    together = 0;
}

// A write goes to another sector than the last one: the plan's next stores must be to it.
static void next_stores(int sector, int byte) {
    end_of_stores();
    if (first == current()->count) fail("a write after the last store", sector, byte);
    if (current()->stores[first].sector != sector) fail("a write out of order", sector, byte);
    while (first + together < current()->count && current()->stores[first + together].sector == sector) together++;
    memset(written, 0, sizeof written);
    widths = 0;
}

static void write_seen(size_t at, size_t size) {
    if (at + size <= volume || at >= volume + volume_length) return;
    int sector = (int)((at - volume) / 256), byte = (int)((at - volume) % 256);
    if (at < volume || byte + size > 256) fail("a write over the border of a sector", sector, byte);
    if (together == 0 || current()->stores[first].sector != sector) next_stores(sector, byte);
    for (size_t i = 0; i < size; i++) written[byte + i]++;
    widths |= (unsigned)size;
}

static void begin_call(void) {
    if (inside || played == planned) fail("a call that the plan doesn't have", 0, 0);
    inside = 1;
    first = together = 0;
}

static void end_call(void) {
    end_of_stores();
    if (!inside) fail("the end of no call", 0, 0);
    if (first < current()->count) fail("a store is missing", current()->stores[first].sector, 0);
    inside = 0;
    played++;
}

static void read_trace_line(const char *line) {
    size_t at, size;
    char kind;
    if (sscanf(line, " %c %zx,%zu", &kind, &at, &size) != 3 || (kind != 'S' && kind != 'M')) return;
    if (at == marks)
        begin_call();
    else if (at == marks + 1)
        end_call();
    else if (inside)
        write_seen(at, size);
}

static void print_row(const struct seen *seen) {
    printf("order: %-27s %6d %4d to %3d %6d   ", seen->name, seen->stores, seen->least, seen->most, seen->times);
    for (int i = 0; i < 32; i++)
        if (seen->widths >> i & 1) printf(" %d", 1 << i);
    printf("\n");
}

static void print_rows(void) {
    printf("order: %-27s %6s %11s %6s    widths\n", "store", "stores", "its bytes", "times");
    for (int i = 0; i < name_count; i++) print_row(&names[i]);
}

int main(int count, char **words) {
    char line[512];
    if (count != 2) return 2;
    read_plan(words[1]);
    while (fgets(line, sizeof line, stdin) != NULL) read_trace_line(line);
    if (inside || played < planned) fail("the trace ends before the call does", 0, 0);
    print_rows();
    printf("order: %d calls, %d stores in the order of the plan\n", played, store_count);
    return 0;
}
