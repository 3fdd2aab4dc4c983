/* Calls of the C library that no workload makes, for bench/counts.

   calls NAME COUNT     makes so many calls of a kind, and prints a digest of what they gave

   A count of instructions for twice as many calls, less that for as many, is that of so many calls alone. */
#include <sacn.h>
#include <stdio.h>
#include <stdlib.h>
#include <string.h>

enum { CHANNELS = 2048, UNIVERSES = 4, SOURCES = 4, STEP = 25, FADE = 60000, TEXT = 400000 };

static char text[TEXT];
static size_t written;
static uint64_t digest;

static void stop(const char *what) {
    fprintf(stderr, "calls: %s\n", what);
    exit(1);
}

static void say(const char *form, unsigned a, unsigned b, unsigned c) {
    written += (size_t)snprintf(text + written, sizeof text - written, form, a, b, c);
    if (written >= sizeof text) stop("the text is too long");
}

static void add(uint64_t value) { digest = (digest ^ value) * 1099511628211u; }

/* ---- packets ---- */

static uint8_t wire[SOURCES][SACN_DATA_OCTETS];

static void write_packets(void) {
    uint8_t slots[SACN_SLOTS];
    for (int source = 0; source < SOURCES; source++) {
        struct sacn_packet packet = {.priority = 100, .universe = 1, .name = "Desk"};
        size_t length;
        memset(packet.cid, source + 1, sizeof packet.cid);
        for (int slot = 0; slot < SACN_SLOTS; slot++) slots[slot] = (uint8_t)(slot * (source + 3));
        if (sacn_write_data(&packet, slots, SACN_SLOTS, wire[source], &length)) stop("a packet isn't written");
    }
}

/* The packet of a source that is due: all send in turn, a thousand packets in a millisecond. */
static uint8_t *due(uint64_t call) {
    uint8_t *octets = wire[call % SOURCES];
    octets[111] = (uint8_t)(call / SOURCES);
    return octets;
}

static void hear(uint64_t count) {
    static const struct sacn_sender sender = {{10, 0, 0, 1}, SACN_UDP_PORT};
    struct sacn_monitor monitor = {0};
    struct sacn_news news;
    if (sacn_monitor_new(&monitor)) stop("no monitor");
    for (uint64_t call = 0; call < count; call++) {
        sacn_monitor_take(&monitor, call / 1000, &sender, due(call), SACN_DATA_OCTETS, &news);
        add(news.event);
    }
    sacn_monitor_free(&monitor);
}

static void show(uint64_t count) {
    static const char setup[] = "version = 1\n[[port]]\nnumber = 1\nuniverse = 1\n";
    struct sacn_node node = {0};
    uint8_t taken, frame[SACN_FRAME_OCTETS];
    uint16_t port;
    if (sacn_node_new(&node, setup, sizeof setup - 1, &port)) stop("no node");
    for (uint64_t call = 0; call < count; call++) {
        sacn_node_take(&node, call / 1000, due(call), SACN_DATA_OCTETS, &taken);
        sacn_node_frame(&node, call / 1000, 1, frame);
        add(taken + frame[512]);
    }
    sacn_node_free(&node);
}

/* ---- consoles ---- */

/* A show of so many universes, and a cue by which so many channels fade, each to a level of its own. */
static void say_show(unsigned universes, unsigned fading) {
    written = 0;
    say("version = 2\ncid = \"00010203-0405-0607-0809-0a0b0c0d0e0f\"\nname = \"Desk\"\nuniverses = [", 0, 0, 0);
    for (unsigned i = 1; i <= universes; i++) say("%u, ", i, 0, 0);
    say("]\n[[cue]]\nnumber = 1\nup = %u\ndown = %u\nlevels = [", FADE, FADE, 0);
    for (unsigned i = 1; i <= fading; i++) say("[%u, %u], ", i, 65535 - 13 * i, 0);
    say("]\n", 0, 0, 0);
}

static void say_entry(unsigned channel, unsigned universe, unsigned slot) { say("[[patch]]\nchannel = %u\nuniverse = %u\nslot = %u\n", channel, universe, slot); }

/* Slots in a row that show channels in a row. */
static void say_rows(unsigned universes, unsigned slots) {
    for (unsigned at = 0; at < universes * slots; at++) say_entry(at + 1, at / slots + 1, at % slots + 1);
}

static unsigned chance(unsigned below) {
    static uint32_t state = 1;
    state = state * 1664525u + 1013904223u;
    return (state >> 16) % below;
}

/* Fixtures of 3 to 6 channels, one after another on four universes, whose channels stand in any order, so that each is a run of its own. */
static void say_fixtures(void) {
    static unsigned first[CHANNELS], length[CHANNELS];
    unsigned count = 0, universe = 1, slot = 1;
    for (unsigned channel = 1; channel + 6 <= CHANNELS; channel += length[count++]) first[count] = channel, length[count] = 3 + chance(4);
    for (unsigned left = count; left > 1; left--) {
        unsigned other = chance(left), at = first[left - 1], long_at = length[left - 1];
        first[left - 1] = first[other], length[left - 1] = length[other], first[other] = at, length[other] = long_at;
    }
    for (unsigned it = 0; it < count; it++) {
        if (slot + length[it] - 1 > SACN_SLOTS) universe++, slot = 1;
        for (unsigned place = 0; place < length[it] && universe <= UNIVERSES; place++) say_entry(first[it] + place, universe, slot++);
    }
}

/* Moments of 25 ms, at each of which all that is due is sent; with `moves` the master moves before, below full. */
static void play(uint64_t count, int moves) {
    struct sacn_console console = {0};
    uint8_t out[SACN_MAX_DATAGRAM];
    size_t length;
    if (sacn_console_new(&console, text, written, 0) || sacn_console_command(&console, 0, SACN_GO, 0, 0)) stop("no console");
    for (uint64_t call = 0; call < count; call++) {
        uint64_t now = call * STEP;
        if (moves) sacn_console_command(&console, now, SACN_MASTER, 0, (uint16_t)(60000 - 97 * (call % 500)));
        while (!sacn_console_poll(&console, now, out, &length) && length) add(out[length - 1] + length);
    }
    sacn_console_free(&console);
}

static void fade_rows(uint64_t count) { say_show(UNIVERSES, CHANNELS), say_rows(UNIVERSES, SACN_SLOTS), play(count, 0); }
static void fade_fixtures(uint64_t count) { say_show(UNIVERSES, CHANNELS), say_fixtures(), play(count, 0); }
static void move_master(uint64_t count) { say_show(UNIVERSES, CHANNELS / 2), say_fixtures(), play(count, 1); }
static void fade_few(uint64_t count) { say_show(1, 64), say_rows(1, 64), play(count, 1); }

static const struct {
    const char *name;
    void (*make)(uint64_t count);
} kinds[] = {{"monitor", hear}, {"node", show}, {"rows", fade_rows}, {"fixtures", fade_fixtures}, {"master", move_master}, {"few", fade_few}};

int main(int count, char **words) {
    if (count != 3) stop("calls NAME COUNT");
    write_packets();
    for (size_t it = 0; it < sizeof kinds / sizeof *kinds; it++) {
        if (strcmp(words[1], kinds[it].name)) continue;
        kinds[it].make(strtoull(words[2], NULL, 10));
        printf("%s %016llx\n", words[1], (unsigned long long)digest);
        return 0;
    }
    stop("there are no such calls");
}
