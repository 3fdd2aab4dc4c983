/* What the calls of every turn cost, by the C library, each beside hand-written C that does the same work on the same input where there is some.

   Both give equal answers first and in every round; told are the medians of nine rounds that take turns, in nanoseconds a call by the thread's own time, and their
   ratio. `speed fast` makes a hundredth of the calls, to see that the answers agree. It ends with status 1 where they don't. */
#define _POSIX_C_SOURCE 200809L
#include "plain.h"
#include <sacn.h>
#include <stdio.h>
#include <stdlib.h>
#include <string.h>
#include <time.h>

enum { ROUNDS = 9, FADE = 20000 };

typedef uint64_t turn(uint64_t number);

static unsigned divisor = 1;
static bool has_failed;

static double now(void) {
    struct timespec at;
    clock_gettime(CLOCK_THREAD_CPUTIME_ID, &at);
    return 1e9 * (double)at.tv_sec + (double)at.tv_nsec;
}

static int ascending(const void *one, const void *other) {
    double a = *(const double *)one, b = *(const double *)other;
    return (a > b) - (a < b);
}

static double timed(turn *work, uint64_t from, uint64_t calls, uint64_t *sum) {
    double start = now();
    for (uint64_t i = 0; i < calls; i++) *sum += work(from + i);
    return (now() - start) / (double)calls;
}

/* (so many calls in all rounds together) */
static void measure(const char *name, uint64_t calls, turn *ours, turn *plain) {
    double each[ROUNDS], beside[ROUNDS];
    uint64_t sum = 0, other = 0;
    calls /= ROUNDS * divisor;
    if (!calls) calls = 1;
    for (int round = 0; round < ROUNDS; round++) {
        each[round] = timed(ours, (uint64_t)round * calls, calls, &sum);
        if (plain) beside[round] = timed(plain, (uint64_t)round * calls, calls, &other);
    }
    qsort(each, ROUNDS, sizeof *each, ascending);
    if (!plain) {
        printf("%-60s %10.1f\n", name, each[ROUNDS / 2]);
        return;
    }
    qsort(beside, ROUNDS, sizeof *beside, ascending);
    printf("%-60s %10.1f  plain %10.1f  ratio %.2f%s\n", name, each[ROUNDS / 2], beside[ROUNDS / 2], each[ROUNDS / 2] / beside[ROUNDS / 2], sum == other ? "" : "  THE ANSWERS DIFFER");
    has_failed |= sum != other;
}

static void stop(const char *what) {
    printf("speed: %s\n", what);
    exit(1);
}

static uint8_t wire[SOURCES][DATA_OCTETS], own[SOURCES][DATA_OCTETS], refused[DATA_OCTETS], out[MOST_DATAGRAM], slots[SLOTS], frame[FRAME];
static struct sacn_packet fields;
static size_t length;

/* Packets of sixteen sources, source n at level n in all slots. */
static void write_packets(void) {
    struct sacn_packet packet = {.priority = 100, .universe = 1};
    for (int source = 0; source < SOURCES; source++) {
        memset(packet.cid, source + 1, 16), memset(slots, source + 1, SLOTS);
        if (sacn_write_data(&packet, slots, SLOTS, wire[source], &length)) stop("a packet isn't written");
    }
    memcpy(own, wire, sizeof own), memcpy(refused, wire[0], DATA_OCTETS);
    refused[108] = 201;
    fields = packet;
}

static uint64_t read_one(uint64_t i) {
    wire[i % 16][111] = (uint8_t)i;
    return sacn_read_packet(wire[i % 16], DATA_OCTETS, &fields, NULL) ? 0 : fields.number;
}
static uint64_t plain_read_one(uint64_t i) {
    struct plain_packet packet;
    wire[i % 16][111] = (uint8_t)i;
    return plain_read(wire[i % 16], DATA_OCTETS, &packet) ? packet.number : 0;
}
static uint64_t refuse(uint64_t i) { return refused[111] = (uint8_t)i, sacn_read_packet(refused, DATA_OCTETS, &fields, NULL) == 0; }
static uint64_t plain_refuse(uint64_t i) {
    struct plain_packet packet;
    return refused[111] = (uint8_t)i, plain_read(refused, DATA_OCTETS, &packet);
}
static uint64_t write_one(uint64_t i) {
    slots[0] = fields.number = (uint8_t)i;
    sacn_write_data(&fields, slots, SLOTS, out, &length);
    return out[i % DATA_OCTETS] + length;
}
static uint64_t plain_write_one(uint64_t i) {
    slots[0] = fields.number = (uint8_t)i;
    plain_head(fields.cid, (const char *)fields.name, fields.universe, fields.number, out);
    memcpy(out + 126, slots, SLOTS);
    return out[i % DATA_OCTETS] + DATA_OCTETS;
}

/* (the sources send in turn, a millisecond each thousand packets) */
static struct sacn_sources sources;
static struct plain_table table;
static uint64_t sending;
static uint64_t take(uint64_t i) {
    uint8_t taken, *octets = wire[i % sending];
    octets[111] = (uint8_t)(i / sending);
    return sacn_sources_take(&sources, i / 1000, octets, DATA_OCTETS, &taken) == 0 && taken == SACN_TAKEN_HELD;
}
static uint64_t plain_take_one(uint64_t i) {
    struct plain_packet packet;
    uint8_t *octets = wire[i % sending];
    octets[111] = (uint8_t)(i / sending);
    return plain_read(octets, DATA_OCTETS, &packet) && plain_take(&table, i / 1000, &packet);
}
static uint64_t merge(uint64_t i) { return take(i), sacn_sources_merged(&sources, i / 1000, slots), slots[511]; }
static uint64_t plain_merge(uint64_t i) { return plain_take_one(i), memcpy(slots, plain_merged(&table, i / 1000), SLOTS), slots[511]; }

static void measure_sources(void) {
    for (sending = 1; sending <= 16; sending *= 4)
        for (int has_merge = 0; has_merge < 2; has_merge++) {
            char name[80];
            sacn_sources_free(&sources), memset(&table, 0, sizeof table);
            if (sacn_sources_new(&sources)) stop("no table");
            snprintf(name, sizeof name, has_merge ? "the same, and all %u are merged" : "a packet is read and taken, from %u in turn", (unsigned)sending);
            measure(name, 5000000, has_merge ? merge : take, has_merge ? plain_merge : plain_take_one);
        }
    sacn_sources_free(&sources);
}

static struct sacn_node node;
static struct plain_node plain_node;
static uint8_t taken, passed[DATA_OCTETS];
static uint64_t show(uint64_t i) {
    wire[0][111] = (uint8_t)i;
    return sacn_node_take(&node, i / 1000, wire[0], DATA_OCTETS, &taken), sacn_node_frame(&node, i / 1000, 1, frame), frame[512];
}
static uint64_t plain_show(uint64_t i) {
    wire[0][111] = (uint8_t)i;
    return plain_node_take(&plain_node, i / 1000, wire[0], DATA_OCTETS), plain_node_frame(&plain_node, i / 1000, 1, frame), frame[512];
}
static uint64_t pass(uint64_t i) { return passed[111] = (uint8_t)i, sacn_node_take(&node, i / 5000000, passed, DATA_OCTETS, &taken), taken == SACN_TAKEN_OTHER_UNIVERSE; }
static uint64_t tick(uint64_t i) { return sacn_node_tick(&node, i / 5000000, &length), length; }
static uint8_t *of_full(uint64_t i) {
    uint8_t *octets = wire[i / 16 % 16];
    octets[111] = (uint8_t)(i / 256), octets[114] = (uint8_t)(i % 16 + 1);
    return octets;
}
static uint64_t show_full(uint64_t i) { return sacn_node_take(&node, i / 256, of_full(i), DATA_OCTETS, &taken), sacn_node_frame(&node, i / 256, (uint8_t)(i % 16 + 1), frame), frame[512]; }
static uint64_t plain_show_full(uint64_t i) { return plain_node_take(&plain_node, i / 256, of_full(i), DATA_OCTETS), plain_node_frame(&plain_node, i / 256, (uint8_t)(i % 16 + 1), frame), frame[512]; }

/* A node of so many ports, which show the universes from 1 on. */
static void make_node(int ports) {
    char setup[2000] = "version = 1\n";
    uint16_t port;
    sacn_node_free(&node), memset(&plain_node, 0, sizeof plain_node);
    plain_node.count = (size_t)ports;
    for (int i = 1; i <= ports; i++) {
        snprintf(setup + strlen(setup), sizeof setup - strlen(setup), "[[port]]\nnumber = %d\nuniverse = %d\n", i, i);
        plain_node.ports[i - 1].number = (uint8_t)i, plain_node.ports[i - 1].universe = (uint16_t)i;
    }
    if (sacn_node_new(&node, setup, strlen(setup), &port)) stop("no node");
}

static void measure_nodes(void) {
    memcpy(passed, wire[0], DATA_OCTETS), passed[114] = 17;
    make_node(1);
    measure("a node takes a packet of another universe", 5000000, pass, NULL);
    make_node(1);
    measure("a node takes a packet and makes the frame of its port", 5000000, show, plain_show);
    make_node(16);
    measure("the same at 16 ports and 16 universes of 16 sources", 5000000, show_full, plain_show_full);
    make_node(16);
    for (uint64_t i = 0; i < 256; i++) show_full(i);
    measure("such a node takes a packet of another universe", 5000000, pass, NULL);
    measure("such a node is ticked", 5000000, tick, NULL);
    sacn_node_free(&node);
    memcpy(wire, own, sizeof wire);
}

/* A show of so many universes of so many slots, and a cue by which the first `fading` channels fade to full. The lower half of the universes shows the upper half of the
   channels. */
static char text[2400000];
static size_t written;
static unsigned channel_of(unsigned universes, unsigned slot_count, unsigned universe, unsigned slot) {
    return (universe < universes / 2 ? 1025 : 1) + (universe * slot_count + slot) % 1024;
}
static void say(const char *form, unsigned a, unsigned b, unsigned c) { written += (size_t)snprintf(text + written, sizeof text - written, form, a, b, c); }
static const char *head = "version = 2\ncid = \"00010203-0405-0607-0809-0a0b0c0d0e0f\"\nname = \"Desk\"\nuniverses = [";
static void say_show(unsigned universes, unsigned slot_count, unsigned fading) {
    written = (size_t)snprintf(text, sizeof text, "%s", head);
    for (unsigned i = 1; i <= universes; i++) say("%u, ", i, 0, 0);
    say("]\n[[cue]]\nnumber = 1\nup = %u\ndown = %u\nlevels = [", FADE, FADE, 0);
    for (unsigned i = 1; i <= fading; i++) say("[%u, 65535], ", i, 0, 0);
    say("]\n", 0, 0, 0);
    for (unsigned u = 0; u < universes; u++)
        for (unsigned s = 0; s < slot_count; s++) say("[[patch]]\nchannel = %u\nuniverse = %u\nslot = %u\n", channel_of(universes, slot_count, u, s), u + 1, s + 1);
}

static struct sacn_console console;
static struct plain_console plain_console;
static uint64_t moment, plain_moment;
static void make_console(void) {
    sacn_console_free(&console);
    if (sacn_console_new(&console, text, written, 0)) stop("no console");
    moment = 0;
}
static void make_plain_console(unsigned universes, unsigned slot_count) {
    struct plain_console *it = &plain_console;
    free(it->patch), free(it->lines), memset(it, 0, sizeof *it);
    it->patch = calloc((size_t)universes * slot_count, sizeof *it->patch), it->lines = calloc(universes, sizeof *it->lines);
    it->master = 65535, it->count = universes, memcpy(it->name, "Desk", 4);
    for (uint8_t i = 0; i < 16; i++) it->cid[i] = i;
    for (int i = 0; i < CHANNELS; i++) it->fades[i] = plain_faded(0, 65535, FADE, 0);
    for (unsigned u = 0, place = 0; u < universes; u++) {
        it->lines[u] = (struct plain_line){.universe = (uint16_t)(u + 1), .first = place, .end = place + slot_count};
        for (unsigned s = 0; s < slot_count; s++, place++) it->patch[place].slot = (uint16_t)s, it->patch[place].channel = (uint16_t)(channel_of(universes, slot_count, u, s) - 1);
    }
    plain_moment = 0;
}
static uint64_t digest(size_t count) { return count ? out[111] + out[114] + out[126] + (count == DATA_OCTETS ? out[637] : 0) + count : 0; }
/* (one datagram; where none is due, the next after 25 ms) */
static uint64_t give(uint64_t i) {
    (void)i, sacn_console_poll(&console, moment, out, &length);
    if (!length) sacn_console_poll(&console, moment += 25, out, &length);
    return digest(length);
}
static uint64_t plain_give(uint64_t i) {
    (void)i, length = plain_poll(&plain_console, plain_moment, out);
    if (!length) length = plain_poll(&plain_console, plain_moment += 25, out);
    return digest(length);
}
static uint64_t idle(uint64_t i) { return (void)i, sacn_console_poll(&console, moment, out, &length), length; }
static uint64_t wake(uint64_t i) { return (void)i, sacn_console_wakes(&console, &moment), moment; }
static uint64_t load(uint64_t i) { return (void)i, make_console(), 1; }
static uint64_t pass_millisecond(uint64_t i) {
    uint64_t given = 0;
    (void)i, moment++;
    while (sacn_console_poll(&console, moment, out, &length), length) given++;
    return given;
}

static void fade(const char *name, uint64_t calls, unsigned universes, unsigned slot_count) {
    say_show(universes, slot_count, CHANNELS), make_console(), make_plain_console(universes, slot_count);
    if (sacn_console_command(&console, 0, SACN_GO, 0, 0)) stop("no cue");
    measure(name, calls, give, plain_give);
}

/* A show of 1024 universes with channel 1 and one more on each, of which all that is due was sent. */
static void measure_wide(void) {
    written = (size_t)snprintf(text, sizeof text, "%s", head);
    for (unsigned i = 1; i <= 1024; i++) say("%u, ", i, 0, 0);
    say("]\n", 0, 0, 0);
    for (unsigned i = 1; i <= 1024; i++) {
        say("[[patch]]\nchannel = 1\nuniverse = %u\nslot = 1\n", i, 0, 0);
        say("[[patch]]\nchannel = %u\nuniverse = %u\nslot = 2\n", i, i, 0);
    }
    measure("a show of 1024 universes and 2048 entries of the patch is read", 1, load, NULL);
    make_console();
    for (int turns = 0; turns < 8; turns++, moment += 25)
        for (int polls = 0; polls < 1100; polls++) idle(0);
    measure("a console of that show is polled, nothing being due", 100000, idle, NULL);
    sacn_console_command(&console, moment += 25, SACN_SET_LEVEL, 1, 65535);
    measure("the same, all 1024 universes having changed", 1024 * divisor, idle, NULL);
}

static struct sacn_source_handle source;
static struct plain_console plain_source;
static uint8_t levels[2][SLOTS];
enum { SENT = 64 };
/* (one datagram; where none is due, other levels for all universes, at the moment when one is) */
static uint64_t send(uint64_t i) {
    uint16_t universe;
    (void)i, sacn_source_poll(&source, moment, out, &length, &universe);
    if (length) return digest(length);
    sacn_source_wakes(&source, &moment);
    for (uint16_t n = 1; n <= SENT; n++) sacn_source_levels(&source, n, levels[moment % 2], SLOTS);
    sacn_source_poll(&source, moment, out, &length, &universe);
    return digest(length);
}
static uint64_t plain_send_one(uint64_t i) {
    (void)i, length = plain_send(&plain_source, plain_moment, out);
    if (length) return digest(length);
    plain_moment = plain_wakes(&plain_source);
    for (uint16_t n = 1; n <= SENT; n++) plain_show_levels(&plain_source, n, levels[plain_moment % 2], SLOTS);
    length = plain_send(&plain_source, plain_moment, out);
    return digest(length);
}
/* (the same levels again, for one universe, and nothing is due) */
static uint64_t show_again(uint64_t i) {
    uint16_t universe;
    sacn_source_levels(&source, (uint16_t)(i % SENT + 1), levels[0], SLOTS);
    sacn_source_poll(&source, moment, out, &length, &universe);
    return length;
}
static uint64_t plain_show_again(uint64_t i) {
    plain_show_levels(&plain_source, (uint16_t)(i % SENT + 1), levels[0], SLOTS);
    return plain_send(&plain_source, plain_moment, out);
}

static void measure_sources_of_levels(void) {
    struct plain_console *it = &plain_source;
    memset(it, 0, sizeof *it), memcpy(it->name, "Desk", 4), memset(levels, 1, SLOTS), memset(levels[1], 255, SLOTS);
    it->count = SENT, it->lines = calloc(SENT, sizeof *it->lines), it->given = calloc(SENT, sizeof *it->given);
    if (sacn_source_new(&source, it->cid, "Desk", 4, 100, SENT, 0)) stop("no source");
    for (uint16_t n = 1; n <= SENT; n++) it->lines[n - 1].universe = n, sacn_source_add(&source, n);
    moment = plain_moment = 0;
    measure("a datagram of a source of 64 universes that all change", 3000000, send, plain_send_one);
    for (int turns = 0; turns < 6; turns++, moment += 25, plain_moment += 25)
        for (int n = 0; n <= SENT; n++) {
            for (uint16_t u = 1; u <= SENT; u++) show_again(u), plain_show_again(u);
        }
    measure("such a source is handed the levels that it has", 3000000, show_again, plain_show_again);
    sacn_source_free(&source), free(it->lines), free(it->given);
}

static struct plain_player player;
static uint64_t cues, going, plain_going;
static uint16_t level_of(unsigned number, unsigned channel) { return (uint16_t)(number * 7919u + channel * 104729u); }
/* (in steps of 389 cues, between which each channel is named anew) */
static uint16_t next_cue(uint64_t i) { return (uint16_t)(cues ? i * 389 % cues + 1 : player.count); }
static uint64_t go(uint64_t i) { return sacn_console_command(&console, going += 700, SACN_GO_TO, next_cue(i), 0) == 0; }
static uint64_t plain_go(uint64_t i) { return plain_go_to(&player, plain_going += 700, next_cue(i)); }

/* So many cues, each of which names forty channels in turn; the others keep the levels that cues before gave them, so each cue sets every channel that one names. */
enum { NAMED = 40 };
static void measure_players(size_t count, uint64_t through, const char *name) {
    free(player.cues), memset(&player, 0, sizeof player);
    player.cues = calloc(count, sizeof *player.cues), player.count = count, cues = through, going = plain_going = 0;
    written = (size_t)snprintf(text, sizeof text, "%s1]\n", head);
    for (unsigned i = 0; i < count; i++) {
        struct plain_cue *cue = &player.cues[i];
        if (i) memcpy(cue, cue - 1, sizeof *cue);
        cue->number = (uint16_t)(i + 1), cue->up = 1000, cue->down = 1500;
        say("[[cue]]\nnumber = %u\nup = 1000\ndown = 1500\nlevels = [", i + 1, 0, 0);
        for (unsigned place = 0; place < NAMED; place++) {
            unsigned channel = (i * NAMED + place) % CHANNELS;
            cue->levels[channel] = level_of(i + 1, channel);
            say("[%u,%u],", channel + 1, level_of(i + 1, channel), 0);
        }
        say("]\n", 0, 0, 0);
    }
    make_console();
    measure(name, 3500, go, plain_go);
}

static struct sacn_monitor monitor;
static uint64_t hear(uint64_t i) {
    static const struct sacn_sender sender = {{10, 0, 0, 1}, SACN_UDP_PORT};
    struct sacn_news news;
    wire[i % 4][111] = (uint8_t)(i / 4);
    return sacn_monitor_take(&monitor, i / 1000, &sender, wire[i % 4], DATA_OCTETS, &news), news.noted == SACN_NOTED_HEARD;
}

int main(int count, char **words) {
    if (count > 1 && !strcmp(words[1], "fast")) divisor = 100;
    write_packets();
    measure("a data packet of 512 slots is read", 9000000, read_one, plain_read_one);
    measure("one of priority 201 is refused", 9000000, refuse, plain_refuse);
    write_packets();
    measure("one is written", 9000000, write_one, plain_write_one);
    measure_sources();
    measure_nodes();
    if (sacn_monitor_new(&monitor)) stop("no monitor");
    measure("a monitor takes from 4 sources", 5000000, hear, NULL);
    sacn_monitor_free(&monitor);
    measure_wide();
    fade("a datagram of 4 universes of 512 slots that all fade", 3000, 4, 512);
    measure("such a console is polled, nothing being due", 100000, idle, NULL);
    fade("one of 64 such universes", 30000, 64, 512);
    fade("one of 1024 universes of 27 slots that all fade", 60000, 1024, 27);
    say_show(1024, 27, CHANNELS / 2), make_console(), sacn_console_command(&console, 0, SACN_GO, 0, 0);
    measure("a millisecond of 1024 universes of 27 slots, half of which fade", 3000, pass_millisecond, NULL);
    measure("when 1024 universes next have something due", 100000, wake, NULL);
    measure_sources_of_levels();
    measure_players(100, 0, "going to the last of 100 cues over 2048 channels");
    measure_players(1000, 0, "going to the last of 1000");
    measure_players(1000, 1000, "going to one after another of 1000, every channel fading");
    sacn_console_free(&console);
    return has_failed;
}
