/* The work of the library's calls, written by hand in plain C without a contract: what tools/speed/speed.c times beside them. */
#ifndef PLAIN_H
#define PLAIN_H

#include <stdbool.h>
#include <stddef.h>
#include <stdint.h>

enum { SLOTS = 512, FRAME = 513, DATA_OCTETS = 638, MOST_DATAGRAM = 1144, SOURCES = 16, CHANNELS = 2048, PAGE = 512 };

/* What a table reads of a data packet. */
struct plain_packet {
    const uint8_t *cid;
    uint8_t priority, number, options, start;
    uint16_t universe;
    size_t count;
    const uint8_t *slots;
};

bool plain_read(const uint8_t *octets, size_t count, struct plain_packet *packet);
/* Writes all that stands before the slots of a full data packet of priority 100. */
void plain_head(const uint8_t cid[16], const char name[64], uint16_t universe, uint8_t number, uint8_t out[DATA_OCTETS]);
void plain_page_head(const uint8_t cid[16], const char name[64], size_t page, size_t pages, size_t length, uint8_t *out);

struct plain_source {
    uint8_t cid[16];
    uint8_t number, priority;
    uint64_t moment;
    uint8_t levels[SLOTS];
};

struct plain_table {
    struct plain_source sources[SOURCES];
    size_t count;
    uint8_t merged[SLOTS];
    bool is_due;
    uint64_t earliest;
};

/* Whether the packet is held. */
bool plain_take(struct plain_table *table, uint64_t now, const struct plain_packet *packet);
const uint8_t *plain_merged(struct plain_table *table, uint64_t now);

/* A node of which each port shows a universe of its own. */
struct plain_node {
    size_t count;
    struct {
        uint8_t number;
        uint16_t universe;
        struct plain_table table;
    } ports[16];
};

bool plain_node_take(struct plain_node *node, uint64_t now, const uint8_t *octets, size_t count);
bool plain_node_frame(struct plain_node *node, uint64_t now, uint8_t number, uint8_t frame[FRAME]);

struct plain_fade {
    uint16_t from, to;
    uint32_t time;
    uint64_t moment, slope;
};

uint16_t plain_level(const struct plain_fade *fade, uint64_t now);
struct plain_fade plain_faded(uint16_t from, uint16_t to, uint32_t time, uint64_t moment);

/* A universe: where its slots stand in the patch, and what it sent last. */
struct plain_line {
    uint16_t universe;
    size_t first, end;
    uint8_t number, owed;
    bool has_sent;
    uint64_t last;
    uint8_t frame[SLOTS];
};

/* A console whose universes all run, at the full master; or a source, which has the levels of each universe in place of a patch. */
struct plain_console {
    uint8_t cid[16];
    char name[64];
    uint32_t master;
    struct plain_fade fades[CHANNELS];
    uint16_t levels[CHANNELS];
    struct {
        uint16_t slot, channel;
    } *patch;
    uint8_t (*given)[SLOTS];
    struct plain_line *lines;
    size_t slots, count, from, next_page;
    bool has_paged;
    uint64_t moment, begun;
};

/* The datagram that is due: its octets, or 0. */
size_t plain_poll(struct plain_console *console, uint64_t now, uint8_t out[MOST_DATAGRAM]);
/* The same of a source, whose universes rise; the levels of one; and when a packet or a page is due next. */
size_t plain_send(struct plain_console *source, uint64_t now, uint8_t out[MOST_DATAGRAM]);
bool plain_show_levels(struct plain_console *source, uint16_t universe, const uint8_t *levels, size_t count);
uint64_t plain_wakes(const struct plain_console *source);

/* A player that keeps what going to each cue gives, of cues that name all channels. */
struct plain_cue {
    uint16_t number;
    uint32_t up, down;
    int32_t levels[CHANNELS];
};

struct plain_player {
    struct plain_cue *cues;
    size_t count;
    struct plain_fade fades[CHANNELS];
    uint64_t moment;
};

bool plain_go_to(struct plain_player *player, uint64_t now, uint16_t number);

#endif
