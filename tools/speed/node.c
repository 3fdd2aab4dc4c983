/* A source table and a node by hand (E1.31, 6.2.3, 6.7). */
#include "plain.h"
#include <string.h>

enum { LOSS = 2500 };

static uint64_t since(uint64_t moment, uint64_t now) { return now > moment ? now - moment : 0; }

static void expire(struct plain_table *table, uint64_t now) {
    if (since(table->earliest, now) < LOSS) return;
    size_t kept = 0;
    table->earliest = now;
    for (size_t i = 0; i < table->count; i++) {
        if (since(table->sources[i].moment, now) >= LOSS) continue;
        if (kept != i) table->sources[kept] = table->sources[i];
        if (table->sources[kept].moment < table->earliest) table->earliest = table->sources[kept].moment;
        kept++;
    }
    table->count = kept;
    table->is_due = true;
}

static void hold(struct plain_source *source, uint64_t now, const struct plain_packet *packet) {
    source->number = packet->number, source->priority = packet->priority, source->moment = now;
    memcpy(source->levels, packet->slots, packet->count);
    memset(source->levels + packet->count, 0, SLOTS - packet->count);
}

bool plain_take(struct plain_table *table, uint64_t now, const struct plain_packet *packet) {
    expire(table, now);
    if (packet->options || packet->start) return false;
    for (size_t i = 0; i < table->count; i++) {
        struct plain_source *source = &table->sources[i];
        if (memcmp(source->cid, packet->cid, 16)) continue;
        uint8_t step = (uint8_t)(packet->number - source->number);
        if (step == 0 || step > 236) return false;
        hold(source, now, packet);
        return table->is_due = true;
    }
    if (table->count == SOURCES) return false;
    memcpy(table->sources[table->count].cid, packet->cid, 16);
    hold(&table->sources[table->count++], now, packet);
    return table->is_due = true;
}

const uint8_t *plain_merged(struct plain_table *table, uint64_t now) {
    expire(table, now);
    if (!table->is_due) return table->merged;
    uint8_t top = 0;
    for (size_t i = 0; i < table->count; i++)
        if (table->sources[i].priority > top) top = table->sources[i].priority;
    memset(table->merged, 0, SLOTS);
    for (size_t i = 0; i < table->count; i++) {
        const uint8_t *levels = table->sources[i].levels;
        if (table->sources[i].priority != top) continue;
        for (int slot = 0; slot < SLOTS; slot++) table->merged[slot] = levels[slot] > table->merged[slot] ? levels[slot] : table->merged[slot];
    }
    table->is_due = false;
    return table->merged;
}

bool plain_node_take(struct plain_node *node, uint64_t now, const uint8_t *octets, size_t count) {
    struct plain_packet packet;
    if (!plain_read(octets, count, &packet)) return false;
    for (size_t i = 0; i < node->count; i++)
        if (node->ports[i].universe == packet.universe) return plain_take(&node->ports[i].table, now, &packet);
    return false;
}

bool plain_node_frame(struct plain_node *node, uint64_t now, uint8_t number, uint8_t frame[FRAME]) {
    for (size_t i = 0; i < node->count; i++) {
        if (node->ports[i].number != number) continue;
        frame[0] = 0;
        memcpy(frame + 1, plain_merged(&node->ports[i].table, now), SLOTS);
        return true;
    }
    return false;
}
