/* A console, a source and a player of cues by hand. A fade's slope is a number of parts of a step of level, 2^44 of which are a step. */
#include "plain.h"
#include <string.h>

static const uint64_t parts = (uint64_t)1 << 44;

enum { GAP = 25, REPEATS = 3, KEEP_ALIVE = 900, DISCOVERY = 10000 };

uint16_t plain_level(const struct plain_fade *fade, uint64_t now) {
    uint64_t elapsed = now > fade->moment ? now - fade->moment : 0;
    if (elapsed >= fade->time) return fade->to;
    uint16_t moved = (uint16_t)(elapsed * fade->slope >> 44);
    return (uint16_t)(fade->to > fade->from ? fade->from + moved : fade->from - moved);
}

struct plain_fade plain_faded(uint16_t from, uint16_t to, uint32_t time, uint64_t moment) {
    uint64_t far = from > to ? from - to : to - from, over = time ? time : 1;
    return (struct plain_fade){from, to, time, moment, (far * parts + over - 1) / over};
}

bool plain_go_to(struct plain_player *player, uint64_t now, uint16_t number) {
    if (now > player->moment) player->moment = now;
    for (size_t i = 0; i < player->count; i++) {
        const struct plain_cue *cue = &player->cues[i];
        if (cue->number != number) continue;
        for (int channel = 0; channel < CHANNELS; channel++) {
            if (cue->levels[channel] < 0) continue;
            uint16_t from = plain_level(&player->fades[channel], player->moment), to = (uint16_t)cue->levels[channel];
            player->fades[channel] = plain_faded(from, to, to > from ? cue->up : cue->down, player->moment);
        }
        return true;
    }
    return false;
}

static void light(struct plain_console *console, uint64_t now) {
    for (int channel = 0; channel < CHANNELS; channel++)
        console->levels[channel] = (uint16_t)((uint32_t)plain_level(&console->fades[channel], now) * console->master / 65535);
    console->moment = now, console->from = 0;
}

static bool has_passed(const struct plain_line *line, uint64_t wait, uint64_t now) { return !line->has_sent || now - line->last >= wait; }

/* Notes a packet with these slots, where one is due. */
static bool sends(struct plain_line *line, uint64_t now, const uint8_t *slots) {
    if (!line->has_sent || memcmp(slots, line->frame, SLOTS)) {
        memcpy(line->frame, slots, SLOTS);
        line->owed = REPEATS;
    } else if (line->owed) {
        line->owed--;
    } else if (!has_passed(line, KEEP_ALIVE, now)) {
        return false;
    }
    line->has_sent = true, line->last = now;
    return true;
}

static size_t page(struct plain_console *console, uint64_t now, uint8_t *out) {
    size_t pages = (console->count + PAGE - 1) / PAGE, length = 120;
    if (!console->has_paged || console->next_page >= pages) {
        if (console->has_paged && now - console->begun < DISCOVERY) return 0;
        console->has_paged = true, console->begun = now, console->next_page = 0;
    }
    size_t first = console->next_page * PAGE, end = first + PAGE < console->count ? first + PAGE : console->count;
    for (size_t i = first; i < end; i++, length += 2) out[length] = (uint8_t)(console->lines[i].universe >> 8), out[length + 1] = (uint8_t)console->lines[i].universe;
    plain_page_head(console->cid, console->name, console->next_page++, pages, length, out);
    return length;
}

size_t plain_poll(struct plain_console *console, uint64_t now, uint8_t out[MOST_DATAGRAM]) {
    if (now != console->moment) light(console, now);
    for (size_t i = console->from; i < console->count; i++) {
        struct plain_line *line = &console->lines[i];
        if (!has_passed(line, GAP, now)) continue;
        memset(out + 126, 0, SLOTS);
        for (size_t slot = line->first; slot < line->end; slot++)
            out[126 + console->patch[slot].slot] = (uint8_t)(console->levels[console->patch[slot].channel] >> 8);
        if (!sends(line, now, out + 126)) continue;
        plain_head(console->cid, console->name, line->universe, line->number++, out);
        console->from = i + 1;
        return DATA_OCTETS;
    }
    console->from = console->count;
    return page(console, now, out);
}

size_t plain_send(struct plain_console *source, uint64_t now, uint8_t out[MOST_DATAGRAM]) {
    if (now != source->moment) source->moment = now, source->from = 0;
    for (size_t i = source->from; i < source->count; i++) {
        struct plain_line *line = &source->lines[i];
        if (!has_passed(line, GAP, now) || !sends(line, now, source->given[i])) continue;
        plain_head(source->cid, source->name, line->universe, line->number++, out);
        memcpy(out + 126, source->given[i], SLOTS);
        source->from = i + 1;
        return DATA_OCTETS;
    }
    source->from = source->count;
    return page(source, now, out);
}

bool plain_show_levels(struct plain_console *source, uint16_t universe, const uint8_t *levels, size_t count) {
    size_t low = 0, high = source->count;
    while (low < high) {
        size_t middle = (low + high) / 2;
        if (source->lines[middle].universe < universe) low = middle + 1;
        else high = middle;
    }
    if (low == source->count || source->lines[low].universe != universe || count > SLOTS) return false;
    memcpy(source->given[low], levels, count), memset(source->given[low] + count, 0, SLOTS - count);
    if (low < source->from) source->from = low;
    return true;
}

uint64_t plain_wakes(const struct plain_console *source) {
    uint64_t first = source->begun + DISCOVERY;
    for (size_t i = 0; i < source->count; i++) {
        const struct plain_line *line = &source->lines[i];
        if (!line->has_sent) return 0;
        bool waits = !line->owed && !memcmp(line->frame, source->given[i], SLOTS);
        uint64_t wake = line->last + (waits ? KEEP_ALIVE : GAP);
        if (wake <= source->moment) return 0;
        if (wake < first) first = wake;
    }
    return first;
}
