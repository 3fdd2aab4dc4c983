/* The C side of the border: it refuses null pointers, and hands all else to the proved calls of the crate `sacn_c`. */
#include "sacn.h"

/* The proved calls. A handle is passed by reference, a slice as a pointer and a count. */
uint32_t sacn_proved_read_packet(const uint8_t *octets, size_t count, struct sacn_packet *packet);
uint32_t sacn_proved_read_data(const uint8_t *octets, size_t count, struct sacn_packet *packet, uint8_t *frame);
uint32_t sacn_proved_write_data(const struct sacn_packet *packet, const uint8_t *slots, size_t slot_count, uint8_t *out, size_t *length);
void sacn_proved_packet_name(const struct sacn_packet *packet, uint8_t *text);
uint32_t sacn_proved_read_universes(const uint8_t *octets, size_t count, uint16_t *universes, size_t room, size_t *given);
uint32_t sacn_proved_write_page(const struct sacn_packet *packet, const uint16_t *universes, size_t count, uint8_t *out, size_t *length);
uint8_t sacn_proved_in_sequence(uint8_t held, uint8_t arrived);
void sacn_proved_multicast_group(uint16_t universe, uint8_t *group);
void sacn_proved_free(void **handle);
uint32_t sacn_proved_node_new(void **handle, const uint8_t *text, size_t length, uint16_t *udp_port);
uint32_t sacn_proved_setup_faults(const uint8_t *text, size_t length, uint8_t *lines, size_t room, size_t *count);
uint32_t sacn_proved_node_of_universes(void **handle, const uint16_t *universes, size_t count);
uint32_t sacn_proved_node_take(void **handle, uint64_t now, const uint8_t *octets, size_t count, uint8_t *taken);
uint32_t sacn_proved_node_tick(void **handle, uint64_t now, size_t *lost);
uint32_t sacn_proved_node_frame(void **handle, uint64_t now, uint8_t port, uint8_t *frame);
uint32_t sacn_proved_node_wakes(void **handle, uint64_t *moment);
uint32_t sacn_proved_node_ports(void **handle, uint8_t *ports, size_t room, size_t *count);
uint32_t sacn_proved_node_held(void **handle, uint16_t universe, const uint8_t *cid, struct sacn_source *source, uint8_t *slots);
uint32_t sacn_proved_sources_new(void **handle);
uint32_t sacn_proved_sources_take(void **handle, uint64_t now, const uint8_t *octets, size_t count, uint8_t *taken);
uint32_t sacn_proved_sources_merged(void **handle, uint64_t now, uint8_t *slots);
uint32_t sacn_proved_sources_tick(void **handle, uint64_t now, size_t *lost);
uint32_t sacn_proved_sources_wakes(void **handle, uint64_t *moment);
uint32_t sacn_proved_sources_held(void **handle, const uint8_t *cid, struct sacn_source *source, uint8_t *slots);
uint32_t sacn_proved_collector_new(void **handle);
uint32_t sacn_proved_collector_take(void **handle, uint64_t now, const uint8_t *octets, size_t count);
uint32_t sacn_proved_collector_list(void **handle, uint64_t now, const uint8_t *cid, uint16_t *universes, size_t room, size_t *count);
uint32_t sacn_proved_collector_tick(void **handle, uint64_t now, size_t *forgotten);
uint32_t sacn_proved_console_new(void **handle, const uint8_t *text, size_t length, uint8_t first);
uint32_t sacn_proved_show_faults(const uint8_t *text, size_t length, uint8_t *lines, size_t room, size_t *count);
uint32_t sacn_proved_console_command(void **handle, uint64_t now, uint8_t command, uint16_t number, uint16_t level);
uint32_t sacn_proved_console_poll(void **handle, uint64_t now, uint8_t *out, size_t *count);
uint32_t sacn_proved_console_wakes(void **handle, uint64_t *moment);
uint32_t sacn_proved_console_universe(void **handle, size_t place, struct sacn_universe *universe);
uint32_t sacn_proved_console_cue(void **handle, uint16_t *number);
uint32_t sacn_proved_source_new(void **handle, const uint8_t *cid, const uint8_t *name, size_t length, uint8_t priority, size_t room, uint8_t first);
uint32_t sacn_proved_source_add(void **handle, uint16_t universe);
uint32_t sacn_proved_source_levels(void **handle, uint16_t universe, const uint8_t *slots, size_t count);
uint32_t sacn_proved_source_priority(void **handle, uint16_t universe, uint8_t priority);
uint32_t sacn_proved_source_end(void **handle, uint16_t universe);
uint32_t sacn_proved_source_end_all(void **handle);
uint32_t sacn_proved_source_poll(void **handle, uint64_t now, uint8_t *out, size_t *count, uint16_t *universe);
uint32_t sacn_proved_source_wakes(void **handle, uint64_t *moment);
uint32_t sacn_proved_source_universe(void **handle, size_t place, struct sacn_universe *universe);
uint32_t sacn_proved_monitor_new(void **handle);
uint32_t sacn_proved_monitor_take(void **handle, uint64_t now, const struct sacn_sender *sender, const uint8_t *octets, size_t count,
                                  struct sacn_news *news);
uint32_t sacn_proved_monitor_tick(void **handle, uint64_t now, size_t *place);
uint32_t sacn_proved_monitor_wakes(void **handle, uint64_t *moment);
uint32_t sacn_proved_monitor_count(void **handle, size_t *count);
uint32_t sacn_proved_monitor_account(void **handle, size_t place, struct sacn_stream *stream);
uint32_t sacn_proved_monitor_rivals(void **handle, uint16_t universe, size_t *count, uint8_t *priority);

/* A slice of no elements has some address of this. */
static const uint8_t nothing[1] = {0};

/* Whether a pointer and its count are no slice. */
static int is_bad(const void *at, size_t count) { return !at && count; }

/* A count that no object has, which would be no slice either. */
static int is_long(size_t count) { return count > PTRDIFF_MAX; }

/* Whether octets and their count are a slice; those of a null pointer and no count begin there. One test where the pointer isn't null. */
static int is_slice(const uint8_t **at, size_t count) {
    if (*at) return 1;
    *at = nothing;
    return !count;
}

static const uint8_t *start(const void *at) { return at ? at : nothing; }

/* The room of a null pointer, of no octets. */
static uint8_t no_octets[1];

/* The same of numbers of two octets. */
static const uint16_t no_numbers[1] = {0};
static uint16_t no_room[1];

static int is_long_list(size_t count) { return count > PTRDIFF_MAX / 2; }

int sacn_read_packet(const uint8_t *octets, size_t count, struct sacn_packet *packet, uint8_t frame[SACN_FRAME_OCTETS]) {
    if (!is_slice(&octets, count) || !packet) return SACN_NULL;
    if (is_long(count)) return SACN_LENGTH;
    return (int)(frame ? sacn_proved_read_data(octets, count, packet, frame) : sacn_proved_read_packet(octets, count, packet));
}

int sacn_write_data(const struct sacn_packet *packet, const uint8_t *slots, size_t slot_count, uint8_t out[SACN_DATA_OCTETS], size_t *length) {
    if (!packet || !is_slice(&slots, slot_count) || !out || !length) return SACN_NULL;
    if (is_long(slot_count)) return SACN_LENGTH;
    return (int)sacn_proved_write_data(packet, slots, slot_count, out, length);
}

int sacn_packet_name(const struct sacn_packet *packet, char text[SACN_TEXT_OCTETS]) {
    if (!packet || !text) return SACN_NULL;
    sacn_proved_packet_name(packet, (uint8_t *)text);
    return SACN_DONE;
}

int sacn_read_universes(const uint8_t *octets, size_t count, uint16_t *universes, size_t room, size_t *given) {
    if (!is_slice(&octets, count) || is_bad(universes, room) || !given) return SACN_NULL;
    if (is_long(count) || is_long_list(room)) return SACN_LENGTH;
    return (int)sacn_proved_read_universes(octets, count, universes ? universes : no_room, room, given);
}

int sacn_write_page(const struct sacn_packet *packet, const uint16_t *universes, size_t count, uint8_t out[SACN_MAX_DATAGRAM], size_t *length) {
    if (!packet || is_bad(universes, count) || !out || !length) return SACN_NULL;
    if (is_long_list(count)) return SACN_LENGTH;
    return (int)sacn_proved_write_page(packet, universes ? universes : no_numbers, count, out, length);
}

int sacn_in_sequence(uint8_t held, uint8_t arrived) { return sacn_proved_in_sequence(held, arrived); }

int sacn_multicast_group(uint16_t universe, uint8_t group[4]) {
    if (!group) return SACN_NULL;
    sacn_proved_multicast_group(universe, group);
    return SACN_DONE;
}

int sacn_node_new(struct sacn_node *node, const char *setup, size_t length, uint16_t *udp_port) {
    if (!node || is_bad(setup, length) || !udp_port) return SACN_NULL;
    if (is_long(length)) return SACN_LENGTH;
    if (node->behind) return SACN_NOT_EMPTY;
    return (int)sacn_proved_node_new(&node->behind, start(setup), length, udp_port);
}

int sacn_setup_faults(const char *setup, size_t length, char *lines, size_t room, size_t *count) {
    if (is_bad(setup, length) || is_bad(lines, room) || !count) return SACN_NULL;
    if (is_long(length) || is_long(room)) return SACN_LENGTH;
    return (int)sacn_proved_setup_faults(start(setup), length, lines ? (uint8_t *)lines : no_octets, room, count);
}

int sacn_node_of_universes(struct sacn_node *node, const uint16_t *universes, size_t count) {
    if (!node || is_bad(universes, count)) return SACN_NULL;
    if (is_long_list(count)) return SACN_LENGTH;
    if (node->behind) return SACN_NOT_EMPTY;
    return (int)sacn_proved_node_of_universes(&node->behind, universes ? universes : no_numbers, count);
}

int sacn_node_free(struct sacn_node *node) {
    if (!node || !node->behind) return SACN_NULL;
    sacn_proved_free(&node->behind);
    return SACN_DONE;
}

int sacn_node_take(struct sacn_node *node, uint64_t now, const uint8_t *octets, size_t count, uint8_t *taken) {
    if (!node || !node->behind || !is_slice(&octets, count) || !taken) return SACN_NULL;
    if (is_long(count)) return SACN_LENGTH;
    return (int)sacn_proved_node_take(&node->behind, now, octets, count, taken);
}

int sacn_node_tick(struct sacn_node *node, uint64_t now, size_t *lost) {
    if (!node || !node->behind || !lost) return SACN_NULL;
    return (int)sacn_proved_node_tick(&node->behind, now, lost);
}

int sacn_node_frame(struct sacn_node *node, uint64_t now, uint8_t port, uint8_t frame[SACN_FRAME_OCTETS]) {
    if (!node || !node->behind || !frame) return SACN_NULL;
    return (int)sacn_proved_node_frame(&node->behind, now, port, frame);
}

int sacn_node_wakes(struct sacn_node *node, uint64_t *moment) {
    if (!node || !node->behind || !moment) return SACN_NULL;
    return (int)sacn_proved_node_wakes(&node->behind, moment);
}

int sacn_node_ports(struct sacn_node *node, uint8_t *ports, size_t room, size_t *count) {
    if (!node || !node->behind || is_bad(ports, room) || !count) return SACN_NULL;
    if (is_long(room)) return SACN_LENGTH;
    return (int)sacn_proved_node_ports(&node->behind, ports ? ports : no_octets, room, count);
}

int sacn_node_held(struct sacn_node *node, uint16_t universe, const uint8_t cid[16], struct sacn_source *source, uint8_t slots[SACN_SLOTS]) {
    if (!node || !node->behind || !cid || !source || !slots) return SACN_NULL;
    return (int)sacn_proved_node_held(&node->behind, universe, cid, source, slots);
}

int sacn_sources_new(struct sacn_sources *sources) {
    if (!sources) return SACN_NULL;
    if (sources->behind) return SACN_NOT_EMPTY;
    return (int)sacn_proved_sources_new(&sources->behind);
}

int sacn_sources_free(struct sacn_sources *sources) {
    if (!sources || !sources->behind) return SACN_NULL;
    sacn_proved_free(&sources->behind);
    return SACN_DONE;
}

int sacn_sources_take(struct sacn_sources *sources, uint64_t now, const uint8_t *octets, size_t count, uint8_t *taken) {
    if (!sources || !sources->behind || !is_slice(&octets, count) || !taken) return SACN_NULL;
    if (is_long(count)) return SACN_LENGTH;
    return (int)sacn_proved_sources_take(&sources->behind, now, octets, count, taken);
}

int sacn_sources_merged(struct sacn_sources *sources, uint64_t now, uint8_t slots[SACN_SLOTS]) {
    if (!sources || !sources->behind || !slots) return SACN_NULL;
    return (int)sacn_proved_sources_merged(&sources->behind, now, slots);
}

int sacn_sources_tick(struct sacn_sources *sources, uint64_t now, size_t *lost) {
    if (!sources || !sources->behind || !lost) return SACN_NULL;
    return (int)sacn_proved_sources_tick(&sources->behind, now, lost);
}

int sacn_sources_wakes(struct sacn_sources *sources, uint64_t *moment) {
    if (!sources || !sources->behind || !moment) return SACN_NULL;
    return (int)sacn_proved_sources_wakes(&sources->behind, moment);
}

int sacn_sources_held(struct sacn_sources *sources, const uint8_t cid[16], struct sacn_source *source, uint8_t slots[SACN_SLOTS]) {
    if (!sources || !sources->behind || !cid || !source || !slots) return SACN_NULL;
    return (int)sacn_proved_sources_held(&sources->behind, cid, source, slots);
}

int sacn_collector_new(struct sacn_collector *collector) {
    if (!collector) return SACN_NULL;
    if (collector->behind) return SACN_NOT_EMPTY;
    return (int)sacn_proved_collector_new(&collector->behind);
}

int sacn_collector_free(struct sacn_collector *collector) {
    if (!collector || !collector->behind) return SACN_NULL;
    sacn_proved_free(&collector->behind);
    return SACN_DONE;
}

int sacn_collector_take(struct sacn_collector *collector, uint64_t now, const uint8_t *octets, size_t count) {
    if (!collector || !collector->behind || !is_slice(&octets, count)) return SACN_NULL;
    if (is_long(count)) return SACN_LENGTH;
    return (int)sacn_proved_collector_take(&collector->behind, now, octets, count);
}

int sacn_collector_list(struct sacn_collector *collector, uint64_t now, const uint8_t cid[16], uint16_t *universes, size_t room, size_t *count) {
    if (!collector || !collector->behind || !cid || is_bad(universes, room) || !count) return SACN_NULL;
    if (is_long_list(room)) return SACN_LENGTH;
    return (int)sacn_proved_collector_list(&collector->behind, now, cid, universes ? universes : no_room, room, count);
}

int sacn_collector_tick(struct sacn_collector *collector, uint64_t now, size_t *forgotten) {
    if (!collector || !collector->behind || !forgotten) return SACN_NULL;
    return (int)sacn_proved_collector_tick(&collector->behind, now, forgotten);
}

int sacn_console_new(struct sacn_console *console, const char *show, size_t length, uint8_t first) {
    if (!console || is_bad(show, length)) return SACN_NULL;
    if (is_long(length)) return SACN_LENGTH;
    if (console->behind) return SACN_NOT_EMPTY;
    return (int)sacn_proved_console_new(&console->behind, start(show), length, first);
}

int sacn_show_faults(const char *show, size_t length, char *lines, size_t room, size_t *count) {
    if (is_bad(show, length) || is_bad(lines, room) || !count) return SACN_NULL;
    if (is_long(length) || is_long(room)) return SACN_LENGTH;
    return (int)sacn_proved_show_faults(start(show), length, lines ? (uint8_t *)lines : no_octets, room, count);
}

int sacn_console_free(struct sacn_console *console) {
    if (!console || !console->behind) return SACN_NULL;
    sacn_proved_free(&console->behind);
    return SACN_DONE;
}

int sacn_console_command(struct sacn_console *console, uint64_t now, uint8_t command, uint16_t number, uint16_t level) {
    if (!console || !console->behind) return SACN_NULL;
    return (int)sacn_proved_console_command(&console->behind, now, command, number, level);
}

int sacn_console_poll(struct sacn_console *console, uint64_t now, uint8_t out[SACN_MAX_DATAGRAM], size_t *count) {
    if (!console || !console->behind || !out || !count) return SACN_NULL;
    return (int)sacn_proved_console_poll(&console->behind, now, out, count);
}

int sacn_console_wakes(struct sacn_console *console, uint64_t *moment) {
    if (!console || !console->behind || !moment) return SACN_NULL;
    return (int)sacn_proved_console_wakes(&console->behind, moment);
}

int sacn_console_universe(struct sacn_console *console, size_t place, struct sacn_universe *universe) {
    if (!console || !console->behind || !universe) return SACN_NULL;
    return (int)sacn_proved_console_universe(&console->behind, place, universe);
}

int sacn_console_cue(struct sacn_console *console, uint16_t *number) {
    if (!console || !console->behind || !number) return SACN_NULL;
    return (int)sacn_proved_console_cue(&console->behind, number);
}

int sacn_source_new(struct sacn_source_handle *source, const uint8_t cid[16], const char *name, size_t length, uint8_t priority, size_t room,
                    uint8_t first) {
    if (!source || !cid || is_bad(name, length)) return SACN_NULL;
    if (is_long(length)) return SACN_LENGTH;
    if (source->behind) return SACN_NOT_EMPTY;
    return (int)sacn_proved_source_new(&source->behind, cid, start(name), length, priority, room, first);
}

int sacn_source_free(struct sacn_source_handle *source) {
    if (!source || !source->behind) return SACN_NULL;
    sacn_proved_free(&source->behind);
    return SACN_DONE;
}

int sacn_source_add(struct sacn_source_handle *source, uint16_t universe) {
    if (!source || !source->behind) return SACN_NULL;
    return (int)sacn_proved_source_add(&source->behind, universe);
}

int sacn_source_levels(struct sacn_source_handle *source, uint16_t universe, const uint8_t *slots, size_t count) {
    if (!source || !source->behind || !is_slice(&slots, count)) return SACN_NULL;
    if (is_long(count)) return SACN_LENGTH;
    return (int)sacn_proved_source_levels(&source->behind, universe, slots, count);
}

int sacn_source_priority(struct sacn_source_handle *source, uint16_t universe, uint8_t priority) {
    if (!source || !source->behind) return SACN_NULL;
    return (int)sacn_proved_source_priority(&source->behind, universe, priority);
}

int sacn_source_end(struct sacn_source_handle *source, uint16_t universe) {
    if (!source || !source->behind) return SACN_NULL;
    return (int)sacn_proved_source_end(&source->behind, universe);
}

int sacn_source_end_all(struct sacn_source_handle *source) {
    if (!source || !source->behind) return SACN_NULL;
    return (int)sacn_proved_source_end_all(&source->behind);
}

int sacn_source_poll(struct sacn_source_handle *source, uint64_t now, uint8_t out[SACN_MAX_DATAGRAM], size_t *count, uint16_t *universe) {
    if (!source || !source->behind || !out || !count || !universe) return SACN_NULL;
    return (int)sacn_proved_source_poll(&source->behind, now, out, count, universe);
}

int sacn_source_wakes(struct sacn_source_handle *source, uint64_t *moment) {
    if (!source || !source->behind || !moment) return SACN_NULL;
    return (int)sacn_proved_source_wakes(&source->behind, moment);
}

int sacn_source_universe(struct sacn_source_handle *source, size_t place, struct sacn_universe *universe) {
    if (!source || !source->behind || !universe) return SACN_NULL;
    return (int)sacn_proved_source_universe(&source->behind, place, universe);
}

int sacn_monitor_new(struct sacn_monitor *monitor) {
    if (!monitor) return SACN_NULL;
    if (monitor->behind) return SACN_NOT_EMPTY;
    return (int)sacn_proved_monitor_new(&monitor->behind);
}

int sacn_monitor_free(struct sacn_monitor *monitor) {
    if (!monitor || !monitor->behind) return SACN_NULL;
    sacn_proved_free(&monitor->behind);
    return SACN_DONE;
}

int sacn_monitor_take(struct sacn_monitor *monitor, uint64_t now, const struct sacn_sender *sender, const uint8_t *octets, size_t count,
                      struct sacn_news *news) {
    if (!monitor || !monitor->behind || !sender || !is_slice(&octets, count) || !news) return SACN_NULL;
    if (is_long(count)) return SACN_LENGTH;
    return (int)sacn_proved_monitor_take(&monitor->behind, now, sender, octets, count, news);
}

int sacn_monitor_tick(struct sacn_monitor *monitor, uint64_t now, size_t *place) {
    if (!monitor || !monitor->behind || !place) return SACN_NULL;
    return (int)sacn_proved_monitor_tick(&monitor->behind, now, place);
}

int sacn_monitor_wakes(struct sacn_monitor *monitor, uint64_t *moment) {
    if (!monitor || !monitor->behind || !moment) return SACN_NULL;
    return (int)sacn_proved_monitor_wakes(&monitor->behind, moment);
}

int sacn_monitor_count(struct sacn_monitor *monitor, size_t *count) {
    if (!monitor || !monitor->behind || !count) return SACN_NULL;
    return (int)sacn_proved_monitor_count(&monitor->behind, count);
}

int sacn_monitor_account(struct sacn_monitor *monitor, size_t place, struct sacn_stream *stream) {
    if (!monitor || !monitor->behind || !stream) return SACN_NULL;
    return (int)sacn_proved_monitor_account(&monitor->behind, place, stream);
}

int sacn_monitor_rivals(struct sacn_monitor *monitor, uint16_t universe, size_t *count, uint8_t *priority) {
    if (!monitor || !monitor->behind || !count || !priority) return SACN_NULL;
    return (int)sacn_proved_monitor_rivals(&monitor->behind, universe, count, priority);
}

/* What the statuses mean. */
static const struct {
    enum sacn_family family;
    int status;
    const char *text;
} texts[] = {
    {SACN_FAMILY_STATUS, SACN_NULL, "A pointer is null, or the handle was freed or never made."},
    {SACN_FAMILY_STATUS, SACN_LENGTH, "A count is out of the range that the call names."},
    {SACN_FAMILY_STATUS, SACN_WRONG_HANDLE, "The handle stands for something else."},
    {SACN_FAMILY_STATUS, SACN_RANGE, "An argument is out of range, or there is nothing of this number."},
    {SACN_FAMILY_STATUS, SACN_NOT_EMPTY, "The handle that is to be made is one already."},
    {SACN_FAMILY_STATUS, SACN_OUT_OF_MEMORY, "A request for memory was refused."},
    {SACN_FAMILY_STATUS, SACN_NAME, "The name isn't UTF-8, has a NUL, or is longer than 63 octets."},
    {SACN_FAMILY_PACKET, SACN_PACKET_TOO_SHORT, "The octets end before the packet does."},
    {SACN_FAMILY_PACKET, SACN_PACKET_PREAMBLE, "The preamble size isn't 0x0010."},
    {SACN_FAMILY_PACKET, SACN_PACKET_POSTAMBLE, "The post-amble size isn't 0."},
    {SACN_FAMILY_PACKET, SACN_PACKET_IDENTIFIER, "The ACN packet identifier isn't ASC-E1.17."},
    {SACN_FAMILY_PACKET, SACN_PACKET_FLAGS, "The flags of a layer aren't 7."},
    {SACN_FAMILY_PACKET, SACN_PACKET_LENGTH, "The length of a layer doesn't fit what is around it or in it."},
    {SACN_FAMILY_PACKET, SACN_PACKET_ROOT_VECTOR, "The root vector is neither that of data nor that of extended packets."},
    {SACN_FAMILY_PACKET, SACN_PACKET_FRAMING_VECTOR, "The framing vector is none of this kind of packet."},
    {SACN_FAMILY_PACKET, SACN_PACKET_DMP_VECTOR, "The DMP vector isn't 2."},
    {SACN_FAMILY_PACKET, SACN_PACKET_ADDRESS_TYPE, "The address and data type isn't 0xa1."},
    {SACN_FAMILY_PACKET, SACN_PACKET_FIRST_ADDRESS, "The first property address isn't 0."},
    {SACN_FAMILY_PACKET, SACN_PACKET_INCREMENT, "The address increment isn't 1."},
    {SACN_FAMILY_PACKET, SACN_PACKET_VALUE_COUNT, "The property value count isn't 1 to 513, or not that of the values."},
    {SACN_FAMILY_PACKET, SACN_PACKET_PRIORITY, "The priority is above 200."},
    {SACN_FAMILY_PACKET, SACN_PACKET_UNIVERSE, "The universe isn't 1 to 63999."},
    {SACN_FAMILY_PACKET, SACN_PACKET_DISCOVERY_VECTOR, "The universe discovery vector isn't 1."},
    {SACN_FAMILY_PACKET, SACN_PACKET_PAGE_RANGE, "The page's number is above that of the last page."},
    {SACN_FAMILY_PACKET, SACN_PACKET_TOO_MANY_UNIVERSES, "The page has more than 512 universes."},
    {SACN_FAMILY_SETUP, SACN_SETUP_OUT_OF_MEMORY, "A request for memory was refused while the setup was read."},
    {SACN_FAMILY_SETUP, SACN_SETUP_TOML, "The setup is no TOML document."},
    {SACN_FAMILY_SETUP, SACN_SETUP_MISSING_KEY, "The setup lacks a key that is required."},
    {SACN_FAMILY_SETUP, SACN_SETUP_UNKNOWN_KEY, "The setup has a key that its version doesn't know."},
    {SACN_FAMILY_SETUP, SACN_SETUP_KEY_VALUE, "A key of the setup has a value of another type or out of its range."},
    {SACN_FAMILY_SETUP, SACN_SETUP_VERSION, "The setup's version isn't 1 or 2."},
    {SACN_FAMILY_SETUP, SACN_SETUP_PORT_TAKEN, "Two ports of the setup have one number."},
    {SACN_FAMILY_SETUP, SACN_SETUP_LIMIT, "The setup has more than 16 ports or 16 universes."},
    {SACN_FAMILY_SETUP, SACN_SETUP_RANGE_END, "A range of the setup ends behind slot 512."},
    {SACN_FAMILY_SETUP, SACN_SETUP_OVERLAP, "Two ranges of one port share a slot of the port."},
    {SACN_FAMILY_SHOW, SACN_SHOW_OUT_OF_MEMORY, "A request for memory was refused while the show was read."},
    {SACN_FAMILY_SHOW, SACN_SHOW_TOML, "The show is no TOML document."},
    {SACN_FAMILY_SHOW, SACN_SHOW_MISSING_KEY, "The show lacks a key that is required."},
    {SACN_FAMILY_SHOW, SACN_SHOW_UNKNOWN_KEY, "The show has a key that its version doesn't know."},
    {SACN_FAMILY_SHOW, SACN_SHOW_KEY_VALUE, "A key of the show has a value of another type or out of its range."},
    {SACN_FAMILY_SHOW, SACN_SHOW_VERSION, "The show's version isn't 1 or 2."},
    {SACN_FAMILY_SHOW, SACN_SHOW_CUE, "A cue of the show has a taken number, a channel out of range or too long a time, or is one too many."},
    {SACN_FAMILY_SHOW, SACN_SHOW_PATCH, "A patch of the show has an unlisted universe, a channel or slot out of range, or a taken slot."},
    {SACN_FAMILY_CONSOLE, SACN_CONSOLE_NO_CUE, "The show has no such cue, or none above the current one."},
    {SACN_FAMILY_CONSOLE, SACN_CONSOLE_CHANNEL_RANGE, "The channel isn't 1 to 2048."},
    {SACN_FAMILY_CONSOLE, SACN_CONSOLE_NO_UNIVERSE, "The show has no such universe."},
    {SACN_FAMILY_CONSOLE, SACN_CONSOLE_ENDING, "The universe is ending."},
    {SACN_FAMILY_CONSOLE, SACN_CONSOLE_RUNNING, "The universe runs already."},
    {SACN_FAMILY_CONSOLE, SACN_CONSOLE_STOPPED, "The universe is stopped already."},
    {SACN_FAMILY_SOURCE, SACN_SOURCE_OUT_OF_MEMORY, "A request for memory was refused while the source was made."},
    {SACN_FAMILY_SOURCE, SACN_SOURCE_BAD_UNIVERSE, "The source's universe isn't 1 to 63999."},
    {SACN_FAMILY_SOURCE, SACN_SOURCE_NO_UNIVERSE, "The source has no such universe."},
    {SACN_FAMILY_SOURCE, SACN_SOURCE_RUNNING, "The source's universe runs already."},
    {SACN_FAMILY_SOURCE, SACN_SOURCE_ENDING, "The source's universe is ending."},
    {SACN_FAMILY_SOURCE, SACN_SOURCE_STOPPED, "The source's universe is stopped already."},
    {SACN_FAMILY_SOURCE, SACN_SOURCE_FULL, "The source has no room for one more universe."},
    {SACN_FAMILY_SOURCE, SACN_SOURCE_TOO_MANY, "There are more than 512 levels."},
    {SACN_FAMILY_SOURCE, SACN_SOURCE_BAD_PRIORITY, "The source's priority is above 200."},
    {SACN_FAMILY_SOURCES, SACN_SOURCES_OUT_OF_MEMORY, "A request for memory was refused while the table was made."},
};

const char *sacn_status_text(enum sacn_family family, int status) {
    if (status == SACN_DONE) return "The call is done.";
    for (size_t i = 0; i < sizeof texts / sizeof *texts; i++) {
        if (texts[i].status == status && (texts[i].family == family || texts[i].family == SACN_FAMILY_STATUS)) return texts[i].text;
    }
    return "No call of this family answers this number.";
}
