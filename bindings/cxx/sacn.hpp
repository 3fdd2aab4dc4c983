/*
 * Streaming ACN (ANSI E1.31-2018, stage lighting) for C++17 over sacn.h: handles that free themselves, and exceptions.
 *
 *     auto node = sacn::Node::of_universes({1, 2});    or of a setup in TOML
 *     node.take(now, datagram, count);                 for each datagram, of whatever octets
 *     node.frame(now, port);                           start code and 512 slots, merged
 *
 * Handles are moved and never copied. One that was moved from is empty: its calls throw SACN_NULL. A handle belongs to
 * one thread at a time, in any call, also in those that only ask.
 *
 * Moments (`now`) are milliseconds of a clock that doesn't go back, as of std::chrono::steady_clock. A handle uses the
 * greatest moment that it was handed.
 *
 * Errors are thrown as sacn::Error, with the status's number, its name in sacn.h and one sentence of what it means.
 * What receives from a network passes over those whose family is sacn::Family::packet: what came is no packet.
 * A setup or a show that is refused throws sacn::Refused, an Error with the line of each of its faults.
 *
 * Structs, enumerators and sizes are those of sacn.h. Where a pointer stands with a count it may be null if that is 0.
 */
#ifndef SACN_HPP
#define SACN_HPP

#include <sacn.h>

#include <algorithm>
#include <array>
#include <cstddef>
#include <cstdint>
#include <optional>
#include <stdexcept>
#include <string>
#include <string_view>
#include <utility>
#include <vector>

namespace sacn {

/** Start code and 512 slots. */
using Frame = std::array<std::uint8_t, SACN_FRAME_OCTETS>;
using Slots = std::array<std::uint8_t, SACN_SLOTS>;
/** A component identifier (E1.31, 5.6): the 16 octets of a UUID. */
using Cid = std::array<std::uint8_t, 16>;

/* ---- errors ---- */

/** Which enum of sacn.h a status is of: numbers up to 18 mean something else in each. */
enum class Family { status, packet, setup, show, console, source, sources };

namespace detail {

struct Told {
    Family family;
    int status;
    const char *name;
    const char *meaning;
};

#define SACN_TOLD(family, status, meaning) Told{Family::family, status, #status, meaning}
inline constexpr Told statuses[] = {
    SACN_TOLD(status, SACN_NULL, "A pointer is null, or the handle was freed or never made."),
    SACN_TOLD(status, SACN_LENGTH, "A count is out of the range that the call names."),
    SACN_TOLD(status, SACN_WRONG_HANDLE, "The handle stands for something else."),
    SACN_TOLD(status, SACN_RANGE, "An argument is out of range, or there is nothing of this number."),
    SACN_TOLD(status, SACN_NOT_EMPTY, "The handle that is to be made is one already."),
    SACN_TOLD(status, SACN_OUT_OF_MEMORY, "A request for memory was refused."),
    SACN_TOLD(status, SACN_NAME, "The name isn't UTF-8, has a NUL, or is longer than 63 octets."),
    SACN_TOLD(packet, SACN_PACKET_TOO_SHORT, "The octets end before the packet does."),
    SACN_TOLD(packet, SACN_PACKET_PREAMBLE, "The preamble size isn't 0x0010."),
    SACN_TOLD(packet, SACN_PACKET_POSTAMBLE, "The post-amble size isn't 0."),
    SACN_TOLD(packet, SACN_PACKET_IDENTIFIER, "The ACN packet identifier isn't ASC-E1.17."),
    SACN_TOLD(packet, SACN_PACKET_FLAGS, "The flags of a layer aren't 7."),
    SACN_TOLD(packet, SACN_PACKET_LENGTH, "The length of a layer doesn't fit what is around it or in it."),
    SACN_TOLD(packet, SACN_PACKET_ROOT_VECTOR, "The root vector is neither that of data nor that of extended packets."),
    SACN_TOLD(packet, SACN_PACKET_FRAMING_VECTOR, "The framing vector is none of this kind of packet."),
    SACN_TOLD(packet, SACN_PACKET_DMP_VECTOR, "The DMP vector isn't 2."),
    SACN_TOLD(packet, SACN_PACKET_ADDRESS_TYPE, "The address and data type isn't 0xa1."),
    SACN_TOLD(packet, SACN_PACKET_FIRST_ADDRESS, "The first property address isn't 0."),
    SACN_TOLD(packet, SACN_PACKET_INCREMENT, "The address increment isn't 1."),
    SACN_TOLD(packet, SACN_PACKET_VALUE_COUNT, "The property value count isn't 1 to 513, or not that of the values."),
    SACN_TOLD(packet, SACN_PACKET_PRIORITY, "The priority is above 200."),
    SACN_TOLD(packet, SACN_PACKET_UNIVERSE, "The universe isn't 1 to 63999."),
    SACN_TOLD(packet, SACN_PACKET_DISCOVERY_VECTOR, "The universe discovery vector isn't 1."),
    SACN_TOLD(packet, SACN_PACKET_PAGE_RANGE, "The page's number is above that of the last page."),
    SACN_TOLD(packet, SACN_PACKET_TOO_MANY_UNIVERSES, "The page has more than 512 universes."),
    SACN_TOLD(setup, SACN_SETUP_OUT_OF_MEMORY, "A request for memory was refused while the setup was read."),
    SACN_TOLD(setup, SACN_SETUP_TOML, "The setup is no TOML document."),
    SACN_TOLD(setup, SACN_SETUP_MISSING_KEY, "The setup lacks a key that is required."),
    SACN_TOLD(setup, SACN_SETUP_UNKNOWN_KEY, "The setup has a key that its version doesn't know."),
    SACN_TOLD(setup, SACN_SETUP_KEY_VALUE, "A key of the setup has a value of another type or out of its range."),
    SACN_TOLD(setup, SACN_SETUP_VERSION, "The setup's version isn't 1 or 2."),
    SACN_TOLD(setup, SACN_SETUP_PORT_TAKEN, "Two ports of the setup have one number."),
    SACN_TOLD(setup, SACN_SETUP_LIMIT, "The setup has more than 16 ports or 16 universes."),
    SACN_TOLD(setup, SACN_SETUP_RANGE_END, "A range of the setup ends behind slot 512."),
    SACN_TOLD(setup, SACN_SETUP_OVERLAP, "Two ranges of one port share a slot of the port."),
    SACN_TOLD(show, SACN_SHOW_OUT_OF_MEMORY, "A request for memory was refused while the show was read."),
    SACN_TOLD(show, SACN_SHOW_TOML, "The show is no TOML document."),
    SACN_TOLD(show, SACN_SHOW_MISSING_KEY, "The show lacks a key that is required."),
    SACN_TOLD(show, SACN_SHOW_UNKNOWN_KEY, "The show has a key that its version doesn't know."),
    SACN_TOLD(show, SACN_SHOW_KEY_VALUE, "A key of the show has a value of another type or out of its range."),
    SACN_TOLD(show, SACN_SHOW_VERSION, "The show's version isn't 1 or 2."),
    SACN_TOLD(show, SACN_SHOW_CUE,
              "A cue of the show has a taken number, a channel out of range or too long a time, or is one too many."),
    SACN_TOLD(show, SACN_SHOW_PATCH,
              "A patch of the show has an unlisted universe, a channel or slot out of range, or a taken slot."),
    SACN_TOLD(console, SACN_CONSOLE_NO_CUE, "The show has no such cue, or none above the current one."),
    SACN_TOLD(console, SACN_CONSOLE_CHANNEL_RANGE, "The channel isn't 1 to 2048."),
    SACN_TOLD(console, SACN_CONSOLE_NO_UNIVERSE, "The show has no such universe."),
    SACN_TOLD(console, SACN_CONSOLE_ENDING, "The universe is ending."),
    SACN_TOLD(console, SACN_CONSOLE_RUNNING, "The universe runs already."),
    SACN_TOLD(console, SACN_CONSOLE_STOPPED, "The universe is stopped already."),
    SACN_TOLD(source, SACN_SOURCE_OUT_OF_MEMORY, "A request for memory was refused while the source was made."),
    SACN_TOLD(source, SACN_SOURCE_BAD_UNIVERSE, "The source's universe isn't 1 to 63999."),
    SACN_TOLD(source, SACN_SOURCE_NO_UNIVERSE, "The source has no such universe."),
    SACN_TOLD(source, SACN_SOURCE_RUNNING, "The source's universe runs already."),
    SACN_TOLD(source, SACN_SOURCE_ENDING, "The source's universe is ending."),
    SACN_TOLD(source, SACN_SOURCE_STOPPED, "The source's universe is stopped already."),
    SACN_TOLD(source, SACN_SOURCE_FULL, "The source has no room for one more universe."),
    SACN_TOLD(source, SACN_SOURCE_TOO_MANY, "There are more than 512 levels."),
    SACN_TOLD(source, SACN_SOURCE_BAD_PRIORITY, "The source's priority is above 200."),
    SACN_TOLD(sources, SACN_SOURCES_OUT_OF_MEMORY, "A request for memory was refused while the table was made."),
};
#undef SACN_TOLD

inline constexpr Told unknown{Family::status, -1, "unknown", "The library answers what this header doesn't know."};

/** What is told of a status, of a call that has the faults of this family. */
inline const Told &told_of(Family family, int status) noexcept {
    for (const Told &it : statuses) {
        if (it.status == status && (it.family == family || it.family == Family::status)) return it;
    }
    return unknown;
}

} // namespace detail

/** A status that isn't SACN_DONE. */
class Error : public std::runtime_error {
  public:
    /** Of a call that has the faults of this family. */
    Error(Family family, int status) : Error(detail::told_of(family, status), status) {}

    /** The number of the status. */
    int status() const noexcept { return status_; }
    /** Which enum of sacn.h the status is of. */
    Family family() const noexcept { return told_->family; }
    /** The status's name in sacn.h, as "SACN_SETUP_TOML". */
    const char *name() const noexcept { return told_->name; }
    /** One sentence of what the status means. */
    const char *meaning() const noexcept { return told_->meaning; }

  private:
    Error(const detail::Told &told, int status)
        : std::runtime_error(std::string(told.name) + " (" + std::to_string(status) + "): " + told.meaning),
          told_(&told), status_(status) {}

    const detail::Told *told_;
    int status_;
};

namespace detail {

inline void check(int status, Family family = Family::status) {
    if (status != SACN_DONE) throw Error(family, status);
}

/** Whether a call found what it was asked for: SACN_RANGE says that there is none. */
inline bool found(int status) {
    if (status == SACN_RANGE) return false;
    check(status);
    return true;
}

/** The lines, without their ends, that a call tells into a room, which gives their octets. */
template <class Tell> std::vector<std::string> lines_of(Tell tell) {
    std::string room(4096, '\0');
    std::size_t count = 0;
    int status = tell(room.data(), room.size(), &count);
    if (status == SACN_LENGTH && count > room.size()) {
        room.resize(count);
        status = tell(room.data(), room.size(), &count);
    }
    check(status);
    room.resize(count);
    std::vector<std::string> lines;
    for (std::size_t start = 0, end; (end = room.find('\n', start)) != std::string::npos; start = end + 1) {
        lines.push_back(room.substr(start, end - start));
    }
    return lines;
}

} // namespace detail

/* ---- what is wrong with a setup or a show ---- */

/** Every fault of a setup in TOML, a line each, as `sacn check` prints it behind a file's name:
    "port[0].universe: 64000: KeyValue: a universe is 1 to 63999". There are none exactly where Node takes the setup.
    Throws SACN_LENGTH where it has more than SACN_MAX_TEXT octets. */
inline std::vector<std::string> setup_faults(std::string_view setup) {
    return detail::lines_of([setup](char *lines, std::size_t room, std::size_t *count) {
        return sacn_setup_faults(setup.data(), setup.size(), lines, room, count);
    });
}

/** The same of a show: there are none exactly where Console takes it. */
inline std::vector<std::string> show_faults(std::string_view show) {
    return detail::lines_of([show](char *lines, std::size_t room, std::size_t *count) {
        return sacn_show_faults(show.data(), show.size(), lines, room, count);
    });
}

/** A setup or a show is refused. */
class Refused : public Error {
  public:
    /** By this status, of a text whose faults a call tells. */
    Refused(Family family, int status, std::string_view text, std::vector<std::string> (*faults_of)(std::string_view))
        : Error(family, status) {
        try {
            faults_ = faults_of(text);
        } catch (const std::exception &) {
            // (a text that is too long, or want of memory: the status stands alone)
        }
    }

    /** The line of each fault, as of setup_faults and show_faults; none where they can't be told. */
    const std::vector<std::string> &faults() const noexcept { return faults_; }

  private:
    std::vector<std::string> faults_;
};

/* ---- packets ---- */

/** Reads the packet at the front of `count` octets; what follows it is passed over. A data packet's start code and 512
    slots go to `frame`, 0 in each that isn't given, and of another packet nothing. Throws Family::packet where it is
    none, by the first check that fails. */
inline sacn_packet read_packet(const std::uint8_t *octets, std::size_t count, Frame *frame = nullptr) {
    sacn_packet packet{};
    detail::check(sacn_read_packet(octets, count, &packet, frame ? frame->data() : nullptr), Family::packet);
    return packet;
}

/** Writes a data packet of these fields and of 0 to 512 slots to the front of `out`, and gives its length: 126, and one
    for each slot. Throws SACN_PACKET_PRIORITY, SACN_PACKET_UNIVERSE or SACN_PACKET_VALUE_COUNT. */
inline std::size_t write_data(const sacn_packet &packet, const std::uint8_t *slots, std::size_t slot_count,
                              std::array<std::uint8_t, SACN_DATA_OCTETS> &out) {
    std::size_t length = 0;
    detail::check(sacn_write_data(&packet, slots, slot_count, out.data(), &length), Family::packet);
    return length;
}

/** The source's name: what stands before the first NUL of its field. */
inline std::string packet_name(const sacn_packet &packet) {
    char text[SACN_TEXT_OCTETS];
    detail::check(sacn_packet_name(&packet, text));
    return text;
}

/** Sets the source's name, at most 63 octets, so that a NUL ends it (E1.31, 6.2.2). Throws SACN_LENGTH. */
inline void set_name(sacn_packet &packet, std::string_view name) {
    if (name.size() >= sizeof packet.name) throw Error(Family::status, SACN_LENGTH);
    std::fill(std::begin(packet.name), std::end(packet.name), std::uint8_t{0});
    std::copy(name.begin(), name.end(), packet.name);
}

/** The universe numbers of the page at the front of `count` octets, in the order and range in which they came. Throws
    Family::packet where it is no packet, and SACN_RANGE where it is no page. */
inline std::vector<std::uint16_t> read_universes(const std::uint8_t *octets, std::size_t count) {
    std::vector<std::uint16_t> universes(SACN_PAGE_UNIVERSES);
    std::size_t given = 0;
    detail::check(sacn_read_universes(octets, count, universes.data(), universes.size(), &given), Family::packet);
    universes.resize(given);
    return universes;
}

/** Writes the page `packet.page` of a list of universes, each above the one before, to the front of `out`, and gives
    its length: 120, and two for each of its universes. A page has 512, the last one the rest, and a list of none one
    page. Throws SACN_RANGE where the list doesn't ascend, or has no such page. */
inline std::size_t write_page(const sacn_packet &packet, const std::uint16_t *universes, std::size_t count,
                              std::array<std::uint8_t, SACN_MAX_DATAGRAM> &out) {
    std::size_t length = 0;
    detail::check(sacn_write_page(&packet, universes, count, out.data(), &length));
    return length;
}

/** Whether a packet with the number `arrived` is in sequence after one with the number `held` (E1.31, 6.7.2). */
inline bool in_sequence(std::uint8_t held, std::uint8_t arrived) noexcept {
    return sacn_in_sequence(held, arrived) != 0;
}

/** The IPv4 group of a universe (E1.31, 9.3.1), its most significant octet first. */
inline std::array<std::uint8_t, 4> multicast_group(std::uint16_t universe) noexcept {
    std::array<std::uint8_t, 4> group{};
    sacn_multicast_group(universe, group.data());
    return group;
}

/* ---- handles ---- */

/** A handle of sacn.h, which is freed once, at its end; moved, and never copied. */
template <class Raw, int (*free_raw)(Raw *)> class Handle {
  public:
    Handle(const Handle &) = delete;
    Handle &operator=(const Handle &) = delete;
    Handle(Handle &&other) noexcept : raw_(std::exchange(other.raw_, Raw{})) {}
    Handle &operator=(Handle &&other) noexcept {
        if (this != &other) {
            free_raw(&raw_);
            raw_ = std::exchange(other.raw_, Raw{});
        }
        return *this;
    }

  protected:
    Handle() = default;
    // (an empty handle is refused)
    ~Handle() { free_raw(&raw_); }
    Raw *raw() noexcept { return &raw_; }

  private:
    Raw raw_{};
};

/** What is held of a source, and the levels that it shows: 0 in each slot that it doesn't give. */
struct Held {
    sacn_source source;
    Slots slots;
};

/** A node: it takes datagrams, merges its sources by priority and highest level, and shows the frames of its ports. */
class Node : public Handle<sacn_node, sacn_node_free> {
  public:
    /** Of a setup in TOML, as docs/FILES.md has it ("Node setups"). Throws Refused where it is refused: of
        Family::setup, or for a length that no text has of Family::status. */
    explicit Node(std::string_view setup) {
        const int status = sacn_node_new(raw(), setup.data(), setup.size(), &udp_port_);
        if (status != SACN_DONE) throw Refused(Family::setup, status, setup, setup_faults);
    }

    /** Of 1 to SACN_MAX_PORTS universes, each 1 to 63999 and once, without a setup: port i + 1 shows all slots of
        `universes[i]`. Throws SACN_LENGTH or SACN_RANGE. */
    static Node of_universes(const std::vector<std::uint16_t> &universes) {
        Node node;
        detail::check(sacn_node_of_universes(node.raw(), universes.data(), universes.size()));
        return node;
    }

    /** The UDP port that the node is to hear. */
    std::uint16_t udp_port() const noexcept { return udp_port_; }

    /** The numbers of the ports, ascending. */
    std::vector<std::uint8_t> ports() {
        std::vector<std::uint8_t> ports(SACN_MAX_PORTS);
        std::size_t count = 0;
        detail::check(sacn_node_ports(raw(), ports.data(), ports.size(), &count));
        ports.resize(count);
        return ports;
    }

    /** Takes a datagram, whatever its octets are. Throws Family::packet where it is no packet: only the clock has then
        moved, and what receives goes on. */
    sacn_taken take(std::uint64_t now, const std::uint8_t *octets, std::size_t count) {
        std::uint8_t taken = 0;
        detail::check(sacn_node_take(raw(), now, octets, count, &taken), Family::packet);
        return static_cast<sacn_taken>(taken);
    }

    /** Drops the sources that are lost, and tells how many those were. */
    std::size_t tick(std::uint64_t now) {
        std::size_t lost = 0;
        detail::check(sacn_node_tick(raw(), now, &lost));
        return lost;
    }

    /** The frame of a port. Throws SACN_RANGE where there is no such port. */
    Frame frame(std::uint64_t now, std::uint8_t port) {
        Frame frame{};
        detail::check(sacn_node_frame(raw(), now, port, frame.data()));
        return frame;
    }

    /** The first moment at which a source is lost if no datagram comes; nothing where there is none. */
    std::optional<std::uint64_t> wakes() {
        std::uint64_t moment = 0;
        if (!detail::found(sacn_node_wakes(raw(), &moment))) return std::nullopt;
        return moment;
    }

    /** What is held of the source of a CID on a universe; nothing where none is. No clock moves. */
    std::optional<Held> held(std::uint16_t universe, const Cid &cid) {
        Held held{};
        const int status = sacn_node_held(raw(), universe, cid.data(), &held.source, held.slots.data());
        if (!detail::found(status)) return std::nullopt;
        return held;
    }

  private:
    Node() = default;

    std::uint16_t udp_port_ = SACN_UDP_PORT;
};

/** The sources of one universe, at most 16, and the merge of what they show: for who has the rest of a receiver. */
class Sources : public Handle<sacn_sources, sacn_sources_free> {
  public:
    /** An empty table, with the room for all its sources. Throws Family::sources where there is no memory. */
    Sources() { detail::check(sacn_sources_new(raw()), Family::sources); }

    /** Takes a datagram, whatever its octets are; a data packet counts whatever universe it names. Throws
        Family::packet where it is no packet: only the clock has then moved, and what receives goes on. */
    sacn_taken take(std::uint64_t now, const std::uint8_t *octets, std::size_t count) {
        std::uint8_t taken = 0;
        detail::check(sacn_sources_take(raw(), now, octets, count, &taken), Family::packet);
        return static_cast<sacn_taken>(taken);
    }

    /** In each slot the highest level of the sources of the highest priority, and 0 where no source is live. */
    Slots merged(std::uint64_t now) {
        Slots slots{};
        detail::check(sacn_sources_merged(raw(), now, slots.data()));
        return slots;
    }

    /** Drops the sources that are lost, and tells how many those were, ended ones too. */
    std::size_t tick(std::uint64_t now) {
        std::size_t lost = 0;
        detail::check(sacn_sources_tick(raw(), now, &lost));
        return lost;
    }

    /** The first moment at which a source is lost if no datagram comes, ended ones too; nothing where there is none. */
    std::optional<std::uint64_t> wakes() {
        std::uint64_t moment = 0;
        if (!detail::found(sacn_sources_wakes(raw(), &moment))) return std::nullopt;
        return moment;
    }

    /** What is held of the source of a CID; nothing where none is. No source is dropped, however old it is. */
    std::optional<Held> held(const Cid &cid) {
        Held held{};
        const int status = sacn_sources_held(raw(), cid.data(), &held.source, held.slots.data());
        if (!detail::found(status)) return std::nullopt;
        return held;
    }
};

/** Collects the pages of universe discovery (E1.31, 8) for SACN_LIST_LOSS milliseconds, and has the list of universes
    of each source. Those who send say how much memory that is, up to 256 pages of a kilobyte for each CID. */
class Collector : public Handle<sacn_collector, sacn_collector_free> {
  public:
    /** A collector that knows nothing. Throws SACN_OUT_OF_MEMORY. */
    Collector() { detail::check(sacn_collector_new(raw())); }

    /** Takes a datagram: a page is kept, and any other packet changes nothing. Throws Family::packet where it is no
        packet, and SACN_OUT_OF_MEMORY where the page isn't kept. */
    void take(std::uint64_t now, const std::uint8_t *octets, std::size_t count) {
        detail::check(sacn_collector_take(raw(), now, octets, count), Family::packet);
    }

    /** The universes of a source, ascending and each once; nothing where it isn't known or a page of it is lacking. */
    std::optional<std::vector<std::uint16_t>> list(std::uint64_t now, const Cid &cid) {
        std::vector<std::uint16_t> universes(SACN_PAGE_UNIVERSES);
        for (;;) {
            std::size_t count = 0;
            const int status = sacn_collector_list(raw(), now, cid.data(), universes.data(), universes.size(), &count);
            const bool is_short = status == SACN_LENGTH && count > universes.size();
            if (!is_short && !detail::found(status)) return std::nullopt;
            universes.resize(count);
            if (!is_short) return universes;
        }
    }

    /** Forgets the lists whose latest page is SACN_LIST_LOSS old, and tells how many those were. */
    std::size_t tick(std::uint64_t now) {
        std::size_t forgotten = 0;
        detail::check(sacn_collector_tick(raw(), now, &forgotten));
        return forgotten;
    }
};

/** A datagram that a console or a source gives. */
struct Datagram {
    std::array<std::uint8_t, SACN_MAX_DATAGRAM> octets;
    std::size_t count;
    /** The universe to whose group it goes: a data packet's own, and SACN_DISCOVERY_UNIVERSE of a page. */
    std::uint16_t universe() const noexcept {
        // (the root vector is 4 in a data packet and 8 in a page)
        const int universe = octets[21] == 4 ? octets[113] << 8 | octets[114] : SACN_DISCOVERY_UNIVERSE;
        return static_cast<std::uint16_t>(universe);
    }
};

/** A console: it plays a show's cues, and gives the datagrams that are due. Before its end its universes are ended, and
    it is polled until each is stopped: else nodes show its last levels until they count it as lost. */
class Console : public Handle<sacn_console, sacn_console_free> {
  public:
    /** Of a show in TOML, as docs/FILES.md has it ("Shows"); where datagrams are sent is the caller's to say. The first
        packet on each universe has the number `first`. Throws Refused where the show is refused: of Family::show,
        or for a length that no text has of Family::status. */
    explicit Console(std::string_view show, std::uint8_t first = 0) {
        const int status = sacn_console_new(raw(), show.data(), show.size(), first);
        if (status != SACN_DONE) throw Refused(Family::show, status, show, show_faults);
    }

    /** To the next cue. Throws SACN_CONSOLE_NO_CUE. */
    void go(std::uint64_t now) { command(now, SACN_GO, 0, 0); }
    /** To the cue of this number. Throws SACN_CONSOLE_NO_CUE. */
    void go_to(std::uint64_t now, std::uint16_t cue) { command(now, SACN_GO_TO, cue, 0); }
    /** A channel, 1 to 2048, to a level, 0 to 65535. Throws SACN_CONSOLE_CHANNEL_RANGE. */
    void set_level(std::uint64_t now, std::uint16_t channel, std::uint16_t level) {
        command(now, SACN_SET_LEVEL, channel, level);
    }
    /** The grand master to a level, 0 to 65535. */
    void master(std::uint64_t now, std::uint16_t level) { command(now, SACN_MASTER, 0, level); }
    /** Ends a universe, by three terminations (E1.31, 6.2.6). Throws SACN_CONSOLE_NO_UNIVERSE, _ENDING or _STOPPED. */
    void end_universe(std::uint64_t now, std::uint16_t universe) { command(now, SACN_END_UNIVERSE, universe, 0); }
    /** Starts a stopped universe anew. Throws SACN_CONSOLE_NO_UNIVERSE, _ENDING or _RUNNING. */
    void start_universe(std::uint64_t now, std::uint16_t universe) { command(now, SACN_START_UNIVERSE, universe, 0); }

    /** The datagram that is due; nothing where none is. Poll until none is. */
    std::optional<Datagram> poll(std::uint64_t now) {
        Datagram datagram{};
        detail::check(sacn_console_poll(raw(), now, datagram.octets.data(), &datagram.count));
        if (datagram.count == 0) return std::nullopt;
        return datagram;
    }

    /** The first moment at which something can be due as long as no command comes. */
    std::uint64_t wakes() {
        std::uint64_t moment = 0;
        detail::check(sacn_console_wakes(raw(), &moment));
        return moment;
    }

    /** The show's universes, by ascending number. */
    std::vector<sacn_universe> universes() {
        std::vector<sacn_universe> universes;
        sacn_universe told{};
        while (detail::found(sacn_console_universe(raw(), universes.size(), &told))) universes.push_back(told);
        return universes;
    }

    /** The number of the cue that was gone to last; nothing before the first. */
    std::optional<std::uint16_t> cue() {
        std::uint16_t number = 0;
        if (!detail::found(sacn_console_cue(raw(), &number))) return std::nullopt;
        return number;
    }

  private:
    void command(std::uint64_t now, sacn_command command, std::uint16_t number, std::uint16_t level) {
        const auto told = static_cast<std::uint8_t>(command);
        detail::check(sacn_console_command(raw(), now, told, number, level), Family::console);
    }
};

/** A source: it is handed the levels of its universes whenever they change, and gives the datagrams that are due. Before
    its end its universes are ended, and it is polled until each is stopped: else nodes show its last levels until they
    count it as lost. */
class Source : public Handle<sacn_source_handle, sacn_source_free> {
  public:
    /** Of a name of at most 63 octets of UTF-8 without a NUL, with the priority of each universe that is added, and room
        for so many. The first packet on each has the number `first`. Throws SACN_NAME, or Family::source. */
    Source(const Cid &cid, std::string_view name, std::uint8_t priority = 100, std::size_t room = SACN_SOURCE_UNIVERSES,
           std::uint8_t first = 0) {
        const int status = sacn_source_new(raw(), cid.data(), name.data(), name.size(), priority, room, first);
        detail::check(status, Family::source);
    }

    /** Begins a universe, 1 to 63999: a new one with levels of 0, one that is stopped with those that it had. Throws
        SACN_SOURCE_BAD_UNIVERSE, _RUNNING, _ENDING or _FULL. */
    void add(std::uint16_t universe) { detail::check(sacn_source_add(raw(), universe), Family::source); }

    /** Gives a universe other levels: these on its slots from 1 on, and 0 on all others. Throws SACN_SOURCE_NO_UNIVERSE
        or _TOO_MANY. */
    void levels(std::uint16_t universe, const std::uint8_t *slots, std::size_t count) {
        detail::check(sacn_source_levels(raw(), universe, slots, count), Family::source);
    }

    /** Gives a universe another priority, 0 to 200 (E1.31, 6.2.3). Throws SACN_SOURCE_NO_UNIVERSE or _BAD_PRIORITY. */
    void priority(std::uint16_t universe, std::uint8_t priority) {
        detail::check(sacn_source_priority(raw(), universe, priority), Family::source);
    }

    /** Ends a universe, by three terminations (E1.31, 6.2.6). Throws SACN_SOURCE_NO_UNIVERSE, _ENDING or _STOPPED. */
    void end(std::uint16_t universe) { detail::check(sacn_source_end(raw(), universe), Family::source); }

    /** Ends each universe that runs. */
    void end_all() { detail::check(sacn_source_end_all(raw())); }

    /** The datagram that is due; nothing where none is. Poll until none is. */
    std::optional<Datagram> poll(std::uint64_t now) {
        Datagram datagram{};
        std::uint16_t universe = 0;
        detail::check(sacn_source_poll(raw(), now, datagram.octets.data(), &datagram.count, &universe));
        if (datagram.count == 0) return std::nullopt;
        return datagram;
    }

    /** The first moment at which something is due as long as no other call comes. */
    std::uint64_t wakes() {
        std::uint64_t moment = 0;
        detail::check(sacn_source_wakes(raw(), &moment));
        return moment;
    }

    /** The universes that were added, by ascending number. */
    std::vector<sacn_universe> universes() {
        std::vector<sacn_universe> universes;
        sacn_universe told{};
        while (detail::found(sacn_source_universe(raw(), universes.size(), &told))) universes.push_back(told);
        return universes;
    }
};

/** How many sources light a universe at its greatest priority, and that priority; 0 and 0 where none does. */
struct Rivals {
    std::size_t count;
    std::uint8_t priority;
};

/** A monitor: it hears a network, and keeps an account of each source on each universe, at most SACN_MAX_STREAMS. */
class Monitor : public Handle<sacn_monitor, sacn_monitor_free> {
  public:
    /** A monitor that has heard nothing, with the room for all its accounts. Throws SACN_OUT_OF_MEMORY. */
    Monitor() { detail::check(sacn_monitor_new(raw())); }

    /** Takes a datagram that came from a sender, whatever its octets are. Throws Family::packet where it is no packet:
        only the clock has then moved. */
    sacn_news take(std::uint64_t now, const sacn_sender &sender, const std::uint8_t *octets, std::size_t count) {
        sacn_news news{};
        detail::check(sacn_monitor_take(raw(), now, &sender, octets, count, &news), Family::packet);
        return news;
    }

    /** Moves the clock, and tells the places of the sources lost by then, each once since its latest packet. */
    std::vector<std::size_t> tick(std::uint64_t now) {
        std::vector<std::size_t> lost;
        std::size_t place = 0;
        while (detail::found(sacn_monitor_tick(raw(), now, &place))) lost.push_back(place);
        return lost;
    }

    /** The first moment at which a tick tells of a source if no datagram comes; nothing where there is none. */
    std::optional<std::uint64_t> wakes() {
        std::uint64_t moment = 0;
        detail::check(sacn_monitor_wakes(raw(), &moment));
        if (moment == UINT64_MAX) return std::nullopt;
        return moment;
    }

    /** How many pairs of a universe and a source have an account. */
    std::size_t count() {
        std::size_t count = 0;
        detail::check(sacn_monitor_count(raw(), &count));
        return count;
    }

    /** The account of the pair at a place, from 0 on, at the greatest moment that was handed in. Throws SACN_RANGE. */
    sacn_stream account(std::size_t place) {
        sacn_stream stream{};
        detail::check(sacn_monitor_account(raw(), place, &stream));
        return stream;
    }

    /** What lights a universe. */
    Rivals rivals(std::uint16_t universe) {
        Rivals rivals{};
        detail::check(sacn_monitor_rivals(raw(), universe, &rivals.count, &rivals.priority));
        return rivals;
    }
};

} // namespace sacn

#endif
