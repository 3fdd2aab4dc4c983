//! Declarations of libsacn, as its header `sacn.h` has them: what each call does, and when, stands there.
//!
//! `build.rs` links the library from the folder SACN_LIB_DIR, or as pkg-config's `sacn` says. The crate `sacn-core` is
//! the safe face of this one.
#![no_std]
#![allow(non_camel_case_types)]

use core::ffi::{c_char, c_int, c_void};

// ---- statuses (c_int) ----

// enum sacn_status
pub const SACN_DONE: c_int = 0;
pub const SACN_NULL: c_int = 1001;
pub const SACN_LENGTH: c_int = 1002;
pub const SACN_WRONG_HANDLE: c_int = 1003;
pub const SACN_RANGE: c_int = 1004;
pub const SACN_NOT_EMPTY: c_int = 1005;
pub const SACN_OUT_OF_MEMORY: c_int = 1006;
pub const SACN_NAME: c_int = 1007;

// enum sacn_packet_fault
pub const SACN_PACKET_TOO_SHORT: c_int = 1;
pub const SACN_PACKET_PREAMBLE: c_int = 2;
pub const SACN_PACKET_POSTAMBLE: c_int = 3;
pub const SACN_PACKET_IDENTIFIER: c_int = 4;
pub const SACN_PACKET_FLAGS: c_int = 5;
pub const SACN_PACKET_LENGTH: c_int = 6;
pub const SACN_PACKET_ROOT_VECTOR: c_int = 7;
pub const SACN_PACKET_FRAMING_VECTOR: c_int = 8;
pub const SACN_PACKET_DMP_VECTOR: c_int = 9;
pub const SACN_PACKET_ADDRESS_TYPE: c_int = 10;
pub const SACN_PACKET_FIRST_ADDRESS: c_int = 11;
pub const SACN_PACKET_INCREMENT: c_int = 12;
pub const SACN_PACKET_VALUE_COUNT: c_int = 13;
pub const SACN_PACKET_PRIORITY: c_int = 14;
pub const SACN_PACKET_UNIVERSE: c_int = 15;
pub const SACN_PACKET_DISCOVERY_VECTOR: c_int = 16;
pub const SACN_PACKET_PAGE_RANGE: c_int = 17;
pub const SACN_PACKET_TOO_MANY_UNIVERSES: c_int = 18;

// enum sacn_setup_fault
pub const SACN_SETUP_OUT_OF_MEMORY: c_int = 1;
pub const SACN_SETUP_TOML: c_int = 2;
pub const SACN_SETUP_MISSING_KEY: c_int = 3;
pub const SACN_SETUP_UNKNOWN_KEY: c_int = 4;
pub const SACN_SETUP_KEY_VALUE: c_int = 5;
pub const SACN_SETUP_VERSION: c_int = 6;
pub const SACN_SETUP_PORT_TAKEN: c_int = 7;
pub const SACN_SETUP_LIMIT: c_int = 8;
pub const SACN_SETUP_RANGE_END: c_int = 9;
pub const SACN_SETUP_OVERLAP: c_int = 10;

// enum sacn_show_fault
pub const SACN_SHOW_OUT_OF_MEMORY: c_int = 1;
pub const SACN_SHOW_TOML: c_int = 2;
pub const SACN_SHOW_MISSING_KEY: c_int = 3;
pub const SACN_SHOW_UNKNOWN_KEY: c_int = 4;
pub const SACN_SHOW_KEY_VALUE: c_int = 5;
pub const SACN_SHOW_VERSION: c_int = 6;
pub const SACN_SHOW_CUE: c_int = 7;
pub const SACN_SHOW_PATCH: c_int = 8;

// enum sacn_console_fault
pub const SACN_CONSOLE_NO_CUE: c_int = 1;
pub const SACN_CONSOLE_CHANNEL_RANGE: c_int = 2;
pub const SACN_CONSOLE_NO_UNIVERSE: c_int = 3;
pub const SACN_CONSOLE_ENDING: c_int = 4;
pub const SACN_CONSOLE_RUNNING: c_int = 5;
pub const SACN_CONSOLE_STOPPED: c_int = 6;

// enum sacn_source_fault
pub const SACN_SOURCE_OUT_OF_MEMORY: c_int = 1;
pub const SACN_SOURCE_BAD_UNIVERSE: c_int = 2;
pub const SACN_SOURCE_NO_UNIVERSE: c_int = 3;
pub const SACN_SOURCE_RUNNING: c_int = 4;
pub const SACN_SOURCE_ENDING: c_int = 5;
pub const SACN_SOURCE_STOPPED: c_int = 6;
pub const SACN_SOURCE_FULL: c_int = 7;
pub const SACN_SOURCE_TOO_MANY: c_int = 8;
pub const SACN_SOURCE_BAD_PRIORITY: c_int = 9;

// enum sacn_sources_fault
pub const SACN_SOURCES_OUT_OF_MEMORY: c_int = 1;

// ---- what a struct's field or an argument is one of (u8) ----

// enum sacn_packet_kind
pub const SACN_DATA: u8 = 1;
pub const SACN_PAGE: u8 = 2;
pub const SACN_SYNC: u8 = 3;

// enum sacn_taken
pub const SACN_TAKEN_REFUSED: u8 = 0;
pub const SACN_TAKEN_HELD: u8 = 1;
pub const SACN_TAKEN_OBSERVED: u8 = 2;
pub const SACN_TAKEN_ENDED: u8 = 3;
pub const SACN_TAKEN_OUT_OF_SEQUENCE: u8 = 4;
pub const SACN_TAKEN_SOURCES_EXCEEDED: u8 = 5;
pub const SACN_TAKEN_UNKNOWN_IGNORED: u8 = 6;
pub const SACN_TAKEN_OTHER_UNIVERSE: u8 = 7;
pub const SACN_TAKEN_DISCOVERY: u8 = 8;
pub const SACN_TAKEN_SYNC: u8 = 9;

// enum sacn_command
pub const SACN_GO: u8 = 1;
pub const SACN_GO_TO: u8 = 2;
pub const SACN_SET_LEVEL: u8 = 3;
pub const SACN_MASTER: u8 = 4;
pub const SACN_END_UNIVERSE: u8 = 5;
pub const SACN_START_UNIVERSE: u8 = 6;

// enum sacn_universe_state
pub const SACN_UNIVERSE_RUNNING: u8 = 1;
pub const SACN_UNIVERSE_ENDING: u8 = 2;
pub const SACN_UNIVERSE_STOPPED: u8 = 3;

// enum sacn_noted
pub const SACN_NOTED_REFUSED: u8 = 0;
pub const SACN_NOTED_PAGE: u8 = 1;
pub const SACN_NOTED_SYNC: u8 = 2;
pub const SACN_NOTED_UNTRACKED: u8 = 3;
pub const SACN_NOTED_HEARD: u8 = 4;

// enum sacn_event
pub const SACN_EVENT_NONE: u8 = 0;
pub const SACN_EVENT_GOES_ON: u8 = 1;
pub const SACN_EVENT_APPEARED: u8 = 2;
pub const SACN_EVENT_CAME_BACK: u8 = 3;
pub const SACN_EVENT_ENDED: u8 = 4;
pub const SACN_EVENT_OUT_OF_SEQUENCE: u8 = 5;
pub const SACN_EVENT_REPEATED: u8 = 6;

// enum sacn_stream_state
pub const SACN_SENDING: u8 = 1;
pub const SACN_ENDED: u8 = 2;
pub const SACN_LOST: u8 = 3;

// ---- sizes and limits ----

pub const SACN_SLOTS: usize = 512;
pub const SACN_FRAME_OCTETS: usize = 513;
pub const SACN_DATA_OCTETS: usize = 638;
pub const SACN_MAX_DATAGRAM: usize = 1144;
pub const SACN_UDP_PORT: u16 = 5568;
pub const SACN_DISCOVERY_UNIVERSE: u16 = 64214;
pub const SACN_PAGE_UNIVERSES: usize = 512;
pub const SACN_MAX_SOURCES: usize = 16;
pub const SACN_MAX_PORTS: usize = 16;
pub const SACN_MAX_UNIVERSES: usize = 16;
pub const SACN_MAX_TEXT: usize = 1048576;
pub const SACN_DATA_LOSS: u64 = 2500;
pub const SACN_LIST_LOSS: u64 = 25000;
pub const SACN_TEXT_OCTETS: usize = 65;
pub const SACN_SOURCE_UNIVERSES: usize = 1024;
pub const SACN_MAX_STREAMS: usize = 1024;

// ---- structs ----

#[repr(C)]
#[derive(Clone, Copy, Debug, PartialEq, Eq)]
pub struct sacn_packet {
    pub kind: u8,
    pub priority: u8,
    pub number: u8,
    pub preview: u8,
    pub terminated: u8,
    pub start: u8,
    pub page: u8,
    pub last: u8,
    pub universe: u16,
    pub count: u16,
    pub cid: [u8; 16],
    pub name: [u8; 64],
}

/// A handle: zero where it is empty. It is never copied.
#[repr(C)]
#[derive(Debug)]
pub struct sacn_node {
    pub behind: *mut c_void,
}

#[repr(C)]
#[derive(Clone, Copy, Debug, Default, PartialEq, Eq)]
pub struct sacn_source {
    pub moment: u64,
    pub number: u8,
    pub ended: u8,
    pub priority: u8,
    pub unused: [u8; 5],
}

/// A handle: zero where it is empty. It is never copied.
#[repr(C)]
#[derive(Debug)]
pub struct sacn_sources {
    pub behind: *mut c_void,
}

/// A handle: zero where it is empty. It is never copied.
#[repr(C)]
#[derive(Debug)]
pub struct sacn_collector {
    pub behind: *mut c_void,
}

/// A handle: zero where it is empty. It is never copied.
#[repr(C)]
#[derive(Debug)]
pub struct sacn_console {
    pub behind: *mut c_void,
}

#[repr(C)]
#[derive(Clone, Copy, Debug, Default, PartialEq, Eq)]
pub struct sacn_universe {
    pub latest: u64,
    pub universe: u16,
    pub state: u8,
    pub number: u8,
    pub unused: [u8; 4],
}

/// A handle: zero where it is empty. It is never copied.
#[repr(C)]
#[derive(Debug)]
pub struct sacn_source_handle {
    pub behind: *mut c_void,
}

#[repr(C)]
#[derive(Clone, Copy, Debug, Default, PartialEq, Eq)]
pub struct sacn_sender {
    pub address: [u8; 4],
    pub port: u16,
}

#[repr(C)]
#[derive(Clone, Copy, Debug, Default, PartialEq, Eq)]
pub struct sacn_news {
    pub place: usize,
    pub noted: u8,
    pub event: u8,
    pub skipped: u8,
    pub began_anew: u8,
    pub renamed: u8,
    pub moved: u8,
    pub priority_from: u8,
    pub priority_to: u8,
}

#[repr(C)]
#[derive(Clone, Copy, Debug, PartialEq, Eq)]
pub struct sacn_stream {
    pub first: u64,
    pub latest: u64,
    pub live: u64,
    pub previews: u64,
    pub terminations: u64,
    pub others: u64,
    pub skipped: u64,
    pub late: u64,
    pub repeats: u64,
    pub greatest_gap: u64,
    pub last_second: u64,
    pub universe: u16,
    pub port: u16,
    pub address: [u8; 4],
    pub priority: u8,
    pub number: u8,
    pub state: u8,
    pub unused: u8,
    pub unused_too: [u8; 4],
    pub cid: [u8; 16],
    pub name: [u8; 64],
}

/// A handle: zero where it is empty. It is never copied.
#[repr(C)]
#[derive(Debug)]
pub struct sacn_monitor {
    pub behind: *mut c_void,
}

extern "C" {
    pub fn sacn_read_packet(octets: *const u8, count: usize, packet: *mut sacn_packet, frame: *mut u8) -> c_int;
    pub fn sacn_write_data(
        packet: *const sacn_packet,
        slots: *const u8,
        slot_count: usize,
        out: *mut u8,
        length: *mut usize,
    ) -> c_int;
    pub fn sacn_packet_name(packet: *const sacn_packet, text: *mut c_char) -> c_int;
    pub fn sacn_read_universes(
        octets: *const u8,
        count: usize,
        universes: *mut u16,
        room: usize,
        given: *mut usize,
    ) -> c_int;
    pub fn sacn_write_page(
        packet: *const sacn_packet,
        universes: *const u16,
        count: usize,
        out: *mut u8,
        length: *mut usize,
    ) -> c_int;
    pub fn sacn_in_sequence(held: u8, arrived: u8) -> c_int;
    pub fn sacn_multicast_group(universe: u16, group: *mut u8) -> c_int;
    pub fn sacn_setup_faults(
        setup: *const c_char,
        length: usize,
        lines: *mut c_char,
        room: usize,
        count: *mut usize,
    ) -> c_int;
    pub fn sacn_node_new(node: *mut sacn_node, setup: *const c_char, length: usize, udp_port: *mut u16) -> c_int;
    pub fn sacn_node_of_universes(node: *mut sacn_node, universes: *const u16, count: usize) -> c_int;
    pub fn sacn_node_free(node: *mut sacn_node) -> c_int;
    pub fn sacn_node_take(node: *mut sacn_node, now: u64, octets: *const u8, count: usize, taken: *mut u8) -> c_int;
    pub fn sacn_node_tick(node: *mut sacn_node, now: u64, lost: *mut usize) -> c_int;
    pub fn sacn_node_frame(node: *mut sacn_node, now: u64, port: u8, frame: *mut u8) -> c_int;
    pub fn sacn_node_wakes(node: *mut sacn_node, moment: *mut u64) -> c_int;
    pub fn sacn_node_ports(node: *mut sacn_node, ports: *mut u8, room: usize, count: *mut usize) -> c_int;
    pub fn sacn_node_held(
        node: *mut sacn_node,
        universe: u16,
        cid: *const u8,
        source: *mut sacn_source,
        slots: *mut u8,
    ) -> c_int;
    pub fn sacn_sources_new(sources: *mut sacn_sources) -> c_int;
    pub fn sacn_sources_free(sources: *mut sacn_sources) -> c_int;
    pub fn sacn_sources_take(
        sources: *mut sacn_sources,
        now: u64,
        octets: *const u8,
        count: usize,
        taken: *mut u8,
    ) -> c_int;
    pub fn sacn_sources_merged(sources: *mut sacn_sources, now: u64, slots: *mut u8) -> c_int;
    pub fn sacn_sources_tick(sources: *mut sacn_sources, now: u64, lost: *mut usize) -> c_int;
    pub fn sacn_sources_wakes(sources: *mut sacn_sources, moment: *mut u64) -> c_int;
    pub fn sacn_sources_held(
        sources: *mut sacn_sources,
        cid: *const u8,
        source: *mut sacn_source,
        slots: *mut u8,
    ) -> c_int;
    pub fn sacn_collector_new(collector: *mut sacn_collector) -> c_int;
    pub fn sacn_collector_free(collector: *mut sacn_collector) -> c_int;
    pub fn sacn_collector_take(collector: *mut sacn_collector, now: u64, octets: *const u8, count: usize) -> c_int;
    pub fn sacn_collector_list(
        collector: *mut sacn_collector,
        now: u64,
        cid: *const u8,
        universes: *mut u16,
        room: usize,
        count: *mut usize,
    ) -> c_int;
    pub fn sacn_collector_tick(collector: *mut sacn_collector, now: u64, forgotten: *mut usize) -> c_int;
    pub fn sacn_show_faults(
        show: *const c_char,
        length: usize,
        lines: *mut c_char,
        room: usize,
        count: *mut usize,
    ) -> c_int;
    pub fn sacn_console_new(console: *mut sacn_console, show: *const c_char, length: usize, first: u8) -> c_int;
    pub fn sacn_console_free(console: *mut sacn_console) -> c_int;
    pub fn sacn_console_command(console: *mut sacn_console, now: u64, command: u8, number: u16, level: u16) -> c_int;
    pub fn sacn_console_poll(console: *mut sacn_console, now: u64, out: *mut u8, count: *mut usize) -> c_int;
    pub fn sacn_console_wakes(console: *mut sacn_console, moment: *mut u64) -> c_int;
    pub fn sacn_console_universe(console: *mut sacn_console, place: usize, universe: *mut sacn_universe) -> c_int;
    pub fn sacn_console_cue(console: *mut sacn_console, number: *mut u16) -> c_int;
    pub fn sacn_source_new(
        source: *mut sacn_source_handle,
        cid: *const u8,
        name: *const c_char,
        length: usize,
        priority: u8,
        room: usize,
        first: u8,
    ) -> c_int;
    pub fn sacn_source_free(source: *mut sacn_source_handle) -> c_int;
    pub fn sacn_source_add(source: *mut sacn_source_handle, universe: u16) -> c_int;
    pub fn sacn_source_levels(source: *mut sacn_source_handle, universe: u16, slots: *const u8, count: usize) -> c_int;
    pub fn sacn_source_priority(source: *mut sacn_source_handle, universe: u16, priority: u8) -> c_int;
    pub fn sacn_source_end(source: *mut sacn_source_handle, universe: u16) -> c_int;
    pub fn sacn_source_end_all(source: *mut sacn_source_handle) -> c_int;
    pub fn sacn_source_poll(
        source: *mut sacn_source_handle,
        now: u64,
        out: *mut u8,
        count: *mut usize,
        universe: *mut u16,
    ) -> c_int;
    pub fn sacn_source_wakes(source: *mut sacn_source_handle, moment: *mut u64) -> c_int;
    pub fn sacn_source_universe(source: *mut sacn_source_handle, place: usize, universe: *mut sacn_universe) -> c_int;
    pub fn sacn_monitor_new(monitor: *mut sacn_monitor) -> c_int;
    pub fn sacn_monitor_free(monitor: *mut sacn_monitor) -> c_int;
    pub fn sacn_monitor_take(
        monitor: *mut sacn_monitor,
        now: u64,
        sender: *const sacn_sender,
        octets: *const u8,
        count: usize,
        news: *mut sacn_news,
    ) -> c_int;
    pub fn sacn_monitor_tick(monitor: *mut sacn_monitor, now: u64, place: *mut usize) -> c_int;
    pub fn sacn_monitor_wakes(monitor: *mut sacn_monitor, moment: *mut u64) -> c_int;
    pub fn sacn_monitor_count(monitor: *mut sacn_monitor, count: *mut usize) -> c_int;
    pub fn sacn_monitor_account(monitor: *mut sacn_monitor, place: usize, stream: *mut sacn_stream) -> c_int;
    pub fn sacn_monitor_rivals(
        monitor: *mut sacn_monitor,
        universe: u16,
        count: *mut usize,
        priority: *mut u8,
    ) -> c_int;
}
