//! The library's calls as safe functions: all that is unsafe in this crate stands here.
//!
//! What makes each call sound: a reference is a pointer to what its type says, an array's has the length that `sacn.h`
//! wants, a slice is a pointer with its length, and what is lent to be written overlaps nothing. The library keeps no
//! pointer, and a handle is lent to one call at a time, by `&mut`.

use sacn_core_sys as sys;
use std::ffi::c_int;
use std::ptr::null_mut;
use sys::*;

/// What a handle's struct of `sacn.h` is: how it is empty, and how it is freed.
pub trait Kind: Sized {
    const EMPTY: Self;
    const FREE: unsafe extern "C" fn(*mut Self) -> c_int;
}

macro_rules! kinds {
    ($($name:ident: $free:ident,)*) => {
        $(impl Kind for $name {
            const EMPTY: Self = $name { behind: null_mut() };
            const FREE: unsafe extern "C" fn(*mut Self) -> c_int = $free;
        })*
    };
}

kinds! {
    sacn_node: sacn_node_free,
    sacn_sources: sacn_sources_free,
    sacn_collector: sacn_collector_free,
    sacn_console: sacn_console_free,
    sacn_source_handle: sacn_source_free,
    sacn_monitor: sacn_monitor_free,
}

/// A handle of the library's, which is freed once: where this is dropped.
#[derive(Debug)]
pub struct Handle<K: Kind>(K);

// SAFETY: what is behind a handle is the library's own memory, which any thread may use that alone has the handle.
unsafe impl<K: Kind> Send for Handle<K> {}

impl<K: Kind> Handle<K> {
    fn empty() -> Self {
        Handle(K::EMPTY)
    }
}

impl<K: Kind> Drop for Handle<K> {
    fn drop(&mut self) {
        // SAFETY: an empty handle is refused, any other one is freed here alone.
        unsafe { K::FREE(&mut self.0) };
    }
}

/// A handle, or the status that says why there is none.
type Made<K> = Result<Handle<K>, c_int>;

fn made<K: Kind>(make: impl FnOnce(&mut K) -> c_int) -> Made<K> {
    let mut handle = Handle::empty();
    match make(&mut handle.0) {
        SACN_DONE => Ok(handle),
        status => Err(status),
    }
}

/// A packet before it is read.
pub const NO_PACKET: sacn_packet = sacn_packet {
    kind: 0,
    priority: 0,
    number: 0,
    preview: 0,
    terminated: 0,
    start: 0,
    page: 0,
    last: 0,
    universe: 0,
    count: 0,
    cid: [0; 16],
    name: [0; 64],
};

pub fn read_packet(octets: &[u8], packet: &mut sacn_packet, frame: &mut [u8; SACN_FRAME_OCTETS]) -> c_int {
    unsafe { sacn_read_packet(octets.as_ptr(), octets.len(), packet, frame.as_mut_ptr()) }
}

pub fn write_data(packet: &sacn_packet, slots: &[u8], out: &mut [u8; SACN_DATA_OCTETS], length: &mut usize) -> c_int {
    unsafe { sacn_write_data(packet, slots.as_ptr(), slots.len(), out.as_mut_ptr(), length) }
}

pub fn packet_name(packet: &sacn_packet, text: &mut [u8; SACN_TEXT_OCTETS]) -> c_int {
    unsafe { sacn_packet_name(packet, text.as_mut_ptr().cast()) }
}

pub fn read_universes(octets: &[u8], universes: &mut [u16], given: &mut usize) -> c_int {
    unsafe { sacn_read_universes(octets.as_ptr(), octets.len(), universes.as_mut_ptr(), universes.len(), given) }
}

pub fn write_page(
    packet: &sacn_packet,
    universes: &[u16],
    out: &mut [u8; SACN_MAX_DATAGRAM],
    length: &mut usize,
) -> c_int {
    unsafe { sacn_write_page(packet, universes.as_ptr(), universes.len(), out.as_mut_ptr(), length) }
}

pub fn in_sequence(held: u8, arrived: u8) -> bool {
    unsafe { sacn_in_sequence(held, arrived) != 0 }
}

pub fn multicast_group(universe: u16) -> [u8; 4] {
    let mut group = [0; 4];
    // (it refuses a null pointer alone)
    unsafe { sacn_multicast_group(universe, group.as_mut_ptr()) };
    group
}

pub fn setup_faults(setup: &[u8], lines: &mut [u8], count: &mut usize) -> c_int {
    let (room, length) = (lines.as_mut_ptr().cast(), lines.len());
    unsafe { sacn_setup_faults(setup.as_ptr().cast(), setup.len(), room, length, count) }
}

pub fn node_new(setup: &[u8], udp_port: &mut u16) -> Made<sacn_node> {
    made(|node| unsafe { sacn_node_new(node, setup.as_ptr().cast(), setup.len(), udp_port) })
}

pub fn node_of_universes(universes: &[u16]) -> Made<sacn_node> {
    made(|node| unsafe { sacn_node_of_universes(node, universes.as_ptr(), universes.len()) })
}

pub fn node_take(node: &mut Handle<sacn_node>, now: u64, octets: &[u8], taken: &mut u8) -> c_int {
    unsafe { sacn_node_take(&mut node.0, now, octets.as_ptr(), octets.len(), taken) }
}

pub fn node_tick(node: &mut Handle<sacn_node>, now: u64, lost: &mut usize) -> c_int {
    unsafe { sacn_node_tick(&mut node.0, now, lost) }
}

pub fn node_frame(node: &mut Handle<sacn_node>, now: u64, port: u8, frame: &mut [u8; SACN_FRAME_OCTETS]) -> c_int {
    unsafe { sacn_node_frame(&mut node.0, now, port, frame.as_mut_ptr()) }
}

pub fn node_wakes(node: &mut Handle<sacn_node>, moment: &mut u64) -> c_int {
    unsafe { sacn_node_wakes(&mut node.0, moment) }
}

pub fn node_ports(node: &mut Handle<sacn_node>, ports: &mut [u8], count: &mut usize) -> c_int {
    unsafe { sacn_node_ports(&mut node.0, ports.as_mut_ptr(), ports.len(), count) }
}

pub fn node_held(
    node: &mut Handle<sacn_node>,
    universe: u16,
    cid: &[u8; 16],
    source: &mut sacn_source,
    slots: &mut [u8; SACN_SLOTS],
) -> c_int {
    unsafe { sacn_node_held(&mut node.0, universe, cid.as_ptr(), source, slots.as_mut_ptr()) }
}

pub fn sources_new() -> Made<sacn_sources> {
    made(|sources| unsafe { sacn_sources_new(sources) })
}

pub fn sources_take(sources: &mut Handle<sacn_sources>, now: u64, octets: &[u8], taken: &mut u8) -> c_int {
    unsafe { sacn_sources_take(&mut sources.0, now, octets.as_ptr(), octets.len(), taken) }
}

pub fn sources_merged(sources: &mut Handle<sacn_sources>, now: u64, slots: &mut [u8; SACN_SLOTS]) -> c_int {
    unsafe { sacn_sources_merged(&mut sources.0, now, slots.as_mut_ptr()) }
}

pub fn sources_tick(sources: &mut Handle<sacn_sources>, now: u64, lost: &mut usize) -> c_int {
    unsafe { sacn_sources_tick(&mut sources.0, now, lost) }
}

pub fn sources_wakes(sources: &mut Handle<sacn_sources>, moment: &mut u64) -> c_int {
    unsafe { sacn_sources_wakes(&mut sources.0, moment) }
}

pub fn sources_held(
    sources: &mut Handle<sacn_sources>,
    cid: &[u8; 16],
    source: &mut sacn_source,
    slots: &mut [u8; SACN_SLOTS],
) -> c_int {
    unsafe { sacn_sources_held(&mut sources.0, cid.as_ptr(), source, slots.as_mut_ptr()) }
}

pub fn collector_new() -> Made<sacn_collector> {
    made(|collector| unsafe { sacn_collector_new(collector) })
}

pub fn collector_take(collector: &mut Handle<sacn_collector>, now: u64, octets: &[u8]) -> c_int {
    unsafe { sacn_collector_take(&mut collector.0, now, octets.as_ptr(), octets.len()) }
}

pub fn collector_list(
    collector: &mut Handle<sacn_collector>,
    now: u64,
    cid: &[u8; 16],
    universes: &mut [u16],
    count: &mut usize,
) -> c_int {
    let (room, length) = (universes.as_mut_ptr(), universes.len());
    unsafe { sacn_collector_list(&mut collector.0, now, cid.as_ptr(), room, length, count) }
}

pub fn collector_tick(collector: &mut Handle<sacn_collector>, now: u64, forgotten: &mut usize) -> c_int {
    unsafe { sacn_collector_tick(&mut collector.0, now, forgotten) }
}

pub fn show_faults(show: &[u8], lines: &mut [u8], count: &mut usize) -> c_int {
    let (room, length) = (lines.as_mut_ptr().cast(), lines.len());
    unsafe { sacn_show_faults(show.as_ptr().cast(), show.len(), room, length, count) }
}

pub fn console_new(show: &[u8], first: u8) -> Made<sacn_console> {
    made(|console| unsafe { sacn_console_new(console, show.as_ptr().cast(), show.len(), first) })
}

pub fn console_command(console: &mut Handle<sacn_console>, now: u64, command: u8, number: u16, level: u16) -> c_int {
    unsafe { sacn_console_command(&mut console.0, now, command, number, level) }
}

pub fn console_poll(
    console: &mut Handle<sacn_console>,
    now: u64,
    out: &mut [u8; SACN_MAX_DATAGRAM],
    count: &mut usize,
) -> c_int {
    unsafe { sacn_console_poll(&mut console.0, now, out.as_mut_ptr(), count) }
}

pub fn console_wakes(console: &mut Handle<sacn_console>, moment: &mut u64) -> c_int {
    unsafe { sacn_console_wakes(&mut console.0, moment) }
}

pub fn console_universe(console: &mut Handle<sacn_console>, place: usize, universe: &mut sacn_universe) -> c_int {
    unsafe { sacn_console_universe(&mut console.0, place, universe) }
}

pub fn console_cue(console: &mut Handle<sacn_console>, number: &mut u16) -> c_int {
    unsafe { sacn_console_cue(&mut console.0, number) }
}

pub fn source_new(cid: &[u8; 16], name: &[u8], priority: u8, room: usize, first: u8) -> Made<sacn_source_handle> {
    made(|source| unsafe {
        sacn_source_new(source, cid.as_ptr(), name.as_ptr().cast(), name.len(), priority, room, first)
    })
}

pub fn source_add(source: &mut Handle<sacn_source_handle>, universe: u16) -> c_int {
    unsafe { sacn_source_add(&mut source.0, universe) }
}

pub fn source_levels(source: &mut Handle<sacn_source_handle>, universe: u16, slots: &[u8]) -> c_int {
    unsafe { sacn_source_levels(&mut source.0, universe, slots.as_ptr(), slots.len()) }
}

pub fn source_priority(source: &mut Handle<sacn_source_handle>, universe: u16, priority: u8) -> c_int {
    unsafe { sacn_source_priority(&mut source.0, universe, priority) }
}

pub fn source_end(source: &mut Handle<sacn_source_handle>, universe: u16) -> c_int {
    unsafe { sacn_source_end(&mut source.0, universe) }
}

pub fn source_end_all(source: &mut Handle<sacn_source_handle>) -> c_int {
    unsafe { sacn_source_end_all(&mut source.0) }
}

pub fn source_poll(
    source: &mut Handle<sacn_source_handle>,
    now: u64,
    out: &mut [u8; SACN_MAX_DATAGRAM],
    count: &mut usize,
    universe: &mut u16,
) -> c_int {
    unsafe { sacn_source_poll(&mut source.0, now, out.as_mut_ptr(), count, universe) }
}

pub fn source_wakes(source: &mut Handle<sacn_source_handle>, moment: &mut u64) -> c_int {
    unsafe { sacn_source_wakes(&mut source.0, moment) }
}

pub fn source_universe(source: &mut Handle<sacn_source_handle>, place: usize, universe: &mut sacn_universe) -> c_int {
    unsafe { sacn_source_universe(&mut source.0, place, universe) }
}

pub fn monitor_new() -> Made<sacn_monitor> {
    made(|monitor| unsafe { sacn_monitor_new(monitor) })
}

pub fn monitor_take(
    monitor: &mut Handle<sacn_monitor>,
    now: u64,
    sender: &sacn_sender,
    octets: &[u8],
    news: &mut sacn_news,
) -> c_int {
    unsafe { sacn_monitor_take(&mut monitor.0, now, sender, octets.as_ptr(), octets.len(), news) }
}

pub fn monitor_tick(monitor: &mut Handle<sacn_monitor>, now: u64, place: &mut usize) -> c_int {
    unsafe { sacn_monitor_tick(&mut monitor.0, now, place) }
}

pub fn monitor_wakes(monitor: &mut Handle<sacn_monitor>, moment: &mut u64) -> c_int {
    unsafe { sacn_monitor_wakes(&mut monitor.0, moment) }
}

pub fn monitor_count(monitor: &mut Handle<sacn_monitor>, count: &mut usize) -> c_int {
    unsafe { sacn_monitor_count(&mut monitor.0, count) }
}

/// An account before it is asked for.
pub const NO_STREAM: sacn_stream = sacn_stream {
    first: 0,
    latest: 0,
    live: 0,
    previews: 0,
    terminations: 0,
    others: 0,
    skipped: 0,
    late: 0,
    repeats: 0,
    greatest_gap: 0,
    last_second: 0,
    universe: 0,
    port: 0,
    address: [0; 4],
    priority: 0,
    number: 0,
    state: 0,
    unused: 0,
    unused_too: [0; 4],
    cid: [0; 16],
    name: [0; 64],
};

pub fn monitor_account(monitor: &mut Handle<sacn_monitor>, place: usize, stream: &mut sacn_stream) -> c_int {
    unsafe { sacn_monitor_account(&mut monitor.0, place, stream) }
}

pub fn monitor_rivals(
    monitor: &mut Handle<sacn_monitor>,
    universe: u16,
    count: &mut usize,
    priority: &mut u8,
) -> c_int {
    unsafe { sacn_monitor_rivals(&mut monitor.0, universe, count, priority) }
}
