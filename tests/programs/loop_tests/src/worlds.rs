//! Files of worlds where memory is refused, and the faults by number.

use fixtures::texts::{SCHEDULE, WORLD};
use sacn_console::ShowFault;
use sacn_node::SetupFault;
use sacn_world::{TextFault, WorldTextFault, read_schedule, read_world};
use std::alloc::Global;
use std::test::*;

/// Whether the world is read, or refused for want of memory.
fn is_world_answered(alloc: Global) -> bool {
    match read_world(alloc, WORLD) {
        Ok((desks, setups)) => (desks.len(), setups.len()) == (1, 1),
        Err(fault) => fault == WorldTextFault::OutOfMemory,
    }
}

/// The same of a schedule of so many events.
fn is_schedule_answered(alloc: Global, text: &str, events: usize) -> bool {
    match read_schedule(alloc, text) {
        Ok(found) => found.len() == events,
        Err(fault) => fault == TextFault::OutOfMemory,
    }
}

/// `rt try --test --fail-alloc N` refuses the Nth request.
#[test]
fn want_of_memory_is_told(rt: HostRuntime) {
    let found = [
        is_world_answered(rt.alloc()),
        is_schedule_answered(rt.alloc(), SCHEDULE, 8),
        is_schedule_answered(rt.alloc(), "noise 0 0 aB01\nnoise 0 1 00\n", 2),
    ];
    assert!(rt; found == [true; 3], "world, schedule, noise: {found:?}");
}

#[test]
fn faults_have_numbers(rt: HostRuntime) {
    let numbers = [
        WorldTextFault::OutOfMemory.number(),
        WorldTextFault::Toml.number(),
        WorldTextFault::MissingKey.number(),
        WorldTextFault::UnknownKey.number(),
        WorldTextFault::KeyValue.number(),
        WorldTextFault::Version.number(),
        WorldTextFault::Console(9, ShowFault::Cue).number(),
        WorldTextFault::Node(9, SetupFault::Limit).number(),
        WorldTextFault::SameCid.number(),
    ];
    assert_eq!(rt; numbers, [1, 2, 3, 4, 5, 6, 7, 8, 9]);
}
