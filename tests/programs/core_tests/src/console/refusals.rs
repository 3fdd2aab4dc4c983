//! Calls that meet a refused request for memory. `rt try --test --fail-alloc N` refuses the Nth.
use super::{NOTHING, PACKET, polled};
use fixtures::texts::DESK;
use sacn_console::{
    Command, ConsoleCore, Show, ShowFault, TextFault, read_script, read_show, show_of,
};
use std::alloc::Global;
use std::test::*;

/// A show that is read, at once or after a refused request.
fn show_at_last(alloc: Global) -> Result<Show, ShowFault> {
    match read_show(alloc, DESK) {
        Err(ShowFault::OutOfMemory) => read_show(alloc, DESK),
        answer => answer,
    }
}

fn is_show_read(alloc: Global) -> bool {
    match show_at_last(alloc) {
        Ok(show) => show.priority() == 100,
        Err(_) => false,
    }
}

/// Whether the desk's table is a show, or is refused for want of memory.
fn is_table_answered(alloc: Global) -> bool {
    match toml::table_from_str(alloc, DESK) {
        Ok(table) => match show_of(alloc, &table) {
            Ok(show) => show.name() == "Desk",
            Err(fault) => fault == ShowFault::OutOfMemory,
        },
        Err(fault) => fault.is_memory(),
    }
}

/// A core of a show, at once or after a refused request.
fn core_at_last(alloc: Global, show: &Show) -> Result<ConsoleCore, ShowFault> {
    match ConsoleCore::new(alloc, show, 9) {
        Err(ShowFault::OutOfMemory) => ConsoleCore::new(alloc, show, 9),
        answer => answer,
    }
}

fn is_script_answered(alloc: Global) -> bool {
    match read_script(alloc, "0 go\n10 start 1\n") {
        Ok(orders) => orders.len() == 2,
        Err(fault) => fault == TextFault::OutOfMemory,
    }
}

/// Whether the desk's console gives its first cue, its page, and then nothing.
fn is_core_so(alloc: Global) -> Result<bool, ShowFault> {
    let show = show_at_last(alloc)?;
    let mut core = core_at_last(alloc, &show)?;
    let is_taken = core.command(0, Command::Go) == Ok(());
    let found = [
        polled(&mut core, 0),
        polled(&mut core, 0),
        polled(&mut core, 0),
    ];
    Ok(is_taken && found == [(PACKET, 9, 0, 1, 255), (122, 0, 0, 0, 0), NOTHING])
}

#[test]
fn want_of_memory_is_told(rt: HostRuntime) {
    let found = [
        is_show_read(rt.alloc()),
        is_table_answered(rt.alloc()),
        is_script_answered(rt.alloc()),
        is_core_so(rt.alloc()) == Ok(true),
    ];
    assert!(rt; found == [true; 4], "show, table, script, core: {found:?}");
}
