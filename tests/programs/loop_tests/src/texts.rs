//! Printed texts where memory is refused and where a sink fails, and the faults by number.
use fixtures::packets::{empty_data, empty_page};
use fixtures::texts::{SCHEDULE, WORLD};
use fixtures::writers::Stopping;
use sacn_edge::WriterOut;
use sacn_packets::PacketFault;
use sacn_text::{DecodeFault, MarkedWriter, SimFault, decode_text, sim_text};
use sacn_world::{TextFault, WorldFault, WorldTextFault};
use std::alloc::{AllocError, Global};
use std::io::Write;
use std::test::*;

/// What is printed of the desk's data packet of the start code alone, but for its frame.
const DATA: &str = "data
cid 00010203-0405-0607-0809-0a0b0c0d0e0f
name Desk
priority 100
number 0
preview no
terminated no
universe 1
group 239.255.0.1
start 0
slots 0
frame ";

/// What is printed of the desk's page of no universe.
const PAGE: &str = "page
cid 00010203-0405-0607-0809-0a0b0c0d0e0f
name Desk
page 0
last 0
universes none
known none
";

/// The text of the data packet: 1,183 octets.
fn data_text(alloc: Global) -> Result<Vec<u8>, AllocError> {
    let mut text = Vec::from_slice(alloc, DATA.as_bytes())?;
    for _ in 0..1026 {
        text.push(b'0')?;
    }
    text.push(b'\n')?;
    Ok(text)
}

/// Whether the whole text is written, or a prefix of it where a request for memory is refused.
fn is_prefix_told(alloc: Global, datagrams: &[Vec<u8>], wanted: &[u8]) -> bool {
    let mut out = WriterOut::new(Vec::new(alloc));
    let is_answered = match decode_text(alloc, datagrams, &mut out) {
        Ok(()) => out.writer.len() == wanted.len(),
        Err(fault) => matches!(fault, DecodeFault::OutOfMemory | DecodeFault::WriteFailed),
    };
    is_answered && wanted.starts_with(out.writer.as_slice())
}

#[test]
fn want_of_memory_leaves_a_prefix(rt: HostRuntime) -> Result<(), AllocError> {
    let mut wanted = data_text(rt.alloc())?;
    wanted.extend_from_slice(PAGE.as_bytes())?;
    let datagrams = vec![in rt.alloc(); empty_data(rt.alloc())?, empty_page(rt.alloc())?]?;
    assert!(rt; is_prefix_told(rt.alloc(), datagrams.as_slice(), wanted.as_slice()));
    Ok(())
}

/// Whether a sink that takes 100 octets a write and fails at one holds what stands before. Twelve writes take the text.
fn holds_decoded(alloc: Global, datagrams: &[Vec<u8>], wanted: &[u8], bad: usize) -> bool {
    let mut out = WriterOut::new(Stopping::new(alloc, 100, bad));
    let answer = decode_text(alloc, datagrams, &mut out);
    let held = out.writer.held.as_slice();
    let fault = if bad < 12 {
        Some(DecodeFault::WriteFailed)
    } else {
        None
    };
    answer.err() == fault
        && held.len() == (100usize.saturating_mul(bad)).min(wanted.len())
        && wanted.starts_with(held)
}

#[test]
fn a_sink_that_fails_holds_a_prefix(rt: HostRuntime) -> Result<(), AllocError> {
    let wanted = data_text(rt.alloc())?;
    let datagrams = vec![in rt.alloc(); empty_data(rt.alloc())?]?;
    for bad in 0..13usize {
        assert!(rt;
            holds_decoded(rt.alloc(), datagrams.as_slice(), wanted.as_slice(), bad),
            "at write {bad}"
        );
    }
    Ok(())
}

/// The lines of the example's looks: of 11, 15, 14, 14 and 16 octets.
const LINES: &[u8] = b"0 1 0 dark\n0 1 3499 1@255\n0 1 900 1@255\n0 1 3500 dark\n0 2 3500 noport\n";

/// How many octets a sink takes at most in a write, the write that fails, and how many octets it then holds: all 70 where none
/// fails. A line is one write where the sink takes it whole; four writes of three octets take the line of 11, five that of 15.
const SINKS: [(usize, usize, usize); 14] = [
    (usize::MAX, 0, 0),
    (usize::MAX, 1, 11),
    (usize::MAX, 2, 26),
    (usize::MAX, 3, 40),
    (usize::MAX, 4, 54),
    (usize::MAX, 5, 70),
    (3, 0, 0),
    (3, 1, 3),
    (3, 3, 9),
    (3, 4, 11),
    (3, 5, 14),
    (3, 9, 26),
    (3, 10, 29),
    (3, 99, 70),
];

fn holds_simulated(alloc: Global, most: usize, bad: usize, len: usize) -> bool {
    let mut out = WriterOut::new(Stopping::new(alloc, most, bad));
    let answer = sim_text(alloc, WORLD, SCHEDULE, &mut out);
    let held = out.writer.held.as_slice();
    let fault = if len < 70 {
        Some(SimFault::WriteFailed)
    } else {
        None
    };
    answer.err() == fault && held.len() == len && LINES.starts_with(held)
}

#[test]
fn simulations_are_told(rt: HostRuntime) {
    for (most, bad, len) in SINKS {
        assert!(rt;
            holds_simulated(rt.alloc(), most, bad, len),
            "{most} octets a write, at write {bad}"
        );
    }
}

/// Whether a writer is marked by what is written, which the writer below it holds.
fn is_marked_by_write(alloc: Global) -> bool {
    let mut held = Vec::new(alloc);
    let mut out = MarkedWriter::new(&mut held);
    let before = out.is_marked();
    let is_written = out.write_all(b"1@255").is_ok();
    let after = out.is_marked();
    let is_flushed = out.flush().is_ok();
    !before && is_written && after && is_flushed && held.as_slice() == b"1@255".as_slice()
}

#[test]
fn a_marked_writer_holds_what_was_written(rt: HostRuntime) {
    assert!(rt; is_marked_by_write(rt.alloc()));
}

#[test]
fn faults_have_numbers(rt: HostRuntime) {
    let numbers = [
        DecodeFault::OutOfMemory.number(),
        DecodeFault::Refused(0, PacketFault::TooShort).number(),
        DecodeFault::WriteFailed.number(),
        SimFault::OutOfMemory.number(),
        SimFault::World(WorldTextFault::SameCid).number(),
        SimFault::Schedule(TextFault::Hex(1)).number(),
        SimFault::Event(0, WorldFault::OutOfMemory).number(),
        SimFault::WriteFailed.number(),
    ];
    assert_eq!(rt; numbers, [1, 2, 3, 1, 2, 3, 4, 5]);
}
