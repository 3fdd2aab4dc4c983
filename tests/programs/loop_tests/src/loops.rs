//! Links and sinks over memory that cut and that fail.

use fixtures::packets::{DESK, TWO_SLOTS, data};
use fixtures::texts::{ONE_PORT, frame_line};
use fixtures::writers::Stopping;
use sacn_edge::memory::{Incoming, ListClock, MemoryLink};
use sacn_edge::{Link, NodeReport, Out, Received, WriteFailed, WriterOut, run_node, write_text};
use sacn_node::{NodeCore, read_node};
use std::alloc::{AllocError, Global};
use std::io::{self, Write};
use std::test::*;

/// A node of one port, which shows universe 1.
pub(crate) fn port_node(alloc: Global) -> Option<NodeCore> {
    let setup = read_node(alloc, ONE_PORT).ok()?;
    NodeCore::new(alloc, &setup).ok()
}

/// A link that brings the datagram of the slots 10 and 200, and then nothing, a failure and a datagram of one octet.
fn link(alloc: Global) -> Result<MemoryLink, AllocError> {
    let first = Incoming::Datagram(data(alloc, TWO_SLOTS, &DESK, &[10, 200])?);
    let last = Incoming::Datagram(Vec::from_slice(alloc, b"x")?);
    let incoming = vec![in alloc; first, Incoming::Nothing, Incoming::Failed, last]?;
    Ok(MemoryLink::new(alloc, incoming, None))
}

/// The lines of a source that comes and is lost.
fn lost_text(alloc: Global) -> Result<Vec<u8>, AllocError> {
    let mut text = frame_line(alloc, "0", "000ac8")?;
    text.extend_from_slice(frame_line(alloc, "2500", "")?.as_slice())?;
    Ok(text)
}

/// Whether a link cuts a datagram of 3000 octets at 2048.
fn is_cut(alloc: Global) -> Result<bool, AllocError> {
    let incoming = vec![in alloc; Incoming::Datagram(vec![in alloc; 7u8; 3000]?)]?;
    let mut link = MemoryLink::new(alloc, incoming, None);
    let mut buffer = [0; 2048];
    let found = [link.receive(&mut buffer), link.receive(&mut buffer)];
    Ok(found == [Received::Datagram(2048), Received::Nothing] && buffer.ends_with(&[7, 7]))
}

#[test]
fn a_long_datagram_is_cut(rt: HostRuntime) {
    assert!(rt; is_cut(rt.alloc()) == Ok(true));
}

/// The write that fails, where each line is taken by two writes of 900 octets and of the 131 or 134 left; how many octets stand;
/// and what the next receive brings.
const FAILURES: [(usize, usize, Received); 4] = [
    (0, 0, Received::Nothing),
    (1, 900, Received::Nothing),
    (2, 1031, Received::Datagram(1)),
    (3, 1931, Received::Datagram(1)),
];

/// What three turns at 0, 100 and 2500 give. None where there is no memory.
fn run_three_turns<O: Out>(
    alloc: Global,
    link: &mut MemoryLink,
    out: &mut O,
) -> Option<Result<NodeReport, WriteFailed>> {
    let mut clock = ListClock::new(Vec::from_slice(alloc, &[0, 100, 2500]).ok()?);
    let mut node = port_node(alloc)?;
    Some(run_node(link, &mut clock, out, &mut node, 3))
}

fn is_prefix(alloc: Global, held: &[u8], len: usize) -> bool {
    match lost_text(alloc) {
        Ok(text) => held.len() == len && text.as_slice().starts_with(held),
        Err(_) => false,
    }
}

/// Whether a run whose write of one number fails leaves so many octets of the text, and then this is received.
fn fails_so(alloc: Global, bad: usize, len: usize, next: Received) -> bool {
    match link(alloc) {
        Ok(mut link) => {
            let mut out = WriterOut::new(Stopping::new(alloc, 900, bad));
            let told = run_three_turns(alloc, &mut link, &mut out);
            let mut buffer = [0; 2048];
            told == Some(Err(WriteFailed))
                && out.has_failed()
                && is_prefix(alloc, out.writer.held.as_slice(), len)
                && link.receive(&mut buffer) == next
        }
        Err(_) => false,
    }
}

#[test]
fn what_stands_after_a_failed_write_is_a_prefix(rt: HostRuntime) {
    for (bad, len, next) in FAILURES {
        assert!(rt; fails_so(rt.alloc(), bad, len, next), "at write {bad}");
    }
}

/// A writer whose every write is an error.
#[derive(Drop)]
struct Broken;

impl Write for Broken {
    fn write(&mut self, _buf: &[u8]) -> io::Result<usize> {
        Err(io::Error::from(io::ErrorKind::BrokenPipe))
    }

    fn flush(&mut self) -> io::Result<()> {
        Ok(())
    }
}

fn takes_all(alloc: Global) -> bool {
    let mut out = WriterOut::new(Vec::new(alloc));
    let is_written = write_text(&mut out, b"dark\n").is_ok() && write_text(&mut out, b"").is_ok();
    is_written && !out.has_failed() && out.writer.as_slice() == b"dark\n".as_slice()
}

/// Whether a writer of one octet a write holds what stands before its bad write, of which the text's five are told.
fn holds_prefix(alloc: Global, bad: usize) -> bool {
    let text = b"dark\n";
    let mut out = WriterOut::new(Stopping::new(alloc, 1, bad));
    let is_written = write_text(&mut out, text).is_ok();
    (is_written, out.has_failed()) == (bad == 5, bad != 5)
        && out.writer.held.as_slice() == &text[..bad.min(5)]
}

fn is_error_failure() -> bool {
    let mut out = WriterOut::new(Broken);
    out.put(b"x") == 0 && out.has_failed()
}

#[test]
fn texts_are_written_to_a_prefix(rt: HostRuntime) {
    for bad in 0..6 {
        assert!(rt; holds_prefix(rt.alloc(), bad), "at write {bad}");
    }
    assert!(rt; takes_all(rt.alloc()) && is_error_failure());
}
