//! Links over loopback, and the machine's clock.
use crate::loops::port_node;
use fixtures::packets::full_data;
use fixtures::texts::{DESK, frame_line};
use sacn_console::{ConsoleCore, read_script, read_show};
use sacn_edge::memory::ListClock;
use sacn_edge::{
    Clock, Link, NodeReport, Received, SystemClock, UdpLink, WriterOut, run_console, run_node,
};
use std::alloc::Global;
use std::net::Net;
use std::test::*;

/// What a link receives within some tries: how many octets.
fn received(link: &mut UdpLink, buffer: &mut [u8; 2048]) -> Option<usize> {
    for _ in 0..1000 {
        match link.receive(buffer) {
            Received::Datagram(len) => return Some(len),
            _ => {}
        }
    }
    None
}

fn hears_itself<R: Net>(rt: &R, alloc: Global) -> Option<bool> {
    let octets = full_data(alloc).ok()?;
    let mut link = UdpLink::bind(rt, 5571, &[5571]).ok()?;
    let mut buffer = [0; 2048];
    Some(
        link.send(octets.as_slice())
            && received(&mut link, &mut buffer) == Some(638)
            && buffer.starts_with(octets.as_slice()),
    )
}

fn cuts_long_datagram<R: Net>(rt: &R, alloc: Global) -> Option<bool> {
    let long = vec![in alloc; 7u8; 3000].ok()?;
    let mut link = UdpLink::bind(rt, 5575, &[5575]).ok()?;
    let mut buffer = [0; 2048];
    Some(
        link.receive(&mut buffer) == Received::Nothing
            && link.send(long.as_slice())
            && received(&mut link, &mut buffer) == Some(2048),
    )
}

/// Whether a send fails, since nobody can be sent to at port 0, and all the same goes on to the other port.
fn goes_on_after_failure<R: Net>(rt: &R) -> Option<bool> {
    let mut link = UdpLink::bind(rt, 5577, &[0, 5577]).ok()?;
    let mut buffer = [0; 2048];
    Some(!link.send(b"x") && received(&mut link, &mut buffer) == Some(1))
}

fn is_bound_once<R: Net>(rt: &R) -> Option<bool> {
    let _link = UdpLink::bind(rt, 5573, &[]).ok()?;
    Some(UdpLink::bind(rt, 5573, &[]).is_err())
}

/// A console of the desk, whose first number is 0.
fn desk(alloc: Global) -> Option<ConsoleCore> {
    let show = read_show(alloc, DESK).ok()?;
    ConsoleCore::new(alloc, &show, 0).ok()
}

/// Whether a console sends one datagram over this link.
fn sends_one(alloc: Global, link: &mut UdpLink) -> Option<bool> {
    let script = read_script(alloc, "0 go\n").ok()?;
    let mut core = desk(alloc)?;
    let mut clock = ListClock::new(Vec::new(alloc));
    let sent = run_console(link, &mut clock, &mut core, script.as_slice(), 1);
    Some((sent.sent, sent.failed, sent.refused) == (1, 0, 0))
}

/// Whether a node receives one datagram over this link within a thousand turns, and writes its slot.
fn hears_one(alloc: Global, link: &mut UdpLink) -> Option<bool> {
    let line = frame_line(alloc, "0", "00ff").ok()?;
    let mut node = port_node(alloc)?;
    let mut clock = ListClock::new(Vec::new(alloc));
    let mut out = WriterOut::new(Vec::new(alloc));
    let heard = run_node(link, &mut clock, &mut out, &mut node, 1000);
    let report = NodeReport {
        received: 1,
        failed: 0,
    };
    Some(heard == Ok(report) && out.writer.as_slice().ends_with(line.as_slice()))
}

/// Whether a console lights a node.
fn lights_node<R: Net>(rt: &R, alloc: Global) -> Option<bool> {
    let mut hearing = UdpLink::bind(rt, 5569, &[]).ok()?;
    let mut sending = UdpLink::bind(rt, 0, &[5569]).ok()?;
    let sent = sends_one(alloc, &mut sending);
    let heard = hears_one(alloc, &mut hearing);
    Some(sent == Some(true) && heard == Some(true))
}

#[test]
fn links_over_loopback(rt: HostRuntime) {
    let found = [
        hears_itself(&rt, rt.alloc()),
        cuts_long_datagram(&rt, rt.alloc()),
        goes_on_after_failure(&rt),
        is_bound_once(&rt),
        lights_node(&rt, rt.alloc()),
    ];
    assert!(rt;
        found == [Some(true); 5],
        "hears itself, cuts, goes on, is bound once, lights: {found:?}"
    );
}

#[test]
fn the_clock_moves(rt: HostRuntime) {
    let mut clock = SystemClock::new(&rt);
    let first = clock.now();
    let mut is_above = false;
    for _ in 0..100_000_000 {
        if clock.now() > 0 {
            is_above = true;
            break;
        }
    }
    assert!(rt; first == 0 && is_above);
}
