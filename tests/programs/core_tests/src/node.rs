//! Octets that are no data packet of the node.
use crate::packet_rows::{Numbers, Sent, cid_of, has_slots, live, write_sent};
use fixtures::packets::empty_page;
use fixtures::texts::ONE_PORT;
use sacn_node::{NodeCore, NodeTaken, read_node};
use sacn_packets::read_packet;
use sacn_sources::Taken;
use std::alloc::{AllocError, Global};
use std::test::*;

fn give(node: &mut NodeCore, now: u64, sent: &Sent<'_>) -> NodeTaken {
    let mut octets = [0; 638];
    let len = write_sent(sent, &mut octets);
    node.take(now, &octets[..len])
}

/// A node that holds source 1 with slot 1 at 3.
fn lit_node(alloc: Global) -> Result<NodeCore, Fail> {
    let setup = read_node(alloc, ONE_PORT)?;
    let mut node = NodeCore::new(alloc, &setup)?;
    if give(&mut node, 0, &live(1, 0, &[3])) == NodeTaken::FromTable(Taken::Held) {
        Ok(node)
    } else {
        Err("a packet isn't held".into())
    }
}

/// Whether the node shows slot 1 at 3 and no other slot, and holds source 1 as its packet left it.
fn is_lit(node: &mut NodeCore) -> bool {
    let mut frame = [7; 513];
    let is_shown = node.frame(0, 1, &mut frame) == Ok(());
    let dark = frame.iter().filter(|level| **level == 0).count();
    let is_held = match node.held(1, &cid_of(1)) {
        Some(held) => {
            !held.ended() && (held.number(), held.moment()) == (0, 0) && has_slots(&held, &[3])
        }
        None => false,
    };
    is_held && is_shown && frame.starts_with(&[0, 3]) && dark == 512
}

/// A page with some octets changed, and cut somewhere.
fn any_octets(page: &Vec<u8>, numbers: &mut Numbers) -> Result<Vec<u8>, AllocError> {
    let mut octets = page.clone()?;
    for _ in 0..numbers.octet(4) {
        let at = (numbers.next() % 128) as usize;
        let octet = numbers.octet(255);
        if let Some(place) = octets.get_mut(at) {
            *place = octet;
        }
    }
    octets.truncate(numbers.octet(121) as usize);
    Ok(octets)
}

/// Whether the octets are refused with the fault of their reading, or are no data packet.
fn refuses_or_ignores(node: &mut NodeCore, octets: &[u8]) -> bool {
    let taken = node.take(0, octets);
    match read_packet(octets) {
        Err(fault) => taken == NodeTaken::Refused(fault),
        Ok(_) => taken == NodeTaken::Discovery || taken == NodeTaken::Sync,
    }
}

#[test]
fn octets_of_any_kind(rt: HostRuntime) -> Result<(), Fail> {
    let mut node = lit_node(rt.alloc())?;
    let page = empty_page(rt.alloc())?;
    let mut numbers = Numbers { state: 7 };
    let mut refused = 0u32;
    for _ in 0..2000 {
        let octets = any_octets(&page, &mut numbers)?;
        if refuses_or_ignores(&mut node, octets.as_slice()) {
            refused = u32::saturating_add(refused, 1);
        }
    }
    assert_eq!(rt; (refused, is_lit(&mut node)), (2000, true));
    Ok(())
}
