//! Data packets as rows of tables say them.

use sacn_packets::{DataFields, SLOTS, write_data};
use sacn_sources::{HeldView, Kind};

/// A packet of a source, whose CID repeats four octets.
#[derive(Clone, Copy)]
pub(crate) struct Sent<'a> {
    pub(crate) cid: u32,
    pub(crate) universe: u16,
    pub(crate) number: u8,
    pub(crate) kind: Kind,
    pub(crate) priority: u8,
    pub(crate) slots: &'a [u8],
}

/// A live packet of a source on universe 1, at priority 100.
pub(crate) fn live(cid: u32, number: u8, slots: &[u8]) -> Sent<'_> {
    Sent {
        cid,
        universe: 1,
        number,
        kind: Kind::Live,
        priority: 100,
        slots,
    }
}

pub(crate) fn cid_of(cid: u32) -> [u8; 16] {
    let [a, b, c, d] = cid.to_be_bytes();
    [a, b, c, d, a, b, c, d, a, b, c, d, a, b, c, d]
}

/// Writes the packet's octets, and returns how many they are: 0 where there is no such packet.
pub(crate) fn write_sent(sent: &Sent<'_>, octets: &mut [u8; 638]) -> usize {
    if sent.priority > 200 || sent.slots.len() > SLOTS {
        return 0;
    }
    if sent.universe < 1 || sent.universe > 63999 {
        return 0;
    }
    let fields = DataFields {
        cid: cid_of(sent.cid),
        name: [0; 64],
        priority: sent.priority,
        number: sent.number,
        preview: matches!(sent.kind, Kind::Preview),
        terminated: matches!(sent.kind, Kind::Termination),
        universe: sent.universe,
        start: if matches!(sent.kind, Kind::Other) {
            0xdd
        } else {
            0
        },
        slots: sent.slots,
    };
    write_data(&fields, octets)
}

/// Whether a source is held with these slots.
pub(crate) fn has_slots(held: &HeldView<'_>, slots: &[u8]) -> bool {
    match held.levels() {
        Some(levels) => {
            for at in 0..slots.len().min(SLOTS) {
                if levels.at(at) != slots[at] {
                    return false;
                }
            }
            levels.given() == slots.len()
        }
        None => false,
    }
}

/// A generator of fixed numbers, by a linear congruence modulo 2^64.
#[derive(Drop)]
pub(crate) struct Numbers {
    pub(crate) state: u64,
}

impl Numbers {
    pub(crate) fn next(&mut self) -> u64 {
        self.state = self
            .state
            .wrapping_mul(6_364_136_223_846_793_005)
            .wrapping_add(1_442_695_040_888_963_407);
        self.state >> 33
    }

    /// The next number below `bound`, and 0 where that is 0.
    pub(crate) fn below(&mut self, bound: u64) -> u64 {
        self.next().checked_rem(bound).unwrap_or(0)
    }

    /// The next octet below `bound`.
    pub(crate) fn octet(&mut self, bound: u8) -> u8 {
        (self.below(u64::from(bound)) & 0xff) as u8
    }
}
