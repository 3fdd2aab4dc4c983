//! The table beside the plain program, call by call.

use crate::packet_rows::{Numbers, Sent, cid_of, write_sent};
use sacn_packets::{Packet, SLOTS, read_packet};
use sacn_sources::plain::PlainTable;
use sacn_sources::{HeldView, Kind, Levels, SourceTable, Taken};
use std::test::*;

/// How many calls are made.
const CALLS: u64 = 6000;

/// How many sources send: more than a table holds.
const SOURCES: u8 = 20;

/// Live in five of eight cases.
fn any_kind(numbers: &mut Numbers) -> Kind {
    match numbers.below(8) {
        0 => Kind::Termination,
        1 => Kind::Preview,
        2 => Kind::Other,
        _ => Kind::Live,
    }
}

/// A step of the clock: mostly small, at times past the loss of sources, at times back.
fn any_moment(numbers: &mut Numbers, before: u64) -> u64 {
    match numbers.below(64) {
        0 => before.saturating_add(2500),
        1 => before.saturating_add(numbers.below(3000)),
        2 => before.saturating_sub(numbers.below(500)),
        _ => before.saturating_add(numbers.below(60)),
    }
}

/// A packet with levels out of the given ones.
fn any_packet<'a>(numbers: &mut Numbers, levels: &'a [u8; SLOTS]) -> Sent<'a> {
    let len = numbers.below(513) as usize;
    Sent {
        cid: u32::from(numbers.octet(SOURCES)),
        universe: 1,
        number: numbers.octet(255),
        kind: any_kind(numbers),
        priority: 98 + numbers.octet(4) % 4,
        slots: &levels[..len.min(SLOTS)],
    }
}

/// Both tables, and how often each answer came.
#[derive(Drop)]
struct Both {
    kept: SourceTable,
    plain: PlainTable,
    answers: [u64; 6],
}

fn place_of(taken: Taken) -> usize {
    match taken {
        Taken::Held => 0,
        Taken::Observed => 1,
        Taken::EndedNow => 2,
        Taken::OutOfSequence => 3,
        Taken::SourcesExceeded => 4,
        Taken::UnknownIgnored => 5,
    }
}

fn same_slots(a: &Levels, b: &Levels) -> bool {
    for slot in 0..SLOTS {
        if a.at(slot) != b.at(slot) {
            return false;
        }
    }
    a.given() == b.given()
}

fn same_levels(a: Option<&Levels>, b: Option<&Levels>) -> bool {
    match (a, b) {
        (Some(a), Some(b)) => same_slots(a, b),
        (None, None) => true,
        _ => false,
    }
}

fn same_source(a: &HeldView<'_>, b: &HeldView<'_>) -> bool {
    (a.number(), a.priority(), a.moment()) == (b.number(), b.priority(), b.moment())
        && a.ended() == b.ended()
        && same_levels(a.levels(), b.levels())
}

impl Both {
    fn holds_the_same(&self, cid: u8) -> bool {
        let cid = cid_of(u32::from(cid));
        match (self.kept.held(&cid), self.plain.held(&cid)) {
            (Some(kept), Some(plain)) => same_source(&kept, &plain),
            (None, None) => true,
            _ => false,
        }
    }

    fn takes_the_same(&mut self, now: u64, sent: &Sent<'_>) -> bool {
        let mut octets = [0; 638];
        let len = write_sent(sent, &mut octets);
        match read_packet(&octets[..len]) {
            Ok(Packet::DataPacket(view)) => {
                let taken = self.kept.take(now, &view);
                let count = &mut self.answers[place_of(taken)];
                *count = count.saturating_add(1);
                taken == self.plain.take(now, &view)
            }
            _ => false,
        }
    }

    fn merges_the_same(&mut self, now: u64) -> bool {
        let mut kept = [1; 512];
        let mut plain = [2; 512];
        self.kept.merged(now, &mut kept);
        self.plain.merged(now, &mut plain);
        kept == plain && self.kept.renewals() == self.plain.renewals()
    }

    fn expires_the_same(&mut self, now: u64) -> bool {
        let gone = self.kept.expire(now);
        gone == self.plain.expire(now)
    }

    /// One call of both at a moment: expiry, a merge or a packet.
    fn does_the_same(&mut self, numbers: &mut Numbers, now: u64, levels: &[u8; SLOTS]) -> bool {
        let is_same = match numbers.below(8) {
            0 => self.expires_the_same(now),
            1 | 2 => self.merges_the_same(now),
            _ => self.takes_the_same(now, &any_packet(numbers, levels)),
        };
        is_same && self.holds_the_same(numbers.octet(SOURCES))
    }

    /// Whether both hold all sources alike, and each answer came often enough to be compared.
    fn is_compared(&self) -> bool {
        for cid in 0..SOURCES {
            if !self.holds_the_same(cid) {
                return false;
            }
        }
        for count in self.answers {
            if count < 20 {
                return false;
            }
        }
        self.kept.renewals() >= 500
    }
}

#[test]
fn plain_program_agrees(rt: HostRuntime) -> Result<(), Fail> {
    let mut levels = [0; SLOTS];
    let mut numbers = Numbers { state: 1 };
    for level in &mut levels {
        *level = numbers.octet(255);
    }
    let mut both = Both {
        kept: SourceTable::new(rt.alloc())?,
        plain: PlainTable::new(),
        answers: [0; 6],
    };
    let mut now = 0;
    for call in 0..CALLS {
        now = any_moment(&mut numbers, now);
        assert!(rt;
            both.does_the_same(&mut numbers, now, &levels),
            "call {call} at {now}"
        );
    }
    assert!(rt; both.is_compared());
    Ok(())
}
