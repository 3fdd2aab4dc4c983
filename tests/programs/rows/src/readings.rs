//! What is read of octets, as words.
use crate::step::{Step, StepFault};
use sacn_packets::{DataView, Packet, PacketFault, PageView, read_packet};

/// Says what packet the octets are, or how they are refused.
pub fn say_reading(step: &mut Step<'_>, octets: &[u8]) {
    match read_packet(octets) {
        Ok(Packet::DataPacket(view)) => say_data(step, &view),
        Ok(Packet::PagePacket(view)) => say_page(step, &view),
        Ok(Packet::SyncPacket) => step.say(&"sync"),
        Err(fault) => step.say_name(&fault),
    }
}

fn say_data(step: &mut Step<'_>, view: &DataView<'_>) {
    step.say(&"data cid");
    step.say_hex(&view.cid());
    step.say(&"name");
    step.say_source(view.name());
    let (priority, number, universe, start) = (
        view.priority(),
        view.number(),
        view.universe(),
        view.start(),
    );
    step.say(&format_args!(
        "priority {priority} number {number} universe {universe} start {start}"
    ));
    if view.preview() {
        step.say(&"preview");
    }
    if view.terminated() {
        step.say(&"terminated");
    }
    step.say(&"slots");
    step.say_octets(view.slots());
}

fn say_page(step: &mut Step<'_>, view: &PageView<'_>) {
    step.say(&"page cid");
    step.say_hex(&view.cid());
    step.say(&"name");
    step.say_source(view.name());
    let (page, last) = (view.page(), view.last());
    step.say(&format_args!("page {page} last {last} universes"));
    let mut universes = [0u16; 512];
    let count = view.count();
    for i in 0..count {
        universes[i] = view.number(i);
    }
    step.say_universes(&universes[..count]);
}

/// Says the 513 octets of the frame of a data packet.
pub fn say_frame(step: &mut Step<'_>, octets: &[u8]) {
    match read_packet(octets) {
        Ok(Packet::DataPacket(view)) => {
            let mut frame = [7; 513];
            view.frame_into(&mut frame);
            step.say_octets(&frame);
        }
        _ => step.refuse(StepFault::NotReady),
    }
}

/// How octets are read that come in turn: the fault of the latest, none where they are a packet, and how many had it in a row.
#[derive(Drop)]
struct Readings {
    fault: Option<PacketFault>,
    count: u64,
}

impl Readings {
    /// Says how many readings in a row were alike, and how.
    fn say(&self, step: &mut Step<'_>) {
        if self.count > 0 {
            step.say(&self.count);
            match self.fault {
                Some(fault) => step.say_name(&fault),
                None => step.say(&"read"),
            }
        }
    }

    /// Reads octets, and says those before where they were read otherwise.
    fn add(&mut self, step: &mut Step<'_>, octets: &[u8]) {
        let fault = read_packet(octets).err();
        if fault != self.fault {
            self.say(step);
            self.fault = fault;
            self.count = 0;
        }
        self.count = self.count.saturating_add(1);
    }
}

/// Says how each proper prefix of the octets is read, the shortest first.
pub fn say_prefixes(step: &mut Step<'_>, octets: &[u8]) {
    let mut readings = Readings {
        fault: None,
        count: 0,
    };
    for len in 0..octets.len() {
        readings.add(step, &octets[..len]);
    }
    readings.say(step);
}

/// Says how the octets are read with each octet from 0 to 255 at a place.
pub fn say_faults(step: &mut Step<'_>, octets: &mut Vec<u8>) {
    let mut readings = Readings {
        fault: None,
        count: 0,
    };
    let at = step.number() as usize;
    if at >= octets.len() {
        step.refuse(StepFault::Word);
        return;
    }
    let right = octets[at];
    for octet in 0..=255u8 {
        octets[at] = octet;
        readings.add(step, octets.as_slice());
    }
    octets[at] = right;
    readings.say(step);
}
