//! Calls of a source table.
use crate::packet::{cid_in, packet_in};
use crate::step::{Step, StepFault};
use sacn_packets::{Packet, SLOTS, read_packet};
use sacn_sources::{HeldView, SourceTable, Taken};
use std::alloc::Global;

/// A table of the sources of one universe.
#[derive(Drop)]
pub struct Sources {
    table: SourceTable,
}

impl Sources {
    /// # Errors
    ///
    /// No memory.
    pub fn new(alloc: Global) -> Result<Self, StepFault> {
        match SourceTable::new(alloc) {
            Ok(table) => Ok(Sources { table }),
            Err(_) => Err(StepFault::Memory),
        }
    }

    /// Makes the step's call.
    ///
    /// # Errors
    ///
    /// There is no such call, or no memory.
    pub fn answer(&mut self, step: &mut Step<'_>) -> Result<(), StepFault> {
        match step.word() {
            "take" => self.take(step)?,
            "held" => {
                let cid = cid_in(step);
                say_held(step, self.table.held(&cid));
            }
            "merged" => self.merged(step),
            "part" => self.merged_part(step),
            "expire" => {
                let count = self.table.expire(step.number());
                step.say(&count);
            }
            "renewals" => step.say(&self.table.renewals()),
            "oldest" => step.say(&self.table.oldest()),
            "wakes" => say_moment(step, self.table.wakes()),
            _ => return Err(StepFault::UnknownCall),
        }
        Ok(())
    }

    fn take(&mut self, step: &mut Step<'_>) -> Result<(), StepFault> {
        let now = step.number();
        let octets = packet_in(step)?;
        match read_packet(octets.as_slice()) {
            Ok(Packet::DataPacket(view)) => {
                let taken = self.table.take(now, &view);
                say_taken(step, taken);
            }
            _ => step.refuse(StepFault::Word),
        }
        Ok(())
    }

    fn merged(&mut self, step: &mut Step<'_>) {
        let mut slots = [7; SLOTS];
        self.table.merged(step.number(), &mut slots);
        step.say_octets(&slots);
    }

    fn merged_part(&mut self, step: &mut Step<'_>) {
        let now = step.number();
        let from = step.number_to(510) as usize;
        let mut part = [7; 2];
        if from <= 510 {
            self.table.merged_part(now, from, &mut part);
        }
        step.say_octets(&part);
    }
}

/// Says what became of a packet.
pub fn say_taken(step: &mut Step<'_>, taken: Taken) {
    let word = match taken {
        Taken::Held => "Held",
        Taken::Observed => "Observed",
        Taken::EndedNow => "EndedNow",
        Taken::OutOfSequence => "OutOfSequence",
        Taken::SourcesExceeded => "SourcesExceeded",
        Taken::UnknownIgnored => "UnknownIgnored",
    };
    step.say(&word);
}

/// Says a moment, or `never`.
pub fn say_moment(step: &mut Step<'_>, moment: Option<u64>) {
    match moment {
        Some(moment) => step.say(&moment),
        None => step.say(&"never"),
    }
}

/// Says a source that is held: `live` or `ended`, its number, priority and moment, and its slots.
pub fn say_held(step: &mut Step<'_>, held: Option<HeldView<'_>>) {
    let Some(held) = held else {
        step.say(&"none");
        return;
    };
    step.say(&if held.ended() { "ended" } else { "live" });
    step.say(&held.number());
    step.say(&held.priority());
    step.say(&held.moment());
    if let Some(levels) = held.levels() {
        let mut slots = [0; SLOTS];
        for (at, slot) in slots.iter_mut().enumerate() {
            *slot = levels.at(at);
        }
        step.say_octets(&slots[..levels.given().min(SLOTS)]);
    }
}
