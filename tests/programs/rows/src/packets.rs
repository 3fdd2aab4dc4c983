//! Calls of datagrams: what is read of octets, what is written, and lists of universes that are known of pages.

use crate::layers::layer_answer;
use crate::packet::{cid_in, write_packet};
use crate::readings::{say_faults, say_frame, say_prefixes, say_reading};
use crate::step::{Step, StepFault};
use sacn_discovery::{Collector, page_count, write_page};
use sacn_packets::{Packet, multicast_group, put, read_packet, source_name};
use std::alloc::Global;

/// The octets of a datagram, a list of universes that pages are laid out of, and the lists that are known.
#[derive(Drop)]
pub struct Packets {
    octets: Vec<u8>,
    list: Vec<u16>,
    collector: Collector,
}

impl Packets {
    pub fn new(alloc: Global) -> Self {
        Packets {
            octets: Vec::new(alloc),
            list: Vec::new(alloc),
            collector: Collector::new(alloc),
        }
    }

    /// Makes the step's call.
    ///
    /// # Errors
    ///
    /// There is no such call, or no memory.
    pub fn answer(&mut self, step: &mut Step<'_>) -> Result<(), StepFault> {
        match step.word() {
            "octets" => self.octets = step.hex()?,
            "change" => self.change(step)?,
            "cut" => self.octets.truncate(step.number() as usize),
            "is" => self.compare(step)?,
            "read" => say_reading(step, self.octets.as_slice()),
            "frame" => say_frame(step, self.octets.as_slice()),
            "prefixes" => say_prefixes(step, self.octets.as_slice()),
            "each" => say_faults(step, &mut self.octets),
            "write" => self.write(step)?,
            "name" => self.name(step)?,
            "group" => {
                let group = multicast_group(step.short());
                step.say_octets(&group);
            }
            "count" => {
                let count = page_count(step.number_to(65_536) as usize);
                step.say(&count);
            }
            "list" => self.list = step.universes()?,
            "page" => self.page(step)?,
            "take" => self.take(step),
            "known" => self.known(step)?,
            "expire" => {
                let count = self.collector.expire(step.number());
                step.say(&count);
            }
            call => return layer_answer(call, &mut self.octets, step),
        }
        Ok(())
    }

    /// Puts octets in the place of those from a place on.
    fn change(&mut self, step: &mut Step<'_>) -> Result<(), StepFault> {
        let at = step.number() as usize;
        let part = step.hex()?;
        let len = self.octets.len();
        if at > len || part.len() > len - at {
            return Err(StepFault::NotReady);
        }
        put(self.octets.as_mut_slice(), at, part.as_slice());
        Ok(())
    }

    /// Says whether the octets are these, or the first place where they aren't.
    fn compare(&self, step: &mut Step<'_>) -> Result<(), StepFault> {
        let wanted = step.hex()?;
        for at in 0..wanted.len().max(self.octets.len()) {
            if wanted.get(at) != self.octets.get(at) {
                step.say(&format_args!("differs {at}"));
                return Ok(());
            }
        }
        step.say(&"yes");
        Ok(())
    }

    /// Writes a data packet over a room of octets aa.
    fn write(&mut self, step: &mut Step<'_>) -> Result<(), StepFault> {
        let mut room = [0xaa; 638];
        let len = write_packet(step, &mut room)?;
        self.octets = Vec::from_slice(step.alloc(), &room)?;
        step.say(&len);
        Ok(())
    }

    /// Lays out the name of a source that the text is.
    fn name(&mut self, step: &mut Step<'_>) -> Result<(), StepFault> {
        match source_name(step.text()) {
            Some(name) => {
                self.octets = Vec::from_slice(step.alloc(), &name)?;
                step.say(&"yes");
            }
            None => step.say(&"none"),
        }
        Ok(())
    }

    /// Lays out a page of the list of the source `Desk` of a CID over a room of octets aa.
    fn page(&mut self, step: &mut Step<'_>) -> Result<(), StepFault> {
        let place = step.number() as usize;
        let cid = cid_in(step);
        let name = source_name("Desk").unwrap_or([0; 64]);
        let list = self.list.as_slice();
        if !rises(list) || place >= page_count(list.len()) {
            return Err(StepFault::Word);
        }
        let mut room = [0xaa; 1144];
        let len = write_page(list, place, &cid, &name, &mut room);
        self.octets = Vec::from_slice(step.alloc(), &room[..len.min(1144)])?;
        step.say(&len);
        Ok(())
    }

    /// Hands the page that the octets are to the collector.
    fn take(&mut self, step: &mut Step<'_>) {
        let now = step.number();
        match read_packet(self.octets.as_slice()) {
            Ok(Packet::PagePacket(page)) => step.say_done(self.collector.take(now, &page)),
            _ => step.refuse(StepFault::NotReady),
        }
    }

    /// Says the list that is known of a source.
    fn known(&mut self, step: &mut Step<'_>) -> Result<(), StepFault> {
        let now = step.number();
        let cid = cid_in(step);
        match self.collector.list_of(now, &cid) {
            Ok(Some(list)) => step.say_universes(list.as_slice()),
            Ok(None) => step.say(&"none"),
            Err(_) => return Err(StepFault::Memory),
        }
        Ok(())
    }
}

/// Whether each number is below the next.
fn rises(list: &[u16]) -> bool {
    for i in 1..list.len() {
        if list[i - 1] >= list[i] {
            return false;
        }
    }
    true
}
