//! Calls of a node.

use crate::packet::{cid_in, cid_of, packet_in};
use crate::sources::{say_held, say_moment, say_taken};
use crate::step::{Step, StepFault};
use sacn_node::{NodeCore, NodeTaken, read_node};
use sacn_packets::{DataFields, write_data};
use std::alloc::Global;

/// A node, once its setup was read.
#[derive(Drop)]
pub struct Node {
    core: Option<NodeCore>,
}

impl Node {
    pub fn new() -> Self {
        Node { core: None }
    }

    /// Makes the step's call.
    ///
    /// # Errors
    ///
    /// There is no such call, no setup was read before, or no memory.
    pub fn answer(&mut self, step: &mut Step<'_>) -> Result<(), StepFault> {
        let call = step.word();
        if call == "setup" {
            return self.set_up(step);
        }
        let Some(core) = &mut self.core else {
            return Err(StepFault::NotReady);
        };
        match call {
            "take" => take(core, step)?,
            "datagram" => take_datagram(core, step)?,
            "each" => take_each(core, step),
            "frame" => say_frame(core, step),
            "held" => {
                let universe = step.short();
                let cid = cid_in(step);
                say_held(step, core.held(universe, &cid));
            }
            "tick" => {
                let lost = core.tick(step.number());
                step.say(&lost);
            }
            "moment" => step.say(&core.moment()),
            "wakes" => say_moment(step, core.wakes()),
            "ports" => step.say_octets(core.port_numbers()),
            _ => return Err(StepFault::UnknownCall),
        }
        Ok(())
    }

    /// Makes the node of the setup that the text is.
    fn set_up(&mut self, step: &mut Step<'_>) -> Result<(), StepFault> {
        match read_node(step.alloc(), step.text()) {
            Ok(setup) => match NodeCore::new(step.alloc(), &setup) {
                Ok(core) => {
                    self.core = Some(core);
                    step.say(&"ok");
                }
                Err(_) => return Err(StepFault::Memory),
            },
            Err(fault) => step.say_name(&fault),
        }
        Ok(())
    }
}

fn take(core: &mut NodeCore, step: &mut Step<'_>) -> Result<(), StepFault> {
    let now = step.number();
    let octets = packet_in(step)?;
    say_node_taken(step, core.take(now, octets.as_slice()));
    Ok(())
}

fn take_datagram(core: &mut NodeCore, step: &mut Step<'_>) -> Result<(), StepFault> {
    let now = step.number();
    let octets = step.hex()?;
    say_node_taken(step, core.take(now, octets.as_slice()));
    Ok(())
}

/// Says what became of a datagram.
pub fn say_node_taken(step: &mut Step<'_>, taken: NodeTaken) {
    match taken {
        NodeTaken::FromTable(taken) => say_taken(step, taken),
        NodeTaken::OtherUniverse => step.say(&"OtherUniverse"),
        NodeTaken::Discovery => step.say(&"Discovery"),
        NodeTaken::Sync => step.say(&"Sync"),
        NodeTaken::Refused(fault) => step.say_name(&fault),
    }
}

/// The octets of a live packet of one slot on universe 1: a source's number modulo 256.
fn one_slot(source: u64, number: u8, octets: &mut [u8; 638]) -> usize {
    let fields = DataFields {
        cid: cid_of(source),
        name: [0; 64],
        priority: 100,
        number,
        preview: false,
        terminated: false,
        universe: 1,
        start: 0,
        slots: &[(source & 255) as u8],
    };
    write_data(&fields, octets)
}

/// Takes a packet of each source from a first to a last one, and says how many were answered alike in a row, and how.
fn take_each(core: &mut NodeCore, step: &mut Step<'_>) {
    let first = step.number_to(65_535);
    let last = step.number_to(65_535);
    let now = step.number();
    let number = step.octet();
    let mut before = None;
    let mut count = 0u64;
    for source in first..=last {
        let mut octets = [0; 638];
        let len = one_slot(source, number, &mut octets);
        let taken = core.take(now, &octets[..len]);
        if before != Some(taken) {
            say_count(step, before, count);
            before = Some(taken);
            count = 0;
        }
        count = count.saturating_add(1);
    }
    say_count(step, before, count);
}

fn say_count(step: &mut Step<'_>, taken: Option<NodeTaken>, count: u64) {
    if let Some(taken) = taken {
        step.say(&count);
        say_node_taken(step, taken);
    }
}

/// Says the frame of a port, whose room is left as it was where there is no such port.
fn say_frame(core: &mut NodeCore, step: &mut Step<'_>) {
    let now = step.number();
    let port = step.octet();
    let mut frame = [7; 513];
    match core.frame(now, port, &mut frame) {
        Ok(()) => step.say_octets(&frame),
        Err(_) if frame == [7; 513] => step.say(&"NoPort"),
        Err(_) => step.say(&"NoPort, and octets were written"),
    }
}
