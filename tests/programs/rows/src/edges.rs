//! Values at the edge: addresses in words, an interface's packets, and lines that come in pieces.
use crate::step::{Step, StepFault};
use sacn_machine::{Gathered, LineBuffer, destination_of, host_of, widget_packet};
use std::alloc::Global;

/// A line that is being gathered.
#[derive(Drop)]
pub struct Edges {
    line: LineBuffer,
}

impl Edges {
    /// No octet came yet.
    pub fn new(alloc: Global) -> Self {
        Edges {
            line: LineBuffer::new(alloc),
        }
    }

    /// Makes the step's call.
    ///
    /// # Errors
    ///
    /// There is no such call, or no memory.
    pub fn answer(&mut self, step: &mut Step<'_>) -> Result<(), StepFault> {
        match step.word() {
            "host" => match host_of(step.text()) {
                Ok(host) => step.say_octets(&host.octets()),
                Err(fault) => step.say_name(&fault),
            },
            "port" => match destination_of(step.text(), 5568) {
                Ok(destination) => step.say(&destination.port()),
                Err(fault) => step.say_name(&fault),
            },
            "widget" => {
                let mut frame = [0; 513];
                frame[1] = step.octet();
                step.say_octets(&widget_packet(&frame));
            }
            "gather" => match self.line.gather(step.text().as_bytes())? {
                Gathered::Partly => step.say(&"partly"),
                Gathered::Ended(count) => step.say(&format_args!("ended {count}")),
            },
            "line" => match self.line.line() {
                Some(line) => step.say_octets(line),
                None => step.say(&"too long"),
            },
            "clear" => self.line.clear(),
            "empty" => step.say(&self.line.is_empty()),
            _ => return Err(StepFault::UnknownCall),
        }
        Ok(())
    }
}
