//! Recordings of a network, laid out octet by octet, what is read of them, and what is told of them.
use crate::comparison::compare;
use crate::datagram::datagram_in;
use crate::step::{Step, StepFault};
use crate::watches::form_in;
use sacn_capture::{Capture, Datagram, LinkType, Passed, datagram_in as carried_in};
use sacn_tell::{Options, explain};
use std::alloc::{AllocError, Global};

/// Two addresses of Ethernet, and the type of IPv4.
const ETHERNET: &[u8] = b"\x01\0\x5e\x7f\0\x01\x02\0\0\0\0\x01\x08\0";

/// The octets of a file or of a frame, and what was told of it.
#[derive(Drop)]
pub struct Recordings {
    alloc: Global,
    file: Vec<u8>,
    output: Vec<u8>,
}

impl Recordings {
    /// An empty file.
    pub fn new(alloc: Global) -> Self {
        Recordings {
            alloc,
            file: Vec::new(alloc),
            output: Vec::new(alloc),
        }
    }

    /// Makes the step's call.
    ///
    /// # Errors
    ///
    /// There is no such call, a word is wrong, or no memory.
    pub fn answer(&mut self, step: &mut Step<'_>) -> Result<(), StepFault> {
        match step.word() {
            "octets" => {
                let octets = step.hex()?;
                self.file.extend_from_slice(octets.as_slice())?;
            }
            "text" => self.file.extend_from_slice(step.text().as_bytes())?,
            "frame" => self.add_frame(step)?,
            "cut" => {
                let len = self.file.len().saturating_sub(step.number() as usize);
                self.file.truncate(len);
            }
            "carried" => {
                let link = link_in(step)?;
                say_content(step, &carried_in(link, self.file.as_slice()));
            }
            "read" => self.read(step),
            "explain" => self.explain(step)?,
            "written" => compare(step, self.output.as_slice())?,
            "begun" => {
                let len = self.output.len().min(step.text().len());
                compare(step, &self.output.as_slice()[..len])?;
            }
            _ => return Err(StepFault::UnknownCall),
        }
        Ok(())
    }

    /// Adds the record of a frame that carries a datagram: its moment, the last number of the sender's address, the port that it
    /// goes to, and the datagram.
    fn add_frame(&mut self, step: &mut Step<'_>) -> Result<(), StepFault> {
        let moment = (step.number_to(1_000_000) & 0xf_ffff) as u32;
        let host = step.octet();
        let port = step.short();
        let payload = datagram_in(step)?;
        let len = payload.len().min(1000) as u16;
        let [total_high, total_low] = (28 + len).to_be_bytes();
        let [port_high, port_low] = port.to_be_bytes();
        let [len_high, len_low] = (8 + len).to_be_bytes();
        self.add_record(moment, 42 + len)?;
        self.file.extend_from_slice(ETHERNET)?;
        self.file.extend_from_slice(&[
            0x45, 0, total_high, total_low, 0, 0, 0, 0, 0x40, 0x11, 0, 0, 10, 0, 0, host, 239, 255,
            0, 1, 0x13, 0x88, port_high, port_low, len_high, len_low, 0, 0,
        ])?;
        self.file.extend_from_slice(payload.as_slice())?;
        Ok(())
    }

    /// Adds the head of a record of pcap at a moment after second 1000, of a frame of this length.
    fn add_record(&mut self, moment: u32, len: u16) -> Result<(), AllocError> {
        let len = u32::from(len).to_le_bytes();
        self.file
            .extend_from_slice(&(1000 + moment / 1000).to_le_bytes())?;
        self.file
            .extend_from_slice(&(moment % 1000 * 1000).to_le_bytes())?;
        self.file.extend_from_slice(&len)?;
        self.file.extend_from_slice(&len)
    }

    /// Says each frame with its moment, or `unstamped` where it has none, and at last `end` or what is wrong with the file.
    fn read(&mut self, step: &mut Step<'_>) {
        match Capture::open(self.alloc, self.file.as_slice()) {
            Ok(mut capture) => say_records(step, &mut capture),
            Err(fault) => step.say(&fault),
        }
    }

    fn explain(&mut self, step: &mut Step<'_>) -> Result<(), StepFault> {
        let form = form_in(step)?;
        let universe = [step.short()];
        let options = Options {
            port: 5568,
            universes: if universe[0] == 0 { &[] } else { &universe },
            form,
        };
        self.output.clear();
        let file = self.file.as_slice();
        match explain(self.alloc, file, &options, None, &mut self.output) {
            Ok(_) => step.say(&"ok"),
            Err(fault) => step.say(&fault),
        }
        Ok(())
    }
}

fn say_records(step: &mut Step<'_>, capture: &mut Capture<&[u8]>) {
    for _ in 0..64 {
        match capture.next() {
            Ok(Some(record)) => {
                match record.moment {
                    Some(moment) => step.say(&moment),
                    None => step.say(&"unstamped"),
                }
                say_content(step, &record.content);
                step.say(&";");
            }
            Ok(None) => {
                step.say(&"end");
                return;
            }
            Err(fault) => {
                step.say(&fault);
                return;
            }
        }
    }
}

/// Says what a frame carries: the sender, the destination and how many octets; or why it was passed over.
fn say_content(step: &mut Step<'_>, content: &Result<Datagram<'_>, Passed>) {
    match content {
        Ok(datagram) => {
            let [a, b, c, d] = datagram.sender;
            let port = datagram.sender_port;
            step.say(&format_args!("{a}.{b}.{c}.{d}:{port}"));
            let [a, b, c, d] = datagram.destination;
            let port = datagram.destination_port;
            step.say(&format_args!("{a}.{b}.{c}.{d}:{port}"));
            step.say(&datagram.payload.len());
        }
        Err(passed) => step.say_name(passed),
    }
}

fn link_in(step: &mut Step<'_>) -> Result<LinkType, StepFault> {
    match step.word() {
        "Ethernet" => Ok(LinkType::Ethernet),
        "RawIp" => Ok(LinkType::RawIp),
        "CookedV1" => Ok(LinkType::CookedV1),
        "CookedV2" => Ok(LinkType::CookedV2),
        "BsdNull" => Ok(LinkType::BsdNull),
        "BsdLoop" => Ok(LinkType::BsdLoop),
        _ => Err(StepFault::Word),
    }
}
