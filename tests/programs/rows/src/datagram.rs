//! Datagrams laid out octet by octet, apart from the library's own writers, and what brings them to a device in memory.
use crate::packet::cid_in;
use crate::step::{Step, StepFault};
use fixtures::packets::{DESK, data, page, sync};
use sacn_machine::memory::TimedArrival;
use sacn_machine::{Octets4, host_of};

/// The datagram that the words left say: `data ..`, `page ..`, `sync`, or `octets` and hexadecimal digits.
///
/// # Errors
///
/// No memory.
pub fn datagram_in(step: &mut Step<'_>) -> Result<Vec<u8>, StepFault> {
    match step.word() {
        "data" => data_in(step),
        "page" => page_in(step),
        "sync" => Ok(sync(step.alloc())?),
        "octets" => step.hex(),
        _ => Err(StepFault::Word),
    }
}

/// A flags-and-length field.
fn length_field(len: u16) -> [u8; 2] {
    (0x7000 | (len & 0x0fff)).to_be_bytes()
}

/// A data packet: any of `cid CID`, `name WORD`, `named HEX`, `universe N`, `number N`, `priority N`, `preview`, `terminated`, and last
/// `slots OCTET..`. What isn't said is the CID of the octets 0 to 15, the name `Desk`, universe 1, number 0, priority 100, and no slots.
fn data_in(step: &mut Step<'_>) -> Result<Vec<u8>, StepFault> {
    let alloc = step.alloc();
    let mut said = DESK;
    let mut name = Vec::from_slice(alloc, DESK.name)?;
    let mut slots = Vec::new(alloc);
    for _ in 0..8 {
        if !step.has_word() {
            break;
        }
        match step.word() {
            "cid" => said.cid = cid_in(step),
            "name" => name = Vec::from_slice(alloc, step.word().as_bytes())?,
            "named" => name = hex_in(step)?,
            "universe" => said.universe = step.octet(),
            "number" => said.number = step.octet(),
            "priority" => said.priority = step.octet(),
            "preview" => said.options = 0x80,
            "terminated" => said.options = 0x40,
            "slots" => slots = step.octets()?,
            _ => step.refuse(StepFault::Word),
        }
    }
    said.name = name.as_slice();
    let count = slots.len().min(512) as u16;
    let lengths = [
        length_field(110 + count),
        length_field(88 + count),
        length_field(11 + count),
        (1 + count).to_be_bytes(),
    ];
    Ok(data(alloc, lengths, &said, slots.as_slice())?)
}

/// The next word as octets in hexadecimal digits, none where it is `-`.
fn hex_in(step: &mut Step<'_>) -> Result<Vec<u8>, StepFault> {
    let word = step.word();
    if word == "-" {
        return Ok(Vec::new(step.alloc()));
    }
    match hex::decode(step.alloc(), word) {
        Ok(octets) => Ok(octets),
        Err(_) => Err(StepFault::Word),
    }
}

/// A page of the desk: its number, the last page's, and its universes.
fn page_in(step: &mut Step<'_>) -> Result<Vec<u8>, StepFault> {
    let pages = [step.octet(), step.octet()];
    let universes = step.universes()?;
    let mut numbers = Vec::new(step.alloc());
    for universe in universes.iter() {
        numbers.extend_from_slice(&universe.to_be_bytes())?;
    }
    let count = universes.len().min(512) as u16;
    let fields = [
        length_field(104 + 2 * count),
        length_field(82 + 2 * count),
        length_field(8 + 2 * count),
    ];
    Ok(page(step.alloc(), fields, pages, numbers.as_slice())?)
}

/// What a receive brings, and the reading of the clock before it: a moment, and then `nothing`, `failed`, or the sender's address and
/// a datagram.
///
/// # Errors
///
/// No memory.
pub fn incoming_in(step: &mut Step<'_>) -> Result<TimedArrival, StepFault> {
    let now = step.number();
    match step.word() {
        "nothing" => Ok(TimedArrival::Nothing(now)),
        "failed" => Ok(TimedArrival::Failed(now)),
        word => Ok(TimedArrival::Datagram(now, sender_of(word)?, datagram_in(step)?)),
    }
}

/// The address that a word spells.
///
/// # Errors
///
/// It spells none.
pub fn sender_of(word: &str) -> Result<Octets4, StepFault> {
    match host_of(word) {
        Ok(host) => Ok(host.octets()),
        Err(_) => Err(StepFault::Word),
    }
}
