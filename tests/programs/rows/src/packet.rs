//! Data packets as words say them.

use crate::step::{Step, StepFault};
use hex::FromHex;
use sacn_files::words::number_in;
use sacn_packets::{DataFields, source_name, write_data};

/// A CID that repeats the four octets of a number.
pub fn cid_of(number: u64) -> [u8; 16] {
    let [_, _, _, _, a, b, c, d] = number.to_be_bytes();
    [a, b, c, d, a, b, c, d, a, b, c, d, a, b, c, d]
}

/// The next word as the CID of a source: a number, or 32 hexadecimal digits.
pub fn cid_in(step: &mut Step<'_>) -> [u8; 16] {
    let word = step.word();
    match <[u8; 16] as FromHex>::from_hex(word) {
        Ok(cid) => cid,
        Err(_) => match number_in(4_294_967_295, word) {
            Some(number) => cid_of(number),
            None => {
                step.refuse(StepFault::Word);
                [0; 16]
            }
        },
    }
}

/// The next word as the name of a source.
fn name_in(step: &mut Step<'_>) -> [u8; 64] {
    match source_name(step.word()) {
        Some(name) => name,
        None => {
            step.refuse(StepFault::Word);
            [0; 64]
        }
    }
}

/// Writes the data packet that the words left say, and returns its length: `cid N`, `name WORD`, `universe N`, `number N`,
/// `priority N`, `start N`, `preview`, `terminated` in any order, and last `slots` with the slots. What isn't said is CID 1, no
/// name, universe 1, number 0, priority 100, start code 0, and no slots.
///
/// # Errors
///
/// There is no such packet, or no memory.
pub fn write_packet(step: &mut Step<'_>, room: &mut [u8; 638]) -> Result<usize, StepFault> {
    let mut slots = Vec::new(step.alloc());
    let mut fields = DataFields {
        cid: cid_of(1),
        name: [0; 64],
        priority: 100,
        number: 0,
        preview: false,
        terminated: false,
        universe: 1,
        start: 0,
        slots: &[],
    };
    for _ in 0..9 {
        if !step.has_word() {
            break;
        }
        match step.word() {
            "cid" => fields.cid = cid_in(step),
            "name" => fields.name = name_in(step),
            "universe" => fields.universe = step.short(),
            "number" => fields.number = step.octet(),
            "priority" => fields.priority = step.octet(),
            "start" => fields.start = step.octet(),
            "preview" => fields.preview = true,
            "terminated" => fields.terminated = true,
            "slots" => slots = step.octets()?,
            _ => step.refuse(StepFault::Word),
        }
    }
    fields.slots = slots.as_slice();
    if fields.priority > 200 || fields.slots.len() > 512 {
        return Err(StepFault::Word);
    }
    if fields.universe < 1 || fields.universe > 63_999 {
        return Err(StepFault::Word);
    }
    Ok(write_data(&fields, room))
}

/// The octets of the data packet that the words left say.
///
/// # Errors
///
/// There is no such packet, or no memory.
pub fn packet_in(step: &mut Step<'_>) -> Result<Vec<u8>, StepFault> {
    let mut room = [0; 638];
    let len = write_packet(step, &mut room)?;
    Ok(Vec::from_slice(step.alloc(), &room[..len])?)
}
