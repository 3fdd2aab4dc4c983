//! Calls of single layers, of octets, and of the sequence rule.
use crate::packet::cid_in;
use crate::step::{Step, StepFault};
use sacn_packets::{
    DATA_VECTOR, flags_at, length_at, pdu_field, read_dmp, read_root, u16_at, u32_at, write_dmp,
    write_root,
};
use sacn_sources::{in_sequence, signed_step};

/// Makes a call of a single layer of the octets.
///
/// # Errors
///
/// There is no such call, or no memory.
pub fn layer_answer(
    call: &str,
    octets: &mut Vec<u8>,
    step: &mut Step<'_>,
) -> Result<(), StepFault> {
    match call {
        "root" => say_root(step, octets.as_slice()),
        "dmp" => say_dmp(step, octets.as_slice()),
        "write-root" => write_root_layer(step, octets),
        "write-dmp" => write_dmp_layer(step, octets)?,
        "numbers" => say_numbers(step, octets.as_slice()),
        "field" => {
            let len = step.number_to(4095) as usize & 4095;
            step.say_octets(&pdu_field(len));
        }
        "step" => say_step(step),
        _ => return Err(StepFault::UnknownCall),
    }
    Ok(())
}

fn say_root(step: &mut Step<'_>, octets: &[u8]) {
    match read_root(octets) {
        Ok(root) => {
            step.say(&root.vector);
            step.say_hex(&root.cid);
            step.say_hex(root.body);
        }
        Err(fault) => step.say_name(&fault),
    }
}

fn say_dmp(step: &mut Step<'_>, octets: &[u8]) {
    match read_dmp(octets) {
        Ok(dmp) => {
            step.say(&dmp.start);
            step.say_octets(dmp.slots);
        }
        Err(fault) => step.say_name(&fault),
    }
}

/// Writes a root layer of a data packet for a body of some octets.
fn write_root_layer(step: &mut Step<'_>, octets: &mut Vec<u8>) {
    let cid = cid_in(step);
    let len = step.number_to(4073) as usize;
    if octets.len() < 38 || len > 4073 {
        step.refuse(StepFault::NotReady);
    } else {
        write_root(octets.as_mut_slice(), DATA_VECTOR, &cid, len);
    }
}

/// Writes a DMP layer of a start code and slots, and says its length.
fn write_dmp_layer(step: &mut Step<'_>, octets: &mut Vec<u8>) -> Result<(), StepFault> {
    let start = step.octet();
    let slots = step.octets()?;
    if slots.len() > 512 || octets.len() < slots.len() + 11 {
        return Err(StepFault::NotReady);
    }
    step.say(&write_dmp(octets.as_mut_slice(), start, slots.as_slice()));
    Ok(())
}

/// Says the numbers of 16 and 32 bits at a place, and the flags and the length there.
fn say_numbers(step: &mut Step<'_>, octets: &[u8]) {
    let at = step.number_to(4095) as usize;
    if octets.len() < 4 || at > octets.len() - 4 {
        step.refuse(StepFault::NotReady);
        return;
    }
    step.say(&u16_at(octets, at));
    step.say(&u32_at(octets, at));
    step.say(&flags_at(octets, at));
    step.say(&length_at(octets, at));
}

/// Says the step from a held number to one that arrives, and what becomes of that packet.
fn say_step(step: &mut Step<'_>) {
    let held = step.octet();
    let arrived = step.octet();
    step.say(&signed_step(held, arrived));
    step.say(&if in_sequence(held, arrived) {
        "taken"
    } else {
        "discarded"
    });
}
