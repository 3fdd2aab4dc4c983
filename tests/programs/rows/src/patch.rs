//! Calls of a patch.
use crate::step::{Step, StepFault};
use sacn_packets::SLOTS;
use sacn_patch::{LevelOf, Patch, RestOf};
use std::alloc::Global;

/// Channel 1 at 4660, which is 18 and 52, and every other channel full.
struct Levels;

impl LevelOf for Levels {
    ghost use Rattle.std.specs.Prelude.{ℕ, ◌==◌, if◌then◌else◌};

    ghost level = { λ _ channel. if channel == 1 then 4660 else 65535 };

    fn level_of(&self, channel: u16) -> u16 {
        if channel == 1 { 4660 } else { 65535 }
    }
}

/// Channel 1 fades, and every other one rests.
struct Fading;

impl RestOf for Fading {
    ghost use Rattle.std.specs.Prelude.{◌≡◌, ◌==◌, false};

    ghost stays = { λ _ channel. (channel == 1) ≡ false };

    fn rests(&self, channel: u16) -> bool {
        channel != 1
    }
}

/// A patch.
#[derive(Drop)]
pub struct Patching {
    patch: Patch,
}

impl Patching {
    pub fn new(alloc: Global) -> Self {
        Patching {
            patch: Patch::new(alloc),
        }
    }

    /// Makes the step's call.
    ///
    /// # Errors
    ///
    /// There is no such call, or no memory.
    pub fn answer(&mut self, step: &mut Step<'_>) -> Result<(), StepFault> {
        let mut slots = [7; SLOTS];
        match step.word() {
            "add" => add_entry(&mut self.patch, step),
            "slots" => {
                self.patch.fill(step.short(), &Levels, &mut slots);
                step.say_octets(&slots);
            }
            "flat-slots" => match self.patch.flat(step.alloc()) {
                Ok(flat) => {
                    flat.fill(step.short(), &Levels, &mut slots);
                    step.say_octets(&slots);
                }
                Err(_) => return Err(StepFault::Memory),
            },
            "rests" => match self.patch.flat(step.alloc()) {
                Ok(flat) => {
                    let rests = flat.rests(step.short(), &Fading);
                    step.say(&rests);
                }
                Err(_) => return Err(StepFault::Memory),
            },
            "copy" => match self.patch.try_copy() {
                Ok(copy) => self.patch = copy,
                Err(_) => return Err(StepFault::Memory),
            },
            _ => return Err(StepFault::UnknownCall),
        }
        Ok(())
    }
}

/// Adds the entry that the words left say to a patch: channel, universe, slot, and `wide` for two slots or `narrow` for one.
pub fn add_entry(patch: &mut Patch, step: &mut Step<'_>) {
    let channel = step.short();
    let universe = step.short();
    let slot = step.short();
    let is_wide = match step.word() {
        "wide" => true,
        "narrow" => false,
        _ => {
            step.refuse(StepFault::Word);
            false
        }
    };
    step.say_done(patch.add(channel, universe, slot, is_wide));
}
