//! Calls of a cue list and its player.
use crate::patch::add_entry;
use crate::step::{Step, StepFault};
use sacn_cues::{Cue, CueList, Player};
use sacn_packets::SLOTS;
use sacn_patch::{LevelOf, Patch};
use std::alloc::{AllocError, Global};
use std::mem;

/// A cue list and a patch, and the player of the list once it is played.
#[derive(Drop)]
pub struct Cues {
    list: CueList,
    patch: Patch,
    player: Option<Player>,
}

impl Cues {
    pub fn new(alloc: Global) -> Self {
        Cues {
            list: CueList::new(alloc),
            patch: Patch::new(alloc),
            player: None,
        }
    }

    /// Makes the step's call.
    ///
    /// # Errors
    ///
    /// There is no such call, the list isn't played yet, or no memory.
    pub fn answer(&mut self, step: &mut Step<'_>) -> Result<(), StepFault> {
        match step.word() {
            "cue" => self.add(step)?,
            "patch" => add_entry(&mut self.patch, step),
            "copy" => match self.list.try_copy() {
                Ok(copy) => self.list = copy,
                Err(_) => return Err(StepFault::Memory),
            },
            "play" => self.play(step)?,
            call => match &mut self.player {
                Some(player) => return player_answer(call, player, &self.patch, step),
                None => return Err(StepFault::NotReady),
            },
        }
        Ok(())
    }

    /// Adds the cue that the words left say: its number, its times up and down, and its channels, each with its level.
    fn add(&mut self, step: &mut Step<'_>) -> Result<(), StepFault> {
        let number = step.short();
        let up = step.long();
        let down = step.long();
        let mut levels = Vec::new(step.alloc());
        for _ in 0..4000 {
            if !step.has_word() {
                break;
            }
            let level = (step.short(), step.short());
            levels.push(level).map_err(AllocError::from)?;
        }
        let cue = Cue {
            number,
            up,
            down,
            levels,
        };
        step.say_done(self.list.add(cue));
        Ok(())
    }

    /// Makes a player of the list, which is then empty.
    fn play(&mut self, step: &mut Step<'_>) -> Result<(), StepFault> {
        let list = mem::replace(&mut self.list, CueList::new(step.alloc()));
        match Player::new(step.alloc(), list) {
            Ok(player) => {
                self.player = Some(player);
                Ok(())
            }
            Err(_) => Err(StepFault::Memory),
        }
    }
}

/// Makes a call of a player.
fn player_answer(
    call: &str,
    player: &mut Player,
    patch: &Patch,
    step: &mut Step<'_>,
) -> Result<(), StepFault> {
    match call {
        "go" => {
            let answer = player.go(step.number());
            step.say_done(answer);
        }
        "goto" => {
            let now = step.number();
            let answer = player.go_to(now, step.short());
            step.say_done(answer);
        }
        "set" => {
            let now = step.number();
            let channel = step.short();
            let answer = player.set(now, channel, step.short());
            step.say_done(answer);
        }
        "master" => {
            let now = step.number();
            player.master(now, step.short());
        }
        "levels" => say_levels(player, step),
        "shown" => {
            let now = step.number();
            let channel = step.short();
            step.say(&player.at(now).level_of(channel));
        }
        "slots" => {
            let now = step.number();
            let mut slots = [7; SLOTS];
            patch.fill(step.short(), &player.at(now), &mut slots);
            step.say_octets(&slots);
        }
        "still" => step.say(&player.is_still()),
        _ => return Err(StepFault::UnknownCall),
    }
    Ok(())
}

/// Says a channel's levels before the master, at each moment from a first to a last one.
fn say_levels(player: &mut Player, step: &mut Step<'_>) {
    let channel = step.short();
    let first = step.number();
    let last = if step.has_word() {
        step.number()
    } else {
        first
    };
    for now in first..=last {
        step.say(&player.level(now, channel));
    }
}
