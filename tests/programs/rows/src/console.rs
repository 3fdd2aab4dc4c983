//! Calls of a console.
use crate::readings::say_reading;
use crate::step::{Step, StepFault};
use sacn_console::{ConsoleCore, command_of, read_show};

/// A console, once its show was read, and the room that its datagrams are written into.
#[derive(Drop)]
pub struct Console {
    core: Option<ConsoleCore>,
    room: [u8; 1144],
}

impl Console {
    pub fn new() -> Self {
        Console {
            core: None,
            room: [0; 1144],
        }
    }

    /// Makes the step's call.
    ///
    /// # Errors
    ///
    /// There is no such call, no show was read before, or no memory.
    pub fn answer(&mut self, step: &mut Step<'_>) -> Result<(), StepFault> {
        let call = step.word();
        if call == "show" {
            return self.set_up(step);
        }
        let Some(core) = &mut self.core else {
            return Err(StepFault::NotReady);
        };
        match call {
            "poll" => poll(core, &mut self.room, step),
            "order" => order(core, step)?,
            "rest" => rest(core, &mut self.room, step),
            "wakes" => step.say(&core.wakes()),
            "clear" => self.room = [0xee; 1144],
            "room" => say_room(&self.room, step),
            "read" => say_reading(step, &self.room),
            _ => return Err(StepFault::UnknownCall),
        }
        Ok(())
    }

    /// Makes the console of the show that the text is, whose first number is given.
    fn set_up(&mut self, step: &mut Step<'_>) -> Result<(), StepFault> {
        let first = step.octet();
        match read_show(step.alloc(), step.text()) {
            Ok(show) => match ConsoleCore::new(step.alloc(), &show, first) {
                Ok(core) => {
                    self.core = Some(core);
                    step.say(&"ok");
                }
                Err(_) => return Err(StepFault::Memory),
            },
            Err(fault) => step.say_name(&fault),
        }
        Ok(())
    }
}

/// Says what a poll gives: a data packet's number, options, universe and first slot, or the length of a page.
fn poll(core: &mut ConsoleCore, room: &mut [u8; 1144], step: &mut Step<'_>) {
    match core.poll(step.number(), room) {
        Some(638) => {
            let universe = u16::from_be_bytes([room[113], room[114]]);
            let (number, options, slot) = (room[111], room[112], room[126]);
            step.say(&format_args!("packet {number} {options} {universe} {slot}"));
        }
        Some(len) => step.say(&format_args!("page {len}")),
        None => step.say(&"none"),
    }
}

/// Gives the order that the words left are.
fn order(core: &mut ConsoleCore, step: &mut Step<'_>) -> Result<(), StepFault> {
    let now = step.number();
    let words = step.words()?;
    match command_of(words.as_slice(), 1) {
        Ok(command) => step.say_done(core.command(now, command)),
        Err(_) => step.refuse(StepFault::Word),
    }
    Ok(())
}

/// Polls until nothing is due, and says when the console wakes.
fn rest(core: &mut ConsoleCore, room: &mut [u8; 1144], step: &mut Step<'_>) {
    let now = step.number();
    for _ in 0..5 {
        let _len = core.poll(now, room);
    }
    step.say(&core.wakes());
}

/// Says the octets of the room at some places.
fn say_room(room: &[u8; 1144], step: &mut Step<'_>) {
    for _ in 0..1144 {
        if !step.has_word() {
            break;
        }
        match room.get(step.number() as usize) {
            Some(octet) => step.say(octet),
            None => step.refuse(StepFault::Word),
        }
    }
}
