//! What is printed of datagrams: decoded, watched, and on a terminal's screen.
use crate::comparison::compare;
use crate::datagram::{datagram_in, incoming_in};
use crate::loops::push;
use crate::step::{Step, StepFault};
use sacn_edge::WriterOut;
use sacn_machine::memory::{MemoryReceiver, TimedArrival};
use sacn_monitor::Endpoint;
use sacn_packets::read_packet;
use sacn_tell::{Form, Options};
use sacn_text::decode_text;
use sacn_watch::{Decoder, Size, View, screen, watch_lines};
use std::alloc::Global;
use std::mem;

/// The datagrams that come, and what was written of them.
#[derive(Drop)]
pub struct Watches {
    alloc: Global,
    datagrams: Vec<Vec<u8>>,
    incoming: Vec<TimedArrival>,
    view: View,
    decoder: Decoder,
    output: Vec<u8>,
}

impl Watches {
    /// Nothing came.
    ///
    /// # Errors
    ///
    /// No memory.
    pub fn new(alloc: Global) -> Result<Self, StepFault> {
        let Ok(view) = View::new(alloc, None) else {
            return Err(StepFault::Memory);
        };
        Ok(Watches {
            alloc,
            datagrams: Vec::new(alloc),
            incoming: Vec::new(alloc),
            view,
            decoder: Decoder::new(),
            output: Vec::new(alloc),
        })
    }

    /// Makes the step's call.
    ///
    /// # Errors
    ///
    /// There is no such call, a word is wrong, or no memory.
    pub fn answer(&mut self, step: &mut Step<'_>) -> Result<(), StepFault> {
        match step.word() {
            "datagram" => {
                let datagram = datagram_in(step)?;
                push(&mut self.datagrams, datagram)?;
            }
            "decode" => self.decode(step),
            "comes" => {
                let incoming = incoming_in(step)?;
                push(&mut self.incoming, incoming)?;
            }
            "watch" => self.watch(step)?,
            "view" => {
                let now = step.number();
                let datagram = datagram_in(step)?;
                let reading = read_packet(datagram.as_slice());
                self.view.take(now, SENDER, &reading);
            }
            "keys" => self.press(step)?,
            "screen" => self.draw(step)?,
            "written" => compare(step, self.output.as_slice())?,
            _ => return Err(StepFault::UnknownCall),
        }
        Ok(())
    }

    fn decode(&mut self, step: &mut Step<'_>) {
        let mut out = WriterOut::new(Vec::new(self.alloc));
        step.say_done(decode_text(self.alloc, self.datagrams.as_slice(), &mut out));
        self.output = out.writer;
    }

    fn watch(&mut self, step: &mut Step<'_>) -> Result<(), StepFault> {
        let options = Options {
            port: 5568,
            universes: &[],
            form: form_in(step)?,
        };
        let until = step.number();
        let incoming = mem::replace(&mut self.incoming, Vec::new(self.alloc));
        let mut listener = MemoryReceiver::new(incoming, until);
        self.output.clear();
        step.say_done(watch_lines(self.alloc, &mut listener, &options, until, &mut self.output));
        Ok(())
    }

    fn press(&mut self, step: &mut Step<'_>) -> Result<(), StepFault> {
        let octets = step.hex()?;
        for octet in octets.iter() {
            if let Some(key) = self.decoder.take(*octet) {
                if self.view.press(self.alloc, key).is_err() {
                    return Err(StepFault::Memory);
                }
            }
        }
        Ok(())
    }

    /// Draws the screen. In what is written an escape octet stands as `^`, and a line ends where a terminal's row is cleared.
    fn draw(&mut self, step: &mut Step<'_>) -> Result<(), StepFault> {
        let now = step.number();
        let size = Size {
            width: step.number_to(1000) as usize,
            height: step.number_to(1000) as usize,
        };
        let has_colours = match step.word() {
            "colours" => true,
            "plain" => false,
            _ => return Err(StepFault::Word),
        };
        self.view.refresh(now);
        let page = screen(self.alloc, &self.view, size)?;
        let text = page.text(self.alloc, has_colours)?;
        let rows = text.replace(self.alloc, "\u{1b}[K", "\u{1b}[K\n")?;
        let rows = rows.replace(self.alloc, "\u{1b}", "^")?;
        self.output = Vec::from_slice(self.alloc, rows.as_bytes())?;
        Ok(())
    }
}

/// The sender of what a view takes.
const SENDER: Endpoint = Endpoint {
    address: [10, 0, 0, 1],
    port: 5000,
};

/// The next word as the form of a text.
///
/// # Errors
///
/// It is none.
pub fn form_in(step: &mut Step<'_>) -> Result<Form, StepFault> {
    match step.word() {
        "text" => Ok(Form::Text),
        "json" => Ok(Form::Json),
        _ => Err(StepFault::Word),
    }
}
