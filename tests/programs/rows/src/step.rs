//! One step of a story: the words of its call, which a family reads one after the other, and the answer that it gives.

use sacn_files::words::{number_in, short_in};
use std::alloc::{AllocError, Global};
use std::fmt::{Debug, Display};

/// Why a step can't be made.
#[derive(Clone, Copy)]
pub enum StepFault {
    /// There is no such family of calls.
    UnknownFamily,
    /// No story began before.
    NoStory,
    /// The family has no such call.
    UnknownCall,
    /// There are too few words, or too many.
    WordCount,
    /// A word isn't what stands at its place.
    Word,
    /// What the call needs isn't there: another call has to come first, or its text isn't read.
    NotReady,
    /// No memory is left.
    Memory,
}

impl StepFault {
    /// What is printed of the fault.
    pub fn text(self) -> &'static str {
        match self {
            StepFault::UnknownFamily => "unknown family",
            StepFault::NoStory => "no story began before",
            StepFault::UnknownCall => "unknown call",
            StepFault::WordCount => "too few words, or too many",
            StepFault::Word => "a word isn't what stands there",
            StepFault::NotReady => "what the call needs isn't there",
            StepFault::Memory => "out of memory",
        }
    }
}

impl From<AllocError> for StepFault {
    fn from(_: AllocError) -> Self {
        StepFault::Memory
    }
}

/// The words and the text of a call, and the words of its answer. A faulty word is kept as the step's fault, and something else of
/// its kind is read in its place, so that a family reads on; the step then fails whatever the answer is.
#[derive(Drop)]
pub struct Step<'a> {
    alloc: Global,
    words: Vec<&'a str>,
    next: usize,
    text: &'a str,
    said: String,
    fault: Option<StepFault>,
}

impl<'a> Step<'a> {
    /// A step of these words, whose text stood before it.
    pub fn new(alloc: Global, words: Vec<&'a str>, text: &'a str) -> Self {
        Step {
            alloc,
            words,
            next: 0,
            text,
            said: String::new(alloc),
            fault: None,
        }
    }

    pub fn alloc(&self) -> Global {
        self.alloc
    }

    /// The text that stood before the step.
    pub fn text(&self) -> &'a str {
        self.text
    }

    /// Keeps the step's first fault.
    pub fn refuse(&mut self, fault: StepFault) {
        if self.fault.is_none() {
            self.fault = Some(fault);
        }
    }

    /// Whether a word is left.
    pub fn has_word(&self) -> bool {
        self.next < self.words.len()
    }

    /// The next word.
    pub fn word(&mut self) -> &'a str {
        match self.words.get(self.next) {
            Some(word) => {
                self.next = self.next.saturating_add(1);
                *word
            }
            None => {
                self.refuse(StepFault::WordCount);
                ""
            }
        }
    }

    /// The next word as a decimal number.
    pub fn number(&mut self) -> u64 {
        self.number_to(u64::MAX)
    }

    /// The same, up to a limit.
    pub fn number_to(&mut self, limit: u64) -> u64 {
        let word = self.word();
        match number_in(limit, word) {
            Some(number) => number,
            None => {
                self.refuse(StepFault::Word);
                0
            }
        }
    }

    /// The next word as a number of 32 bits.
    pub fn long(&mut self) -> u32 {
        (self.number_to(4_294_967_295) & 4_294_967_295) as u32
    }

    /// The next word as a number of sixteen bits.
    pub fn short(&mut self) -> u16 {
        (self.number_to(65_535) & 65_535) as u16
    }

    /// The next word as a number of eight bits.
    pub fn octet(&mut self) -> u8 {
        (self.number_to(255) & 255) as u8
    }

    /// The words that are left.
    ///
    /// # Errors
    ///
    /// No memory.
    pub fn words(&mut self) -> Result<Vec<&'a str>, StepFault> {
        let mut words = Vec::new(self.alloc);
        for _ in self.next..self.words.len() {
            words.push(self.word()).map_err(AllocError::from)?;
        }
        Ok(words)
    }

    /// The words that are left as octets: each is a number, or a number, `x` and how often it stands there.
    ///
    /// # Errors
    ///
    /// No memory.
    pub fn octets(&mut self) -> Result<Vec<u8>, StepFault> {
        let mut octets = Vec::new(self.alloc);
        for _ in self.next..self.words.len() {
            let word = self.word();
            let (value, count) = word.split_once('x').unwrap_or((word, "1"));
            match (number_in(255, value), number_in(65_536, count)) {
                (Some(value), Some(count)) => push_often(&mut octets, (value & 255) as u8, count)?,
                _ => self.refuse(StepFault::Word),
            }
        }
        Ok(octets)
    }

    /// The words that are left as hexadecimal digits, two an octet: `x` and a decimal number say how often a word stands there.
    ///
    /// # Errors
    ///
    /// No memory.
    pub fn hex(&mut self) -> Result<Vec<u8>, StepFault> {
        let mut octets = Vec::new(self.alloc);
        for _ in self.next..self.words.len() {
            let word = self.word();
            let (digits, count) = word.split_once('x').unwrap_or((word, "1"));
            match (hex::decode(self.alloc, digits), number_in(65_536, count)) {
                (Ok(part), Some(count)) => {
                    for _ in 0..count {
                        octets.extend_from_slice(part.as_slice())?;
                    }
                }
                _ => self.refuse(StepFault::Word),
            }
        }
        Ok(octets)
    }

    /// The words that are left as universes: each is a number, or `A-B` for all from A to B.
    ///
    /// # Errors
    ///
    /// No memory.
    pub fn universes(&mut self) -> Result<Vec<u16>, StepFault> {
        let mut universes = Vec::new(self.alloc);
        for _ in self.next..self.words.len() {
            let word = self.word();
            let (first, last) = word.split_once('-').unwrap_or((word, word));
            match (short_in(first), short_in(last)) {
                (Some(first), Some(last)) => {
                    for universe in first..=last {
                        universes.push(universe).map_err(AllocError::from)?;
                    }
                }
                _ => self.refuse(StepFault::Word),
            }
        }
        Ok(universes)
    }

    /// Adds a word to the answer.
    pub fn say<T: Display>(&mut self, value: &T) {
        let answer = if self.said.is_empty() {
            write!(self.said, "{value}")
        } else {
            write!(self.said, " {value}")
        };
        if answer.is_err() {
            self.refuse(StepFault::Memory);
        }
    }

    /// Adds the name of a value, as of a fault, to the answer.
    pub fn say_name<T: Debug>(&mut self, value: &T) {
        self.say(&format_args!("{value:?}"));
    }

    /// Adds universes to the answer: `A-B` for all from A to B that ascend by one, and else a number for each.
    pub fn say_universes(&mut self, universes: &[u16]) {
        let mut first = 0u16;
        let mut is_open = false;
        for i in 0..universes.len() {
            let last = universes[i];
            if !is_open {
                first = last;
            }
            is_open = universes.get(i.saturating_add(1)) == Some(&last.saturating_add(1));
            if !is_open {
                if first == last {
                    self.say(&last);
                } else {
                    self.say(&format_args!("{first}-{last}"));
                }
            }
        }
    }

    /// Adds octets as hexadecimal digits to the answer.
    pub fn say_hex(&mut self, octets: &[u8]) {
        match hex::encode(self.alloc, octets) {
            Ok(digits) => self.say(&digits.as_str()),
            Err(_) => self.refuse(StepFault::Memory),
        }
    }

    /// Adds a name of a source to the answer, between quotes.
    pub fn say_source(&mut self, name: &[u8]) {
        match std::str::from_utf8(name) {
            Ok(name) => self.say_name(&name),
            Err(_) => self.say_hex(name),
        }
    }

    /// Adds `ok` to the answer, or the name of a fault.
    pub fn say_done<E: Debug + Drop>(&mut self, done: Result<(), E>) {
        match done {
            Ok(()) => self.say(&"ok"),
            Err(fault) => self.say_name(&fault),
        }
    }

    /// Adds octets to the answer: a number for each, or one for all that are alike in a row, with `x` and how many they are.
    pub fn say_octets(&mut self, octets: &[u8]) {
        let mut count = 0u64;
        for i in 0..octets.len() {
            count = count.saturating_add(1);
            let value = octets[i];
            if octets.get(i.saturating_add(1)) != Some(&value) {
                if count == 1 {
                    self.say(&value);
                } else {
                    self.say(&format_args!("{value}x{count}"));
                }
                count = 0;
            }
        }
    }

    /// The answer, if each word was read and none was faulty.
    ///
    /// # Errors
    ///
    /// The first fault.
    pub fn ending(mut self) -> Result<String, StepFault> {
        if self.has_word() {
            self.refuse(StepFault::WordCount);
        }
        match self.fault {
            Some(fault) => Err(fault),
            None => Ok(self.said),
        }
    }
}

fn push_often(octets: &mut Vec<u8>, value: u8, count: u64) -> Result<(), AllocError> {
    for _ in 0..count {
        octets.push(value)?;
    }
    Ok(())
}
