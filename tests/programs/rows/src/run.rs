//! The lines of a file of rows, and what is told of them.
use crate::step::{Step, StepFault};
use crate::subject::Subject;
use sacn_files::words::words;
use std::alloc::{AllocError, Global};

/// The most octets of a line.
const MAX_LINE_OCTETS: usize = 4000;

/// What came of a file: what is to be printed, and whether nothing is wrong.
#[derive(Drop)]
pub struct Outcome {
    pub report: String,
    pub is_good: bool,
}

/// What was read so far.
#[derive(Drop)]
struct Run<'a> {
    alloc: Global,
    name: &'a str,
    family: &'a str,
    text: String,
    report: String,
    faults: u64,
    steps: u64,
    stories: u64,
}

impl<'a> Run<'a> {
    /// Tells what is wrong with a line.
    fn tell(&mut self, line: usize, what: &str) -> Result<(), AllocError> {
        self.faults = self.faults.saturating_add(1);
        let name = self.name;
        write!(self.report, "{name}:{line}: {what}\n")
    }

    /// Reads a line, whose number counts from 1.
    fn read(
        &mut self,
        subject: &mut Option<Subject>,
        number: usize,
        line: &'a str,
    ) -> Result<(), AllocError> {
        if line.len() > MAX_LINE_OCTETS {
            return self.tell(number, "the line has more than 4000 octets");
        }
        if let Some(part) = line.strip_prefix('|') {
            return push_text(&mut self.text, part.strip_prefix(' ').unwrap_or(part));
        }
        let found = words(self.alloc, line)?;
        match found.as_slice() {
            [] => Ok(()),
            [word, ..] if word.starts_with('#') => Ok(()),
            ["of", family] if self.family.is_empty() => {
                self.family = family;
                self.renew(subject, number)
            }
            ["of", ..] => self.tell(number, "the family was said before, or isn't one word"),
            _ if self.family.is_empty() => self.tell(number, "no family was said before"),
            ["story", _, ..] => {
                self.stories = self.stories.saturating_add(1);
                self.text.clear();
                self.renew(subject, number)
            }
            ["story"] => self.tell(number, "a story has no name"),
            _ => self.step(subject, number, line),
        }
    }

    /// Puts a fresh subject of the file's family in the place of the one before.
    fn renew(&mut self, subject: &mut Option<Subject>, number: usize) -> Result<(), AllocError> {
        match Subject::new(self.alloc, self.family) {
            Ok(fresh) => {
                *subject = Some(fresh);
                Ok(())
            }
            Err(fault) => self.tell(number, fault.text()),
        }
    }

    /// Makes a step, and compares its answer.
    fn step(
        &mut self,
        subject: &mut Option<Subject>,
        number: usize,
        line: &str,
    ) -> Result<(), AllocError> {
        self.steps = self.steps.saturating_add(1);
        let wanted = wanted_in(self.alloc, line)?;
        let answer = self.answer(subject, line);
        self.text.clear();
        match answer {
            Ok(said) if said == wanted => Ok(()),
            Ok(said) => {
                let what = format!(in self.alloc; "wanted '{wanted}', came '{said}'")?;
                self.tell(number, what.as_str())
            }
            Err(fault) => self.tell(number, fault.text()),
        }
    }

    /// The answer of the story's subject to the call of a line.
    fn answer<'x>(
        &'x self,
        subject: &mut Option<Subject>,
        line: &'x str,
    ) -> Result<String, StepFault> {
        let subject = match subject {
            Some(subject) if self.stories > 0 => subject,
            _ => return Err(StepFault::NoStory),
        };
        let mut call = words(self.alloc, line)?;
        call.truncate(place_of_equal(call.as_slice()));
        let mut step = Step::new(self.alloc, call, self.text.as_str());
        subject.answer(&mut step)?;
        step.ending()
    }

    /// What came of the whole file.
    fn ending(mut self) -> Result<Outcome, AllocError> {
        if self.steps == 0 && self.faults == 0 {
            self.tell(1, "the file has no step")?;
        }
        let is_good = self.faults == 0;
        if is_good {
            let (name, steps, stories) = (self.name, self.steps, self.stories);
            write!(self.report, "{name}: {steps} steps of {stories} stories\n")?;
        }
        Ok(Outcome {
            report: self.report,
            is_good,
        })
    }
}

/// The place of the first word that is `=`, or how many words there are.
fn place_of_equal(words: &[&str]) -> usize {
    for at in 0..words.len() {
        if words[at] == "=" {
            return at;
        }
    }
    words.len()
}

/// The words after the first `=` of a line, each parted from the next by a space.
fn wanted_in(alloc: Global, line: &str) -> Result<String, AllocError> {
    let found = words(alloc, line)?;
    let after = place_of_equal(found.as_slice()).saturating_add(1);
    found.get(after..).unwrap_or(&[]).join(alloc, " ")
}

/// Adds a line to a text: `\n`, `\r`, `\t`, `\0` and `\\` stand for one octet each, and a `\` at the end for no line feed.
fn push_text(text: &mut String, line: &str) -> Result<(), AllocError> {
    let mut is_escaped = false;
    for letter in line.chars() {
        if is_escaped {
            text.push(match letter {
                'n' => '\n',
                'r' => '\r',
                't' => '\t',
                '0' => '\0',
                other => other,
            })?;
            is_escaped = false;
        } else if letter == '\\' {
            is_escaped = true;
        } else {
            text.push(letter)?;
        }
    }
    if !is_escaped {
        text.push('\n')?;
    }
    Ok(())
}

/// Makes the steps of a file, and tells each line that is wrong by the file's name.
///
/// # Errors
///
/// No memory.
pub fn read_rows<'a>(alloc: Global, name: &'a str, text: &'a str) -> Result<Outcome, AllocError> {
    let mut run = Run {
        alloc,
        name,
        family: "",
        text: String::new(alloc),
        report: String::new(alloc),
        faults: 0,
        steps: 0,
        stories: 0,
    };
    read_lines(&mut run, text)?;
    run.ending()
}

/// Reads the lines of a text. The subject stands apart from the run, so that only this function lets one go.
fn read_lines<'a>(run: &mut Run<'a>, text: &'a str) -> Result<(), AllocError> {
    let mut subject = None;
    let mut number = 0usize;
    for line in text.lines() {
        number = number.saturating_add(1);
        run.read(&mut subject, number, line)?;
    }
    Ok(())
}
