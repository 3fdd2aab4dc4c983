//! Written texts beside those that stand before a step.
use crate::step::{Step, StepFault};
use std::alloc::{AllocError, Global};

/// The longest run of one letter that is compared letter by letter.
const LONGEST_RUN: usize = 32;

/// Says the first line of what was written that isn't that of the text before the step, and nothing where there is none. In what was
/// written more than 32 letters in a row that are alike are read as the letter, `{`, their number and `}`.
///
/// # Errors
///
/// What was written is no text, or no memory.
pub fn compare(step: &mut Step<'_>, written: &[u8]) -> Result<(), StepFault> {
    let Ok(text) = str::from_utf8(written) else {
        return Err(StepFault::NotReady);
    };
    let short = with_short_runs(step.alloc(), text)?;
    let mut wanted = step.text().split('\n');
    for (at, line) in short.as_str().split('\n').enumerate() {
        if wanted.next() != Some(line) {
            step.say(&format_args!("line {at} from 0: {line}"));
            return Ok(());
        }
    }
    if wanted.next().is_some() {
        step.say(&"the text ends before");
    }
    Ok(())
}

fn with_short_runs(alloc: Global, text: &str) -> Result<String, AllocError> {
    let mut short = String::new(alloc);
    let mut run = ('\n', 0usize);
    for letter in text.chars() {
        if letter == run.0 {
            run.1 = run.1.saturating_add(1);
        } else {
            push_run(&mut short, run.0, run.1)?;
            run = (letter, 1);
        }
    }
    push_run(&mut short, run.0, run.1)?;
    Ok(short)
}

fn push_run(short: &mut String, letter: char, count: usize) -> Result<(), AllocError> {
    if count > LONGEST_RUN {
        return write!(short, "{letter}{{{count}}}");
    }
    for _ in 0..count {
        short.push(letter)?;
    }
    Ok(())
}
