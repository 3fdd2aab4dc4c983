//! Runs the rows of files: steps of stories, each a call of this implementation with the answer that it is to give. `docs/ROWS.md` has
//! the form of rows.
//!
//! The files stand on standard input, each behind a line of its name, by which its faulty lines are told, and parted by a form feed. Of
//! each it prints the name, whether nothing is wrong (`0`, else `1`), what is wrong or what it has, and a form feed.

mod comparison;
mod console;
mod cues;
mod datagram;
mod edges;
mod layers;
mod loops;
mod monitors;
mod node;
mod packet;
mod packets;
mod patch;
mod readings;
mod recordings;
mod run;
mod sources;
mod step;
mod subject;
mod tellers;
mod texts;
mod viewers;
mod watches;
mod worlds;

use run::read_rows;
use std::io::{self, BufRead};
use std::process::ExitCode;

/// What parts a file from the next one.
const FORM_FEED: u8 = 12;

fn main(rt: HostRuntime) -> ExitCode {
    match report(&rt) {
        Ok(()) => ExitCode::from(0),
        Err(_) => ExitCode::from(2),
    }
}

/// Tells what came of each file.
fn report(rt: &HostRuntime) -> Result<(), io::Error> {
    for file in rt.reader().split(rt.alloc(), FORM_FEED) {
        let octets = file?;
        let Some(end) = octets.as_slice().iter().position(|octet| *octet == b'\n') else {
            continue;
        };
        let (name, rest) = octets.as_slice().split_at(end);
        let name = str::from_utf8(name).unwrap_or("a name that isn't UTF-8");
        match str::from_utf8(&rest[1..]) {
            Ok(text) => {
                let run = read_rows(rt.alloc(), name, text)?;
                let status = if run.is_good { 0 } else { 1 };
                println!(rt; "{name}\n{status}\n{}\x0c", run.report.as_str())?;
            }
            Err(_) => println!(rt; "{name}\n1\n{name}: the file isn't read as UTF-8 text\n\x0c")?,
        }
    }
    Ok(())
}
