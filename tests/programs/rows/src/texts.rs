//! Calls of texts: words and lines, numbers, tables, setups, shows and scripts.
use crate::step::{Step, StepFault};
use sacn_console::{Command, Show, ShowFault, command_of, read_script, read_show, show_of};
use sacn_files::document::{read_table, version_in};
use sacn_files::lines::said_lines;
use sacn_files::numbers::{has_repeat, in_order};
use sacn_files::rows::{Numbers, read_rows};
use sacn_files::values::{array_values, number_in, value_at};
use sacn_files::words::{byte_in, index_in, number_in as decimal_in, short_in, words};
use sacn_node::{NodeSetup, SetupFault, read_node, setup_of};
use std::fmt::Display;
use toml::Value;

/// Makes the step's call.
///
/// # Errors
///
/// There is no such call, or no memory.
pub fn answer(step: &mut Step<'_>) -> Result<(), StepFault> {
    let (alloc, text) = (step.alloc(), step.text());
    let call = step.word();
    match call {
        "words" => {
            for word in words(alloc, text)?.as_slice() {
                step.say_name(word);
            }
        }
        "lines" => say_lines(step)?,
        "decimal" => {
            let limit = step.number();
            let word = rest_of(step);
            say_found(step, decimal_in(limit, word));
        }
        "short" | "octet" | "index" => say_of_size(call, step),
        "setup" => say_setup(step, read_node(alloc, text)),
        "show" => say_show(step, read_show(alloc, text)),
        "script" => say_script(step),
        "command" => say_command(step)?,
        _ => return table_answer(call, step),
    }
    Ok(())
}

/// Makes a call of the table that the text is.
fn table_answer(call: &str, step: &mut Step<'_>) -> Result<(), StepFault> {
    let alloc = step.alloc();
    let table = match read_table(alloc, step.text()) {
        Ok(table) => table,
        Err(fault) => {
            step.say_name(&fault);
            return Ok(());
        }
    };
    match call {
        "setup-table" => say_setup(step, setup_of(alloc, &table)),
        "show-table" => say_show(step, show_of(alloc, &table)),
        "number" => say_found(
            step,
            value_at(&table, "a").and_then(|value| number_in(value, 1, 10)),
        ),
        "list" => say_list(
            step,
            value_at(&table, "a").and_then(|value| array_values(value)),
        )?,
        "version" => match version_in(value_at(&table, "version"), 2) {
            Ok(version) => step.say(&version),
            Err(fault) => step.say_name(&fault),
        },
        _ => return Err(StepFault::UnknownCall),
    }
    Ok(())
}

/// Says the number of 16, 8 or 64 bits that a word is.
fn say_of_size(call: &str, step: &mut Step<'_>) {
    let word = rest_of(step);
    match call {
        "short" => say_found(step, short_in(word)),
        "octet" => say_found(step, byte_in(word)),
        _ => say_found(step, index_in(word)),
    }
}

/// The word that is left, or an empty one.
fn rest_of<'a>(step: &mut Step<'a>) -> &'a str {
    if step.has_word() { step.word() } else { "" }
}

fn say_found<T: Display + Drop>(step: &mut Step<'_>, found: Option<T>) {
    match found {
        Some(found) => step.say(&found),
        None => step.say(&"none"),
    }
}

/// Says the lines of the text that say something: of each its number, and its words.
fn say_lines(step: &mut Step<'_>) -> Result<(), StepFault> {
    for line in said_lines(step.alloc(), step.text())?.as_slice() {
        step.say(&line.number);
        for word in line.words.as_slice() {
            step.say_name(word);
        }
    }
    Ok(())
}

/// Says the numbers from 1 to 10 of a list in their order, and whether one stands there twice.
fn say_list(step: &mut Step<'_>, values: Option<&[Value]>) -> Result<(), StepFault> {
    let alloc = step.alloc();
    let reader = Numbers { low: 1, high: 10 };
    let found = match values {
        Some(values) => read_rows(alloc, &reader, values)?,
        None => None,
    };
    match found {
        Some(found) => {
            let numbers = in_order(alloc, found)?;
            for number in numbers.as_slice() {
                step.say(number);
            }
            if has_repeat(numbers.as_slice()) {
                step.say(&"twice");
            }
        }
        None => step.say(&"none"),
    }
    Ok(())
}

/// Says the UDP port of a setup, and of each port its number and its ranges: universe, slot, count and the port's slot.
fn say_setup(step: &mut Step<'_>, setup: Result<NodeSetup, SetupFault>) {
    match setup {
        Ok(setup) => {
            step.say(&setup.udp_port());
            for port in setup.ports() {
                step.say(&format_args!("port {}", port.number()));
                for range in port.ranges() {
                    let (slot, count, port_slot) = (range.slot, range.count, range.port_slot);
                    step.say(&format_args!("range {} {slot} {count} {port_slot}", range.universe));
                }
            }
        }
        Err(fault) => step.say_name(&fault),
    }
}

/// Says the CID of a show, its name, priority and universes, and the ports that it sends to.
fn say_show(step: &mut Step<'_>, show: Result<Show, ShowFault>) {
    match show {
        Ok(show) => {
            step.say(&"cid");
            step.say_hex(&show.cid());
            step.say(&format_args!(
                "name {:?} priority {} universes",
                show.name(),
                show.priority()
            ));
            step.say_universes(show.universes());
            step.say(&"ports");
            for port in show.send_to() {
                step.say(port);
            }
        }
        Err(fault) => step.say_name(&fault),
    }
}

fn say_script(step: &mut Step<'_>) {
    match read_script(step.alloc(), step.text()) {
        Ok(orders) => {
            for (moment, command) in orders.as_slice() {
                step.say(moment);
                say_one(step, *command);
            }
        }
        Err(fault) => step.say_name(&fault),
    }
}

/// Says the command that the words left are, on a line of a number.
fn say_command(step: &mut Step<'_>) -> Result<(), StepFault> {
    let line = step.number() as usize;
    match command_of(step.words()?.as_slice(), line) {
        Ok(command) => say_one(step, command),
        Err(fault) => step.say_name(&fault),
    }
    Ok(())
}

/// Says a command.
pub fn say_one(step: &mut Step<'_>, command: Command) {
    match command {
        Command::Go => step.say(&"go"),
        Command::GoTo(cue) => step.say(&format_args!("goto {cue}")),
        Command::SetLevel(channel, level) => step.say(&format_args!("set {channel} {level}")),
        Command::Master(level) => step.say(&format_args!("master {level}")),
        Command::EndUniverse(universe) => step.say(&format_args!("end {universe}")),
        Command::StartUniverse(universe) => step.say(&format_args!("start {universe}")),
    }
}
