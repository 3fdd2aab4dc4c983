//! Outputs whose sinks take little, nothing, or fail.
use sacn_machine::{Lines, Output, Sink};
use std::alloc::{AllocError, Global};
use std::cell::RefCell;
use std::io::{self, ErrorKind, Write};
use std::test::*;

/// How a sink behaves: it takes at most so many octets at a time, none, or fails.
#[derive(Clone, Copy)]
enum Mood {
    Takes(usize),
    Blocks,
    Fails,
}

/// A sink, and what it took.
#[derive(Drop)]
struct Device {
    mood: Mood,
    taken: Vec<u8>,
}

impl Device {
    fn take(&mut self, octets: &[u8]) -> Result<usize, ErrorKind> {
        match self.mood {
            Mood::Blocks => Err(ErrorKind::WouldBlock),
            Mood::Fails => Err(ErrorKind::BrokenPipe),
            Mood::Takes(most) => {
                let count = octets.len().min(most);
                match self.taken.extend_from_slice(&octets[..count]) {
                    Ok(()) => Ok(count),
                    Err(_) => Err(ErrorKind::OutOfMemory),
                }
            }
        }
    }
}

/// A sink that its test looks at.
#[derive(Drop)]
struct Seen<'a> {
    device: &'a RefCell<Device>,
}

impl<'a> Sink for Seen<'a> {
    fn is_ready(&mut self, _millis: i32) -> bool {
        true
    }

    fn most(&self) -> usize {
        4096
    }

    fn take(&mut self, octets: &[u8]) -> Result<usize, ErrorKind> {
        match self.device.try_borrow_mut() {
            Ok(mut device) => device
                .take(octets)
                .map(|count| -> usize { count.min(octets.len()) }),
            Err(_) => Err(ErrorKind::Other),
        }
    }
}

fn device_in(alloc: Global, mood: Mood) -> RefCell<Device> {
    RefCell::new(Device {
        mood,
        taken: Vec::new(alloc),
    })
}

fn set_mood(device: &RefCell<Device>, mood: Mood) {
    if let Ok(mut device) = device.try_borrow_mut() {
        device.mood = mood;
    }
}

fn has_taken(device: &RefCell<Device>, text: &[u8]) -> bool {
    match device.try_borrow() {
        Ok(device) => device.taken.as_slice() == text,
        Err(_) => false,
    }
}

fn ends_in(device: &RefCell<Device>, text: &[u8]) -> bool {
    match device.try_borrow() {
        Ok(device) => device.taken.as_slice().ends_with(text),
        Err(_) => false,
    }
}

/// A line of a thousand octets: a port, a moment and letters.
fn line(alloc: Global, port: u8, moment: u64) -> Result<Vec<u8>, AllocError> {
    let mut line = Vec::new(alloc);
    line.extend_from_slice(format!(in alloc; "{port} {moment:05} ")?.as_bytes())?;
    line.resize(999, b'x')?;
    line.extend_from_slice(b"\n")?;
    Ok(line)
}

/// The lines of these moments, of two ports in turn.
fn lines(alloc: Global, moments: &[u64]) -> Result<Vec<u8>, AllocError> {
    let mut text = Vec::new(alloc);
    for moment in moments {
        let port = if *moment % 2 == 0 { 1 } else { 2 };
        text.extend_from_slice(line(alloc, port, *moment)?.as_slice())?;
    }
    Ok(text)
}

/// What comes of two hundred lines that a sink doesn't take, once it takes all.
fn comes_later(alloc: Global, kind: Lines, told: &[u8], last: &[u64]) -> io::Result<bool> {
    let device = device_in(alloc, Mood::Blocks);
    let mut output = Output::new(alloc, Seen { device: &device }, kind)?;
    for moment in 0..200 {
        output.write_all(lines(alloc, &[moment])?.as_slice())?;
    }
    set_mood(&device, Mood::Takes(700));
    output.flush()?;
    let mut text = Vec::new(alloc);
    for moment in 0..65 {
        text.extend_from_slice(lines(alloc, &[moment])?.as_slice())?;
    }
    text.extend_from_slice(told)?;
    text.extend_from_slice(lines(alloc, last)?.as_slice())?;
    Ok(has_taken(&device, text.as_slice()) && !output.is_pending())
}

#[test]
fn what_finds_no_room_is_lost_by_whole_lines_and_told(rt: HostRuntime) {
    let alloc = rt.alloc();
    let plain = comes_later(alloc, Lines::Plain, b"135 lines not written\n", &[]);
    assert!(rt; plain.is_ok_and(|it| it));
    let told = b"{\"event\":\"not_written\",\"lines\":135}\n";
    let objects = comes_later(alloc, Lines::Objects, told, &[]);
    assert!(rt; objects.is_ok_and(|it| it));
}

#[test]
fn the_newest_frame_of_each_port_comes_once_there_is_room(rt: HostRuntime) {
    let told = b"133 lines not written\n";
    let frames = comes_later(rt.alloc(), Lines::Frames, told, &[198, 199]);
    assert!(rt; frames.is_ok_and(|it| it));
}

/// A sink that takes an octet at a time gets the lines as they are; one that fails once gets them later.
fn comes_whole(alloc: Global) -> io::Result<bool> {
    let device = device_in(alloc, Mood::Takes(1));
    let mut output = Output::new(alloc, Seen { device: &device }, Lines::Plain)?;
    output.write_all(b"one\ntwo\nth")?;
    let is_begun = has_taken(&device, b"one\ntwo\n");
    set_mood(&device, Mood::Fails);
    let is_refused = output.write_all(b"ree\n").is_err();
    set_mood(&device, Mood::Takes(1));
    output.flush()?;
    Ok(is_begun && is_refused && has_taken(&device, b"one\ntwo\nthree\n"))
}

#[test]
fn lines_come_whole(rt: HostRuntime) {
    assert!(rt; comes_whole(rt.alloc()).is_ok_and(|it| it));
}

/// A line that is longer than the room is lost and told, and the next one comes.
fn loses_long(alloc: Global) -> io::Result<bool> {
    let device = device_in(alloc, Mood::Takes(4096));
    let mut output = Output::new(alloc, Seen { device: &device }, Lines::Plain)?;
    for _ in 0..66 {
        output.write_all(&[b'x'; 1000])?;
    }
    output.write_all(b"\nnext\n")?;
    Ok(has_taken(&device, b"1 lines not written\nnext\n"))
}

/// Lines that are lost have the time of day of the newest of them, where lines have one.
fn loses_timed(alloc: Global) -> io::Result<bool> {
    let device = device_in(alloc, Mood::Blocks);
    let mut output = Output::new(alloc, Seen { device: &device }, Lines::Plain)?;
    output.write_all(&[b'x'; 60_000])?;
    output.write_all(b"\n")?;
    for _ in 0..6 {
        output.write_all(b"20:13:05.125 ")?;
        output.write_all(&[b'y'; 1000])?;
        output.write_all(b"\n")?;
    }
    output.write_all(b"20:13:05.250 z\n")?;
    set_mood(&device, Mood::Takes(4096));
    output.flush()?;
    let told = b"\n20:13:05.250 2 lines not written\n";
    Ok(ends_in(&device, told))
}

#[test]
fn lost_lines_have_a_time_of_day(rt: HostRuntime) {
    assert!(rt; loses_timed(rt.alloc()).is_ok_and(|it| it));
}

#[test]
fn a_line_longer_than_the_room_is_lost(rt: HostRuntime) {
    assert!(rt; loses_long(rt.alloc()).is_ok_and(|it| it));
}
