//! The console, where requests for memory are refused.
mod refusals;

use sacn_console::ConsoleCore;

/// What a poll gives: the octets, and of a data packet the number, the options, the universe and slot 1.
type Given = (usize, u8, u8, u16, u8);

const NOTHING: Given = (0, 0, 0, 0, 0);

const PACKET: usize = 638;

fn polled(core: &mut ConsoleCore, now: u64) -> Given {
    let mut out = [0; 1144];
    match core.poll(now, &mut out) {
        Some(PACKET) => (
            PACKET,
            out[111],
            out[112],
            u16::from_be_bytes([out[113], out[114]]),
            out[126],
        ),
        Some(len) => (len, 0, 0, 0, 0),
        None => NOTHING,
    }
}
