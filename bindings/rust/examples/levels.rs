//! Sends levels of a universe by multicast, slot 1 full, and ends it: levels UNIVERSE [SECONDS [UDP-PORT [OWN ADDRESS]]]
use sacn_core::{Source, UniverseState, MAX_DATAGRAM};
use std::time::{Duration, Instant};

const CID: [u8; 16] = 0x5fcd_1d5c_2f0b_4c3a_9f0e_6f9a_5b6d_7e12_u128.to_be_bytes();

fn main() -> Result<(), Box<dyn std::error::Error>> {
    let words: Vec<String> = std::env::args().skip(1).collect();
    let word = |place: usize, other: &str| words.get(place).map_or(other.to_string(), String::clone);
    let (universe, end, udp_port): (u16, u64, u16) =
        (word(0, "1").parse()?, 1000 * word(1, "5").parse::<u64>()?, word(2, "5568").parse()?);
    let mut source = Source::new(&CID, "levels.rs", 100, 1, 0)?;
    let out = std::net::UdpSocket::bind((word(3, "0.0.0.0"), 0))?;
    source.add(universe)?;
    source.levels(universe, &[255])?;
    let (began, mut is_ending, mut room) = (Instant::now(), false, [0; MAX_DATAGRAM]);
    while source.universes()?[0].state != UniverseState::Stopped {
        let now = began.elapsed().as_millis() as u64;
        if now >= end && !is_ending {
            source.end_all()?;
            is_ending = true;
        }
        while let Some(datagram) = source.poll(now, &mut room)? {
            out.send_to(datagram.octets, (datagram.group(), udp_port))?;
        }
        let wakes = source.wakes()?.min(if is_ending { now + 25 } else { end });
        std::thread::sleep(Duration::from_millis(wakes).saturating_sub(began.elapsed()));
    }
    Ok(())
}
