//! Lights slot 1 of a universe by multicast, and ends its stream: send UNIVERSE [SECONDS [UDP-PORT [OWN ADDRESS]]]
use sacn_core::{Command, Console, UniverseState, MAX_DATAGRAM};
use std::time::{Duration, Instant};

fn main() -> Result<(), Box<dyn std::error::Error>> {
    let words: Vec<String> = std::env::args().skip(1).collect();
    let word = |place: usize, other: &str| words.get(place).map_or(other.to_string(), String::clone);
    let (universe, end, udp_port): (u16, u64, u16) =
        (word(0, "1").parse()?, 1000 * word(1, "5").parse::<u64>()?, word(2, "5568").parse()?);
    let head = "version = 2\ncid = \"5fcd1d5c-2f0b-4c3a-9f0e-6f9a5b6d7e02\"\nname = \"send.rs\"\n";
    let patch = format!("universes = [{universe}]\npatch = [{{ channel = 1, universe = {universe}, slot = 1 }}]\n");
    let mut console = Console::new(format!("{head}{patch}"), 0)?;
    let out = std::net::UdpSocket::bind((word(3, "0.0.0.0"), 0))?;
    console.command(0, Command::SetLevel { channel: 1, level: 65535 })?;
    let (began, mut is_ending, mut room) = (Instant::now(), false, [0; MAX_DATAGRAM]);
    while console.universes()?.iter().any(|it| it.state != UniverseState::Stopped) {
        let now = began.elapsed().as_millis() as u64;
        if now >= end && !is_ending {
            console.command(now, Command::EndUniverse(universe))?;
            is_ending = true;
        }
        while let Some(datagram) = console.poll(now, &mut room)? {
            out.send_to(datagram.octets, (datagram.group(), udp_port))?;
        }
        let wakes = console.wakes()?.min(if is_ending { now + 25 } else { end });
        std::thread::sleep(Duration::from_millis(wakes).saturating_sub(began.elapsed()));
    }
    Ok(())
}
