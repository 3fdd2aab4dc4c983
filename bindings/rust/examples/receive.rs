//! Shows a universe that comes by multicast: prints 'PORT MILLISECONDS FRAME' for each frame that changed.
//! usage: receive UNIVERSE [SECONDS [UDP-PORT [ADDRESS OF THE DEVICE TO JOIN ON]]]
use std::net::{Ipv4Addr, UdpSocket};
use std::time::{Duration, Instant};

fn main() -> Result<(), Box<dyn std::error::Error>> {
    let words: Vec<String> = std::env::args().skip(1).collect();
    let word = |place: usize, other: &str| words.get(place).map_or(other.to_string(), String::clone);
    let (universe, end) = (word(0, "1").parse()?, 1000 * word(1, "1000000").parse::<u64>()?);
    let mut node = sacn_core::Node::of_universes(&[universe])?;
    let hears = UdpSocket::bind((Ipv4Addr::UNSPECIFIED, word(2, "5568").parse()?))?;
    hears.join_multicast_v4(&sacn_core::multicast_group(universe), &word(3, "0.0.0.0").parse()?)?;
    let (began, mut now, mut shown, mut octets) = (Instant::now(), 0, None, [0; 2048]);
    while now < end {
        let frame = node.frame(now, 1)?;
        if shown.replace(frame) != Some(frame) {
            println!("1 {now} {}", frame.map(|level| format!("{level:02x}")).concat());
        }
        let wakes = node.wakes()?.unwrap_or(end).min(now + 1000);
        hears.set_read_timeout(Some(Duration::from_millis(wakes.saturating_sub(now).max(1))))?;
        let heard = hears.recv(&mut octets);
        now = began.elapsed().as_millis() as u64;
        if let Some(fault) = heard.ok().and_then(|count| node.take(now, &octets[..count]).err()) {
            eprintln!("{fault}");
        }
    }
    Ok(())
}
