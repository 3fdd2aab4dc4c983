//! Streaming ACN (ANSI E1.31-2018, stage lighting) over libsacn, a library of proved cores.
//!
//! - A [`Node`] takes datagrams, merges their sources by priority and highest level, and shows the frames of its ports;
//!   [`Sources`] is the merge of one universe alone, for who has the rest of a receiver.
//! - A [`Collector`] gathers the lists of universe discovery.
//! - A [`Console`] plays a show, and gives the datagrams that are due; a [`Source`] does so of levels that it is handed.
//! - A [`Monitor`] keeps an account of each source on each universe.
//! - [`read_packet`], [`write_data`] and their like are for who has all else.
//!
//! ```
//! use sacn_core::{Node, Taken};
//!
//! let mut node = Node::new("version = 1\n[[port]]\nnumber = 1\nuniverse = 7\n")?;
//! let datagram = [0; 638]; // of a socket
//! match node.take(1000, &datagram) {
//!     Ok(Taken::Held) => println!("{:?}", node.frame(1000, 1)?),
//!     Ok(_) => {}
//!     Err(fault) => eprintln!("no packet: {fault}"),
//! }
//! # Ok::<(), sacn_core::Error>(())
//! ```
//!
//! **Moments** (`now`) are milliseconds of a clock that doesn't go back, as of an [`std::time::Instant`]; where it
//! begins doesn't matter. A handle uses the greatest moment that it was handed.
//!
//! **Handles** are freed where they are dropped, and may be sent to another thread. Each call wants a handle alone
//! (`&mut self`), also one that only asks.
//!
//! ```compile_fail,E0382
//! let mut sources = sacn_core::Sources::new().unwrap();
//! drop(sources);
//! sources.tick(0); // it was freed
//! ```
//!
//! **Errors** are what the library answers, as an [`Error`]. Of a setup or a show that is refused [`setup_faults`] and
//! [`show_faults`] tell each fault, with its key and place. Nothing here panics, prints, waits, opens a socket or
//! reads a clock.
#![deny(unsafe_code)]
#![warn(missing_docs)]

mod collector;
mod console;
mod error;
mod faults;
mod monitor;
mod node;
mod packet;
#[allow(unsafe_code)]
mod raw;
mod source;

pub use collector::Collector;
pub use console::{Command, Console, ConsoleUniverse, Datagram, UniverseState};
pub use error::{ConsoleFault, Error, PacketFault, SetupFault, ShowFault, SourceFault, SourcesFault, Status};
pub use faults::{setup_faults, show_faults};
pub use monitor::{Event, Monitor, News, Noted, Stream, StreamState};
pub use node::{HeldSource, Node, Sources, Taken};
pub use packet::{
    in_sequence, multicast_group, read_packet, read_universes, write_data, write_page, Cid, DataPacket, Name, Packet,
    Page, Slots,
};
pub use source::Source;

use sacn_core_sys as sys;

/// The slots of a universe.
pub const SLOTS: usize = sys::SACN_SLOTS;
/// The start code, and then the slots.
pub const FRAME_OCTETS: usize = sys::SACN_FRAME_OCTETS;
/// The octets of the longest data packet.
pub const DATA_OCTETS: usize = sys::SACN_DATA_OCTETS;
/// The octets of the longest packet that a console or a source gives.
pub const MAX_DATAGRAM: usize = sys::SACN_MAX_DATAGRAM;
/// The UDP port of streaming ACN.
pub const UDP_PORT: u16 = sys::SACN_UDP_PORT;
/// The universe to whose group pages are sent (E1.31, 8).
pub const DISCOVERY_UNIVERSE: u16 = sys::SACN_DISCOVERY_UNIVERSE;
/// The most universe numbers of a page (8.5).
pub const PAGE_UNIVERSES: usize = sys::SACN_PAGE_UNIVERSES;
/// How many sources of one universe a node or a table holds.
pub const MAX_SOURCES: usize = sys::SACN_MAX_SOURCES;
/// How many ports a node has at most.
pub const MAX_PORTS: usize = sys::SACN_MAX_PORTS;
/// How many universes a node has at most.
pub const MAX_UNIVERSES: usize = sys::SACN_MAX_UNIVERSES;
/// The most octets of a setup or a show whose faults are told.
pub const MAX_TEXT: usize = sys::SACN_MAX_TEXT;
/// The most universes of a source.
pub const SOURCE_UNIVERSES: usize = sys::SACN_SOURCE_UNIVERSES;
/// A source that sent nothing for so many milliseconds is lost (6.7.1).
pub const DATA_LOSS: u64 = sys::SACN_DATA_LOSS;
/// A list of universes whose latest page is so many milliseconds old is forgotten.
pub const LIST_LOSS: u64 = sys::SACN_LIST_LOSS;
/// The most pairs of a universe and a source that a monitor has an account of.
pub const MAX_STREAMS: usize = sys::SACN_MAX_STREAMS;
