//! A node, and the sources of one universe.

use crate::error::{check, found, known, numbers, refused, Error};
use crate::packet::Cid;
use crate::raw;
use sacn_core_sys as sys;

numbers! {
    /// What became of a datagram that was taken (`enum sacn_taken`). One that is no packet is an [`Error::Packet`].
    Taken {
        /// A live packet, which is shown.
        Held = SACN_TAKEN_HELD,
        /// A preview or another start code of a known source: its number alone counts.
        Observed = SACN_TAKEN_OBSERVED,
        /// A termination of a known source.
        Ended = SACN_TAKEN_ENDED,
        /// Discarded by its sequence number (E1.31, 6.7.2).
        OutOfSequence = SACN_TAKEN_OUT_OF_SEQUENCE,
        /// A new source, for which there is no room (6.2.3.3).
        SourcesExceeded = SACN_TAKEN_SOURCES_EXCEEDED,
        /// A termination, a preview or another start code of a source that isn't known.
        UnknownIgnored = SACN_TAKEN_UNKNOWN_IGNORED,
        /// Of a universe that the node doesn't show.
        OtherUniverse = SACN_TAKEN_OTHER_UNIVERSE,
        /// A page of universe discovery.
        Discovery = SACN_TAKEN_DISCOVERY,
        /// A synchronization packet.
        Sync = SACN_TAKEN_SYNC,
    }
}

/// What is held of a source.
#[derive(Clone, Debug, PartialEq, Eq)]
pub struct HeldSource {
    /// The moment of its latest packet that was held or ended it.
    pub moment: u64,
    /// The sequence number of its latest packet that was taken.
    pub number: u8,
    /// Whether it has ended its stream, and shows nothing.
    pub ended: bool,
    /// The priority of what it shows, 0 to 200, and 0 where it has ended.
    pub priority: u8,
    /// The levels that it shows: 0 in each slot that it doesn't give, and in all where it has ended.
    pub slots: [u8; sys::SACN_SLOTS],
}

fn held(
    ask: impl FnOnce(&mut sys::sacn_source, &mut [u8; sys::SACN_SLOTS]) -> i32,
) -> Result<Option<HeldSource>, Error> {
    let mut told = sys::sacn_source::default();
    let mut slots = [0; sys::SACN_SLOTS];
    if !found(ask(&mut told, &mut slots))? {
        return Ok(None);
    }
    let sys::sacn_source { moment, number, ended, priority, .. } = told;
    Ok(Some(HeldSource { moment, number, ended: ended != 0, priority, slots }))
}

/// The moment that a call tells, `None` where there is none.
fn moment(ask: impl FnOnce(&mut u64) -> i32) -> Result<Option<u64>, Error> {
    let mut moment = 0;
    Ok(found(ask(&mut moment))?.then_some(moment))
}

/// A node: it takes datagrams, merges their sources by priority and highest level, and shows the frames of its ports.
#[derive(Debug)]
pub struct Node {
    handle: raw::Handle<sys::sacn_node>,
    udp_port: u16,
}

impl Node {
    /// Makes a node of a setup in TOML, as `docs/FILES.md` has it ("Node setups"). [`Error::Setup`] where it is
    /// refused: [`setup_faults`](crate::setup_faults) tells why.
    pub fn new(setup: impl AsRef<[u8]>) -> Result<Self, Error> {
        let mut udp_port = 0;
        let made = raw::node_new(setup.as_ref(), &mut udp_port);
        let handle = made.map_err(|status| refused(status, Error::setup))?;
        Ok(Node { handle, udp_port })
    }

    /// Makes a node of 1 to 16 universes, each 1 to 63999 and once, without a setup: port `i + 1` shows all slots of
    /// `universes[i]`. [`Status::Length`](crate::Status::Length) or [`Status::Range`](crate::Status::Range) where they
    /// aren't that.
    pub fn of_universes(universes: &[u16]) -> Result<Self, Error> {
        let handle = raw::node_of_universes(universes).map_err(|status| refused(status, Error::none))?;
        Ok(Node { handle, udp_port: sys::SACN_UDP_PORT })
    }

    /// The UDP port that the node is to hear.
    pub fn udp_port(&self) -> u16 {
        self.udp_port
    }

    /// The numbers of the ports, 1 to 255, ascending: at most 16.
    pub fn ports(&mut self) -> Result<Vec<u8>, Error> {
        let mut ports = [0; sys::SACN_MAX_PORTS];
        let mut count = 0;
        check(raw::node_ports(&mut self.handle, &mut ports, &mut count), Error::none)?;
        Ok(ports.get(..count).unwrap_or_default().to_vec())
    }

    /// Takes a datagram, whatever its octets are.
    ///
    /// [`Error::Packet`] where it is no packet: only the clock has then moved, and what receives goes on.
    pub fn take(&mut self, now: u64, datagram: &[u8]) -> Result<Taken, Error> {
        let mut taken = 0;
        check(raw::node_take(&mut self.handle, now, datagram, &mut taken), Error::packet)?;
        known(taken, Taken::of)
    }

    /// Drops the sources that are lost, and tells how many those were.
    pub fn tick(&mut self, now: u64) -> Result<usize, Error> {
        let mut lost = 0;
        check(raw::node_tick(&mut self.handle, now, &mut lost), Error::none)?;
        Ok(lost)
    }

    /// The frame of a port: start code 0 and 512 slots. [`Status::Range`](crate::Status::Range) where there is no such
    /// port.
    pub fn frame(&mut self, now: u64, port: u8) -> Result<[u8; sys::SACN_FRAME_OCTETS], Error> {
        let mut frame = [0; sys::SACN_FRAME_OCTETS];
        check(raw::node_frame(&mut self.handle, now, port, &mut frame), Error::none)?;
        Ok(frame)
    }

    /// The first moment at which a source is lost if no datagram comes; `None` where there is none.
    pub fn wakes(&mut self) -> Result<Option<u64>, Error> {
        moment(|moment| raw::node_wakes(&mut self.handle, moment))
    }

    /// What is held of the source of a CID on a universe; `None` where none is. No clock moves.
    pub fn held(&mut self, universe: u16, cid: &Cid) -> Result<Option<HeldSource>, Error> {
        held(|source, slots| raw::node_held(&mut self.handle, universe, cid, source, slots))
    }
}

/// The sources of one universe, at most 16, and the merge of what they show: for who has the rest of a receiver.
#[derive(Debug)]
pub struct Sources {
    handle: raw::Handle<sys::sacn_sources>,
}

impl Sources {
    /// Makes an empty table, with the room for all its sources. [`Error::Sources`] where there is no memory.
    pub fn new() -> Result<Self, Error> {
        let handle = raw::sources_new().map_err(|status| refused(status, Error::sources))?;
        Ok(Sources { handle })
    }

    /// Takes a datagram, whatever its octets are; a data packet counts whatever universe it names.
    ///
    /// [`Error::Packet`] where it is no packet: only the clock has then moved, and what receives goes on.
    pub fn take(&mut self, now: u64, datagram: &[u8]) -> Result<Taken, Error> {
        let mut taken = 0;
        check(raw::sources_take(&mut self.handle, now, datagram, &mut taken), Error::packet)?;
        known(taken, Taken::of)
    }

    /// In each slot the highest level of the sources of the highest priority, and 0 where no source is live.
    pub fn merged(&mut self, now: u64) -> Result<[u8; sys::SACN_SLOTS], Error> {
        let mut slots = [0; sys::SACN_SLOTS];
        check(raw::sources_merged(&mut self.handle, now, &mut slots), Error::none)?;
        Ok(slots)
    }

    /// Drops the sources that are lost, and tells how many those were, ended ones too.
    pub fn tick(&mut self, now: u64) -> Result<usize, Error> {
        let mut lost = 0;
        check(raw::sources_tick(&mut self.handle, now, &mut lost), Error::none)?;
        Ok(lost)
    }

    /// The first moment at which a source is lost if no datagram comes, ended ones too; `None` where there is none.
    pub fn wakes(&mut self) -> Result<Option<u64>, Error> {
        moment(|moment| raw::sources_wakes(&mut self.handle, moment))
    }

    /// What is held of the source of a CID; `None` where none is. No source is dropped, however old it is.
    pub fn held(&mut self, cid: &Cid) -> Result<Option<HeldSource>, Error> {
        held(|source, slots| raw::sources_held(&mut self.handle, cid, source, slots))
    }
}
