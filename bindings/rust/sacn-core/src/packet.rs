//! Packets, read and written.

use crate::error::{check, Error, Status};
use crate::raw;
use sacn_core_sys as sys;
use std::borrow::Cow;
use std::fmt;
use std::net::Ipv4Addr;
use std::ops::Deref;

/// A component identifier (E1.31, 5.6): the 16 octets of a UUID.
pub type Cid = [u8; 16];

/// The field of a source's name (E1.31, 6.2.2), as it is on the wire.
#[derive(Clone, Copy, PartialEq, Eq, Hash)]
pub struct Name([u8; 64]);

impl Name {
    /// The field of a text of at most 63 octets, so that a NUL ends it; [`Status::Length`] of a longer one.
    pub fn new(text: &str) -> Result<Self, Error> {
        let mut field = [0; 64];
        match field[..63].get_mut(..text.len()) {
            Some(front) => front.copy_from_slice(text.as_bytes()),
            None => return Err(Error::Status(Status::Length)),
        }
        Ok(Name(field))
    }

    /// All octets of the field; behind its first NUL stands whatever the sender left there.
    pub fn field(&self) -> &[u8; 64] {
        &self.0
    }

    /// The name: what stands before the field's first NUL, with U+FFFD for what isn't UTF-8.
    pub fn text(&self) -> Cow<'_, str> {
        let mut text = [0; sys::SACN_TEXT_OCTETS];
        raw::packet_name(&sys::sacn_packet { name: self.0, ..raw::NO_PACKET }, &mut text);
        let length = text.iter().position(|&it| it == 0).unwrap_or(self.0.len());
        String::from_utf8_lossy(self.0.get(..length).unwrap_or(&self.0))
    }
}

impl From<[u8; 64]> for Name {
    fn from(field: [u8; 64]) -> Self {
        Name(field)
    }
}

impl fmt::Debug for Name {
    fn fmt(&self, out: &mut fmt::Formatter<'_>) -> fmt::Result {
        write!(out, "{:?}", self.text())
    }
}

/// The slots that a packet gives: 0 to 512 octets, from slot 1 on. It is used as a slice.
#[derive(Clone, Copy)]
pub struct Slots {
    octets: [u8; sys::SACN_SLOTS],
    count: usize,
}

impl Slots {
    /// The slots of these octets; [`Status::Length`] of more than 512.
    pub fn new(slots: &[u8]) -> Result<Self, Error> {
        let mut octets = [0; sys::SACN_SLOTS];
        match octets.get_mut(..slots.len()) {
            Some(front) => front.copy_from_slice(slots),
            None => return Err(Error::Status(Status::Length)),
        }
        Ok(Slots { octets, count: slots.len() })
    }
}

impl Deref for Slots {
    type Target = [u8];

    fn deref(&self) -> &[u8] {
        self.octets.get(..self.count).unwrap_or(&self.octets)
    }
}

impl PartialEq for Slots {
    fn eq(&self, other: &Self) -> bool {
        **self == **other
    }
}

impl Eq for Slots {}

impl fmt::Debug for Slots {
    fn fmt(&self, out: &mut fmt::Formatter<'_>) -> fmt::Result {
        (**self).fmt(out)
    }
}

/// Levels of one universe (E1.31, 6.2).
#[derive(Clone, Debug, PartialEq, Eq)]
pub struct DataPacket {
    /// 1 to 63999 (6.2.7).
    pub universe: u16,
    /// The source's component identifier.
    pub cid: Cid,
    /// The field of the source's name.
    pub name: Name,
    /// 0 to 200 (6.2.3).
    pub priority: u8,
    /// The sequence number (6.2.5).
    pub number: u8,
    /// Not for the stage (6.2.6).
    pub preview: bool,
    /// The source ends its stream (6.2.6).
    pub terminated: bool,
    /// The start code (7.7): 0 where the slots are levels.
    pub start: u8,
    /// The levels that the packet gives.
    pub slots: Slots,
}

impl DataPacket {
    /// Levels for the stage, of priority 100 and with the number 0; [`Status::Length`] of more than 512.
    pub fn new(universe: u16, cid: Cid, name: Name, slots: &[u8]) -> Result<Self, Error> {
        let slots = Slots::new(slots)?;
        Ok(DataPacket {
            universe,
            cid,
            name,
            priority: 100,
            number: 0,
            preview: false,
            terminated: false,
            start: 0,
            slots,
        })
    }
}

/// A page of a source's list of universes (E1.31, 6.4 and 8).
#[derive(Clone, Debug, PartialEq, Eq)]
pub struct Page {
    /// The source's component identifier.
    pub cid: Cid,
    /// The field of the source's name.
    pub name: Name,
    /// The page's number, from 0 on (8.3).
    pub page: u8,
    /// The number of the list's last page (8.4).
    pub last: u8,
    /// The universe numbers as they came, at most 512.
    pub universes: Vec<u16>,
}

/// A packet that was read.
// (a packet is large and is moved seldom)
#[allow(clippy::large_enum_variant)]
#[derive(Clone, Debug, PartialEq, Eq)]
pub enum Packet {
    /// Levels of one universe.
    Data(DataPacket),
    /// A page of universe discovery.
    Page(Page),
    /// A synchronization packet (E1.31, 6.3), of which nothing else is told.
    Sync,
}

/// Reads the packet at the front of these octets; what follows it is passed over.
///
/// [`Error::Packet`] where it is none, by the first check that fails.
pub fn read_packet(octets: &[u8]) -> Result<Packet, Error> {
    let mut told = raw::NO_PACKET;
    let mut frame = [0; sys::SACN_FRAME_OCTETS];
    check(raw::read_packet(octets, &mut told, &mut frame), Error::packet)?;
    let name = Name(told.name);
    match told.kind {
        sys::SACN_DATA => Ok(Packet::Data(DataPacket {
            universe: told.universe,
            cid: told.cid,
            name,
            priority: told.priority,
            number: told.number,
            preview: told.preview != 0,
            terminated: told.terminated != 0,
            start: told.start,
            slots: Slots::new(frame.get(1..=usize::from(told.count)).unwrap_or_default())?,
        })),
        sys::SACN_PAGE => {
            let universes = read_universes(octets)?;
            Ok(Packet::Page(Page { cid: told.cid, name, page: told.page, last: told.last, universes }))
        }
        sys::SACN_SYNC => Ok(Packet::Sync),
        kind => Err(Error::Unknown(kind.into())),
    }
}

/// Writes a data packet to the front of `out`, and gives that: 126 octets, and one for each slot.
///
/// What is written is read back as this packet. A synchronization address isn't written (6.2.4).
/// [`PacketFault::Priority`](crate::PacketFault::Priority) or [`PacketFault::Universe`](crate::PacketFault::Universe)
/// where one is out of range.
pub fn write_data<'a>(packet: &DataPacket, out: &'a mut [u8; sys::SACN_DATA_OCTETS]) -> Result<&'a [u8], Error> {
    let fields = sys::sacn_packet {
        priority: packet.priority,
        number: packet.number,
        preview: packet.preview.into(),
        terminated: packet.terminated.into(),
        start: packet.start,
        universe: packet.universe,
        cid: packet.cid,
        name: packet.name.0,
        ..raw::NO_PACKET
    };
    let mut length = 0;
    check(raw::write_data(&fields, &packet.slots, out, &mut length), Error::packet)?;
    Ok(out.get(..length).unwrap_or_default())
}

/// The universe numbers of the page at the front of these octets, in the order and range in which they came.
///
/// [`Error::Packet`] where it is no packet; [`Status::Range`] where it is no page.
pub fn read_universes(octets: &[u8]) -> Result<Vec<u16>, Error> {
    let mut universes = [0; sys::SACN_PAGE_UNIVERSES];
    let mut given = 0;
    check(raw::read_universes(octets, &mut universes, &mut given), Error::packet)?;
    Ok(universes.get(..given).unwrap_or_default().to_vec())
}

/// Writes the page `page` of a source's list of universes, each above the one before, to the front of `out`, and gives
/// that: 120 octets, and two for each universe of the page.
///
/// A page has 512 universes, the last one the rest, and a list of none one page. [`Status::Range`] where the list
/// doesn't ascend, or has no page of this number.
pub fn write_page<'a>(
    universes: &[u16],
    cid: Cid,
    name: Name,
    page: u8,
    out: &'a mut [u8; sys::SACN_MAX_DATAGRAM],
) -> Result<&'a [u8], Error> {
    let fields = sys::sacn_packet { page, cid, name: name.0, ..raw::NO_PACKET };
    let mut length = 0;
    check(raw::write_page(&fields, universes, out, &mut length), Error::none)?;
    Ok(out.get(..length).unwrap_or_default())
}

/// Whether a packet with the number `arrived` is in sequence after one with the number `held` (E1.31, 6.7.2).
pub fn in_sequence(held: u8, arrived: u8) -> bool {
    raw::in_sequence(held, arrived)
}

/// The IPv4 group of a universe (E1.31, 9.3.1).
pub fn multicast_group(universe: u16) -> Ipv4Addr {
    raw::multicast_group(universe).into()
}
