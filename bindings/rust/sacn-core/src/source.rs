//! A source of levels.

use crate::console::{universes_by, ConsoleUniverse, Datagram};
use crate::error::{check, refused, Error};
use crate::packet::Cid;
use crate::raw;
use sacn_core_sys as sys;

/// A source: it is handed the levels of its universes whenever they change, and gives the datagrams that are due.
///
/// Before it is dropped its universes are ended, and it is polled until each is stopped: else nodes show its last levels
/// until they count it as lost.
#[derive(Debug)]
pub struct Source {
    handle: raw::Handle<sys::sacn_source_handle>,
}

impl Source {
    /// Makes a source that has no universe yet, and room for so many, at most
    /// [`SOURCE_UNIVERSES`](crate::SOURCE_UNIVERSES). `priority`, 0 to 200, is that of each universe that is added, and
    /// the first packet on each has the number `first`. [`Status::Name`](crate::Status::Name) where the name is longer
    /// than 63 octets or has a NUL (E1.31, 6.2.2); [`Error::Source`].
    pub fn new(cid: &Cid, name: &str, priority: u8, room: usize, first: u8) -> Result<Self, Error> {
        let made = raw::source_new(cid, name.as_bytes(), priority, room, first);
        let handle = made.map_err(|status| refused(status, Error::source))?;
        Ok(Source { handle })
    }

    /// Begins a universe, 1 to 63999: a new one with levels of 0, one that is stopped with those that it had.
    /// [`Error::Source`] where it runs or is ending, or there is no room.
    pub fn add(&mut self, universe: u16) -> Result<(), Error> {
        check(raw::source_add(&mut self.handle, universe), Error::source)
    }

    /// Gives a universe other levels: these on its slots from 1 on, and 0 on all others. [`Error::Source`] where it was
    /// never added, or there are more than 512.
    pub fn levels(&mut self, universe: u16, slots: &[u8]) -> Result<(), Error> {
        check(raw::source_levels(&mut self.handle, universe, slots), Error::source)
    }

    /// Gives a universe another priority, 0 to 200 (E1.31, 6.2.3). [`Error::Source`] where it was never added, or the
    /// priority is greater.
    pub fn priority(&mut self, universe: u16, priority: u8) -> Result<(), Error> {
        check(raw::source_priority(&mut self.handle, universe, priority), Error::source)
    }

    /// Ends a universe, by three terminations (E1.31, 6.2.6). [`Error::Source`] where it doesn't run.
    pub fn end(&mut self, universe: u16) -> Result<(), Error> {
        check(raw::source_end(&mut self.handle, universe), Error::source)
    }

    /// Ends each universe that runs.
    pub fn end_all(&mut self) -> Result<(), Error> {
        check(raw::source_end_all(&mut self.handle), Error::none)
    }

    /// The datagram that is due, written to the front of `out`; `None` where none is. Poll until none is.
    pub fn poll<'a>(
        &mut self,
        now: u64,
        out: &'a mut [u8; sys::SACN_MAX_DATAGRAM],
    ) -> Result<Option<Datagram<'a>>, Error> {
        let (mut count, mut universe) = (0, 0);
        check(raw::source_poll(&mut self.handle, now, out, &mut count, &mut universe), Error::none)?;
        let universe = if universe == 0 { sys::SACN_DISCOVERY_UNIVERSE } else { universe };
        let octets = out.get(..count).filter(|octets| !octets.is_empty());
        Ok(octets.map(|octets| Datagram { octets, universe }))
    }

    /// The first moment at which something is due as long as no other call comes.
    pub fn wakes(&mut self) -> Result<u64, Error> {
        let mut moment = 0;
        check(raw::source_wakes(&mut self.handle, &mut moment), Error::none)?;
        Ok(moment)
    }

    /// The universes that were added, by ascending number.
    pub fn universes(&mut self) -> Result<Vec<ConsoleUniverse>, Error> {
        universes_by(|place, told| raw::source_universe(&mut self.handle, place, told))
    }
}
