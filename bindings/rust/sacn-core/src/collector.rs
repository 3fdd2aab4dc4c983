//! Universe discovery.

use crate::error::{check, refused, Error};
use crate::packet::Cid;
use crate::raw;
use sacn_core_sys as sys;

/// Collects the pages of universe discovery (E1.31, 8), and has the list of universes of each source.
///
/// It keeps what comes for [`LIST_LOSS`](crate::LIST_LOSS) milliseconds: those who send say how much memory that is, up
/// to 256 pages of a kilobyte for each CID.
#[derive(Debug)]
pub struct Collector {
    handle: raw::Handle<sys::sacn_collector>,
}

impl Collector {
    /// Makes a collector that knows nothing. [`Status::OutOfMemory`](crate::Status::OutOfMemory).
    pub fn new() -> Result<Self, Error> {
        let handle = raw::collector_new().map_err(|status| refused(status, Error::none))?;
        Ok(Collector { handle })
    }

    /// Takes a datagram: a page is kept, and any other packet changes nothing.
    ///
    /// [`Error::Packet`] where it is no packet; [`Status::OutOfMemory`](crate::Status::OutOfMemory), and then the page
    /// isn't kept.
    pub fn take(&mut self, now: u64, datagram: &[u8]) -> Result<(), Error> {
        check(raw::collector_take(&mut self.handle, now, datagram), Error::packet)
    }

    /// The universes of a source, ascending and each once; `None` where it isn't known or a page of it is lacking.
    pub fn list(&mut self, now: u64, cid: &Cid) -> Result<Option<Vec<u16>>, Error> {
        let mut universes = vec![0; sys::SACN_PAGE_UNIVERSES];
        loop {
            let mut count = 0;
            match raw::collector_list(&mut self.handle, now, cid, &mut universes, &mut count) {
                sys::SACN_RANGE => return Ok(None),
                sys::SACN_LENGTH if count > universes.len() => universes.resize(count, 0),
                status => {
                    check(status, Error::none)?;
                    universes.truncate(count);
                    return Ok(Some(universes));
                }
            }
        }
    }

    /// Forgets the lists whose latest page is [`LIST_LOSS`](crate::LIST_LOSS) old, and tells how many those were.
    pub fn tick(&mut self, now: u64) -> Result<usize, Error> {
        let mut forgotten = 0;
        check(raw::collector_tick(&mut self.handle, now, &mut forgotten), Error::none)?;
        Ok(forgotten)
    }
}
