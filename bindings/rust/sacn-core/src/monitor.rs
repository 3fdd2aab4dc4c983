//! A monitor.

use crate::error::{check, found, known, numbers, refused, Error};
use crate::packet::{Cid, Name};
use crate::raw;
use sacn_core_sys as sys;
use std::net::SocketAddrV4;

numbers! {
    /// What a monitor noted of a datagram (`enum sacn_noted`). One that is no packet is an [`Error::Packet`].
    Noted {
        /// A page of universe discovery.
        Page = SACN_NOTED_PAGE,
        /// A synchronization packet.
        Sync = SACN_NOTED_SYNC,
        /// A data packet of a pair for which there is no room.
        Untracked = SACN_NOTED_UNTRACKED,
        /// A data packet of the pair at `place`.
        Heard = SACN_NOTED_HEARD,
    }
}

numbers! {
    /// What a data packet says of its source on its universe (`enum sacn_event`).
    Event {
        /// Nothing: it is no data packet of a pair that has an account.
        None = SACN_EVENT_NONE,
        /// It goes on; or it ends a stream that isn't there, since none began, or that had ended or was lost.
        GoesOn = SACN_EVENT_GOES_ON,
        /// None but ends of streams were heard of it there before.
        Appeared = SACN_EVENT_APPEARED,
        /// It had ended, or was lost, and sends again.
        CameBack = SACN_EVENT_CAME_BACK,
        /// It sends, and ends its stream (E1.31, 6.2.6).
        Ended = SACN_EVENT_ENDED,
        /// Discarded: out of sequence (6.7.2).
        OutOfSequence = SACN_EVENT_OUT_OF_SEQUENCE,
        /// Discarded: of the number of the latest one that was taken.
        Repeated = SACN_EVENT_REPEATED,
    }
}

numbers! {
    /// Whether a source sends on a universe (`enum sacn_stream_state`).
    StreamState {
        /// It sends.
        Sending = SACN_SENDING,
        /// Its latest packet ended the stream.
        Ended = SACN_ENDED,
        /// No packet of it was taken for [`DATA_LOSS`](crate::DATA_LOSS) milliseconds (E1.31, 6.7.1).
        Lost = SACN_LOST,
    }
}

/// What a datagram tells that is new. All but `noted` is 0 or false where it is not [`Noted::Heard`].
#[derive(Clone, Debug, PartialEq, Eq)]
pub struct News {
    /// What it is.
    pub noted: Noted,
    /// What it says of its source; where it is discarded all that follows `place` is 0 or false.
    pub event: Event,
    /// The place of the pair of universe and source: 0 for the first one that appeared.
    pub place: usize,
    /// The sequence numbers that were skipped, as far as that is a loss.
    pub skipped: u8,
    /// The sender began its numbers anew.
    pub began_anew: bool,
    /// It has another name than before.
    pub renamed: bool,
    /// It sends from another address or port.
    pub moved: bool,
    /// The priority before; 0 where it is the same.
    pub priority_from: u8,
    /// The priority after; 0 where it is the same.
    pub priority_to: u8,
}

/// A monitor's account of a source on a universe. Times are in milliseconds; a count stops at 2^64 - 1.
///
/// A packet is taken where it is in sequence, where the latest one is [`DATA_LOSS`](crate::DATA_LOSS) old, or where it
/// has levels and a node holds nothing of its source.
#[derive(Clone, Debug, PartialEq, Eq)]
pub struct Stream {
    /// 1 to 63999.
    pub universe: u16,
    /// The source's component identifier.
    pub cid: Cid,
    /// The name in the latest packet that was taken, with NUL behind it.
    pub name: Name,
    /// The address and UDP port from which that packet came.
    pub sender: SocketAddrV4,
    /// Its priority, 0 to 200.
    pub priority: u8,
    /// Its sequence number.
    pub number: u8,
    /// Whether the source sends.
    pub state: StreamState,
    /// The moment of the first packet that was taken.
    pub first: u64,
    /// The moment of the latest packet that was taken.
    pub latest: u64,
    /// The packets that were taken with levels for the stage.
    pub live: u64,
    /// The previews that were taken.
    pub previews: u64,
    /// The terminations that were taken.
    pub terminations: u64,
    /// The packets of other start codes that were taken.
    pub others: u64,
    /// Sequence numbers that were skipped: packets lost on the way.
    pub skipped: u64,
    /// Packets that were discarded as out of sequence.
    pub late: u64,
    /// Packets that were discarded as repeats: of the number of the latest one that was taken.
    pub repeats: u64,
    /// The greatest time between two packets that were taken.
    pub greatest_gap: u64,
    /// The packets of the last whole second.
    pub last_second: u64,
}

/// A monitor: it hears a network, and keeps an account of each source on each universe, at most
/// [`MAX_STREAMS`](crate::MAX_STREAMS).
#[derive(Debug)]
pub struct Monitor {
    handle: raw::Handle<sys::sacn_monitor>,
}

impl Monitor {
    /// Makes a monitor that has heard nothing, with the room for all its accounts.
    /// [`Status::OutOfMemory`](crate::Status::OutOfMemory).
    pub fn new() -> Result<Self, Error> {
        let handle = raw::monitor_new().map_err(|status| refused(status, Error::none))?;
        Ok(Monitor { handle })
    }

    /// Takes a datagram that came from a sender, whatever its octets are.
    ///
    /// [`Error::Packet`] where it is no packet: only the clock has then moved.
    pub fn take(&mut self, now: u64, sender: SocketAddrV4, datagram: &[u8]) -> Result<News, Error> {
        let sender = sys::sacn_sender { address: sender.ip().octets(), port: sender.port() };
        let mut news = sys::sacn_news::default();
        check(raw::monitor_take(&mut self.handle, now, &sender, datagram, &mut news), Error::packet)?;
        Ok(News {
            noted: known(news.noted, Noted::of)?,
            event: known(news.event, Event::of)?,
            place: news.place,
            skipped: news.skipped,
            began_anew: news.began_anew != 0,
            renamed: news.renamed != 0,
            moved: news.moved != 0,
            priority_from: news.priority_from,
            priority_to: news.priority_to,
        })
    }

    /// Moves the clock, and tells the places of the sources lost by then, each once since its latest packet.
    pub fn tick(&mut self, now: u64) -> Result<Vec<usize>, Error> {
        let mut lost = Vec::new();
        let mut place = 0;
        while found(raw::monitor_tick(&mut self.handle, now, &mut place))? {
            lost.push(place);
        }
        Ok(lost)
    }

    /// The first moment at which a tick tells of a source if no datagram comes; `None` where there is none.
    pub fn wakes(&mut self) -> Result<Option<u64>, Error> {
        let mut moment = 0;
        check(raw::monitor_wakes(&mut self.handle, &mut moment), Error::none)?;
        Ok((moment != u64::MAX).then_some(moment))
    }

    /// How many pairs of a universe and a source have an account.
    pub fn count(&mut self) -> Result<usize, Error> {
        let mut count = 0;
        check(raw::monitor_count(&mut self.handle, &mut count), Error::none)?;
        Ok(count)
    }

    /// The account of the pair at a place, from 0 on, at the greatest moment that was handed in.
    /// [`Status::Range`](crate::Status::Range) where there is none.
    pub fn account(&mut self, place: usize) -> Result<Stream, Error> {
        let mut told = raw::NO_STREAM;
        check(raw::monitor_account(&mut self.handle, place, &mut told), Error::none)?;
        Ok(Stream {
            universe: told.universe,
            cid: told.cid,
            name: told.name.into(),
            sender: SocketAddrV4::new(told.address.into(), told.port),
            priority: told.priority,
            number: told.number,
            state: known(told.state, StreamState::of)?,
            first: told.first,
            latest: told.latest,
            live: told.live,
            previews: told.previews,
            terminations: told.terminations,
            others: told.others,
            skipped: told.skipped,
            late: told.late,
            repeats: told.repeats,
            greatest_gap: told.greatest_gap,
            last_second: told.last_second,
        })
    }

    /// How many sources light a universe at its greatest priority, and that priority; 0 and 0 where none does.
    pub fn rivals(&mut self, universe: u16) -> Result<(usize, u8), Error> {
        let mut count = 0;
        let mut priority = 0;
        check(raw::monitor_rivals(&mut self.handle, universe, &mut count, &mut priority), Error::none)?;
        Ok((count, priority))
    }
}
