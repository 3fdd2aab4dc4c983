//! A console.

use crate::error::{check, found, known, numbers, refused, Error};
use crate::packet::multicast_group;
use crate::raw;
use sacn_core_sys as sys;
use std::net::Ipv4Addr;

/// What a console is told (`enum sacn_command`).
#[derive(Clone, Copy, Debug, PartialEq, Eq, Hash)]
pub enum Command {
    /// To the next cue.
    Go,
    /// To the cue of this number.
    GoTo(u16),
    /// A channel to a level.
    SetLevel {
        /// 1 to 2048.
        channel: u16,
        /// 0 to 65535.
        level: u16,
    },
    /// The grand master to a level, 0 to 65535.
    Master(u16),
    /// Ends a universe, by three terminations (E1.31, 6.2.6).
    EndUniverse(u16),
    /// Starts a stopped universe anew.
    StartUniverse(u16),
}

impl Command {
    /// Its number in `sacn.h`, that of its cue, channel or universe, and its level.
    fn told(self) -> (u8, u16, u16) {
        match self {
            Command::Go => (sys::SACN_GO, 0, 0),
            Command::GoTo(cue) => (sys::SACN_GO_TO, cue, 0),
            Command::SetLevel { channel, level } => (sys::SACN_SET_LEVEL, channel, level),
            Command::Master(level) => (sys::SACN_MASTER, 0, level),
            Command::EndUniverse(universe) => (sys::SACN_END_UNIVERSE, universe, 0),
            Command::StartUniverse(universe) => (sys::SACN_START_UNIVERSE, universe, 0),
        }
    }
}

numbers! {
    /// Whether a console or a source sends a universe (`enum sacn_universe_state`).
    UniverseState {
        /// It is sent.
        Running = SACN_UNIVERSE_RUNNING,
        /// Its three terminations aren't all given yet (E1.31, 6.2.6).
        Ending = SACN_UNIVERSE_ENDING,
        /// It is sent no more, until it is started, or added again.
        Stopped = SACN_UNIVERSE_STOPPED,
    }
}

/// A universe of a console, or of a source.
#[derive(Clone, Debug, PartialEq, Eq)]
pub struct ConsoleUniverse {
    /// 1 to 63999.
    pub universe: u16,
    /// Whether it is sent.
    pub state: UniverseState,
    /// The sequence number of its next packet (E1.31, 6.2.5).
    pub number: u8,
    /// The moment of its latest packet since that was made; `None` where there was none.
    pub latest: Option<u64>,
}

/// The universes that a call tells place by place.
pub(crate) fn universes_by(
    mut tell: impl FnMut(usize, &mut sys::sacn_universe) -> i32,
) -> Result<Vec<ConsoleUniverse>, Error> {
    let mut universes = Vec::new();
    let mut told = sys::sacn_universe::default();
    while found(tell(universes.len(), &mut told))? {
        let state = known(told.state, UniverseState::of)?;
        let latest = (told.latest != u64::MAX).then_some(told.latest);
        universes.push(ConsoleUniverse { universe: told.universe, state, number: told.number, latest });
    }
    Ok(universes)
}

/// A datagram that a console or a source gives.
#[derive(Clone, Copy, Debug, PartialEq, Eq)]
pub struct Datagram<'a> {
    /// Its octets.
    pub octets: &'a [u8],
    /// The universe to whose group it goes: a data packet's own, and [`DISCOVERY_UNIVERSE`](crate::DISCOVERY_UNIVERSE)
    /// of a page.
    pub universe: u16,
}

impl<'a> Datagram<'a> {
    fn new(octets: &'a [u8]) -> Self {
        // (the root vector is 4 in a data packet and 8 in a page)
        let universe = match (octets.get(21), octets.get(113..115)) {
            (Some(4), Some(&[high, low])) => u16::from_be_bytes([high, low]),
            _ => sys::SACN_DISCOVERY_UNIVERSE,
        };
        Datagram { octets, universe }
    }

    /// The IPv4 group to which it goes by multicast.
    pub fn group(&self) -> Ipv4Addr {
        multicast_group(self.universe)
    }
}

/// A console: it plays a show's cues, and gives the datagrams that are due.
///
/// Before it is dropped its universes are ended, and it is polled until each is stopped: else nodes show its last
/// levels until they count it as lost.
#[derive(Debug)]
pub struct Console {
    handle: raw::Handle<sys::sacn_console>,
}

impl Console {
    /// Makes a console of a show in TOML, as `docs/FILES.md` has it ("Shows"); where datagrams are sent is the
    /// caller's to say. The first packet on each universe has the number `first`. [`Error::Show`] where the show is
    /// refused: [`show_faults`](crate::show_faults) tells why.
    pub fn new(show: impl AsRef<[u8]>, first: u8) -> Result<Self, Error> {
        let handle = raw::console_new(show.as_ref(), first).map_err(|status| refused(status, Error::show))?;
        Ok(Console { handle })
    }

    /// Gives a command. [`Error::Console`] where it is refused.
    pub fn command(&mut self, now: u64, command: Command) -> Result<(), Error> {
        let (command, number, level) = command.told();
        check(raw::console_command(&mut self.handle, now, command, number, level), Error::console)
    }

    /// The datagram that is due, written to the front of `out`; `None` where none is. Poll until none is.
    pub fn poll<'a>(
        &mut self,
        now: u64,
        out: &'a mut [u8; sys::SACN_MAX_DATAGRAM],
    ) -> Result<Option<Datagram<'a>>, Error> {
        let mut count = 0;
        check(raw::console_poll(&mut self.handle, now, out, &mut count), Error::none)?;
        Ok(out.get(..count).filter(|octets| !octets.is_empty()).map(Datagram::new))
    }

    /// The first moment at which something can be due as long as no command comes.
    pub fn wakes(&mut self) -> Result<u64, Error> {
        let mut moment = 0;
        check(raw::console_wakes(&mut self.handle, &mut moment), Error::none)?;
        Ok(moment)
    }

    /// The show's universes, by ascending number.
    pub fn universes(&mut self) -> Result<Vec<ConsoleUniverse>, Error> {
        universes_by(|place, told| raw::console_universe(&mut self.handle, place, told))
    }

    /// The number of the cue that was gone to last; `None` before the first.
    pub fn cue(&mut self) -> Result<Option<u16>, Error> {
        let mut number = 0;
        Ok(found(raw::console_cue(&mut self.handle, &mut number))?.then_some(number))
    }
}
