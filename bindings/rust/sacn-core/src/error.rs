//! What the library answers where a call isn't done.

use sacn_core_sys as sys;
use std::fmt;

macro_rules! faults {
    ($(#[$doc:meta])* $family:ident { $($fault:ident = $constant:ident: $meaning:literal,)* }) => {
        $(#[$doc])*
        #[derive(Clone, Copy, Debug, PartialEq, Eq, Hash)]
        pub enum $family {
            $(#[doc = $meaning] $fault = sys::$constant as isize,)*
        }

        impl $family {
            /// The fault of a status, if its family has it.
            pub(crate) fn of(status: i32) -> Option<Self> {
                match status {
                    $(sys::$constant => Some(Self::$fault),)*
                    _ => None,
                }
            }

            /// The number of the status.
            pub fn status(self) -> i32 {
                self as i32
            }

            /// The status's name in `sacn.h`.
            pub fn name(self) -> &'static str {
                match self {
                    $(Self::$fault => stringify!($constant),)*
                }
            }

            /// One sentence of what the status means.
            pub fn meaning(self) -> &'static str {
                match self {
                    $(Self::$fault => $meaning,)*
                }
            }
        }
    };
}

faults! {
    /// What every call can answer (`enum sacn_status`).
    Status {
        Null = SACN_NULL: "A pointer is null, or the handle was freed or never made.",
        Length = SACN_LENGTH: "A count is out of the range that the call names.",
        WrongHandle = SACN_WRONG_HANDLE: "The handle stands for something else.",
        Range = SACN_RANGE: "An argument is out of range, or there is nothing of this number.",
        NotEmpty = SACN_NOT_EMPTY: "The handle that is to be made is one already.",
        OutOfMemory = SACN_OUT_OF_MEMORY: "A request for memory was refused.",
        Name = SACN_NAME: "The name isn't UTF-8, has a NUL, or is longer than 63 octets.",
    }
}

faults! {
    /// Why octets are no packet: the first check that fails (`enum sacn_packet_fault`).
    PacketFault {
        TooShort = SACN_PACKET_TOO_SHORT: "The octets end before the packet does.",
        Preamble = SACN_PACKET_PREAMBLE: "The preamble size isn't 0x0010.",
        Postamble = SACN_PACKET_POSTAMBLE: "The post-amble size isn't 0.",
        Identifier = SACN_PACKET_IDENTIFIER: "The ACN packet identifier isn't ASC-E1.17.",
        Flags = SACN_PACKET_FLAGS: "The flags of a layer aren't 7.",
        Length = SACN_PACKET_LENGTH: "The length of a layer doesn't fit what is around it or in it.",
        RootVector = SACN_PACKET_ROOT_VECTOR: "The root vector is neither that of data nor that of extended packets.",
        FramingVector = SACN_PACKET_FRAMING_VECTOR: "The framing vector is none of this kind of packet.",
        DmpVector = SACN_PACKET_DMP_VECTOR: "The DMP vector isn't 2.",
        AddressType = SACN_PACKET_ADDRESS_TYPE: "The address and data type isn't 0xa1.",
        FirstAddress = SACN_PACKET_FIRST_ADDRESS: "The first property address isn't 0.",
        Increment = SACN_PACKET_INCREMENT: "The address increment isn't 1.",
        ValueCount = SACN_PACKET_VALUE_COUNT: "The property value count isn't 1 to 513, or not that of the values.",
        Priority = SACN_PACKET_PRIORITY: "The priority is above 200.",
        Universe = SACN_PACKET_UNIVERSE: "The universe isn't 1 to 63999.",
        DiscoveryVector = SACN_PACKET_DISCOVERY_VECTOR: "The universe discovery vector isn't 1.",
        PageRange = SACN_PACKET_PAGE_RANGE: "The page's number is above that of the last page.",
        TooManyUniverses = SACN_PACKET_TOO_MANY_UNIVERSES: "The page has more than 512 universes.",
    }
}

faults! {
    /// Why a node's setup is refused: the first phase of reading that fails (`enum sacn_setup_fault`).
    SetupFault {
        OutOfMemory = SACN_SETUP_OUT_OF_MEMORY: "A request for memory was refused while the setup was read.",
        Toml = SACN_SETUP_TOML: "The setup is no TOML document.",
        MissingKey = SACN_SETUP_MISSING_KEY: "The setup lacks a key that is required.",
        UnknownKey = SACN_SETUP_UNKNOWN_KEY: "The setup has a key that its version doesn't know.",
        KeyValue = SACN_SETUP_KEY_VALUE: "A key of the setup has a value of another type or out of its range.",
        Version = SACN_SETUP_VERSION: "The setup's version isn't 1 or 2.",
        PortTaken = SACN_SETUP_PORT_TAKEN: "Two ports of the setup have one number.",
        Limit = SACN_SETUP_LIMIT: "The setup has more than 16 ports or 16 universes.",
        RangeEnd = SACN_SETUP_RANGE_END: "A range of the setup ends behind slot 512.",
        Overlap = SACN_SETUP_OVERLAP: "Two ranges of one port share a slot of the port.",
    }
}

faults! {
    /// Why a console's show is refused: the first phase of reading that fails (`enum sacn_show_fault`).
    ShowFault {
        OutOfMemory = SACN_SHOW_OUT_OF_MEMORY: "A request for memory was refused while the show was read.",
        Toml = SACN_SHOW_TOML: "The show is no TOML document.",
        MissingKey = SACN_SHOW_MISSING_KEY: "The show lacks a key that is required.",
        UnknownKey = SACN_SHOW_UNKNOWN_KEY: "The show has a key that its version doesn't know.",
        KeyValue = SACN_SHOW_KEY_VALUE: "A key of the show has a value of another type or out of its range.",
        Version = SACN_SHOW_VERSION: "The show's version isn't 1 or 2.",
        Cue = SACN_SHOW_CUE:
            "A cue of the show has a taken number, a channel out of range or too long a time, or is one too many.",
        Patch = SACN_SHOW_PATCH:
            "A patch of the show has an unlisted universe, a channel or slot out of range, or a taken slot.",
    }
}

faults! {
    /// Why a console refuses a command; only its clock has then moved (`enum sacn_console_fault`).
    ConsoleFault {
        NoCue = SACN_CONSOLE_NO_CUE: "The show has no such cue, or none above the current one.",
        ChannelRange = SACN_CONSOLE_CHANNEL_RANGE: "The channel isn't 1 to 2048.",
        NoUniverse = SACN_CONSOLE_NO_UNIVERSE: "The show has no such universe.",
        Ending = SACN_CONSOLE_ENDING: "The universe is ending.",
        Running = SACN_CONSOLE_RUNNING: "The universe runs already.",
        Stopped = SACN_CONSOLE_STOPPED: "The universe is stopped already.",
    }
}

faults! {
    /// Why a source isn't made, or refuses a call; it is then as it was (`enum sacn_source_fault`).
    SourceFault {
        OutOfMemory = SACN_SOURCE_OUT_OF_MEMORY: "A request for memory was refused while the source was made.",
        BadUniverse = SACN_SOURCE_BAD_UNIVERSE: "The source's universe isn't 1 to 63999.",
        NoUniverse = SACN_SOURCE_NO_UNIVERSE: "The source has no such universe.",
        Running = SACN_SOURCE_RUNNING: "The source's universe runs already.",
        Ending = SACN_SOURCE_ENDING: "The source's universe is ending.",
        Stopped = SACN_SOURCE_STOPPED: "The source's universe is stopped already.",
        Full = SACN_SOURCE_FULL: "The source has no room for one more universe.",
        TooMany = SACN_SOURCE_TOO_MANY: "There are more than 512 levels.",
        BadPriority = SACN_SOURCE_BAD_PRIORITY: "The source's priority is above 200.",
    }
}

faults! {
    /// Why no table of sources is made (`enum sacn_sources_fault`).
    SourcesFault {
        OutOfMemory = SACN_SOURCES_OUT_OF_MEMORY: "A request for memory was refused while the table was made.",
    }
}

/// A status of the library that isn't `SACN_DONE`, with its family.
#[derive(Clone, Copy, Debug, PartialEq, Eq, Hash)]
#[non_exhaustive]
pub enum Error {
    /// Of any call.
    Status(Status),
    /// Octets are no packet, or fields make none.
    Packet(PacketFault),
    /// A node's setup is refused.
    Setup(SetupFault),
    /// A console's show is refused.
    Show(ShowFault),
    /// A console refuses a command.
    Console(ConsoleFault),
    /// A source isn't made, or refuses a call.
    Source(SourceFault),
    /// No table of sources is made.
    Sources(SourcesFault),
    /// The library answers a number that this crate doesn't know.
    Unknown(i32),
}

impl Error {
    /// The number of the status.
    pub fn status(self) -> i32 {
        match self {
            Error::Status(fault) => fault.status(),
            Error::Packet(fault) => fault.status(),
            Error::Setup(fault) => fault.status(),
            Error::Show(fault) => fault.status(),
            Error::Console(fault) => fault.status(),
            Error::Source(fault) => fault.status(),
            Error::Sources(fault) => fault.status(),
            Error::Unknown(number) => number,
        }
    }

    /// The status's name in `sacn.h`, as `SACN_SETUP_TOML`.
    pub fn name(self) -> &'static str {
        self.told().0
    }

    /// One sentence of what the status means.
    pub fn meaning(self) -> &'static str {
        self.told().1
    }

    fn told(self) -> (&'static str, &'static str) {
        match self {
            Error::Status(fault) => (fault.name(), fault.meaning()),
            Error::Packet(fault) => (fault.name(), fault.meaning()),
            Error::Setup(fault) => (fault.name(), fault.meaning()),
            Error::Show(fault) => (fault.name(), fault.meaning()),
            Error::Console(fault) => (fault.name(), fault.meaning()),
            Error::Source(fault) => (fault.name(), fault.meaning()),
            Error::Sources(fault) => (fault.name(), fault.meaning()),
            Error::Unknown(_) => ("unknown", "The library answers a number that this crate doesn't know."),
        }
    }

    pub(crate) fn packet(status: i32) -> Option<Self> {
        PacketFault::of(status).map(Error::Packet)
    }

    pub(crate) fn setup(status: i32) -> Option<Self> {
        SetupFault::of(status).map(Error::Setup)
    }

    pub(crate) fn show(status: i32) -> Option<Self> {
        ShowFault::of(status).map(Error::Show)
    }

    pub(crate) fn console(status: i32) -> Option<Self> {
        ConsoleFault::of(status).map(Error::Console)
    }

    pub(crate) fn source(status: i32) -> Option<Self> {
        SourceFault::of(status).map(Error::Source)
    }

    pub(crate) fn sources(status: i32) -> Option<Self> {
        SourcesFault::of(status).map(Error::Sources)
    }

    /// Of a call that has no faults of its own.
    pub(crate) fn none(_status: i32) -> Option<Self> {
        None
    }
}

impl fmt::Display for Error {
    fn fmt(&self, out: &mut fmt::Formatter<'_>) -> fmt::Result {
        write!(out, "{} ({}): {}", self.name(), self.status(), self.meaning())
    }
}

impl std::error::Error for Error {}

/// The error of a status that isn't `SACN_DONE`, of a call that has the faults of a family.
pub(crate) fn refused(status: i32, family: fn(i32) -> Option<Error>) -> Error {
    family(status).or_else(|| Status::of(status).map(Error::Status)).unwrap_or(Error::Unknown(status))
}

/// What a status says, of a call that has the faults of a family.
pub(crate) fn check(status: i32, family: fn(i32) -> Option<Error>) -> Result<(), Error> {
    match status {
        sys::SACN_DONE => Ok(()),
        _ => Err(refused(status, family)),
    }
}

/// Whether a call found what it was asked for: `SACN_RANGE` says that there is none.
pub(crate) fn found(status: i32) -> Result<bool, Error> {
    match status {
        sys::SACN_RANGE => Ok(false),
        _ => check(status, Error::none).map(|()| true),
    }
}

/// One of an enumeration that the library gives by its number.
pub(crate) fn known<T>(number: u8, of: fn(u8) -> Option<T>) -> Result<T, Error> {
    of(number).ok_or(Error::Unknown(number.into()))
}

/// Declares an enumeration of `sacn.h` whose numbers the library gives.
macro_rules! numbers {
    ($(#[$doc:meta])* $name:ident { $($(#[$told:meta])* $it:ident = $constant:ident,)* }) => {
        $(#[$doc])*
        #[derive(Clone, Copy, Debug, PartialEq, Eq, Hash)]
        pub enum $name {
            $($(#[$told])* $it = sacn_core_sys::$constant as isize,)*
        }

        impl $name {
            pub(crate) fn of(number: u8) -> Option<Self> {
                match number {
                    $(sacn_core_sys::$constant => Some(Self::$it),)*
                    _ => None,
                }
            }
        }
    };
}
pub(crate) use numbers;
