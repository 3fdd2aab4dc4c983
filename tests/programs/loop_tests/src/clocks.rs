//! Times of day: on the calendar, in lines and objects, and where a recording begins. Values are those of Python's `datetime` and `zoneinfo`.
use jiff::tz::TimeZone;
use sacn_clock::{
    Afterwards, Ahead, LocalZone, Moments, Present, Recorded, Stamped, Timing, clock_text,
    time_text,
};
use std::alloc::Global;
use std::io::{self, Read, Write};
use std::test::*;

/// Moments in milliseconds since 1970, and what they are by RFC 3339.
const TIMES: &[(u64, &str)] = &[
    (0, "1970-01-01T00:00:00.000Z"),
    (86_399_999, "1970-01-01T23:59:59.999Z"),
    (946_684_799_999, "1999-12-31T23:59:59.999Z"),
    (951_825_600_001, "2000-02-29T12:00:00.001Z"),
    (1_709_251_199_999, "2024-02-29T23:59:59.999Z"),
    (1_795_983_185_125, "2026-11-29T20:13:05.125Z"),
    (2_147_483_648_000, "2038-01-19T03:14:08.000Z"),
    (4_107_542_399_999, "2100-02-28T23:59:59.999Z"),
    (4_107_542_400_000, "2100-03-01T00:00:00.000Z"),
    (253_402_207_200_000, "9999-12-30T22:00:00.000Z"),
];

#[test]
fn moments_stand_on_the_calendar(rt: HostRuntime) {
    for (millis, wanted) in TIMES {
        let text = time_text(*millis);
        assert!(rt; text.is_some_and(|text| text.as_str() == *wanted));
    }
    assert!(rt; time_text(253_402_300_800_000).is_none());
    assert!(rt; time_text(u64::MAX).is_none());
}

fn shows(millis: u64, zone: &TimeZone<'_>, wanted: &str) -> bool {
    clock_text(Some(millis), zone).as_str() == wanted
}

#[test]
fn times_of_day_are_those_of_a_zone(rt: HostRuntime) {
    assert!(rt; shows(86_399_999, &TimeZone::UTC, "23:59:59.999 "));
    assert!(rt; shows(86_400_000, &TimeZone::UTC, "00:00:00.000 "));
    let Ok(zone) = TimeZone::posix("CET-1CEST,M3.5.0,M10.5.0/3") else {
        assert!(rt; false);
        return;
    };
    // (the hours that a summer skips and repeats)
    assert!(rt; shows(1_774_745_999_999, &zone, "01:59:59.999 "));
    assert!(rt; shows(1_774_746_000_000, &zone, "03:00:00.000 "));
    assert!(rt; shows(1_792_889_999_999, &zone, "02:59:59.999 "));
    assert!(rt; shows(1_792_890_000_000, &zone, "02:00:00.000 "));
}

#[test]
fn what_has_no_time_of_day_is_dashes(rt: HostRuntime) {
    assert!(rt; clock_text(None, &TimeZone::UTC).as_str() == "--:--:--.--- ");
    assert!(rt; clock_text(Some(u64::MAX), &TimeZone::UTC).as_str() == "--:--:--.--- ");
}

/// A clock that goes on by a second a line.
#[derive(Drop)]
struct Seconds {
    lines: u64,
}

impl Moments for Seconds {
    fn moment_of(&mut self, _line: &[u8]) -> Option<u64> {
        self.lines = self.lines.saturating_add(1);
        self.lines.checked_mul(1000)
    }
}

/// What stands in lines that are written in these pieces.
fn written<M: Moments + Drop>(
    alloc: Global,
    moments: M,
    stamp: Timing<'_>,
    pieces: &[&[u8]],
) -> io::Result<Vec<u8>> {
    let mut text = Vec::new(alloc);
    write_pieces(&mut text, moments, stamp, pieces)?;
    Ok(text)
}

fn write_pieces<M: Moments + Drop>(
    text: &mut Vec<u8>,
    moments: M,
    stamp: Timing<'_>,
    pieces: &[&[u8]],
) -> io::Result<()> {
    let mut out = Stamped::new(text, moments, stamp);
    for piece in pieces {
        out.write_all(piece)?;
    }
    out.flush()
}

fn is_text(text: io::Result<Vec<u8>>, wanted: &[u8]) -> bool {
    text.is_ok_and(|text| text.as_slice() == wanted)
}

#[test]
fn what_is_told_later_has_the_time_at_which_it_was(rt: HostRuntime) {
    let zone = LocalZone::utc(rt.alloc());
    let present = Present::new();
    present.set(900);
    let lines: &[&[u8]] = &[
        b"     0.400 s  lost\n",
        b"counts\n",
        b"     0.950 s  back\n",
    ];
    let clock = Afterwards::new(Seconds { lines: 0 }, &present);
    let text = written(rt.alloc(), clock, Timing::Clock(&zone), lines);
    let wanted =
        b"00:00:00.500      0.400 s  lost\n00:00:02.000 counts\n00:00:03.000      0.950 s  back\n";
    assert!(rt; is_text(text, wanted));
    let clock = Afterwards::new(Seconds { lines: 0 }, &present);
    let lines: &[&[u8]] = &[b"{\"ms\":899,\"event\":\"incident\"}\n"];
    let text = written(rt.alloc(), clock, Timing::Member, lines);
    let wanted = b"{\"ms\":899,\"time\":\"1970-01-01T00:00:00.999Z\",\"event\":\"incident\"}\n";
    assert!(rt; is_text(text, wanted));
}

#[test]
fn each_line_has_its_time_in_front_however_it_is_written(rt: HostRuntime) {
    let zone = LocalZone::utc(rt.alloc());
    let pieces: &[&[u8]] = &[b"on", b"", b"e\n", b"two\nthree\n\nfo", b"ur"];
    let text = written(
        rt.alloc(),
        Seconds { lines: 0 },
        Timing::Clock(&zone),
        pieces,
    );
    let wanted =
        b"00:00:01.000 one\n00:00:02.000 two\n00:00:03.000 three\n00:00:04.000 \n00:00:05.000 four";
    assert!(rt; is_text(text, wanted));
    let text = written(rt.alloc(), Seconds { lines: 0 }, Timing::Unstamped, pieces);
    assert!(rt; is_text(text, b"one\ntwo\nthree\n\nfour"));
}

#[test]
fn the_lines_of_a_recording_have_its_times(rt: HostRuntime) {
    let zone = LocalZone::utc(rt.alloc());
    let pieces: &[&[u8]] = &[
        b"     0.000 s  universe     1\n",
        b"123456.789 s  port         1\n",
        b"1 123456789 00ff\n",
        b"       1 ended         100      0.000      2.412\n",
        b"1.5 s  another\n",
    ];
    let moments = Recorded::new(Some(1_795_983_185_125));
    let text = written(rt.alloc(), moments, Timing::Clock(&zone), pieces);
    // (123,456.789 s later, which is a day and more)
    let wanted =
        b"20:13:05.125      0.000 s  universe     1\n06:30:41.914 123456.789 s  port         1\n06:30:41.914 1 123456789 00ff\n06:30:41.914        1 ended         100      0.000      2.412\n06:30:41.914 1.5 s  another\n";
    assert!(rt; is_text(text, wanted));
}

#[test]
fn objects_have_their_time_beside_the_moment(rt: HostRuntime) {
    let pieces: &[&[u8]] = &[
        b"{\"ms\":0,\"event\":\"stopped\",\"for\":7}\n",
        b"{\"event\":\"not_written\",\"lines\":2}\n",
        b"{\"row\":\"universe\",\"universe\":1,\"ms\":5,\"discarded\":0}\n",
        b"{\"row\":\"counts\",\"went_back\":0,\"ms\":61001}\n",
    ];
    let text = written(
        rt.alloc(),
        Recorded::new(Some(1_709_251_199_999)),
        Timing::Member,
        pieces,
    );
    let wanted =
        b"{\"ms\":0,\"time\":\"2024-02-29T23:59:59.999Z\",\"event\":\"stopped\",\"for\":7}\n{\"event\":\"not_written\",\"lines\":2}\n{\"row\":\"universe\",\"universe\":1,\"ms\":5,\"discarded\":0}\n{\"row\":\"counts\",\"went_back\":0,\"ms\":61001,\"time\":\"2024-03-01T00:01:01.000Z\"}\n";
    assert!(rt; is_text(text, wanted));
    let text = written(
        rt.alloc(),
        Recorded::new(None),
        Timing::Member,
        &[b"{\"ms\":0}\n"],
    );
    assert!(rt; is_text(text, b"{\"ms\":0,\"time\":null}\n"));
}

/// The header of a pcap file with nanoseconds, and a frame of four octets taken at 2026-11-29 20:13:05.125999999 UTC.
const NANOSECONDS: &[u8] =
    b"\x4d\x3c\xb2\xa1\x02\0\x04\0\0\0\0\0\0\0\0\0\xff\xff\0\0\x01\0\0\0\x51\x87\x0c\x6b\x7f\x9b\x82\x07\x04\0\0\0\x04\0\0\0abcd";

/// An input that gives an octet a read.
#[derive(Drop)]
struct Trickle<'a> {
    left: &'a [u8],
}

impl<'a> Read for Trickle<'a> {
    fn read(&mut self, buf: &mut [u8]) -> io::Result<usize> {
        match self.left.split_first() {
            Some((octet, left)) if !buf.is_empty() => {
                buf[0] = *octet;
                self.left = left;
                Ok(1)
            }
            _ => Ok(0),
        }
    }
}

/// When a recording begins, and whether all of it is read behind that.
fn begins(alloc: Global, octets: &[u8]) -> io::Result<(Option<u64>, bool)> {
    let mut ahead = Ahead::new(alloc, Trickle { left: octets });
    let first = ahead.first_moment()?;
    let mut read = Vec::new(alloc);
    ahead.read_to_end(&mut read)?;
    Ok((first, read.as_slice() == octets))
}

#[test]
fn a_recording_begins_with_its_first_frame(rt: HostRuntime) {
    let whole = begins(rt.alloc(), NANOSECONDS);
    assert!(rt; whole.is_ok_and(|it| it == (Some(1_795_983_185_125), true)));
    let cut = begins(rt.alloc(), &NANOSECONDS[..43]);
    assert!(rt; cut.is_ok_and(|it| it == (None, true)));
    let other = begins(rt.alloc(), b"no recording");
    assert!(rt; other.is_ok_and(|it| it == (None, true)));
}

/// A section of pcapng, the low octet first, an interface of Ethernet, a simple packet (3) of four octets, and an enhanced
/// one (6) of none at tick 1,000,000,000 by the microsecond.
const SIMPLE_FIRST: &[u8] =
    b"\x0a\x0d\x0d\x0a\x1c\0\0\0\x4d\x3c\x2b\x1a\x01\0\0\0\xff\xff\xff\xff\xff\xff\xff\xff\x1c\0\0\0\x01\0\0\0\x14\0\0\0\x01\0\0\0\0\0\0\0\x14\0\0\0\x03\0\0\0\x14\0\0\0\x04\0\0\0none\x14\0\0\0\x06\0\0\0\x20\0\0\0\0\0\0\0\0\0\0\0\0\xca\x9a\x3b\0\0\0\0\0\0\0\0\x20\0\0\0";

#[test]
fn a_frame_without_a_moment_is_passed_over_where_the_first_is_looked_for(rt: HostRuntime) {
    let whole = begins(rt.alloc(), SIMPLE_FIRST);
    assert!(rt; whole.is_ok_and(|it| it == (Some(1_000_000), true)));
    let cut = begins(rt.alloc(), &SIMPLE_FIRST[..68]);
    assert!(rt; cut.is_ok_and(|it| it == (None, true)));
}
