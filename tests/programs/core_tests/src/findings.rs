//! All that is found in shows and setups of several faults, also behind the first, of which alone a contract speaks.
use sacn_check::{FileKind, Findings, faults_of};
use std::alloc::{AllocError, Global};
use std::str;
use std::test::*;

/// The lines of a show behind its version, each as it should be and as it should not.
const SHOW: &[(&str, &str)] = &[
    (
        "cid = \"00010203-0405-0607-0809-0a0b0c0d0e0f\"",
        "cid = \"000102\"",
    ),
    ("name = \"Desk\"", "nome = \"Desk\""),
    ("priority = 100", "priority = 201"),
    ("universes = [1]", "universes = [1, 1]"),
    ("[[cue]]\nnumber = 1", "[[cue]]\nnumber = 1\nfade = 0"),
    ("up = 0", ""),
    ("down = 0", "down = 3600001"),
    ("levels = [[1, 65535]]", "levels = [[0, 65535], [1, 70000]]"),
    ("[[patch]]\nchannel = 1", "[[patch]]\nchannel = 2049"),
    ("universe = 1", "universe = 2"),
    ("slot = 1", "slot = \"1\""),
];

/// What is told of each wrong line: unknown keys, keys that lack, values, the cues and the patch.
const IN_SHOWS: &[(usize, &str)] = &[
    (1, "nome"),
    (4, "cue[0].fade"),
    (1, "name"),
    (5, "cue[0].up"),
    (0, "cid"),
    (2, "priority"),
    (3, "universes[1]"),
    (7, "cue[0].levels[1][1]"),
    (10, "patch[0].slot"),
    (7, "cue[0].levels[0][0]"),
    (6, "cue[0].down"),
    (9, "patch[0].universe"),
    (8, "patch[0].channel"),
];

/// The lines of a setup behind its version.
const SETUP: &[(&str, &str)] = &[
    ("udp_port = 5568", "udp_port = 0"),
    ("[[port]]\nnumber = 1", "[[port]]\nnumber = 256"),
    (
        "[[port.range]]\nuniverse = 1",
        "[[port.range]]\nuniverse = 64000",
    ),
    ("slot = 1", "slot = 2"),
    ("count = 512", "count = 512\ncolour = 1"),
    ("port_slot = 1", ""),
    (
        "[[port]]\nnumber = 2\n[[port.range]]\nuniverse = 2\nslot = 1\ncount = 9\nport_slot = 1",
        "[[port]]\nnumber = 3\n[[port.range]]\nuniverse = 2\nslot = 1\ncount = 9\nport_slot = 1",
    ),
    (
        "[[port.range]]\nuniverse = 2\nslot = 20\ncount = 9\nport_slot = 10\n[[port]]\nnumber = 3\nrange = [{ universe = 3, slot = 1, count = 1, port_slot = 1 }]",
        "[[port.range]]\nuniverse = 2\nslot = 20\ncount = 9\nport_slot = 9\n[[port]]\nnumber = 3\nrange = [{ universe = 3, slot = 1, count = 1, port_slot = 1 }]",
    ),
];

/// What is told of each: unknown keys, keys that lack, values, numbers, ends of ranges and overlaps.
const IN_SETUPS: &[(usize, &str)] = &[
    (4, "port[0].range[0].colour"),
    (5, "port[0].range[0].port_slot"),
    (0, "udp_port"),
    (1, "port[0].number"),
    (2, "port[0].range[0].universe"),
    (6, "port[2].number"),
    (3, "port[0].range[0].count"),
    (7, "port[1].range[1].port_slot"),
];

/// Whether a line is wrong in the file of this number: its binary digits say of each line whether it is.
fn is_wrong(file: usize, line: usize) -> bool {
    let mut digits = file;
    for _ in 0..line {
        digits /= 2;
    }
    digits % 2 == 1
}

fn line_of(pair: (&'static str, &'static str), is_wrong: bool) -> &'static str {
    if is_wrong { pair.1 } else { pair.0 }
}

fn text_of(
    alloc: Global,
    lines: &[(&'static str, &'static str)],
    file: usize,
) -> Result<Vec<u8>, AllocError> {
    let mut text = Vec::from_slice(alloc, b"version = 2\n")?;
    for (index, pair) in lines.iter().enumerate() {
        let line = line_of(*pair, is_wrong(file, index));
        text.extend_from_slice(line.as_bytes())?;
        text.push(b'\n')?;
    }
    Ok(text)
}

/// Whether all that is told of a file is that of its wrong lines, in order.
fn are_of(found: &Findings, places: &[(usize, &str)], file: usize) -> bool {
    let mut told = 0usize;
    for (line, place) in places {
        if is_wrong(file, *line) {
            match found.told.as_slice().get(told) {
                Some(finding) if finding.place.as_str() == *place => told = told.saturating_add(1),
                _ => return false,
            }
        }
    }
    found.more == 0 && told == found.told.len()
}

/// The first file of which something else is told, among those with each choice of wrong lines.
fn first_other(
    alloc: Global,
    kind: FileKind,
    lines: &[(&'static str, &'static str)],
    places: &[(usize, &str)],
) -> Result<Option<usize>, AllocError> {
    let mut files = 1usize;
    for _ in lines {
        files = files.saturating_mul(2);
    }
    for file in 0..files {
        let text = text_of(alloc, lines, file)?;
        let found = faults_of(alloc, kind, str::from_utf8(text.as_slice()).unwrap_or(""))?;
        if !are_of(&found, places, file) {
            return Ok(Some(file));
        }
    }
    Ok(None)
}

#[test]
fn each_fault_is_told(rt: HostRuntime) -> Result<(), Fail> {
    assert_eq!(rt;
        first_other(rt.alloc(), FileKind::Show, SHOW, IN_SHOWS)?,
        None
    );
    assert_eq!(rt;
        first_other(rt.alloc(), FileKind::Setup, SETUP, IN_SETUPS)?,
        None
    );
    Ok(())
}
