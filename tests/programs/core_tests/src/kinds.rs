//! How a file's kind is told, beside the form that reads the document of every text.
use crate::packet_rows::Numbers;
use fixtures::texts::{DESK, ONE_PORT};
use sacn_check::{FileKind, is_surely_show, kind_of};
use sacn_files::lines::said_lines;
use sacn_files::words::number_in;
use std::alloc::{AllocError, Global};
use std::test::*;
use toml::Table;

/// Files of each kind, and documents that are none.
const FILES: &[&str] = &[
    DESK,
    "# who\n\nversion = 2\nname = \"Desk # 1\" # one\ncid=\"00010203-0405-0607-0809-0a0b0c0d0e0f\"\n\npriority\t= 90\nuniverses = [\n  1,\n  [2, 3],\n]\nsend_to = ['10.0.0.1']\n",
    "version = 2\nuniverses = [1]\n[[cue]]\nnumber = 1\nup = 0\ndown = 0\nlevels = [\n# one\n[1, 65535],\n]\n[[ patch ]] # two\nchannel = 1\n",
    ONE_PORT,
    "version = 2\nudp_port = 5568\n[[port]]\nnumber = 1\n[[port.range]]\nuniverse = 1\nslot = 1\ncount = 512\nport_slot = 1\n",
    "version = 1\n[[console]]\nfirst = 2\n[console.show]\nversion = 1\nname = \"Desk\"\n[[node]]\n[node.setup]\nversion = 1\n",
    "# moments\n0 go\n1000 goto 2\n\n1500 set 1 65535\n2000 end 1\n",
    "order 0 0 go\npoll 0 0\ndeliver 0 0 1000\nlook 0 1 3499\n",
    "version = 1\n[desk]\nname = \"Desk\"\ncid = 1\n[desk.cue]\npatch = 2\n",
    "version = 1\nabout = {\nname = \"Desk\",\ncue = 1\n}\nlist = [[1, 2],\n[3]]\n",
    "version = 1\nabout = \"\"\"\nname = 1\n[[cue]] # \"\"\"\n",
    "version = 1\nabout = '''\n[[patch]]\ncid = 2\na'''\n",
    "\u{feff}port = 1\nname = 1\n",
    "version = 1\nnames = 1\n",
    "version = 1\n[cues]\n",
    "# = 1\n0 go\nname = 1\n",
    "version = 1\nname = 1\n[ port ]\nnumber = 1\n",
    "version = 1\n [about]\nname = 1\n",
];

/// How many texts are looked at.
const CASES: usize = 6000;

/// Lines and beginnings of lines.
const PHRASES: &[&str] = &[
    "console = 1\n",
    "node",
    "node.a = 1\n",
    "port = 1\n",
    "port",
    "[port]\n",
    "[ port ]\n",
    "[ [port ] ]\n",
    "\"p\\u006frt\" = 1\n",
    "'console' = 1\n",
    "udp_port = 1\n",
    "[[cue]]\n",
    "[[patch]]\nport = 1\n",
    "cid = 1\n",
    "name.of = 1\n",
    "priority = {\n",
    "about = [{\n",
    "}\n",
    "}]\n",
    "about = \"\"\"\n",
    "about = \"\"\"\\\n",
    "about = '''\n",
    "\"\"\"\n",
    "a\"\"\"\n",
    "'''\n",
    "a'''\n",
    "[about]\n",
    "0 go\n",
    "poll 0 0\n",
    "one\n",
    "a b\n",
    "a = 1\n",
    "#",
    " ",
    "\t[",
];

/// What documents give a meaning, and letters that they refuse.
const PIECES: &[&str] = &[
    "\"", "'", "\"\"\"", "'''", "[", "]", "[[", "]]", "{", "}", "=", " = ", "#", "\r", "\n",
    "\r\n", "\t", " ", "\\", ".", ",", "a", "1", "\u{b}", "\u{0}", "\u{feff}", "\u{e9}",
];

/// The form that reads the document of every text.
fn kind_read(alloc: Global, text: &str) -> Result<Option<FileKind>, AllocError> {
    match toml::table_from_str(alloc, text) {
        Ok(table) => Ok(document_kind(&table)),
        Err(error) if error.is_memory() => Err(AllocError),
        Err(_) => Ok(Some(text_kind(alloc, text)?)),
    }
}

fn has_one(table: &Table, keys: &[&str]) -> bool {
    keys.iter().any(|key| table.contains_key(*key))
}

fn document_kind(table: &Table) -> Option<FileKind> {
    if has_one(table, &["console", "node"]) {
        Some(FileKind::World)
    } else if has_one(table, &["port", "udp_port"]) {
        Some(FileKind::Setup)
    } else if has_one(
        table,
        &[
            "cid",
            "name",
            "priority",
            "universes",
            "send_to",
            "cue",
            "patch",
        ],
    ) {
        Some(FileKind::Show)
    } else {
        None
    }
}

fn text_kind(alloc: Global, text: &str) -> Result<FileKind, AllocError> {
    for line in said_lines(alloc, text)?.as_slice() {
        if let Some(kind) = line_kind(line.words.as_slice()) {
            return Ok(kind);
        }
    }
    Ok(FileKind::Show)
}

fn line_kind(words: &[&str]) -> Option<FileKind> {
    match words {
        [_, "=", ..] => Some(FileKind::Show),
        [
            "order" | "poll" | "deliver" | "look" | "restart-console" | "restart-node" | "noise",
            ..
        ] => { Some(FileKind::Schedule) }
        [_, "go" | "goto" | "set" | "master" | "end" | "start", ..] => Some(FileKind::Script),
        [moment, _, ..] if number_in(u64::MAX, moment).is_some() => Some(FileKind::Script),
        _ => None,
    }
}

fn one_of(numbers: &mut Numbers, texts: &[&'static str]) -> &'static str {
    let index = numbers.below(texts.len() as u64) as usize;
    texts.get(index).copied().unwrap_or("")
}

fn add_line(text: &mut Vec<u8>, line: &[u8], end: &str) -> Result<(), AllocError> {
    text.extend_from_slice(line)?;
    text.extend_from_slice(end.as_bytes())
}

/// A file with some of its lines left out, said twice or later, and with other lines and words in front of some.
fn with_other_lines(alloc: Global, numbers: &mut Numbers) -> Result<Vec<u8>, AllocError> {
    let end = if numbers.below(8) == 0 { "\r\n" } else { "\n" };
    let rarity = numbers.below(40).saturating_add(6);
    let mut made = Vec::new(alloc);
    let mut late = "".as_bytes();
    for line in one_of(numbers, FILES).lines() {
        let line = line.as_bytes();
        let turn = numbers.below(rarity);
        if turn == 1 || turn == 2 {
            add_line(&mut made, late, end)?;
            late = line;
        }
        if turn == 3 || turn == 4 {
            made.extend_from_slice(one_of(numbers, PHRASES).as_bytes())?;
        }
        if turn > 1 {
            add_line(&mut made, line, end)?;
        }
    }
    add_line(&mut made, late, end)?;
    Ok(made)
}

/// The same with a piece in some place, in front of what stands there or in its place.
fn with_piece(alloc: Global, numbers: &mut Numbers, text: Vec<u8>) -> Result<Vec<u8>, AllocError> {
    let at = numbers.below(text.len() as u64) as usize;
    let taken = numbers.below(2) as usize;
    let piece = one_of(numbers, PIECES);
    let (before, after) = text.as_slice().split_at(at.min(text.len()));
    let mut made = Vec::from_slice(alloc, before)?;
    made.extend_from_slice(piece.as_bytes())?;
    made.extend_from_slice(after.get(taken..).unwrap_or(&[]))?;
    Ok(made)
}

fn text_of(alloc: Global, numbers: &mut Numbers) -> Result<Vec<u8>, AllocError> {
    let mut text = with_other_lines(alloc, numbers)?;
    for _ in 0..numbers.below(3) {
        text = with_piece(alloc, numbers, text)?;
    }
    Ok(text)
}

fn number_of(kind: Option<FileKind>) -> usize {
    match kind {
        None => 0,
        Some(FileKind::Show) => 1,
        Some(FileKind::Setup) => 2,
        Some(FileKind::World) => 3,
        Some(FileKind::Script) => 4,
        Some(FileKind::Schedule) => 5,
    }
}

/// Each text has the kind that reading its document gives, and of each kind there are many. So there are of shows that a look at
/// the lines alone tells, and of those that it leaves to the document.
#[test]
fn kinds_are_those_of_documents(rt: HostRuntime) -> Result<(), Fail> {
    let mut numbers = Numbers { state: 20 };
    let mut counts = [0usize; 6];
    let mut sure = 0usize;
    for case in 0..CASES {
        let text = text_of(rt.alloc(), &mut numbers)?;
        if let Ok(text) = std::str::from_utf8(text.as_slice()) {
            let read = number_of(kind_read(rt.alloc(), text)?);
            let told = number_of(kind_of(rt.alloc(), text)?);
            assert_eq!(rt; told, read, "case {case}: {text}");
            if let Some(count) = counts.get_mut(read) {
                *count = count.saturating_add(1);
            }
            if is_surely_show(text) {
                sure = sure.saturating_add(1);
            }
        }
    }
    assert!(rt; counts.iter().all(|count| CASES / 200 < *count));
    let shows = counts[1];
    let left = shows.saturating_sub(sure);
    assert!(rt;
        CASES / 20 < sure && CASES / 20 < left,
        "the quick look was sure of {sure} of {shows} shows"
    );
    Ok(())
}
