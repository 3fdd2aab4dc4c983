//! A recording's beginning, made by hand from the description of pcapng, whose program has a name that is filled up.

use arrayvec::ArrayVec;
use sacn_record::begin;
use std::test::*;

const BEGINNING: &[u8] = b"\
    \x0a\x0d\x0d\x0a\x30\x00\x00\x00\x4d\x3c\x2b\x1a\x01\x00\x00\x00\xff\xff\xff\xff\xff\xff\xff\xff\
    \x04\x00\x0a\x00\x73\x61\x63\x6e\x20\x31\x2e\x30\x2e\x30\x00\x00\x00\x00\x00\x00\x30\x00\x00\x00\
    \x01\x00\x00\x00\x20\x00\x00\x00\xe4\x00\x00\x00\x00\x00\x00\x00\x09\x00\x01\x00\x06\x00\x00\x00\
    \x00\x00\x00\x00\x20\x00\x00\x00";

#[test]
fn a_name_of_ten_octets_is_filled_up_to_twelve(rt: HostRuntime) {
    let mut file: ArrayVec<u8, 128> = ArrayVec::new();
    let begun = begin(&mut file, "sacn 1.0.0").is_ok();
    assert!(rt; begun & (file.as_slice() == BEGINNING));
}
