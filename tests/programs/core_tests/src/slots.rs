//! The merge: rows, and the lanes beside the plain loop.

use sacn_packets::{FRAME_OCTETS, SLOTS};
use sacn_sources::slots::plain;
use sacn_sources::{Layer, Levels, frame_bytes, merge_into};
use std::test::Fail;

// The slots that begin with these levels and are at 0 after them.
fn beginning_with(first: [u8; 3]) -> [u8; SLOTS] {
    let mut slots = [0; SLOTS];
    slots[..3].copy_from_slice(&first);
    slots
}

fn merge_of_three<'a>(first: Layer<'a>, second: Layer<'a>, third: Layer<'a>) -> [u8; SLOTS] {
    let mut slots = [77; SLOTS];
    merge_into(&[first, second, third], &mut slots);
    slots
}

fn layer(priority: u8, levels: &Levels) -> Layer<'_> {
    Layer { priority, levels }
}

#[test]
fn follows_the_greatest_priority_in_every_order(rt: HostRuntime) {
    let desk = Levels::of(&[10, 200]);
    let backup = Levels::of(&[50, 20, 7]);
    let house = Levels::of(&[255; SLOTS]);
    let (a, b, c) = (layer(100, &desk), layer(100, &backup), layer(90, &house));
    let orders = [
        merge_of_three(a, b, c),
        merge_of_three(a, c, b),
        merge_of_three(b, a, c),
        merge_of_three(b, c, a),
        merge_of_three(c, a, b),
        merge_of_three(c, b, a),
    ];
    // the others are gone
    let mut slots = [77; SLOTS];
    merge_into(&[c], &mut slots);
    assert!(rt; (orders == [beginning_with([50, 200, 7]); 6]) & (slots == [255; SLOTS]));
}

#[test]
fn a_shorter_packet_leaves_nothing_behind(rt: HostRuntime) {
    let mut levels = Levels::of(&[9; SLOTS]);
    let whole = (levels.given(), levels.at(511));
    levels.set(&[1, 2]);
    let short = (levels.given(), levels.at(1), levels.at(2), levels.at(511));
    let mut slots = [77; SLOTS];
    merge_into(&[layer(100, &levels)], &mut slots);
    let is_merged = slots == beginning_with([1, 2, 0]);
    assert_eq!(rt; (whole, short, is_merged), ((512, 9), (2, 2, 0, 0), true));
}

#[test]
fn none_and_one(rt: HostRuntime) {
    let mut slots = [77; SLOTS];
    merge_into(&[], &mut slots);
    let is_dark = slots == [0; SLOTS];

    // the least priority is followed where there is no other
    let ramp = Levels::of(&[1, 2, 3]);
    merge_into(&[layer(0, &ramp)], &mut slots);
    assert!(rt; is_dark & (slots == beginning_with([1, 2, 3])));
}

#[test]
fn a_frame_is_the_start_code_and_the_slots(rt: HostRuntime) {
    let mut frame = [77; FRAME_OCTETS];
    frame_bytes(&beginning_with([50, 200, 7]), &mut frame);
    let begins = frame.starts_with(&[0, 50, 200, 7, 0]) & (frame[512] == 0);
    frame_bytes(&[255; SLOTS], &mut frame);
    assert_eq!(rt;
        (begins, frame[0], frame[1], frame[512]),
        (true, 0, 255, 255)
    );
}

// A fixed row of numbers: the linear congruential generator of "Numerical Recipes".
#[derive(Drop)]
struct Generator {
    state: u32,
}

impl Generator {
    fn octet(&mut self) -> u8 {
        self.state = self
            .state
            .wrapping_mul(1_664_525)
            .wrapping_add(1_013_904_223);
        (self.state >> 24) as u8
    }

    // A half of the layers give all slots, and the others from 0 to 510.
    fn levels(&mut self) -> Levels {
        let mut given = [0; SLOTS];
        for level in given.iter_mut() {
            *level = self.octet();
        }
        let count = if self.octet() < 128 {
            SLOTS
        } else {
            usize::from(self.octet()) + usize::from(self.octet())
        };
        Levels::of(&given[..count])
    }
}

#[test]
fn twins_agree(rt: HostRuntime) -> Result<(), Fail> {
    let mut generator = Generator { state: 1 };
    for round in 0..40_u32 {
        for count in 0..18_usize {
            let mut held = Vec::new(rt.alloc());
            for _ in 0..count {
                held.push(generator.levels())?;
            }
            let mut layers = Vec::new(rt.alloc());
            for levels in held.iter() {
                // in every other round all priorities are equal
                let priority = if round % 2 == 0 {
                    100
                } else {
                    generator.octet() / 64 * 50
                };
                layers.push(layer(priority, levels))?;
            }
            let (mut slots, mut plain) = ([1; SLOTS], [2; SLOTS]);
            merge_into(&layers, &mut slots);
            plain::merge_into(&layers, &mut plain);
            assert_eq!(rt; slots, plain, "round {round}, {count} layers");
        }
    }
    Ok(())
}
