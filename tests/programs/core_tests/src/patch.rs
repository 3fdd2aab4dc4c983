//! A patch, where requests for memory are refused.
use sacn_packets::SLOTS;
use sacn_patch::{LevelOf, Patch, PatchFault};
use std::test::*;

// Channel 1 at 4660, which is 18 and 52, and every other channel full.
struct Levels;

impl LevelOf for Levels {
    ghost use Rattle.std.specs.Prelude.{ℕ, ◌==◌, if◌then◌else◌};

    ghost level = { λ _ channel. if channel == 1 then 4660 else 65535 };

    fn level_of(&self, channel: u16) -> u16 {
        if channel == 1 { 4660 } else { 65535 }
    }
}

// The slots of a universe, over an array that was not clear before.
fn frame(patch: &Patch, universe: u16) -> [u8; SLOTS] {
    let mut slots = [7; SLOTS];
    patch.fill(universe, &Levels, &mut slots);
    slots
}

// Adds channel 1 at two slots. A refused request leaves the patch as it was, and is made again.
fn add_at_last(patch: &mut Patch, slot: u16, before: &[u8; SLOTS]) -> bool {
    match patch.add(1, 1, slot, true) {
        Ok(()) => true,
        Err(fault) => {
            let is_left = (fault == PatchFault::OutOfMemory) & (frame(patch, 1) == *before);
            is_left & (patch.add(1, 1, slot, true) == Ok(()))
        }
    }
}

// The same of a copy.
fn copy_at_last(patch: &Patch) -> Result<Patch, PatchFault> {
    match patch.try_copy() {
        Err(PatchFault::OutOfMemory) => patch.try_copy(),
        answer => answer,
    }
}

// A call that meets a refused request for memory leaves the patch as it was, and can be made again.
// `rt try --test --fail-alloc N` refuses the Nth request.
#[test]
fn refused_requests(rt: HostRuntime) -> Result<(), Fail> {
    let mut patch = Patch::new(rt.alloc());
    let mut wanted = [0; SLOTS];
    for slot in 1..40u16 {
        if slot % 2 == 1 {
            let is_added = add_at_last(&mut patch, slot, &wanted);
            wanted[slot as usize - 1] = 18;
            wanted[slot as usize] = 52;
            assert!(rt; is_added & (frame(&patch, 1) == wanted), "at slot {slot}");
        }
    }
    let copy = copy_at_last(&patch)?;
    assert!(rt; (frame(&copy, 1) == wanted) & (frame(&patch, 1) == wanted));
    Ok(())
}
