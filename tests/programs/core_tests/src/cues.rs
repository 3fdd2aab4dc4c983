//! A cue list and its player, where requests for memory are refused.
use sacn_cues::*;
use std::alloc::Global;
use std::test::*;

/// Adds a cue that sets channel 1 to its number at once. A refused request is made again: the number is then free and the cues
/// before it are there, or one of these is refused.
fn add_at_last(alloc: Global, list: &mut CueList, number: u16) -> Result<(), CueFault> {
    let levels: [(u16, u16); 1] = [(1, number)];
    for _ in 0..2 {
        if let Ok(levels) = Vec::from_slice(alloc, &levels) {
            let added = list.add(Cue {
                number,
                up: 0,
                down: 0,
                levels,
            });
            if added != Err(CueFault::OutOfMemory) {
                return added;
            }
        }
    }
    Err(CueFault::OutOfMemory)
}

/// A list of cues that set channel 1 to 1, 2 .. 12, of which none is added again.
fn twelve_cues(alloc: Global) -> Result<CueList, CueFault> {
    let mut list = CueList::new(alloc);
    for number in 1..13u16 {
        add_at_last(alloc, &mut list, number)?;
        let again = add_at_last(alloc, &mut list, number);
        if again != Err(CueFault::NumberTaken) {
            return Err(CueFault::Full);
        }
    }
    Ok(list)
}

fn copy_at_last(list: &CueList) -> Result<CueList, CueFault> {
    match list.try_copy() {
        Err(CueFault::OutOfMemory) => list.try_copy(),
        answer => answer,
    }
}

/// A copy of a list, and a copy of that.
fn copies(list: &CueList) -> Result<(CueList, CueList), CueFault> {
    let copy = copy_at_last(list)?;
    let spare = copy_at_last(&copy)?;
    Ok((copy, spare))
}

/// A player of one list, or of the other one where the first was refused for want of memory.
fn player_at_last(alloc: Global, lists: (CueList, CueList)) -> Result<Player, CueFault> {
    match Player::new(alloc, lists.0) {
        Err(CueFault::OutOfMemory) => Player::new(alloc, lists.1),
        answer => answer,
    }
}

/// Whether cues that set channel 1 to 1, 2 .. 12 are played, and then none is left.
fn plays_twelve(player: &mut Player) -> bool {
    for number in 1..13u16 {
        if player.go(0) != Ok(()) || player.level(0, 1) != number {
            return false;
        }
    }
    player.go(0) == Err(PlayFault::NoCue)
}

fn are_played(alloc: Global) -> Result<bool, CueFault> {
    let list = twelve_cues(alloc)?;
    let mut player = player_at_last(alloc, copies(&list)?)?;
    Ok(plays_twelve(&mut player))
}

/// Each call that takes memory says so where a request is refused, leaves what it is called on as it was, and can be made
/// again. `rt try --test --fail-alloc N` refuses the Nth request.
#[test]
fn refused_requests(rt: HostRuntime) {
    assert_eq!(rt; are_played(rt.alloc()), Ok(true));
}
