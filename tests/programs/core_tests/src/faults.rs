//! The numbers of faults.
use sacn_console::{ConsoleFault, ShowFault};
use sacn_cues::{CueFault, PlayFault};
use sacn_discovery::DiscoveryFault;
use sacn_node::SetupFault;
use sacn_packets::PacketFault;
use sacn_patch::PatchFault;
use sacn_sources::TableFault;
use std::test::*;

#[test]
fn faults_have_numbers(rt: HostRuntime) {
    let of_nodes = [
        SetupFault::OutOfMemory.number(),
        SetupFault::Toml.number(),
        SetupFault::MissingKey.number(),
        SetupFault::UnknownKey.number(),
        SetupFault::KeyValue.number(),
        SetupFault::Version.number(),
        SetupFault::PortTaken.number(),
        SetupFault::Limit.number(),
        SetupFault::RangeEnd.number(),
        SetupFault::Overlap.number(),
        TableFault::OutOfMemory.number(),
        DiscoveryFault::OutOfMemory.number(),
        PacketFault::TooShort.number(),
        PacketFault::RootVector.number(),
        PacketFault::TooManyUniverses.number(),
    ];
    let of_consoles = [
        ShowFault::OutOfMemory.number(),
        ShowFault::Toml.number(),
        ShowFault::MissingKey.number(),
        ShowFault::UnknownKey.number(),
        ShowFault::KeyValue.number(),
        ShowFault::Version.number(),
        ShowFault::Cue.number(),
        ShowFault::Patch.number(),
        ConsoleFault::NoCue.number(),
        ConsoleFault::ChannelRange.number(),
        ConsoleFault::NoUniverse.number(),
        ConsoleFault::Ending.number(),
        ConsoleFault::Running.number(),
        ConsoleFault::Stopped.number(),
    ];
    let of_cues = [
        CueFault::OutOfMemory.number(),
        CueFault::NumberTaken.number(),
        CueFault::ChannelRange.number(),
        CueFault::FadeRange.number(),
        CueFault::Full.number(),
        PlayFault::NoCue.number(),
        PlayFault::ChannelRange.number(),
        PatchFault::OutOfMemory.number(),
        PatchFault::ChannelRange.number(),
        PatchFault::SlotRange.number(),
        PatchFault::SlotTaken.number(),
    ];
    assert_eq!(rt; of_nodes, [1, 2, 3, 4, 5, 6, 7, 8, 9, 10, 1, 1, 1, 7, 18]);
    assert_eq!(rt; of_consoles, [1, 2, 3, 4, 5, 6, 7, 8, 1, 2, 3, 4, 5, 6]);
    assert_eq!(rt; of_cues, [1, 2, 3, 4, 5, 1, 2, 1, 2, 3, 4]);
}
