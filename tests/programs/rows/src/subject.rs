//! What a story is about: one of the families of calls.
use crate::console::Console;
use crate::cues::Cues;
use crate::edges::Edges;
use crate::loops::Loops;
use crate::monitors::Monitors;
use crate::node::Node;
use crate::packets::Packets;
use crate::patch::Patching;
use crate::recordings::Recordings;
use crate::sources::Sources;
use crate::step::{Step, StepFault};
use crate::texts;
use crate::viewers::Viewers;
use crate::watches::Watches;
use crate::worlds::Worlds;
use std::alloc::Global;

/// The subject of a story, by its family.
#[derive(Drop)]
pub enum Subject {
    Console(Console),
    Cues(Cues),
    Edges(Edges),
    Loops(Loops),
    Monitors(Monitors),
    Node(Node),
    Packets(Packets),
    Patch(Patching),
    Recordings(Recordings),
    Sources(Sources),
    Texts,
    Viewers(Viewers),
    Watches(Watches),
    Worlds(Worlds),
}

impl Subject {
    /// A fresh subject of a family.
    ///
    /// # Errors
    ///
    /// There is no such family, or no memory.
    pub fn new(alloc: Global, family: &str) -> Result<Self, StepFault> {
        match family {
            "console" => Ok(Subject::Console(Console::new())),
            "cues" => Ok(Subject::Cues(Cues::new(alloc))),
            "edges" => Ok(Subject::Edges(Edges::new(alloc))),
            "loops" => Ok(Subject::Loops(Loops::new(alloc))),
            "monitor" => Ok(Subject::Monitors(Monitors::new(alloc)?)),
            "node" => Ok(Subject::Node(Node::new())),
            "packets" => Ok(Subject::Packets(Packets::new(alloc))),
            "patch" => Ok(Subject::Patch(Patching::new(alloc))),
            "recordings" => Ok(Subject::Recordings(Recordings::new(alloc))),
            "sources" => Ok(Subject::Sources(Sources::new(alloc)?)),
            "texts" => Ok(Subject::Texts),
            "viewer" => Ok(Subject::Viewers(Viewers::new(alloc)?)),
            "watch" => Ok(Subject::Watches(Watches::new(alloc)?)),
            "world" => Ok(Subject::Worlds(Worlds::new(alloc))),
            _ => Err(StepFault::UnknownFamily),
        }
    }

    /// Makes the step's call.
    ///
    /// # Errors
    ///
    /// There is no such call, or no memory.
    pub fn answer(&mut self, step: &mut Step<'_>) -> Result<(), StepFault> {
        match self {
            Subject::Console(console) => console.answer(step),
            Subject::Cues(cues) => cues.answer(step),
            Subject::Edges(edges) => edges.answer(step),
            Subject::Loops(loops) => loops.answer(step),
            Subject::Monitors(monitors) => monitors.answer(step),
            Subject::Node(node) => node.answer(step),
            Subject::Packets(packets) => packets.answer(step),
            Subject::Patch(patch) => patch.answer(step),
            Subject::Recordings(recordings) => recordings.answer(step),
            Subject::Sources(sources) => sources.answer(step),
            Subject::Texts => texts::answer(step),
            Subject::Viewers(viewers) => viewers.answer(step),
            Subject::Watches(watches) => watches.answer(step),
            Subject::Worlds(worlds) => worlds.answer(step),
        }
    }
}
