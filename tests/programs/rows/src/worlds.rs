//! World files, schedules, worlds and their simulations.
use crate::comparison::compare;
use crate::loops::push;
use crate::node::say_node_taken;
use crate::sources::say_held;
use crate::step::{Step, StepFault};
use crate::texts::say_one;
use fixtures::packets::CID;
use sacn_console::Show;
use sacn_edge::WriterOut;
use sacn_node::NodeSetup;
use sacn_text::sim_text;
use sacn_world::{Answer, Event, TextFault, World, read_schedule, read_world};
use std::alloc::Global;
use std::mem;

/// The texts of a world and of a schedule, what was read of them, the world that was made, and what a simulation wrote.
#[derive(Drop)]
pub struct Worlds {
    alloc: Global,
    text: String,
    shows: Vec<(Show, u8)>,
    setups: Vec<NodeSetup>,
    schedule: String,
    events: Vec<Event>,
    world: Option<World>,
    output: Vec<u8>,
}

impl Worlds {
    /// Nothing was read.
    pub fn new(alloc: Global) -> Self {
        Worlds {
            alloc,
            text: String::new(alloc),
            shows: Vec::new(alloc),
            setups: Vec::new(alloc),
            schedule: String::new(alloc),
            events: Vec::new(alloc),
            world: None,
            output: Vec::new(alloc),
        }
    }

    /// Makes the step's call.
    ///
    /// # Errors
    ///
    /// There is no such call, what it needs isn't there, or no memory.
    pub fn answer(&mut self, step: &mut Step<'_>) -> Result<(), StepFault> {
        match step.word() {
            "world" => {
                let text = step.text();
                self.text = String::from_str(self.alloc, text)?;
                self.read(step, text);
            }
            "edit" => {
                let text = edited_text(step, self.text.as_str())?;
                self.read(step, text.as_str());
            }
            "also" => self.also(step)?,
            "console" => self.say_console(step),
            "node" => self.say_node(step),
            "schedule" => self.schedule(step)?,
            "event" => self.say_event(step),
            "make" => self.make(step),
            "run" => self.run(step)?,
            "polls" => self.polls(step)?,
            "place" => self.say_place(step)?,
            "held" => self.say_held(step)?,
            "simulate" => self.simulate(step),
            "written" => compare(step, self.output.as_slice())?,
            word => {
                let event = event_in(step, word)?;
                self.step(step, &event)?;
            }
        }
        Ok(())
    }

    /// Reads a world's file.
    fn read(&mut self, step: &mut Step<'_>, text: &str) {
        match read_world(self.alloc, text) {
            Ok((shows, setups)) => {
                step.say(&format_args!("consoles {}", shows.len()));
                step.say(&format_args!("nodes {}", setups.len()));
                self.shows = shows;
                self.setups = setups;
            }
            Err(fault) => step.say_name(&fault),
        }
    }

    /// Reads a further world's file, and adds its consoles.
    fn also(&mut self, step: &mut Step<'_>) -> Result<(), StepFault> {
        let Ok((shows, _)) = read_world(self.alloc, step.text()) else {
            return Err(StepFault::NotReady);
        };
        for show in shows {
            push(&mut self.shows, show)?;
        }
        Ok(())
    }

    fn say_console(&self, step: &mut Step<'_>) {
        let Some((show, first)) = self.shows.get(step.number_to(1000) as usize) else {
            step.say(&"none");
            return;
        };
        step.say(&format_args!("first {first} priority {}", show.priority()));
        step.say(&"universes");
        step.say_universes(show.universes());
        step.say(&"name");
        step.say_name(&show.name());
    }

    fn say_node(&self, step: &mut Step<'_>) {
        let Some(setup) = self.setups.get(step.number_to(1000) as usize) else {
            step.say(&"none");
            return;
        };
        step.say(&format_args!("udp {} ports", setup.udp_port()));
        for port in setup.ports() {
            step.say(&port.number());
        }
    }

    /// Reads a schedule.
    fn schedule(&mut self, step: &mut Step<'_>) -> Result<(), StepFault> {
        self.schedule = String::from_str(self.alloc, step.text())?;
        match read_schedule(self.alloc, step.text()) {
            Ok(events) => {
                step.say(&format_args!("events {}", events.len()));
                self.events = events;
            }
            Err(fault) => step.say_name(&fault),
        }
        Ok(())
    }

    fn say_event(&self, step: &mut Step<'_>) {
        match self.events.get(step.number_to(1000) as usize) {
            Some(event) => say_event(step, event),
            None => step.say(&"none"),
        }
    }

    /// Makes a world of the consoles and nodes that were read.
    fn make(&mut self, step: &mut Step<'_>) {
        let shows = mem::replace(&mut self.shows, Vec::new(self.alloc));
        let setups = mem::replace(&mut self.setups, Vec::new(self.alloc));
        match World::new(self.alloc, shows, setups) {
            Ok(world) => {
                self.world = Some(world);
                step.say(&"ok");
            }
            Err(fault) => step.say_name(&fault),
        }
    }

    fn step(&mut self, step: &mut Step<'_>, event: &Event) -> Result<(), StepFault> {
        match self.world_mut()?.step(event) {
            Ok(answer) => say_answer(step, &answer),
            Err(fault) => step.say_name(&fault),
        }
        Ok(())
    }

    /// Takes all events of the schedule, and says the answers, each after a `;` but the first; or the step that is refused and why.
    fn run(&mut self, step: &mut Step<'_>) -> Result<(), StepFault> {
        let events = mem::replace(&mut self.events, Vec::new(self.alloc));
        match self.world_mut()?.run(events.as_slice()) {
            Ok(answers) => {
                for (at, answer) in answers.iter().enumerate() {
                    if at > 0 {
                        step.say(&";");
                    }
                    say_answer(step, answer);
                }
            }
            Err(stopped) => {
                step.say(&format_args!("stopped {}", stopped.step));
                step.say_name(&stopped.fault);
            }
        }
        Ok(())
    }

    /// Polls console 0 so many times, a second apart from 0 on, and says how often it sent.
    fn polls(&mut self, step: &mut Step<'_>) -> Result<(), StepFault> {
        let count = step.number_to(10_000);
        let world = self.world_mut()?;
        let mut sent = 0u64;
        for second in 0..count {
            let event = Event::Poll(0, second.saturating_mul(1000));
            if matches!(world.step(&event), Ok(Answer::Sent(_))) {
                sent = sent.saturating_add(1);
            }
        }
        step.say(&format_args!("sent {sent}"));
        Ok(())
    }

    /// The world.
    fn world_mut(&mut self) -> Result<&mut World, StepFault> {
        match &mut self.world {
            Some(world) => Ok(world),
            None => Err(StepFault::NotReady),
        }
    }

    /// Says the place of the packet that a node holds of the source.
    fn say_place(&mut self, step: &mut Step<'_>) -> Result<(), StepFault> {
        let (node, universe) = (step.number_to(1000) as usize, step.short());
        match self.world_mut()?.place(node, &CID, universe) {
            Some(place) => step.say(&place),
            None => step.say(&"none"),
        }
        Ok(())
    }

    /// Says what a node holds of the source.
    fn say_held(&mut self, step: &mut Step<'_>) -> Result<(), StepFault> {
        let (node, universe) = (step.number_to(1000) as usize, step.short());
        say_held(step, self.world_mut()?.held(node, universe, &CID));
        Ok(())
    }

    /// Simulates the world and the schedule, as they were read last.
    fn simulate(&mut self, step: &mut Step<'_>) {
        let mut out = WriterOut::new(Vec::new(self.alloc));
        let answer = sim_text(
            self.alloc,
            self.text.as_str(),
            self.schedule.as_str(),
            &mut out,
        );
        match answer {
            Ok(()) => step.say(&"ok"),
            Err(fault) => step.say(&format_args!("fault {}", fault.number())),
        }
        self.output = out.writer;
    }
}

/// A text with that before the step in place of its lines from the first number on up to the second, counted from 0.
fn edited_text(step: &mut Step<'_>, text: &str) -> Result<String, StepFault> {
    let (from, to) = (step.number() as usize, step.number() as usize);
    let mut whole = String::new(step.alloc());
    for (at, line) in text.lines().enumerate() {
        if at == from {
            whole.push_str(step.text())?;
        }
        if at < from || at >= to {
            whole.push_str(line)?;
            whole.push('\n')?;
        }
    }
    Ok(whole)
}

/// The event that a line of a schedule says.
fn event_in(step: &mut Step<'_>, word: &str) -> Result<Event, StepFault> {
    let mut line = String::from_str(step.alloc(), word)?;
    for _ in 0..6 {
        if !step.has_word() {
            break;
        }
        line.push(' ')?;
        line.push_str(step.word())?;
    }
    match read_schedule(step.alloc(), line.as_str()) {
        Ok(mut events) => events.pop().ok_or(StepFault::UnknownCall),
        Err(TextFault::UnknownWord(_)) => Err(StepFault::UnknownCall),
        Err(_) => Err(StepFault::Word),
    }
}

fn say_answer(step: &mut Step<'_>, answer: &Answer) {
    match answer {
        Answer::Ordered(Ok(())) => step.say(&"ordered"),
        Answer::Ordered(Err(fault)) => step.say_name(fault),
        Answer::Sent(number) => step.say(&format_args!("sent {number}")),
        Answer::Idle => step.say(&"idle"),
        Answer::Taken(taken) => say_node_taken(step, *taken),
        Answer::Shown(frame) => {
            step.say(&"shown");
            step.say_octets(frame);
        }
        Answer::NoSuchPort => step.say(&"NoSuchPort"),
        Answer::Restarted => step.say(&"restarted"),
    }
}

fn say_event(step: &mut Step<'_>, event: &Event) {
    match event {
        Event::Order(console, now, command) => {
            step.say(&format_args!("order {console} {now}"));
            say_one(step, *command);
        }
        Event::Poll(console, now) => step.say(&format_args!("poll {console} {now}")),
        Event::Deliver(at, node, now) => step.say(&format_args!("deliver {at} {node} {now}")),
        Event::Look(node, port, now) => step.say(&format_args!("look {node} {port} {now}")),
        Event::RestartConsole(at, first) => {
            step.say(&format_args!("restart-console {at} {first}"));
        }
        Event::RestartNode(node) => step.say(&format_args!("restart-node {node}")),
        Event::Noise(node, now, octets) => {
            step.say(&format_args!("noise {node} {now}"));
            step.say_octets(octets.as_slice());
        }
    }
}
