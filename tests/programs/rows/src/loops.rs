//! The loops of a node, a gateway, a console and a desk, over devices in memory.
use crate::comparison::compare;
use crate::datagram::{incoming_in, sender_of};
use crate::step::{Step, StepFault};
use crate::tellers::{ListOrders, Tally};
use sacn_console::{Command, ConsoleCore, read_script, read_show};
use sacn_desk::{DeskLink, Opening, run_desk};
use sacn_edge::memory::{Incoming, ListClock, MemoryLink};
use sacn_edge::{ConsoleReport, WriterOut, run_console, run_node};
use sacn_gateway::{GatewayNode, Interface, Span, run_gateway};
use sacn_machine::memory::{MemoryReceiver, TimedArrival};
use sacn_machine::memory_device::MemoryDevice;
use sacn_machine::{DeviceFault, Octets4, Took};
use sacn_node::{NodeCore, read_node};
use std::alloc::Global;
use std::mem;

/// What comes to a loop, the orders that it is given, and what it wrote and handed over.
#[derive(Drop)]
pub struct Loops {
    incoming: Vec<TimedArrival>,
    senders: Vec<Octets4>,
    interfaces: Vec<Interface<'static, MemoryDevice>>,
    orders: Vec<(u64, Command)>,
    output: Vec<u8>,
    sends: Vec<Vec<u8>>,
}

impl Loops {
    /// Nothing comes, and nothing is ordered.
    pub fn new(alloc: Global) -> Self {
        Loops {
            incoming: Vec::new(alloc),
            senders: Vec::new(alloc),
            interfaces: Vec::new(alloc),
            orders: Vec::new(alloc),
            output: Vec::new(alloc),
            sends: Vec::new(alloc),
        }
    }

    /// Makes the step's call.
    ///
    /// # Errors
    ///
    /// There is no such call, its text isn't read, or no memory.
    pub fn answer(&mut self, step: &mut Step<'_>) -> Result<(), StepFault> {
        match step.word() {
            "comes" => {
                let incoming = incoming_in(step)?;
                push(&mut self.incoming, incoming)
            }
            "carry" => self.carry(step),
            "sender" => {
                let sender = sender_of(step.word())?;
                push(&mut self.senders, sender)
            }
            "interface" => self.interface(step),
            "script" => self.script(step),
            "node" => self.node(step),
            "gateway" => self.gateway(step),
            "console" => self.console(step),
            "desk" => self.desk(step),
            "opened" => self.opened(step),
            "datagram" => {
                self.say_datagram(step);
                Ok(())
            }
            "offered" => {
                self.say_offers(step);
                Ok(())
            }
            "written" => compare(step, self.output.as_slice()),
            _ => Err(StepFault::UnknownCall),
        }
    }

    /// A datagram that was handed over comes.
    fn carry(&mut self, step: &mut Step<'_>) -> Result<(), StepFault> {
        let now = step.number();
        let sender = sender_of(step.word())?;
        let Some(octets) = self.sends.get(step.number_to(1000) as usize) else {
            return Err(StepFault::NotReady);
        };
        let octets = Vec::from_slice(step.alloc(), octets.as_slice())?;
        push(
            &mut self.incoming,
            TimedArrival::Datagram(now, sender, octets),
        )
    }

    /// An interface of a port, whose device answers these words and then `whole`.
    fn interface(&mut self, step: &mut Step<'_>) -> Result<(), StepFault> {
        let port = step.octet();
        let mut answers = Vec::new(step.alloc());
        for word in step.words()? {
            push(&mut answers, answer_of(word)?)?;
        }
        let device = MemoryDevice::new(step.alloc(), answers);
        push(&mut self.interfaces, Interface::new(port, "memory", device))
    }

    /// Says what an interface, counted from 0, was offered: of each packet the moment and slot 1.
    fn say_offers(&self, step: &mut Step<'_>) {
        let Some(interface) = self.interfaces.get(step.number_to(255) as usize) else {
            step.say(&"none");
            return;
        };
        let offers = interface.device().offers();
        if offers.is_empty() {
            step.say(&"none");
        }
        for offer in offers {
            step.say(&format_args!("{} {}", offer.now, offer.packet[5]));
        }
    }

    fn script(&mut self, step: &mut Step<'_>) -> Result<(), StepFault> {
        match read_script(step.alloc(), step.text()) {
            Ok(orders) => {
                self.orders = orders;
                Ok(())
            }
            Err(_) => Err(StepFault::NotReady),
        }
    }

    /// What comes, as a link brings it.
    fn link(&mut self, alloc: Global, failing: Option<u64>) -> Result<MemoryLink, StepFault> {
        let mut list = Vec::new(alloc);
        for arrival in mem::replace(&mut self.incoming, Vec::new(alloc)) {
            let incoming = match arrival {
                TimedArrival::Nothing(_) => Incoming::Nothing,
                TimedArrival::Failed(_) => Incoming::Failed,
                TimedArrival::Datagram(_, _, octets) => Incoming::Datagram(octets),
            };
            push(&mut list, incoming)?;
        }
        Ok(MemoryLink::new(alloc, list, failing))
    }

    fn node(&mut self, step: &mut Step<'_>) -> Result<(), StepFault> {
        let readings = readings_in(step)?;
        let turns = readings.len() as u64;
        let mut clock = ListClock::new(readings);
        let mut link = self.link(step.alloc(), None)?;
        let mut core = node_of(step)?;
        let mut out = WriterOut::new(Vec::new(step.alloc()));
        if let Ok(report) = run_node(&mut link, &mut clock, &mut out, &mut core, turns) {
            step.say(&format_args!("received {}", report.received));
            step.say(&format_args!("failed {}", report.failed));
        }
        self.output = out.writer;
        Ok(())
    }

    fn gateway(&mut self, step: &mut Step<'_>) -> Result<(), StepFault> {
        let core = node_of(step)?;
        let incoming = mem::replace(&mut self.incoming, Vec::new(step.alloc()));
        let span = Span {
            turns: step.number(),
            until: u64::MAX,
        };
        let mut receiver = MemoryReceiver::new(incoming, step.number());
        let mut tally = Tally::none();
        let mut out = WriterOut::new(Vec::new(step.alloc()));
        let senders = self.senders.as_slice();
        let interfaces = mem::replace(&mut self.interfaces, Vec::new(step.alloc()));
        let mut nodes = Vec::new(step.alloc());
        push(&mut nodes, GatewayNode::new(core, interfaces))?;
        if run_gateway(
            &mut receiver,
            &mut tally,
            &mut out,
            nodes.as_mut_slice(),
            senders,
            span,
        )
        .is_ok()
        {
            tally.say(step);
        }
        self.output = out.writer;
        if let Some(node) = nodes.pop() {
            self.interfaces = node.into_interfaces();
        }
        Ok(())
    }

    fn console(&mut self, step: &mut Step<'_>) -> Result<(), StepFault> {
        let failing = match step.word() {
            "works" => None,
            "fails" => Some(step.number()),
            _ => return Err(StepFault::Word),
        };
        let readings = readings_in(step)?;
        let turns = readings.len() as u64;
        let mut clock = ListClock::new(readings);
        let mut link = self.link(step.alloc(), failing)?;
        let mut core = console_of(step)?;
        let orders = self.orders.as_slice();
        let report = run_console(&mut link, &mut clock, &mut core, orders, turns);
        say_report(step, &report);
        self.keep(step, &link)
    }

    fn desk(&mut self, step: &mut Step<'_>) -> Result<(), StepFault> {
        let mut link = self.link(step.alloc(), None)?;
        self.run(step, &mut link)?;
        self.keep(step, &link)
    }

    /// A desk that opens its streams.
    fn opened(&mut self, step: &mut Step<'_>) -> Result<(), StepFault> {
        let link = self.link(step.alloc(), None)?;
        let Ok(mut opening) = Opening::over(step.alloc(), link) else {
            return Err(StepFault::Memory);
        };
        self.run(step, &mut opening)?;
        self.keep(step, opening.link())
    }

    /// Runs a desk over a link.
    fn run<L: DeskLink>(&mut self, step: &mut Step<'_>, link: &mut L) -> Result<(), StepFault> {
        let readings = readings_in(step)?;
        let mut core = console_of(step)?;
        let list = mem::replace(&mut self.orders, Vec::new(step.alloc()));
        let mut orders = ListOrders::new(list, readings.len());
        let mut clock = ListClock::new(readings);
        let report = run_desk(link, &mut clock, &mut orders, &mut core, 1000);
        step.say(&format_args!("accepted {}", orders.accepted));
        say_report(step, &report);
        Ok(())
    }

    /// Keeps what was handed over.
    fn keep(&mut self, step: &Step<'_>, link: &MemoryLink) -> Result<(), StepFault> {
        self.sends.clear();
        for octets in link.handed() {
            let octets = Vec::from_slice(step.alloc(), octets.as_slice())?;
            push(&mut self.sends, octets)?;
        }
        Ok(())
    }

    /// Says of a datagram that was handed over, counted from 0, its length, and of one of 512 slots the number, the options, the
    /// universe and the slots; `none` where there is no such datagram.
    fn say_datagram(&self, step: &mut Step<'_>) {
        let Some(octets) = self.sends.get(step.number_to(1000) as usize) else {
            step.say(&"none");
            return;
        };
        step.say(&octets.len());
        if octets.len() == 638 {
            step.say(&format_args!("number {}", octets[111]));
            step.say(&format_args!("options {}", octets[112]));
            step.say(&format_args!("universe {}", octets[114]));
            step.say(&"slots");
            step.say_octets(&octets.as_slice()[126..]);
        }
    }
}

/// Adds an item to a list.
///
/// # Errors
///
/// No memory.
pub fn push<T: Drop>(list: &mut Vec<T>, item: T) -> Result<(), StepFault> {
    match list.push(item) {
        Ok(()) => Ok(()),
        Err(_) => Err(StepFault::Memory),
    }
}

/// The words left as the readings of a clock.
fn readings_in(step: &mut Step<'_>) -> Result<Vec<u64>, StepFault> {
    let mut readings = Vec::new(step.alloc());
    for _ in 0..100 {
        if !step.has_word() {
            break;
        }
        push(&mut readings, step.number())?;
    }
    Ok(readings)
}

/// What a device takes, by its word.
fn answer_of(word: &str) -> Result<Took, StepFault> {
    match word {
        "whole" => Ok(Took::Whole),
        "later" => Ok(Took::Later),
        "failed" => Ok(Took::Failed(DeviceFault::Unplugged)),
        _ => Err(StepFault::Word),
    }
}

/// A node of the setup that stands before the step.
fn node_of(step: &Step<'_>) -> Result<NodeCore, StepFault> {
    let Ok(setup) = read_node(step.alloc(), step.text()) else {
        return Err(StepFault::NotReady);
    };
    match NodeCore::new(step.alloc(), &setup) {
        Ok(core) => Ok(core),
        Err(_) => Err(StepFault::Memory),
    }
}

/// A console of the show that stands before the step, whose first number is 0.
fn console_of(step: &Step<'_>) -> Result<ConsoleCore, StepFault> {
    let Ok(show) = read_show(step.alloc(), step.text()) else {
        return Err(StepFault::NotReady);
    };
    match ConsoleCore::new(step.alloc(), &show, 0) {
        Ok(core) => Ok(core),
        Err(_) => Err(StepFault::Memory),
    }
}

fn say_report(step: &mut Step<'_>, report: &ConsoleReport) {
    step.say(&format_args!("sent {}", report.sent));
    step.say(&format_args!("failed {}", report.failed));
    step.say(&format_args!("refused {}", report.refused));
}
