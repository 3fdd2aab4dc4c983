//! What a monitor accounts for.
use crate::datagram::datagram_in;
use crate::step::{Step, StepFault};
use sacn_monitor::{Endpoint, Monitor, News, Noted};
use std::alloc::Global;

/// A monitor, which hears one sender.
#[derive(Drop)]
pub struct Monitors {
    monitor: Monitor,
}

const SENDER: Endpoint = Endpoint {
    address: [10, 0, 0, 1],
    port: 5000,
};

impl Monitors {
    /// Nothing was heard.
    ///
    /// # Errors
    ///
    /// No memory.
    pub fn new(alloc: Global) -> Result<Self, StepFault> {
        Ok(Monitors {
            monitor: Monitor::new(alloc)?,
        })
    }

    /// Makes the step's call.
    ///
    /// # Errors
    ///
    /// There is no such call, a word is wrong, or no memory.
    pub fn answer(&mut self, step: &mut Step<'_>) -> Result<(), StepFault> {
        match step.word() {
            "take" => {
                let now = step.number();
                let datagram = datagram_in(step)?;
                say_noted(step, self.monitor.take(now, SENDER, datagram.as_slice()));
            }
            "tick" => match self.monitor.tick(step.number()) {
                Some(place) => step.say(&place),
                None => step.say(&"none"),
            },
            "next-loss" => step.say(&self.monitor.next_loss()),
            "moment" => step.say(&self.monitor.moment()),
            "streams" => step.say(&self.monitor.streams().len()),
            "state" => self.say_state(step),
            "account" => self.say_account(step),
            "tally" => self.say_tally(step),
            _ => return Err(StepFault::UnknownCall),
        }
        Ok(())
    }

    fn say_state(&self, step: &mut Step<'_>) {
        match self.monitor.streams().get(step.number_to(1000) as usize) {
            Some(stream) => {
                let state = stream.state(step.number());
                step.say_name(&state);
            }
            None => step.refuse(StepFault::Word),
        }
    }

    /// Says what is counted of a stream.
    fn say_account(&self, step: &mut Step<'_>) {
        let Some(stream) = self.monitor.streams().get(step.number_to(1000) as usize) else {
            step.refuse(StepFault::Word);
            return;
        };
        let account = &stream.account;
        step.say(&format_args!("taken {}", account.kinds.total()));
        step.say(&format_args!("previews {}", account.kinds.previews));
        step.say(&format_args!("skipped {}", account.skipped));
        step.say(&format_args!("late {}", account.late));
        step.say(&format_args!("gap {}", account.greatest_gap));
    }

    /// Says how many datagrams came, and how many were refused by the fault of a number.
    fn say_tally(&self, step: &mut Step<'_>) {
        let tally = self.monitor.tally();
        step.say(&format_args!("datagrams {}", tally.datagrams));
        for (fault, count) in tally.refused.iter().enumerate() {
            if *count > 0 {
                step.say(&format_args!("fault {fault} {count}"));
            }
        }
    }
}

fn say_noted(step: &mut Step<'_>, noted: Noted) {
    match noted {
        Noted::Heard(place, news) => {
            step.say(&place);
            say_news(step, &news);
        }
        Noted::Refused(fault) => step.say_name(&fault),
        Noted::Page => step.say(&"Page"),
        Noted::Sync => step.say(&"Sync"),
        Noted::Untracked => step.say(&"Untracked"),
    }
}

/// Says an event, how many numbers were skipped, and what else is new.
fn say_news(step: &mut Step<'_>, news: &News) {
    step.say_name(&news.event);
    step.say(&news.skipped);
    if news.began_anew {
        step.say(&"anew");
    }
    if let Some(number) = news.leaves_out {
        step.say(&format_args!("leaves-out {number}"));
    }
    if let Some(change) = news.priority {
        step.say(&format_args!("priority {} {}", change.from, change.to));
    }
    if news.renamed {
        step.say(&"renamed");
    }
    if news.moved {
        step.say(&"moved");
    }
}
