//! The lines of entries and events.

use crate::hub::{Case, Entry, Step, What};
use std::fmt::{self, Display, Formatter};

impl Display for Entry {
    fn fmt(&self, f: &mut Formatter<'_>) -> fmt::Result {
        let pid = self.pid;
        match &self.step {
            Step::Make(capacity) => write!(f, "{pid} make {capacity}"),
            Step::Close(port) => write!(f, "{pid} close {port}"),
            Step::Exit => write!(f, "{pid} exit"),
            Step::Call {
                default,
                word,
                count,
                ..
            } => match *self.step.cases() {
                [Case::Send(port, value)] if !default && *word == 0 => {
                    write!(f, "{pid} send {port} {value}")
                }
                [Case::Recv(port)] if !default && *word == 0 => write!(f, "{pid} recv {port}"),
                _ => write!(f, "{pid} select of {count}"),
            },
        }
    }
}

impl Display for What {
    fn fmt(&self, f: &mut Formatter<'_>) -> fmt::Result {
        match self {
            What::Made(port) => write!(f, "made {port}"),
            What::Sent(case) => write!(f, "case {case} sent"),
            What::Got(case, value) => write!(f, "case {case} got {value}"),
            What::Drained(case) => write!(f, "case {case} drained"),
            What::Closed(case) => write!(f, "case {case} closed"),
            What::Default => write!(f, "default"),
            What::Done => write!(f, "done"),
            What::Parked => write!(f, "parked"),
            What::Stalled => write!(f, "stalled"),
            What::Fault(fault) => write!(f, "fault {}", *fault as u8),
        }
    }
}
