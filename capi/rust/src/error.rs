//! The errors of calls.

use std::error::Error;
use std::fmt;

/// Why [`Hub::open`](crate::Hub::open), [`Hub::open_endless`](crate::Hub::open_endless), [`Hub::follow`](crate::Hub::follow) or
/// [`Builder::open`](crate::Builder::open) failed.
#[derive(Clone, Copy, Debug, PartialEq, Eq)]
#[non_exhaustive]
pub enum OpenError {
    /// The number of processes is not between 1 and 64, or 63 with [timeouts](crate::Builder::timeouts).
    Procs,
    /// The step limit is not between 1 and 1,000,000.
    Limit,
    /// The number of steps to keep is not between 1 and 900,000.
    Keep,
    /// Memory ran out.
    Memory,
    /// [Timeouts](crate::Builder::timeouts) need another edition than [`Edition::One`](crate::Edition::One).
    Edition,
    /// The journal to follow is malformed, first in this line, from 1.
    Malformed(u32),
    /// No hub admits the step of the journal in this line.
    NotAdmitted(u32),
}

/// Why a call failed.
#[derive(Clone, Copy, Debug, PartialEq, Eq)]
#[non_exhaustive]
pub enum Ended {
    /// The call was a send on a closed channel.
    ///
    /// The number is the index of the case in a [`select`](crate::Seat::select), and 0 in any other call. Use `usize::from` to
    /// compare it with an index in [`Selected`](crate::Selected).
    Closed(u8),
    /// The call was a receive from a channel that is closed and empty.
    ///
    /// The number means the same as in [`Closed`](Ended::Closed).
    Drained(u8),
    /// The call was part of a deadlock: every process that had not exited was waiting. The call had no effect.
    ///
    /// To see who waited for whom, save [`Hub::journal`](crate::Hub::journal) to a file, and run `tools/explain.sh FILE` in this
    /// crate's repository. [The crate's documentation](crate#deadlocks-in-tests) shows how to do so in a test.
    Stalled,
    /// Another process cancelled the call. The call had no effect.
    Cancelled,
    /// The timeout of the call passed before it was answered. The call had no effect.
    TimedOut,
    /// The journal that the hub [follows](crate::Hub::follow) has another step here. The call was not made.
    ///
    /// The number is that of the step, from 1. [`Hub::divergence`](crate::Hub::divergence) says what was asked, and what the step is.
    Diverged(u64),
    /// The hub did not carry out the call; the [`Fault`] says why.
    Fault(Fault),
}

/// The error of [`Sender::send_all`](crate::Sender::send_all): how many values were sent, and why the next one was not.
#[derive(Clone, Copy, Debug, PartialEq, Eq)]
pub struct SendAllError {
    /// How many values were sent.
    pub sent: usize,
    /// Why the next one was not sent.
    pub ended: Ended,
}

/// The reason why the hub did not carry out a call. The number is the same as in `chanhub.h`.
///
/// Safe Rust never meets [`GONE`](Fault::GONE), [`BUSY`](Fault::BUSY), [`NO_PORT`](Fault::NO_PORT) and
/// [`NIL_CLOSE`](Fault::NIL_CLOSE): the types of this crate rule them out. The library for C reports them.
#[derive(Clone, Copy, Debug, PartialEq, Eq)]
pub struct Fault(pub u8);

impl Fault {
    /// The hub has no such process, or it is the clock of a hub with [timeouts](crate::Builder::timeouts), which nobody cancels or
    /// starts.
    pub const NO_PROCESS: Fault = Fault(1);
    /// The process has exited.
    pub const GONE: Fault = Fault(2);
    /// A call of the process is still open.
    pub const BUSY: Fault = Fault(3);
    /// A select had more than 8 cases, and the hub is of edition 1.
    pub const TOO_MANY_CASES: Fault = Fault(4);
    /// The hub has no such port.
    pub const NO_PORT: Fault = Fault(5);
    /// The capacity was above 1,024.
    pub const BAD_CAP: Fault = Fault(6);
    /// The hub already has 64 channels.
    pub const TOO_MANY_PORTS: Fault = Fault(7);
    /// The call would have closed or reopened port 0.
    pub const NIL_CLOSE: Fault = Fault(8);
    /// The call would have closed a channel that is already closed.
    pub const ALREADY_CLOSED: Fault = Fault(9);
    /// The hub has reached its step limit. Dropping a seat still exits its process.
    pub const JOURNAL_FULL: Fault = Fault(10);
    /// Memory ran out. Dropping a seat still exits its process, unless a new chapter would begin with the exit.
    pub const NO_MEMORY: Fault = Fault(11);
    /// The call would have cancelled the call of a process that has no waiting call.
    pub const NOT_PARKED: Fault = Fault(12);
    /// The call used a channel of another hub, had more than 16 cases, requires another edition or
    /// [timeouts](crate::Builder::timeouts), or would have cut a hub of [`Hub::open`](crate::Hub::open).
    pub const BAD_CALL: Fault = Fault(13);
    /// The journal that the hub [follows](crate::Hub::follow) has another step here: [`Hub::divergence`](crate::Hub::divergence) says
    /// which. Sends, receives and selects return [`Ended::Diverged`] instead.
    pub const DIVERGED: Fault = Fault(14);
    /// The turn of the call has not come. No hub of this crate is opened so that it reports this.
    pub const NOT_YET: Fault = Fault(15);
    /// The call would have reopened a channel that is open or holds a value.
    pub const IN_USE: Fault = Fault(16);
    /// The call would have started a process that has not exited, or does not exist.
    pub const NOT_GONE: Fault = Fault(17);

    fn text(self) -> &'static str {
        match self {
            Fault::NO_PROCESS => "no such process",
            Fault::GONE => "the process has exited",
            Fault::BUSY => "a call of the process is still open",
            Fault::TOO_MANY_CASES => "more than 8 cases in edition 1",
            Fault::NO_PORT => "no such port",
            Fault::BAD_CAP => "the capacity is above 1,024",
            Fault::TOO_MANY_PORTS => "the hub already has 64 ports",
            Fault::NIL_CLOSE => "close of port 0",
            Fault::ALREADY_CLOSED => "close of a closed port",
            Fault::JOURNAL_FULL => "the hub has reached its step limit",
            Fault::NO_MEMORY => "out of memory",
            Fault::NOT_PARKED => "the process has no waiting call to cancel",
            Fault::BAD_CALL => {
                "a channel of another hub, more than 16 cases, a call that needs another edition or timeouts, or a cut of a hub that ends"
            }
            Fault::DIVERGED => "the journal that the hub follows has another step here",
            Fault::NOT_YET => "other steps come first in the journal that the hub follows",
            Fault::IN_USE => "the port is in use",
            Fault::NOT_GONE => "the process has not exited",
            _ => "a number that chanhub.h does not define",
        }
    }
}

impl fmt::Display for OpenError {
    fn fmt(&self, f: &mut fmt::Formatter<'_>) -> fmt::Result {
        f.write_str(match self {
            OpenError::Malformed(line) => {
                return write!(f, "the journal is malformed, in line {line}")
            }
            OpenError::NotAdmitted(line) => {
                return write!(f, "no hub admits the step of the journal in line {line}")
            }
            OpenError::Procs => {
                "the number of processes must be between 1 and 64, or 63 with timeouts"
            }
            OpenError::Limit => "the step limit must be between 1 and 1,000,000",
            OpenError::Keep => "the number of steps to keep must be between 1 and 900,000",
            OpenError::Memory => "out of memory",
            OpenError::Edition => "timeouts need edition 2 or 3",
        })
    }
}

impl fmt::Display for Ended {
    fn fmt(&self, f: &mut fmt::Formatter<'_>) -> fmt::Result {
        match self {
            Ended::Closed(_) => f.write_str("send on a closed port"),
            Ended::Drained(_) => f.write_str("receive from a port that is closed and empty"),
            Ended::Stalled => f.write_str("every process was waiting"),
            Ended::Cancelled => f.write_str("another process cancelled the call"),
            Ended::TimedOut => f.write_str("the timeout passed"),
            Ended::Diverged(step) => write!(
                f,
                "the journal that the hub follows has another step here: step {step} (see Hub::divergence)"
            ),
            Ended::Fault(fault) => fault.fmt(f),
        }
    }
}

impl fmt::Display for SendAllError {
    fn fmt(&self, f: &mut fmt::Formatter<'_>) -> fmt::Result {
        write!(f, "{}, after {} were sent", self.ended, self.sent)
    }
}

impl fmt::Display for Fault {
    fn fmt(&self, f: &mut fmt::Formatter<'_>) -> fmt::Result {
        write!(f, "fault {}: {}", self.0, self.text())
    }
}

impl Error for OpenError {}
impl Error for Ended {}
impl Error for SendAllError {}
impl Error for Fault {}

/// Drops how many were sent, so that `?` passes the reason on.
impl From<SendAllError> for Ended {
    fn from(error: SendAllError) -> Ended {
        error.ended
    }
}

impl From<Fault> for Ended {
    fn from(fault: Fault) -> Ended {
        Ended::Fault(fault)
    }
}
