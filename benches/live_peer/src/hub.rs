//! A hub of Go's channels with its journal, and the same hub under one lock, for threads to share.

#[cfg(feature = "compact")]
pub use crate::compact::Journal;
use crate::value::Value;
use std::collections::VecDeque;
use std::sync::{Condvar, Mutex};

pub type Pid = u8;
pub type Port = u16;

const MOST_PORTS: usize = 64;
const MOST_CAPACITY: u32 = 1024;
const MOST_CASES: usize = 8;

#[derive(Clone, Copy)]
pub enum Case {
    Send(Port, Value),
    Recv(Port),
}

impl Case {
    fn port(self) -> Port {
        let (Case::Send(port, _) | Case::Recv(port)) = self;
        port
    }
}

// The cases of a call stand in place, so that an entry takes no memory of its own.
#[allow(clippy::large_enum_variant)]
pub enum Step {
    Make(u32),
    Call {
        cases: [Case; 16],
        count: u8,
        default: bool,
        word: u64,
    },
    Close(Port),
    Exit,
}

impl Step {
    /// A call of at most 16 cases.
    pub fn call(given: &[Case], default: bool, word: u64) -> Step {
        let mut cases = [Case::Recv(0); 16];
        cases[..given.len()].copy_from_slice(given);
        Step::Call {
            cases,
            count: given.len() as u8,
            default,
            word,
        }
    }

    /// The cases of a call.
    pub(crate) fn cases(&self) -> &[Case] {
        match self {
            Step::Call { cases, count, .. } => &cases[..usize::from(*count)],
            _ => &[],
        }
    }
}

pub struct Entry {
    pub pid: Pid,
    pub step: Step,
}

#[cfg(not(feature = "compact"))]
pub type Journal = Vec<Entry>;

#[derive(Clone, Copy, Debug, PartialEq)]
pub enum Fault {
    NoProcess = 1,
    Gone = 2,
    Busy = 3,
    TooManyCases = 4,
    NoPort = 5,
    BadCap = 6,
    TooManyPorts = 7,
    NilClose = 8,
    AlreadyClosed = 9,
    JournalFull = 10,
}

/// What a process is told. The first number of each outcome is that of the case.
#[derive(Clone, Copy, Debug, PartialEq)]
pub enum What {
    Made(Port),
    Sent(u8),
    Got(u8, Value),
    Drained(u8),
    Closed(u8),
    Default,
    Done,
    Parked,
    Stalled,
    Fault(Fault),
}

/// The counts of a port. Its buffer holds what was sent and not received.
#[derive(Clone, Copy, Debug, Default, PartialEq)]
pub struct Counts {
    pub sent: u32,
    pub received: u32,
    pub closed: bool,
}

/// A case of an open call. When the call ends elsewhere it stays in its queue, dead, until it comes
/// to the front or the queue would have to grow.
#[derive(Clone, Copy)]
struct Waiter {
    ticket: usize,
    pid: Pid,
    case: u8,
    /// What it sends, 0 for a receive.
    value: Value,
}

#[derive(Default)]
struct Channel {
    capacity: usize,
    counts: Counts,
    buffer: VecDeque<Value>,
    senders: VecDeque<Waiter>,
    receivers: VecDeque<Waiter>,
}

#[derive(Clone, Copy, PartialEq)]
enum Process {
    Free,
    /// Has an open call with this ticket, the place of its entry in the journal.
    Waits(usize),
    Gone,
}

fn is_live(processes: &[Process], waiter: &Waiter) -> bool {
    processes[usize::from(waiter.pid)] == Process::Waits(waiter.ticket)
}

/// The oldest of a queue's open calls. Dead waiters before it are dropped.
fn oldest(processes: &[Process], queue: &mut VecDeque<Waiter>) -> Option<Waiter> {
    while let Some(waiter) = queue.front() {
        if is_live(processes, waiter) {
            return Some(*waiter);
        }
        queue.pop_front();
    }
    None
}

#[derive(Default)]
pub struct Hub {
    processes: Vec<Process>,
    /// By port. Port 0 is the nil channel, on which nothing ever waits.
    channels: Vec<Channel>,
    journal: Journal,
    /// How many entries that are no exits the journal may still take.
    room: usize,
    /// The calls that the last step ended, in order of arrival.
    pub ended: Vec<(Pid, What)>,
    /// By process: how its open call ended, until its thread picks it up.
    answers: Vec<Option<What>>,
}

impl Hub {
    /// A hub of 1 to 64 processes, whose journal may hold so many entries that are no exits.
    pub fn new(processes: u8, limit: usize) -> Hub {
        assert!((1..=64).contains(&processes));
        let count = usize::from(processes);
        Hub {
            processes: vec![Process::Free; count],
            channels: vec![Channel::default()],
            room: limit,
            answers: vec![None; count],
            ..Hub::default()
        }
    }

    /// Makes a step, and gives the caller's answer.
    pub fn step(&mut self, pid: Pid, step: Step) -> What {
        self.ended.clear();
        let takes_room = !matches!(step, Step::Exit);
        match self.processes.get(usize::from(pid)) {
            _ if takes_room && self.room == 0 => return What::Fault(Fault::JournalFull),
            None => return What::Fault(Fault::NoProcess),
            Some(Process::Gone) => return What::Fault(Fault::Gone),
            Some(Process::Waits(_)) => return What::Fault(Fault::Busy),
            Some(Process::Free) => (),
        }
        let answer = match &step {
            Step::Make(capacity) => self.make(*capacity),
            Step::Call { default, word, .. } => self.call(pid, step.cases(), *default, *word),
            Step::Close(port) => self.close(*port),
            Step::Exit => {
                self.processes[usize::from(pid)] = Process::Gone;
                What::Done
            }
        };
        if !self.processes.contains(&Process::Free) {
            // Nobody is left to end a call.
            for (_, pid) in self.open_calls() {
                self.end(pid, What::Stalled);
            }
        }
        self.room -= usize::from(takes_room);
        #[cfg(not(feature = "compact"))]
        self.journal.push(Entry { pid, step });
        // A step is large, and little of it is kept: it is not moved.
        #[cfg(feature = "compact")]
        self.journal.push(pid, &step);
        answer
    }

    pub fn look(&self, port: Port) -> Option<Counts> {
        let channel = self.channels.get(usize::from(port))?;
        (port > 0).then_some(channel.counts)
    }

    /// Ends the open call of a process.
    fn end(&mut self, pid: Pid, what: What) {
        self.processes[usize::from(pid)] = Process::Free;
        self.ended.push((pid, what));
        self.answers[usize::from(pid)] = Some(what);
    }

    fn make(&mut self, capacity: u32) -> What {
        if capacity > MOST_CAPACITY {
            return What::Fault(Fault::BadCap);
        }
        let port = self.channels.len();
        if port > MOST_PORTS {
            return What::Fault(Fault::TooManyPorts);
        }
        let capacity = capacity as usize;
        self.channels.push(Channel {
            capacity,
            // One place more, for the value of a sender that is let in.
            buffer: VecDeque::with_capacity(capacity + 1),
            ..Channel::default()
        });
        What::Made(port as Port)
    }

    fn call(&mut self, pid: Pid, cases: &[Case], default: bool, word: u64) -> What {
        if cases.len() > MOST_CASES {
            return What::Fault(Fault::TooManyCases);
        }
        let ports = self.channels.len();
        if cases.iter().any(|case| usize::from(case.port()) >= ports) {
            return What::Fault(Fault::NoPort);
        }
        let mut ready = [0; MOST_CASES];
        let mut count = 0;
        for (index, case) in (0..).zip(cases) {
            if self.can_proceed(*case) {
                ready[count] = index;
                count += 1;
            }
        }
        if count > 0 {
            let index = ready[(word % count as u64) as usize];
            match cases[usize::from(index)] {
                Case::Send(port, value) => self.send(index, port, value),
                Case::Recv(port) => self.receive(index, port),
            }
        } else if default {
            What::Default
        } else {
            self.park(pid, cases)
        }
    }

    fn can_proceed(&mut self, case: Case) -> bool {
        let channel = &mut self.channels[usize::from(case.port())];
        let held = channel.buffer.len();
        let (proceeds, others) = match case {
            Case::Send(..) => (held < channel.capacity, &mut channel.receivers),
            Case::Recv(_) => (held > 0, &mut channel.senders),
        };
        proceeds || channel.counts.closed || oldest(&self.processes, others).is_some()
    }

    fn send(&mut self, case: u8, port: Port, value: Value) -> What {
        let channel = &mut self.channels[usize::from(port)];
        if channel.counts.closed {
            return What::Closed(case);
        }
        channel.counts.sent += 1;
        // A receiver waits on an empty buffer alone, so that it gets this very value.
        if let Some(receiver) = oldest(&self.processes, &mut channel.receivers) {
            channel.counts.received += 1;
            self.end(receiver.pid, What::Got(receiver.case, value));
        } else {
            channel.buffer.push_back(value);
        }
        What::Sent(case)
    }

    fn receive(&mut self, case: u8, port: Port) -> What {
        let channel = &mut self.channels[usize::from(port)];
        let sender = oldest(&self.processes, &mut channel.senders);
        if let Some(sender) = sender {
            channel.counts.sent += 1;
            channel.buffer.push_back(sender.value);
        }
        let value = channel.buffer.pop_front();
        channel.counts.received += u32::from(value.is_some());
        if let Some(sender) = sender {
            self.end(sender.pid, What::Sent(sender.case));
        }
        value.map_or(What::Drained(case), |value| What::Got(case, value))
    }

    fn park(&mut self, pid: Pid, cases: &[Case]) -> What {
        let ticket = self.journal.len();
        // Before its waiters join, so that none of them is swept out as dead.
        self.processes[usize::from(pid)] = Process::Waits(ticket);
        for (index, case) in (0..).zip(cases).filter(|(_, case)| case.port() > 0) {
            let channel = &mut self.channels[usize::from(case.port())];
            let (queue, value) = match *case {
                Case::Send(_, value) => (&mut channel.senders, value),
                Case::Recv(_) => (&mut channel.receivers, Value::number(0)),
            };
            if queue.len() == queue.capacity() {
                queue.retain(|waiter| is_live(&self.processes, waiter));
            }
            queue.push_back(Waiter {
                ticket,
                pid,
                case: index,
                value,
            });
        }
        What::Parked
    }

    fn close(&mut self, port: Port) -> What {
        match self.channels.get_mut(usize::from(port)) {
            None => return What::Fault(Fault::NoPort),
            Some(_) if port == 0 => return What::Fault(Fault::NilClose),
            Some(channel) if channel.counts.closed => return What::Fault(Fault::AlreadyClosed),
            Some(channel) => channel.counts.closed = true,
        }
        for (ticket, pid) in self.open_calls() {
            let entry = self.journal.get(ticket).expect("an entry of its own");
            let mut cases = (0..).zip(entry.step.cases());
            match cases.find(|(_, case)| case.port() == port) {
                Some((index, Case::Send(..))) => self.end(pid, What::Closed(index)),
                Some((index, Case::Recv(_))) => self.end(pid, What::Drained(index)),
                None => (),
            }
        }
        What::Done
    }

    /// The tickets and processes of all open calls, in order of arrival.
    fn open_calls(&self) -> Vec<(usize, Pid)> {
        let mut calls = Vec::new();
        for (pid, process) in (0..).zip(&self.processes) {
            if let Process::Waits(ticket) = process {
                calls.push((*ticket, pid));
            }
        }
        calls.sort();
        calls
    }
}

/// A hub that threads share, one for each process.
pub struct LiveHub {
    hub: Mutex<Hub>,
    /// By process: told when there is an answer for it.
    wakers: Vec<Condvar>,
}

impl LiveHub {
    pub fn new(processes: u8, limit: usize) -> LiveHub {
        let hub = Mutex::new(Hub::new(processes, limit));
        let wakers = (0..processes).map(|_| Condvar::new()).collect();
        LiveHub { hub, wakers }
    }

    /// Makes a step, and waits for its answer, which is never `Parked`.
    pub fn step(&self, pid: Pid, step: Step) -> What {
        let mut hub = self.hub.lock().unwrap();
        let answer = hub.step(pid, step);
        let woken = hub.ended.iter().fold(0, |bits, (pid, _)| bits | 1 << pid);
        if answer != What::Parked {
            // Those who wake find the lock free.
            drop(hub);
            self.wake(woken);
            return answer;
        }
        self.wake(woken);
        let place = usize::from(pid);
        let waits = |hub: &mut Hub| hub.answers[place].is_none();
        let mut hub = self.wakers[place].wait_while(hub, waits).unwrap();
        hub.answers[place].take().unwrap()
    }

    /// Wakes the processes of these bits.
    fn wake(&self, mut woken: u64) {
        while woken != 0 {
            self.wakers[woken.trailing_zeros() as usize].notify_one();
            woken &= woken - 1;
        }
    }

    pub fn look(&self, port: Port) -> Option<Counts> {
        self.hub.lock().unwrap().look(port)
    }

    /// What this makes of the number of processes and the journal so far.
    pub(crate) fn with_journal<T>(&self, make: impl FnOnce(usize, &Journal) -> T) -> T {
        let hub = self.hub.lock().unwrap();
        make(hub.processes.len(), &hub.journal)
    }

    pub fn into_journal(self) -> Journal {
        self.hub.into_inner().unwrap().journal
    }
}
