//! A journal that takes 16 bytes for a send or a receive, where an entry takes 280.

use crate::hub::{Case, Entry, Pid, Port, Step};
use crate::value::Value;
use std::borrow::Borrow;

/// How many pieces are allocated together: 64 KiB.
const BLOCK: usize = 4096;

/// A piece of an entry: all of it, except of a call that is more than one send or receive. The cases of such a call follow
/// it, each as a send or a receive.
#[derive(Clone, Copy)]
enum Piece {
    Send {
        pid: Pid,
        port: Port,
        number: u64,
    },
    Recv {
        pid: Pid,
        port: Port,
    },
    Call {
        pid: Pid,
        default: bool,
        count: u8,
        word: u64,
    },
    Make {
        pid: Pid,
        capacity: u32,
    },
    Close {
        pid: Pid,
        port: Port,
    },
    Exit {
        pid: Pid,
    },
}

const _: () = assert!(size_of::<Piece>() == 16);

impl Piece {
    fn of_case(pid: Pid, case: Case) -> Piece {
        match case {
            Case::Send(port, value) => Piece::Send {
                pid,
                port,
                number: value.as_number().expect("values are numbers"),
            },
            Case::Recv(port) => Piece::Recv { pid, port },
        }
    }

    /// The case of a send or a receive.
    fn case(self) -> Option<Case> {
        match self {
            Piece::Send { port, number, .. } => Some(Case::Send(port, Value::number(number))),
            Piece::Recv { port, .. } => Some(Case::Recv(port)),
            _ => None,
        }
    }
}

/// The entries in order, in blocks that are full, except the last. A block is never copied, as one vector of all would be
/// when it grows.
#[derive(Default)]
pub struct Journal {
    blocks: Vec<Vec<Piece>>,
    count: usize,
}

impl Journal {
    /// Where the next entry begins: how many pieces there are.
    pub(crate) fn len(&self) -> usize {
        self.count
    }

    pub fn push(&mut self, pid: Pid, step: &Step) {
        match *step {
            Step::Make(capacity) => self.add(Piece::Make { pid, capacity }),
            Step::Close(port) => self.add(Piece::Close { pid, port }),
            Step::Exit => self.add(Piece::Exit { pid }),
            Step::Call { default, word, .. } => self.push_call(pid, step.cases(), default, word),
        }
    }

    fn push_call(&mut self, pid: Pid, cases: &[Case], default: bool, word: u64) {
        if let ([case], false, 0) = (cases, default, word) {
            return self.add(Piece::of_case(pid, *case));
        }
        let count = cases.len() as u8;
        self.add(Piece::Call {
            pid,
            default,
            count,
            word,
        });
        for case in cases {
            self.add(Piece::of_case(pid, *case));
        }
    }

    fn add(&mut self, piece: Piece) {
        match self.blocks.last_mut() {
            Some(block) if block.len() < BLOCK => block.push(piece),
            _ => {
                let mut block = Vec::with_capacity(BLOCK);
                block.push(piece);
                self.blocks.push(block);
            }
        }
        self.count += 1;
    }

    fn piece(&self, place: usize) -> Option<Piece> {
        self.blocks.get(place / BLOCK)?.get(place % BLOCK).copied()
    }

    /// The entry that begins there.
    pub fn get(&self, place: usize) -> Option<Entry> {
        let (pid, step) = match self.piece(place)? {
            Piece::Make { pid, capacity } => (pid, Step::Make(capacity)),
            Piece::Close { pid, port } => (pid, Step::Close(port)),
            Piece::Exit { pid } => (pid, Step::Exit),
            Piece::Call {
                pid,
                default,
                count,
                word,
            } => {
                let places = place + 1..=place + usize::from(count);
                let cases: Vec<Case> = places
                    .filter_map(|place| self.piece(place)?.case())
                    .collect();
                (pid, Step::call(&cases, default, word))
            }
            piece @ (Piece::Send { pid, .. } | Piece::Recv { pid, .. }) => {
                (pid, Step::call(&[piece.case()?], false, 0))
            }
        };
        Some(Entry { pid, step })
    }

    /// Where the entry after the one that begins there begins.
    fn after(&self, place: usize) -> usize {
        match self.piece(place) {
            Some(Piece::Call { count, .. }) => place + 1 + usize::from(count),
            _ => place + 1,
        }
    }
}

/// Goes through the entries of a journal.
pub struct Entries<J> {
    journal: J,
    place: usize,
}

impl<J: Borrow<Journal>> Iterator for Entries<J> {
    type Item = Entry;

    fn next(&mut self) -> Option<Entry> {
        let journal = self.journal.borrow();
        let entry = journal.get(self.place);
        self.place = journal.after(self.place);
        entry
    }
}

impl IntoIterator for Journal {
    type Item = Entry;
    type IntoIter = Entries<Journal>;

    fn into_iter(self) -> Entries<Journal> {
        Entries {
            journal: self,
            place: 0,
        }
    }
}

impl<'a> IntoIterator for &'a Journal {
    type Item = Entry;
    type IntoIter = Entries<&'a Journal>;

    fn into_iter(self) -> Entries<&'a Journal> {
        Entries {
            journal: self,
            place: 0,
        }
    }
}
