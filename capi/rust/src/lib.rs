//! Go's channels for threads, in a hub that reports deadlocks and keeps a journal of its steps.
//!
//! A [`Hub`] has a fixed number of processes. Each thread acts as one process, through its [`Seat`]. A call that has to wait blocks
//! its thread, so async code should make its calls on a separate thread, such as with tokio's `spawn_blocking`. The process counts
//! as waiting meanwhile.
//!
//! A hub watches only its own processes. It can therefore report a deadlock among them while other threads of the program still
//! run.
//!
//! A hub of [`Hub::open`] keeps its whole journal, and ends after at most 1,000,000 steps, so it suits tests and finite runs. A hub of
//! [`Hub::open_endless`] never ends. It keeps the newest steps, and the older ones go where its [`Chapters`] say.
//!
//! # Examples
//!
//! ```
//! use chanhub::{Edition, Ended, Hub};
//!
//! let (hub, mut seats) = Hub::open(Edition::One, 2, 100).unwrap();
//! let mut receives = seats.pop().unwrap();
//! let mut sends = seats.pop().unwrap();
//! let (sender, receiver) = sends.channel(0).unwrap();
//! let thread = std::thread::spawn(move || sender.send(&mut sends, 7));
//! assert_eq!(receiver.recv(&mut receives).unwrap().number(), Some(7));
//! thread.join().unwrap().unwrap();
//! assert_eq!(receiver.recv(&mut receives), Err(Ended::Stalled)); // the other process has exited
//! assert_eq!(hub.look_at(&receiver).unwrap().received, 1);
//! ```
//!
//! A call that fails returns an [`Ended`]. [`channel`](Seat::channel), [`cancel`](Seat::cancel) and [`start`](Seat::start) return a plain
//! [`Fault`] instead, and [`close`](Sender::close) and [`reopen`](Sender::reopen) return no other error than [`Ended::Fault`]. The operator
//! `?` converts a `Fault` into an `Ended`:
//!
//! ```
//! use chanhub::{Edition, Ended, Hub, Seat};
//! use std::error::Error;
//!
//! fn pass_on(seat: &mut Seat) -> Result<Option<u64>, Ended> {
//!     let (sender, receiver) = seat.channel(1)?;
//!     sender.send(seat, 7)?;
//!     sender.close(seat)?;
//!     Ok(receiver.recv(seat)?.number())
//! }
//!
//! fn main() -> Result<(), Box<dyn Error>> {
//!     let (_hub, mut seats) = Hub::open(Edition::One, 1, 100)?;
//!     assert_eq!(pass_on(&mut seats[0])?, Some(7));
//!     Ok(())
//! }
//! ```
//!
//! Values are numbers or short byte strings. The channels of [`typed`] carry values of any type: they have ends and a select as in
//! `std::sync::mpsc` and crossbeam, and close when the last sender is dropped.
//!
//! A program that uses a hub after dropping it does not compile:
//!
//! ```compile_fail,E0382
//! let (hub, seats) = chanhub::Hub::open(chanhub::Edition::One, 1, 100).unwrap();
//! drop(seats);
//! drop(hub);
//! hub.journal();
//! ```
//!
//! Neither does a program in which two threads use one seat at the same time:
//!
//! ```compile_fail,E0499
//! let (_hub, mut seats) = chanhub::Hub::open(chanhub::Edition::One, 1, 100).unwrap();
//! let seat = &mut seats[0];
//! std::thread::scope(|s| {
//!     s.spawn(|| seat.channel(0));
//!     s.spawn(|| seat.channel(0));
//! });
//! ```
//!
//! ```compile_fail,E0277
//! let (_hub, seats) = chanhub::Hub::open(chanhub::Edition::One, 1, 100).unwrap();
//! let seat = &seats[0];
//! std::thread::scope(|s| {
//!     s.spawn(|| chanhub::typed::channel::<u64>(seat, 0).is_ok());
//! });
//! ```
//!
//! # Deadlocks
//!
//! If every process that has not exited is waiting, none of their calls can ever end. Each of these calls then returns
//! [`Ended::Stalled`]. To see who waited for whom, save [`Hub::journal`] to a file, and run `tools/explain.sh FILE` in this crate's
//! repository. The picture shows processes and channels by number: [`Seat::pid`] and [`Sender::port`]. `docs/EXPLAIN.md` says how to
//! read it. Journals, pictures and error texts call a channel a *port*.
//!
//! No deadlock is reported while a process that has not exited is outside the hub: busy, or blocked in a `Mutex`, in I/O or in
//! [`join`](std::thread::JoinHandle::join). Once it waits in a call or exits, deadlocks are reported again. Drop a seat after its
//! last call, and before a wait that only other processes can end, such as a join. [`thread::scope`](std::thread::scope) joins its
//! threads at its end, so drop the main thread's seat inside it.
//!
//! A stalled call had no effect. A process may call again, but if all repeat their calls, they stall again: let one of them back
//! off, exit or close a channel.
//!
//! If a program hangs, run it with `CHANHUB_WATCH=60:hung.journal` in its environment. If a call waits in a hub and nothing has moved
//! there for 60 seconds, the library writes the hub's journal to that file. Its picture shows the calls that still wait. Any thread can
//! also save the journal itself, through a clone of the [`Hub`].
//!
//! A panic that unwinds drops the seats that its thread owns, and so exits their processes. If every other process is waiting
//! then, their calls return [`Ended::Stalled`] instead of hanging.
//!
//! # Timeouts
//!
//! A hub that is opened with [timeouts](Builder::timeouts) has calls that wait for at most a [`Duration`](std::time::Duration):
//! [`send_timeout`](Sender::send_timeout), [`recv_timeout`](Receiver::recv_timeout) and [`select_timeout`](Seat::select_timeout). They
//! return [`Ended::TimedOut`], or a [typed] error. While one of them waits, no deadlock is reported, since something can still happen.
//!
//! # Deadlocks in tests
//!
//! A test can save the journal when a call stalls, and then fail. A stall ends several calls at once, so use one [`Once`] per test:
//! one thread saves the journal, and the others wait, still owning their seats. Do not drop a seat earlier, because that appends an
//! exit to the journal.
//!
//! ```
//! use chanhub::{Edition, Ended, Hub};
//! use std::{env, fs, sync::Once, thread};
//!
//! /// Returns the value of a call. If the call stalled, saves the test's journal, once, and panics.
//! fn value_of<T>(hub: &Hub, test: &str, saved: &Once, result: Result<T, Ended>) -> T {
//!     if let Err(Ended::Stalled) = result {
//!         let file = env::temp_dir().join(format!("{test}.journal"));
//!         saved.call_once(|| fs::write(&file, hub.journal().expect("memory")).expect("the journal is saved"));
//!         panic!("deadlock: run tools/explain.sh {}", file.display());
//!     }
//!     result.unwrap()
//! }
//!
//! static SAVED: Once = Once::new(); // one for each test
//! let (hub, mut seats) = Hub::open(Edition::One, 2, 100).unwrap();
//! let (_, receiver) = seats[0].channel(1).unwrap();
//! let mut threads = Vec::new();
//! for mut seat in seats {
//!     let hub = hub.clone();
//!     threads.push(thread::spawn(move || value_of(&hub, "two_receivers", &SAVED, receiver.recv(&mut seat))));
//! }
//! for thread in threads {
//!     assert!(thread.join().is_err()); // nobody sends: both calls stall
//! }
//! # let file = env::temp_dir().join("two_receivers.journal");
//! # let journal = fs::read_to_string(&file).unwrap();
//! # assert!(journal.ends_with("\n0 recv 1\n1 recv 1\n") || journal.ends_with("\n1 recv 1\n0 recv 1\n"));
//! # fs::remove_file(file).unwrap();
//! ```
//!
//! The crates `loom` and `shuttle` explore many schedules of a test. This crate records one run and explains it.
//!
//! [`Once`]: std::sync::Once
//!
//! # Limits
//!
//! - A hub has at most 64 processes, or 63 with timeouts, and 64 channels. A closed channel still counts. In [`Edition::Three`] a
//!   process that has exited can be [started](Seat::start) again, and a closed channel [opened](Sender::reopen) again.
//! - A hub of [`Hub::open`] makes at most 1,000,000 steps, not counting exits. One of [`Hub::open_endless`] makes any number.
//! - The capacity of a channel is at most 1,024.
//! - A value is a `u64` or, but for [`Edition::One`], a byte string of at most 32 bytes. The channels of [`typed`] carry values of
//!   any type, of which the hub has only numbers.
//! - A send or a receive takes 16 bytes of memory, in a hub that never ends only until it falls out with its chapter. A select takes
//!   more for its cases, and so does a send of bytes.
//!
//! # Memory order
//!
//! One lock orders all steps. What a thread wrote before a send or a close is visible to the thread that receives the value or
//! learns of the close. What a thread wrote before it received a value from a channel is visible to a thread whose later send needed
//! the room that this receive made, whether or not that send had to wait.
//!
//! # Linking
//!
//! The crate requires Rust 1.63 or later. It links the static library `libchanhub.a`. The build looks for it in the folder that
//! the environment variable `CHANHUB_LIB` names, by its full path, or, if that is not set, in `capi/out` of this repository, where
//! `make -C capi` builds it. Without the library, `cargo doc` fails too.

#![warn(missing_docs, missing_debug_implementations)]

mod builder;
mod chapters;
mod error;
mod hub;
mod sys;
mod table;
pub mod typed;
mod value;

pub use builder::Builder;
pub use chapters::{ChapterFiles, Chapters};
pub use error::{Ended, Fault, OpenError, SendAllError};
pub use hub::{Case, Counts, Drain, Edition, Hub, Receiver, Seat, Selected, Sender};
pub use table::Table;
pub use value::{Bytes, TooLong, Value};
