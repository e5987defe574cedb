//! A hub, and the seats through which its threads call.

use crate::chapters::{self, Chapters, Handler};
use crate::error::{Ended, Fault, OpenError, SendAllError};
use crate::sys;
use crate::value::Value;
use std::cell::Cell;
use std::fmt;
use std::iter::FusedIterator;
use std::marker::PhantomData;
use std::mem;
use std::os::raw::{c_char, c_int, c_uint};
use std::panic::RefUnwindSafe;
use std::ptr;
use std::sync::atomic::{AtomicBool, AtomicU64, AtomicU8, Ordering};
use std::sync::{Arc, Mutex, MutexGuard, PoisonError};
use std::thread;
use std::time::Duration;

/// How long a call sleeps before it tries again to time out, if there was no memory for that.
const MEMORY_PAUSE: Duration = Duration::from_millis(1);

/// The most cases that a select has, in a hub of any edition.
pub(crate) const MOST_CASES: usize = 16;

/// The most values that a call receives: a full buffer, and what all others wait to send.
const MOST_VALUES: usize = 1024 + 63;

/// The most cases for which a select clears so few places that this needs no call.
const FEW_CASES: usize = 4;

/// The edition of a hub, which determines what its calls may contain. Use `Two` unless numbers are enough. Later versions may have
/// more editions.
#[derive(Clone, Copy, Debug, PartialEq, Eq)]
#[non_exhaustive]
pub enum Edition {
    /// Values are numbers, and a select has up to 8 cases.
    One,
    /// Values are numbers or bytes, a select has up to 16 cases, and a process can cancel the call of another.
    Two,
    /// As `Two`. A process that has exited can also be [started](Seat::start) again, and a closed channel
    /// [opened](Sender::reopen) again.
    Three,
}

impl Edition {
    pub(crate) fn number(self) -> c_uint {
        match self {
            Edition::One => 1,
            Edition::Two => 2,
            Edition::Three => 3,
        }
    }
}

/// A hub of the C library. It is freed when this is dropped.
struct Raw {
    at: *mut sys::Chanhub,
    id: u64,
    is_endless: bool,
    /// Whether the calls of processes are watched, because there are typed channels. It stays so.
    is_watched: AtomicBool,
    processes: Vec<Process>,
    abandoned: Abandoned,
    /// Is dropped after the hub is freed, which still calls it.
    _handler: Option<Handler>,
}

/// A process of a hub, as this crate knows it.
#[repr(align(64))] // each in a line of the cache of its own
struct Process {
    /// Whether a call as the process runs: one of the thread that has its seat or, for the time of a close, of another one.
    ///
    /// All operations on this and on `Abandoned::are_some` have one order. So a thread that abandons a port and then finds the process
    /// in a call, and the thread that ends this call and then looks for abandoned ports, cannot miss each other.
    state: AtomicU8,
    /// How many values the process has given to tables, through this seat and those before it. Only the thread that has the seat uses
    /// this; the lock of the hub orders the exit of one seat and the start that gives the next.
    values: AtomicU64,
}

impl Process {
    /// Its seat made no call since the hub is watched. A call from before may still run.
    const UNKNOWN: u8 = 0;
    const IDLE: u8 = 1;
    const CALLING: u8 = 2;
    /// Its seat was dropped. It may have been started again since, but its new seat made no call.
    const EXITED: u8 = 3;

    fn new() -> Process {
        Process {
            state: AtomicU8::new(Process::UNKNOWN),
            values: AtomicU64::new(0),
        }
    }

    /// Begins a call of the thread that has the seat.
    #[inline]
    fn begin(&self) {
        while self.state.swap(Process::CALLING, Ordering::SeqCst) == Process::CALLING {
            thread::yield_now(); // another thread closes a port as this process, or drops its seat from before
        }
    }

    /// Begins a call of another thread, if the process is idle.
    fn try_begin(&self) -> bool {
        let order = Ordering::SeqCst;
        let was_idle = self
            .state
            .compare_exchange(Process::IDLE, Process::CALLING, order, order);
        was_idle.is_ok()
    }

    #[inline]
    fn end(&self, next: u8) {
        self.state.store(next, Ordering::SeqCst);
    }
}

/// The ports that no typed sender or receiver is left for, until a process closes them.
#[derive(Default)]
struct Abandoned {
    ports: Mutex<Vec<u16>>,
    are_some: AtomicBool,
}

impl Abandoned {
    fn lock(&self) -> MutexGuard<'_, Vec<u16>> {
        self.ports.lock().unwrap_or_else(PoisonError::into_inner)
    }

    fn add(&self, port: u16) {
        let mut ports = self.lock();
        ports.push(port);
        self.are_some.store(true, Ordering::SeqCst);
    }

    fn take(&self) -> Vec<u16> {
        let mut ports = self.lock();
        self.are_some.store(false, Ordering::SeqCst);
        mem::take(&mut ports)
    }

    #[inline]
    fn are_some(&self) -> bool {
        self.are_some.load(Ordering::SeqCst)
    }
}

// SAFETY: chanhub.h allows calls from all threads at any time, except for the free, which happens once no `Arc` is left. The
// handler's closure is `Send`, and only one thread at a time calls or drops it.
unsafe impl Send for Raw {}
unsafe impl Sync for Raw {}

// A closure that has panicked is not called again.
impl RefUnwindSafe for Raw {}

impl Raw {
    /// Makes a call of the thread that has the seat.
    #[inline]
    fn call<R>(&self, pid: u8, call: impl FnOnce(*mut sys::Chanhub, c_uint) -> R) -> R {
        self.call_then(pid, Process::IDLE, call)
    }

    fn exit(&self, pid: u8) {
        // SAFETY: the hub is open as long as this exists.
        self.call_then(pid, Process::EXITED, |hub, pid| unsafe {
            sys::chanhub_exit(hub, pid)
        });
    }

    /// Makes a call of the thread that has the seat, after which the process is in this state.
    #[inline]
    fn call_then<R>(
        &self,
        pid: u8,
        next: u8,
        call: impl FnOnce(*mut sys::Chanhub, c_uint) -> R,
    ) -> R {
        if self.is_watched.load(Ordering::Relaxed) {
            self.call_watched(pid, next, call)
        } else {
            call(self.at, pid.into())
        }
    }

    /// The same in a hub that is watched. Also closes the abandoned ports: those that are known before, and those that came while the
    /// call kept others from closing them. It is not inlined, so that a call is short where nothing is watched.
    #[inline(never)]
    fn call_watched<R>(
        &self,
        pid: u8,
        next: u8,
        call: impl FnOnce(*mut sys::Chanhub, c_uint) -> R,
    ) -> R {
        let process = self.process(pid);
        process.begin();
        if self.abandoned.are_some() {
            self.close_as(pid);
        }
        let answer = call(self.at, pid.into());
        process.end(next);
        if self.abandoned.are_some() {
            self.close_abandoned(Some(pid));
        }
        answer
    }

    /// Closes the abandoned ports as this process or, if it is not idle, as any that is. If none is, the next call to begin or to end
    /// does so.
    #[cold]
    fn close_abandoned(&self, pid: Option<u8>) {
        while self.abandoned.are_some() {
            let mut processes = pid.into_iter().chain(0..self.processes.len() as u8);
            match processes.find(|&pid| self.process(pid).try_begin()) {
                Some(pid) => {
                    self.close_as(pid);
                    self.process(pid).end(Process::IDLE);
                }
                None => return,
            }
        }
    }

    /// Closes a port as the process whose seat the thread has.
    fn close(&self, pid: u8, port: u16) -> sys::Told {
        // SAFETY: the hub is open as long as this exists, and no other call of the process runs meanwhile.
        self.call(pid, |hub, pid| unsafe {
            sys::chanhub_close(hub, pid, port.into())
        })
    }

    /// Closes the abandoned ports as this process, whose call has begun.
    #[cold]
    fn close_as(&self, pid: u8) {
        for port in self.abandoned.take() {
            // SAFETY: the hub is open as long as this exists, and no other call of the process runs meanwhile.
            unsafe { sys::chanhub_close(self.at, pid.into(), port.into()) };
        }
    }

    #[inline]
    fn process(&self, pid: u8) -> &Process {
        &self.processes[usize::from(pid)]
    }
}

impl Drop for Raw {
    fn drop(&mut self) {
        // SAFETY: `at` came from the library, and this is its last use. The handler still exists.
        unsafe { sys::chanhub_free(self.at) }
    }
}

/// A hub of channels.
///
/// A hub of [`open`](Hub::open) keeps its whole journal, and ends after at most 1,000,000 steps. A hub of
/// [`open_endless`](Hub::open_endless) keeps the newest steps, and never ends.
///
/// A clone refers to the same hub. The hub is freed when the last clone and the last [`Seat`] are dropped.
#[derive(Clone)]
pub struct Hub(Arc<Raw>);

/// A handle to a process of a hub.
///
/// A seat goes from thread to thread, but no two threads can use it at the same time, so only one thread at a time calls as the
/// process. Dropping the seat exits the process, and so does a panic that unwinds the thread that owns it. Once a process has
/// exited, a deadlock among the others can be reported. In a hub of [`Edition::Three`], [`start`](Seat::start) then returns a new seat
/// of the process.
pub struct Seat {
    hub: Hub,
    pid: u8,
    /// Keeps two threads from using a seat at the same time.
    _not_sync: PhantomData<Cell<()>>,
}

// A seat has no state that a panic could leave broken.
impl RefUnwindSafe for Seat {}

/// Shows the number of the hub. A [`Sender`] and a [`Receiver`] show the number of the hub to which they belong.
impl fmt::Debug for Hub {
    fn fmt(&self, f: &mut fmt::Formatter<'_>) -> fmt::Result {
        f.debug_struct("Hub").field("id", &self.0.id).finish()
    }
}

/// Shows the number of the hub and the number of the process.
impl fmt::Debug for Seat {
    fn fmt(&self, f: &mut fmt::Formatter<'_>) -> fmt::Result {
        f.debug_struct("Seat")
            .field("hub", &self.hub.0.id)
            .field("pid", &self.pid)
            .finish()
    }
}

/// The state of a channel, as [`Hub::look_at`] returns it.
#[derive(Clone, Copy, Debug, Default, PartialEq, Eq)]
pub struct Counts {
    /// The capacity of the buffer.
    pub cap: u32,
    /// The number of values that have been sent since the hub was opened.
    pub sent: u64,
    /// The number of those values that have been received. The others are in the buffer.
    pub received: u64,
    /// Whether the channel is closed.
    pub closed: bool,
}

/// The sending end of a channel.
///
/// A sender is `Copy`, so several threads can send on one channel. Dropping it does not close the channel: call
/// [`close`](Sender::close).
#[derive(Clone, Copy, Debug, PartialEq, Eq)]
pub struct Sender {
    hub: u64,
    port: u16,
}

/// The receiving end of a channel.
///
/// A receiver is `Copy`, so several threads can receive from one channel. Each value goes to one of them.
#[derive(Clone, Copy, Debug, PartialEq, Eq)]
pub struct Receiver {
    hub: u64,
    port: u16,
}

/// A case of a [`select`](Seat::select).
#[derive(Clone, Copy, Debug)]
pub enum Case {
    /// Sends the value.
    Send(Sender, Value),
    /// Receives a value.
    Recv(Receiver),
}

/// The result of a [`select`](Seat::select).
#[derive(Clone, Copy, Debug, PartialEq, Eq)]
pub enum Selected {
    /// The case with this index sent its value.
    Sent(usize),
    /// The case with this index received this value.
    Got(usize, Value),
    /// No case could proceed, so the default was taken.
    Default,
}

/// What opening a hub returns. The second refusal is this one.
fn opened(refusal: c_int, second: OpenError) -> Result<(), OpenError> {
    match refusal {
        0 => Ok(()),
        1 => Err(OpenError::Procs),
        2 => Err(second),
        4 => Err(OpenError::Edition),
        _ => Err(OpenError::Memory),
    }
}

/// A function of the library that makes a text.
type Reading = unsafe extern "C" fn(hub: *mut sys::Chanhub, length: *mut usize) -> *mut c_char;

impl Hub {
    /// Opens a hub with 1 to 64 processes. Returns the hub and a seat for each process, in order.
    ///
    /// `limit` (1 to 1,000,000) is the most steps that the hub makes. Exits do not count.
    ///
    /// Drop every seat that no thread uses. As long as you keep it, no deadlock among the other processes is reported.
    ///
    /// # Errors
    ///
    /// Returns an [`OpenError`] if `procs` or `limit` is out of range, or if memory runs out.
    pub fn open(edition: Edition, procs: u8, limit: u32) -> Result<(Hub, Vec<Seat>), OpenError> {
        let mut at = ptr::null_mut();
        // SAFETY: the function writes `at` before it returns, and does not keep the pointer to it.
        let refusal = unsafe { sys::chanhub_open(&mut at, edition.number(), procs.into(), limit) };
        opened(refusal, OpenError::Limit)?;
        Ok(Hub::seated(at, procs, false, None))
    }

    /// Opens a hub that never ends, with 1 to 64 processes. Returns the hub and a seat for each process, in order.
    ///
    /// Its journal is cut into *chapters*. A new chapter begins with a *checkpoint*: steps that make the ports, the values in their
    /// buffers, the exits and the waiting calls again. Once `keep` steps (1 to 900,000) came behind it, and twice as many as it has, or
    /// the text would grow too long for `chanhub replay`, the next step begins a new chapter. So each chapter is a journal of its own,
    /// which all tools read. Nothing else shows that the journal was cut: every call returns what it would if the hub had kept its
    /// whole journal.
    ///
    /// The hub keeps the present chapter, which [`journal`](Hub::journal) returns, and the one [`before`](Hub::before) it. So the last
    /// `keep` steps are always there, or as many as two texts hold. When a chapter begins, the chapter before falls out of the hub:
    /// `chapters` says what becomes of it. When the hub is freed, the chapters that it still keeps fall out too.
    ///
    /// The hub has two chapters in memory, and up to four while they fall out. A checkpoint has at most 65,792 steps, which takes 64 full
    /// channels of capacity 1,024. At most `keep` steps come behind it, or twice as many as it has, if these are more.
    ///
    /// Drop every seat that no thread uses, as with [`open`](Hub::open).
    ///
    /// # Examples
    ///
    /// ```
    /// use chanhub::{Chapters, Edition, Hub};
    ///
    /// let (hub, mut seats) = Hub::open_endless(Edition::Two, 1, 1000, Chapters::discard()).unwrap();
    /// let mut seat = seats.remove(0);
    /// let (sender, receiver) = seat.channel(1).unwrap();
    /// for number in 0..600_000u64 {
    ///     sender.send(&mut seat, number).unwrap();
    ///     assert_eq!(receiver.recv(&mut seat).unwrap().number(), Some(number));
    /// }
    /// assert_eq!(hub.look_at(&receiver).unwrap().received, 600_000);
    /// assert!(hub.journal().unwrap().lines().count() < 1010);
    /// ```
    ///
    /// # Errors
    ///
    /// Returns an [`OpenError`] if `procs` or `keep` is out of range, or if memory runs out.
    pub fn open_endless(
        edition: Edition,
        procs: u8,
        keep: u32,
        chapters: Chapters,
    ) -> Result<(Hub, Vec<Seat>), OpenError> {
        let mut at = ptr::null_mut();
        let handler = chapters.into_handler();
        let (function, pointer) = match &handler {
            Some(handler) => (Some(chapters::handle as sys::Chapters), handler.pointer()),
            None => (None, ptr::null_mut()),
        };
        // SAFETY: as above. The hub gives one chapter at a time, and the handler is dropped after the hub is freed.
        let refusal = unsafe {
            let (edition, procs) = (edition.number(), procs.into());
            sys::chanhub_open_endless(&mut at, edition, procs, keep, function, pointer)
        };
        opened(refusal, OpenError::Keep)?;
        Ok(Hub::seated(at, procs, true, handler))
    }

    /// Opens a hub that follows a journal, such as [`journal`](Hub::journal) of another hub returned: its edition, its processes and
    /// its steps. Returns it and a seat for each process, in order.
    ///
    /// A step is made only in its turn: a call whose step is its process's next in the journal waits until it is the next of all. So
    /// each call has the answer that the journal has, whatever the schedule of the threads is, and whatever word a select passes. A
    /// process that makes no further step in the journal waits until all of it is made.
    ///
    /// A call with another step than the process's next one returns [`Ended::Diverged`], and so does a call once all of the journal is
    /// made; [`divergence`](Hub::divergence) says what was asked. Then the hub ends: all calls return the same, also those that wait. If
    /// `goes_on` is true, it goes on as a hub that follows nothing instead; once all of the journal is made, it then makes any call.
    ///
    /// If the hub of the journal had [timeouts](crate::Builder::timeouts), calls take them. A call times out if, and only if, it
    /// did there, whatever time it is now. Timeouts count again once the hub goes on freely.
    ///
    /// A process that never makes its next step holds up all whose turn is later. A seat that is dropped exits its process, which is a
    /// step too. Chapters cannot be followed.
    ///
    /// # Examples
    ///
    /// ```
    /// use chanhub::{Ended, Hub};
    ///
    /// let journal = "chanhub journal 2\nprocs 1\n0 make 1\n0 send 1 7\n0 exit\n";
    /// let (hub, mut seats) = Hub::follow(journal, false)?;
    /// let mut seat = seats.remove(0);
    /// let (sender, receiver) = seat.channel(1).unwrap();
    /// assert_eq!(sender.send(&mut seat, 7), Ok(()));
    /// assert_eq!(receiver.recv(&mut seat), Err(Ended::Diverged(3)));
    /// assert_eq!(hub.divergence().as_deref(), Some("P0 asked recv 1, step 3 is 0 exit"));
    /// # Ok::<(), chanhub::OpenError>(())
    /// ```
    ///
    /// # Errors
    ///
    /// Returns [`OpenError::Malformed`] or [`OpenError::NotAdmitted`] if the journal cannot be followed, and [`OpenError::Memory`] if
    /// memory runs out.
    pub fn follow(journal: &str, goes_on: bool) -> Result<(Hub, Vec<Seat>), OpenError> {
        let mut at = ptr::null_mut();
        let mut line = 0;
        let options = sys::Options {
            journal: journal.as_ptr().cast(),
            journal_length: journal.len(),
            goes_on,
            journal_line: &mut line,
            ..sys::Options::new()
        };
        // SAFETY: the text is only read during the call, and so is `line` written.
        match unsafe { sys::chanhub_open_with(&mut at, &options) } {
            5 => return Err(OpenError::Malformed(line)),
            6 => return Err(OpenError::NotAdmitted(line)),
            refusal => opened(refusal, OpenError::Limit)?,
        }
        let procs = journal.split_whitespace().nth(4).map(str::parse);
        let procs: u8 = procs.expect("the second head line").expect("a number");
        // SAFETY: the hub has just been opened.
        let clocks = u8::from(unsafe { sys::chanhub_has_clock(at) });
        Ok(Hub::seated(at, procs - clocks, false, None))
    }

    /// Opens a hub as these options say, except for who gets the chapters: that is the handler.
    pub(crate) fn open_with(
        mut options: sys::Options,
        handler: Option<Handler>,
        second: OpenError,
    ) -> Result<(Hub, Vec<Seat>), OpenError> {
        let mut at = ptr::null_mut();
        if let Some(handler) = &handler {
            options.chapters = Some(chapters::handle);
            options.pointer = handler.pointer();
        }
        // SAFETY: as in `open_endless`.
        let refusal = unsafe { sys::chanhub_open_with(&mut at, &options) };
        opened(refusal, second)?;
        let procs = options.procs as u8; // the library has opened it, so there are at most 64
        Ok(Hub::seated(at, procs, options.keep != 0, handler))
    }

    /// Returns the hub that was opened, and its seats.
    fn seated(
        at: *mut sys::Chanhub,
        procs: u8,
        is_endless: bool,
        handler: Option<Handler>,
    ) -> (Hub, Vec<Seat>) {
        static OPENED: AtomicU64 = AtomicU64::new(0);
        let hub = Hub(Arc::new(Raw {
            at,
            id: OPENED.fetch_add(1, Ordering::Relaxed),
            is_endless,
            is_watched: AtomicBool::new(false),
            processes: (0..procs).map(|_| Process::new()).collect(),
            abandoned: Abandoned::default(),
            _handler: handler,
        }));
        let seats = (0..procs).map(|pid| hub.seat(pid)).collect();
        (hub, seats)
    }

    /// Returns a seat of a process that has none.
    fn seat(&self, pid: u8) -> Seat {
        Seat {
            hub: self.clone(),
            pid,
            _not_sync: PhantomData,
        }
    }

    /// Returns how many more steps other than exits the hub makes, by all its processes, before it refuses them with
    /// [`Fault::JOURNAL_FULL`]. Returns `None` if the hub never ends. This needs no seat.
    pub fn steps_left(&self) -> Option<u64> {
        // SAFETY: the hub is open as long as `self.0` is.
        let left = unsafe { sys::chanhub_steps_left(self.0.at) };
        (!self.0.is_endless).then_some(left)
    }

    pub(crate) fn look(&self, port: u16) -> Option<Counts> {
        // SAFETY: the hub is open as long as `self.0` is.
        let counts = unsafe { sys::chanhub_look(self.0.at, port.into()) };
        counts.made.then_some(Counts {
            cap: counts.cap,
            sent: counts.sent,
            received: counts.received,
            closed: counts.closed,
        })
    }

    /// Returns the text of the journal so far, or `None` if memory runs out. In a hub that never ends, this is the text of the
    /// present chapter.
    ///
    /// This needs no seat, so it also works while every process waits. Other calls on the hub are delayed while the text is made.
    /// `chanhub replay` reads a text of at most 67,108,864 bytes. A chapter is never longer.
    pub fn journal(&self) -> Option<String> {
        self.text(sys::chanhub_journal)
    }

    /// Returns the text of the chapter before the present one, or `None` if there is none or memory runs out.
    ///
    /// Only a hub that never ends has one, once its journal was cut. As with [`journal`](Hub::journal), this needs no seat.
    pub fn before(&self) -> Option<String> {
        self.text(sys::chanhub_before)
    }

    /// Returns what was asked where the hub diverged from the journal that it [follows](Hub::follow), and what the journal has there, such
    /// as `P2 asked send 2 3, step 17 is 2 send 2 2`. Returns `None` if it has not diverged or memory runs out. This needs no seat.
    pub fn divergence(&self) -> Option<String> {
        self.text(sys::chanhub_divergence)
    }

    fn text(&self, reading: Reading) -> Option<String> {
        let mut length = 0;
        // SAFETY: the hub is open as long as `self.0` is. The text has `length` bytes until it is freed.
        unsafe {
            let text = reading(self.0.at, &mut length);
            let copy = sys::text_of(text, length)?.into_owned();
            sys::chanhub_free_text(text);
            Some(copy)
        }
    }

    /// Ends the present chapter of a hub that never ends, as if it were full.
    ///
    /// It becomes the chapter [`before`](Hub::before), and the one that was before falls out of the hub. Waiting calls go on waiting.
    /// This needs no seat. Use it where a chapter should end, such as after a batch of work or once a day.
    ///
    /// # Errors
    ///
    /// Returns [`Fault::NO_MEMORY`] if memory runs out, and [`Fault::BAD_CALL`] for a hub of [`open`](Hub::open). Nothing has changed
    /// then.
    pub fn cut(&self) -> Result<(), Fault> {
        if !self.0.is_endless {
            return Err(Fault::BAD_CALL);
        }
        // SAFETY: the hub is open as long as `self.0` is.
        if unsafe { sys::chanhub_cut(self.0.at) } {
            Ok(())
        } else {
            Err(Fault::NO_MEMORY)
        }
    }

    /// Has the calls of processes watched from now on, as `abandon` needs.
    pub(crate) fn watch(&self) {
        if !self.0.is_watched.swap(true, Ordering::Relaxed) {
            self.closes_with_ends(0);
        }
    }

    /// Says that this port is abandoned when the last of its ends is dropped; port 0 stands for those that are still to be made.
    pub(crate) fn closes_with_ends(&self, port: u16) {
        // SAFETY: the hub is open as long as `self.0` is.
        unsafe { sys::chanhub_closes_with_ends(self.0.at, port.into()) }
    }

    /// Closes an abandoned port: as this process, whose seat the thread has, or as any that is idle. A hub that follows a journal does
    /// so itself, in the turn and as the process that the journal has.
    pub(crate) fn abandon(&self, port: u16, pid: Option<u8>) {
        // SAFETY: the hub is open as long as `self.0` is.
        if unsafe { sys::chanhub_ends_gone(self.0.at, port.into()) } {
            return;
        }
        match pid {
            Some(pid) => {
                self.0.close(pid, port);
            }
            None => {
                self.0.abandoned.add(port);
                self.0.close_abandoned(None);
            }
        }
    }

    #[inline]
    pub(crate) fn id(&self) -> u64 {
        self.0.id
    }

    /// Returns the present state of a channel, or `None` if the channel belongs to another hub.
    pub fn look_at(&self, receiver: &Receiver) -> Option<Counts> {
        if receiver.hub == self.0.id {
            self.look(receiver.port)
        } else {
            None
        }
    }
}

/// What a send was told.
#[inline]
fn sent(told: sys::Told) -> Result<(), Ended> {
    match told.what {
        sys::SENT => Ok(()),
        _ => Err(ended(&told)),
    }
}

/// What a receive was told.
#[inline]
fn got(told: sys::Told) -> Result<Value, Ended> {
    match told.what {
        sys::GOT => Ok(Value::of(told.value)),
        _ => Err(ended(&told)),
    }
}

/// What a select was told.
#[inline]
fn selected(told: sys::Told) -> Result<Selected, Ended> {
    match told.what {
        sys::SENT => Ok(Selected::Sent(told.index.into())),
        sys::GOT => Ok(Selected::Got(told.index.into(), Value::of(told.value))),
        sys::DEFAULT => Ok(Selected::Default),
        _ => Err(ended(&told)),
    }
}

/// Why a send, a receive or a select failed. It is not inlined, so that a call finds its usual answer by one comparison.
#[cold]
#[inline(never)]
fn ended(told: &sys::Told) -> Ended {
    match told.what {
        sys::DRAINED => Ended::Drained(told.index),
        sys::CLOSED => Ended::Closed(told.index),
        sys::STALLED => Ended::Stalled,
        sys::CANCELLED => Ended::Cancelled,
        sys::TIMED_OUT => Ended::TimedOut,
        sys::FAULT if told.fault == sys::DIVERGED => Ended::Diverged(told.value.number),
        sys::FAULT => Ended::Fault(Fault(told.fault)),
        sys::WAITING => Ended::Fault(Fault::BUSY),
        what => unreachable!("chanhub.h has no answer {what} to this send, receive or select"),
    }
}

pub(crate) fn send_case(port: u16, value: Value) -> sys::Case {
    sys::Case {
        sends: true,
        port,
        value: value.raw(),
    }
}

pub(crate) fn recv_case(port: u16) -> sys::Case {
    sys::Case {
        sends: false,
        port,
        value: sys::Value::default(),
    }
}

/// Makes a call with places for so many cases. Each place has a receive from port 0, which never proceeds. The places are on the
/// stack, unless they are for more cases than a select has: those are still for the library to refuse.
pub(crate) fn with_places<R>(count: usize, call: impl FnOnce(&mut [sys::Case]) -> R) -> R {
    let (mut few, mut most, mut more);
    let places = if count <= FEW_CASES {
        few = [recv_case(0); FEW_CASES];
        &mut few[..count]
    } else if count <= MOST_CASES {
        most = [recv_case(0); MOST_CASES];
        &mut most[..count]
    } else {
        more = vec![recv_case(0); count];
        &mut more[..]
    };
    call(places)
}

fn done(told: sys::Told) -> Result<(), Fault> {
    if told.what == sys::FAULT {
        Err(Fault(told.fault))
    } else {
        Ok(())
    }
}

impl Seat {
    /// Returns the number of the process. Processes are numbered from 0.
    pub fn pid(&self) -> u8 {
        self.pid
    }

    #[inline]
    pub(crate) fn hub(&self) -> &Hub {
        &self.hub
    }

    /// Returns the number of the next value that the process gives to a table. It depends on nothing but the process and its own count,
    /// so a run that is followed sends the same numbers.
    #[inline]
    pub(crate) fn next_number(&self) -> u64 {
        let values = &self.hub.0.process(self.pid).values;
        let count = values.load(Ordering::Relaxed) + 1;
        values.store(count, Ordering::Relaxed);
        100 * count + u64::from(self.pid)
    }

    /// Makes a call as the process.
    fn call<R>(&self, call: impl FnOnce(*mut sys::Chanhub, c_uint) -> R) -> R {
        self.hub.0.call(self.pid, call)
    }

    #[inline]
    fn is_mine(&self, hub: u64) -> Result<(), Fault> {
        if hub == self.hub.0.id {
            Ok(())
        } else {
            Err(Fault::BAD_CALL)
        }
    }

    /// Makes a channel that buffers up to `cap` values, and returns its two ends.
    ///
    /// A channel of capacity 0 has no buffer: each send waits for a receive.
    ///
    /// # Errors
    ///
    /// Returns [`Fault::BAD_CAP`] if `cap` is above 1,024, [`Fault::TOO_MANY_PORTS`] if the hub already has 64 channels,
    /// [`Fault::JOURNAL_FULL`] if the hub has reached its step limit, and [`Fault::NO_MEMORY`] if memory runs out.
    pub fn channel(&mut self, cap: u32) -> Result<(Sender, Receiver), Fault> {
        let port = self.make(cap)?;
        let hub = self.hub.0.id;
        Ok((Sender { hub, port }, Receiver { hub, port }))
    }

    /// Makes a channel and returns its port.
    pub(crate) fn make(&self, cap: u32) -> Result<u16, Fault> {
        // SAFETY: the hub is open as long as `self.hub` exists, and no other call of the process runs meanwhile. This holds for all
        // calls below.
        let told = self.call(|hub, pid| unsafe { sys::chanhub_make(hub, pid, cap) });
        done(told).map(|()| told.port)
    }

    #[inline]
    pub(crate) fn send(&self, port: u16, value: Value) -> Result<(), Ended> {
        let value = value.raw();
        sent(self.call(|hub, pid| unsafe { sys::chanhub_send(hub, pid, port.into(), value) }))
    }

    #[inline]
    pub(crate) fn recv(&self, port: u16) -> Result<Value, Ended> {
        // The port goes by value, so that it need not lie in memory.
        got(self.call(move |hub, pid| unsafe { sys::chanhub_recv(hub, pid, port.into()) }))
    }

    pub(crate) fn send_all(&self, port: u16, values: &[sys::Value]) -> Result<(), SendAllError> {
        let (first, count, never) = (values.as_ptr(), values.len(), sys::NEVER);
        let mut done = 0;
        let told = self.call(|hub, pid| unsafe {
            sys::chanhub_send_all(hub, pid, port.into(), first, count, never, &mut done)
        });
        sent(told).map_err(|ended| SendAllError { sent: done, ended })
    }

    pub(crate) fn recv_up_to(&self, port: u16, most: usize) -> Result<Vec<sys::Value>, Ended> {
        let most = most.min(MOST_VALUES);
        let mut values = Vec::with_capacity(most);
        let (first, never) = (values.as_mut_ptr(), sys::NEVER);
        let mut received = 0;
        let told = self.call(|hub, pid| unsafe {
            sys::chanhub_recv_up_to(hub, pid, port.into(), first, most, never, &mut received)
        });
        // SAFETY: there is room for `most`, and the library has stored so many.
        unsafe { values.set_len(received) };
        match told.what {
            sys::GOT => Ok(values),
            _ => Err(ended(&told)),
        }
    }

    /// Receives a value, and waits for it at most so long.
    pub(crate) fn recv_for(&self, port: u16, timeout: Duration) -> Result<Value, Ended> {
        got(self.wait_for(&[recv_case(port)], 0, timeout))
    }

    pub(crate) fn close(&self, port: u16) -> Result<(), Fault> {
        done(self.hub.0.close(self.pid, port))
    }

    fn reopen(&self, port: u16, cap: u32) -> Result<(), Fault> {
        done(self.call(|hub, pid| unsafe { sys::chanhub_reopen(hub, pid, port.into(), cap) }))
    }

    #[inline]
    pub(crate) fn select_of(
        &self,
        cases: &[sys::Case],
        has_default: bool,
        word: u64,
    ) -> Result<Selected, Ended> {
        let (first, count) = (cases.as_ptr(), cases.len());
        selected(self.call(|hub, pid| unsafe {
            sys::chanhub_select(hub, pid, first, count, has_default, word)
        }))
    }

    /// Makes a select that waits for at most so long.
    pub(crate) fn select_for(
        &self,
        cases: &[sys::Case],
        word: u64,
        timeout: Duration,
    ) -> Result<Selected, Ended> {
        selected(self.wait_for(cases, word, timeout))
    }

    /// Makes a call that waits for at most so long. If there is no memory to time it out, it waits until there is, or for its answer.
    fn wait_for(&self, cases: &[sys::Case], word: u64, timeout: Duration) -> sys::Told {
        let (first, count) = (cases.as_ptr(), cases.len());
        let nanoseconds = u64::try_from(timeout.as_nanos()).unwrap_or(u64::MAX);
        self.call(|hub, pid| unsafe {
            let deadline = sys::chanhub_in(nanoseconds);
            let mut told = sys::chanhub_select_until(hub, pid, first, count, false, word, deadline);
            while told.what == sys::WAITING {
                thread::sleep(MEMORY_PAUSE);
                told = sys::chanhub_resume(hub, pid, u64::MAX);
            }
            told
        })
    }

    /// Fires one of the cases that can proceed.
    ///
    /// If `k` cases can proceed, the one with index `word % k` among them fires. Pass a random word for a fair choice; 0 always
    /// picks the first. If no case can proceed, `select` returns [`Selected::Default`] if `has_default` is true, and otherwise
    /// waits.
    ///
    /// # Examples
    ///
    /// A select of one case with a default does what `try_recv` or `try_send` does elsewhere:
    ///
    /// ```
    /// use chanhub::{Case, Edition, Hub, Selected};
    ///
    /// let (_hub, mut seats) = Hub::open(Edition::One, 1, 100).unwrap();
    /// let mut seat = seats.remove(0);
    /// let (sender, receiver) = seat.channel(1).unwrap();
    ///
    /// assert_eq!(seat.select(&[Case::Recv(receiver)], true, 0), Ok(Selected::Default));
    ///
    /// // At first only the send can proceed. Then the buffer is full, and only the receive can.
    /// let cases = [Case::Recv(receiver), Case::Send(sender, 7.into())];
    /// assert_eq!(seat.select(&cases, false, 0), Ok(Selected::Sent(1)));
    /// assert_eq!(seat.select(&cases, false, 0), Ok(Selected::Got(0, 7.into())));
    /// ```
    ///
    /// # Errors
    ///
    /// Returns [`Ended::Closed`] if the case that fires sends on a closed channel, and [`Ended::Drained`] if it receives from a
    /// channel that is closed and empty; both have the index of the case. Returns [`Ended::Stalled`] or [`Ended::Cancelled`] if
    /// that ended the wait, and [`Ended::Fault`] if the hub did not carry out the call.
    pub fn select(
        &mut self,
        cases: &[Case],
        has_default: bool,
        word: u64,
    ) -> Result<Selected, Ended> {
        with_places(cases.len(), |places| {
            self.put(cases, places)?;
            self.select_of(places, has_default, word)
        })
    }

    /// Fires one of the cases that can proceed, and waits for at most so long until one can. Never returns [`Selected::Default`].
    ///
    /// # Errors
    ///
    /// Returns [`Ended::TimedOut`] if no case fired in time, and [`Fault::BAD_CALL`] unless the hub was opened with
    /// [timeouts](crate::Builder::timeouts). Otherwise same as [`select`](Seat::select).
    pub fn select_timeout(
        &mut self,
        cases: &[Case],
        word: u64,
        timeout: Duration,
    ) -> Result<Selected, Ended> {
        with_places(cases.len(), |places| {
            self.put(cases, places)?;
            self.select_for(places, word, timeout)
        })
    }

    /// Puts the cases into their places, unless one is of another hub.
    fn put(&self, cases: &[Case], places: &mut [sys::Case]) -> Result<(), Fault> {
        for (place, case) in places.iter_mut().zip(cases) {
            match case {
                Case::Send(sender, value) => {
                    self.is_mine(sender.hub)?;
                    place.sends = true;
                    place.port = sender.port;
                    match value {
                        // The rest of the place is 0 already.
                        Value::Number(number) => place.value.number = *number,
                        Value::Bytes(_) => place.value = value.raw(),
                    }
                }
                Case::Recv(receiver) => {
                    self.is_mine(receiver.hub)?;
                    place.port = receiver.port;
                }
            }
        }
        Ok(())
    }

    /// Starts another process again, which has exited, and returns a new seat of it.
    ///
    /// As with [`Hub::open`], drop the seat if no thread uses it: as long as you keep it, no deadlock among the other processes is
    /// reported.
    ///
    /// # Examples
    ///
    /// ```
    /// use chanhub::{Edition, Fault, Hub};
    ///
    /// let (_hub, mut seats) = Hub::open(Edition::Three, 2, 100).unwrap();
    /// let (mut worker, mut boss) = (seats.pop().unwrap(), seats.pop().unwrap());
    /// let (results, from_worker) = boss.channel(2).unwrap();
    /// for number in [4, 5] {
    ///     results.send(&mut worker, number).unwrap();
    ///     assert_eq!(boss.start(1).unwrap_err(), Fault::NOT_GONE);
    ///     worker.exit();
    ///     worker = boss.start(1).unwrap();
    /// }
    /// assert_eq!(from_worker.recv(&mut boss), Ok(4.into()));
    /// ```
    ///
    /// # Errors
    ///
    /// Returns [`Fault::NOT_GONE`] if the process has not exited or does not exist, and [`Fault::BAD_CALL`] unless the hub has
    /// [`Edition::Three`]. Returns another [`Fault`] if the hub refuses the call.
    pub fn start(&mut self, other: u8) -> Result<Seat, Fault> {
        done(self.call(|hub, pid| unsafe { sys::chanhub_start(hub, pid, other.into()) }))?;
        Ok(self.hub.seat(other))
    }

    /// Ends the waiting call of another process, which returns [`Ended::Cancelled`].
    ///
    /// # Errors
    ///
    /// Returns [`Fault::NOT_PARKED`] if the process has no waiting call or does not exist, and [`Fault::BAD_CALL`] in a hub of
    /// [`Edition::One`]. Returns another [`Fault`] if the hub refuses the call.
    pub fn cancel(&mut self, other: u8) -> Result<(), Fault> {
        done(self.call(|hub, pid| unsafe { sys::chanhub_cancel(hub, pid, other.into()) }))
    }

    /// Exits the process. Dropping the seat does the same.
    pub fn exit(self) {}
}

impl Drop for Seat {
    fn drop(&mut self) {
        self.hub.0.exit(self.pid);
    }
}

impl Sender {
    /// Returns the number of the channel's port, by which journals, stories and pictures name the channel.
    ///
    /// The ports of a hub are numbered from 1, in the order in which they are made. Both ends of a channel have the same port.
    pub fn port(&self) -> u16 {
        self.port
    }

    /// Sends a value. Waits until a receiver takes it or the buffer has room for it.
    ///
    /// # Errors
    ///
    /// Returns [`Ended::Closed`] if the channel is closed. Returns [`Ended::Stalled`] or [`Ended::Cancelled`] if that ended the
    /// wait, and [`Ended::Fault`] if the hub did not carry out the call.
    pub fn send(&self, seat: &mut Seat, value: impl Into<Value>) -> Result<(), Ended> {
        seat.is_mine(self.hub)?;
        seat.send(self.port, value.into())
    }

    /// Sends values, in order. Each is a step of its own, as that of [`send`](Sender::send), and this waits as often as it must.
    ///
    /// # Examples
    ///
    /// ```
    /// use chanhub::{Edition, Ended, Hub, SendAllError};
    ///
    /// let (_hub, mut seats) = Hub::open(Edition::One, 1, 100).unwrap();
    /// let mut seat = seats.remove(0);
    /// let (sender, receiver) = seat.channel(3).unwrap();
    /// sender.send_all(&mut seat, [7, 8]).unwrap();
    ///
    /// // There is room for one more, and no other process receives.
    /// let error = sender.send_all(&mut seat, 9..12).unwrap_err();
    /// assert_eq!(error, SendAllError { sent: 1, ended: Ended::Stalled });
    /// assert_eq!(receiver.recv_up_to(&mut seat, 64), Ok(vec![7.into(), 8.into(), 9.into()]));
    /// ```
    ///
    /// # Errors
    ///
    /// Returns how many values were sent, and the error of [`send`](Sender::send) for the next one.
    pub fn send_all(
        &self,
        seat: &mut Seat,
        values: impl IntoIterator<Item = impl Into<Value>>,
    ) -> Result<(), SendAllError> {
        if let Err(fault) = seat.is_mine(self.hub) {
            let ended = fault.into();
            return Err(SendAllError { sent: 0, ended });
        }
        let values: Vec<_> = values.into_iter().map(|value| value.into().raw()).collect();
        seat.send_all(self.port, &values)
    }

    /// Sends a value, and waits for that at most so long. A timeout of zero does not wait.
    ///
    /// # Errors
    ///
    /// Returns [`Ended::TimedOut`] if the value was not sent in time, and [`Fault::BAD_CALL`] unless the hub was opened with
    /// [timeouts](crate::Builder::timeouts). Otherwise same as [`send`](Sender::send).
    pub fn send_timeout(
        &self,
        seat: &mut Seat,
        value: impl Into<Value>,
        timeout: Duration,
    ) -> Result<(), Ended> {
        seat.is_mine(self.hub)?;
        let case = send_case(self.port, value.into());
        seat.select_for(&[case], 0, timeout).map(|_sent| ())
    }

    /// Closes the channel. Waiting sends return [`Ended::Closed`], and waiting receives return [`Ended::Drained`].
    ///
    /// # Errors
    ///
    /// Returns [`Ended::Fault`] if the channel is already closed or the hub refuses the call. It returns no other error.
    pub fn close(&self, seat: &mut Seat) -> Result<(), Ended> {
        seat.is_mine(self.hub)?;
        Ok(seat.close(self.port)?)
    }

    /// Opens the channel again, which is closed and empty, with a buffer for up to `cap` values. All its senders and receivers work
    /// again, so nobody should still use them for what the channel was.
    ///
    /// # Errors
    ///
    /// Returns [`Fault::IN_USE`] if the channel is open or holds a value, [`Fault::BAD_CAP`] if `cap` is above 1,024, and
    /// [`Fault::BAD_CALL`] unless the hub has [`Edition::Three`]. Returns another [`Ended::Fault`] if the hub refuses the call. It
    /// returns no other error.
    pub fn reopen(&self, seat: &mut Seat, cap: u32) -> Result<(), Ended> {
        seat.is_mine(self.hub)?;
        Ok(seat.reopen(self.port, cap)?)
    }
}

impl Receiver {
    /// Returns the number of the channel's port, as [`Sender::port`] does.
    pub fn port(&self) -> u16 {
        self.port
    }

    /// Receives a value. Waits until there is one.
    ///
    /// # Errors
    ///
    /// Returns [`Ended::Drained`] if the channel is closed and empty. Returns [`Ended::Stalled`] or [`Ended::Cancelled`] if that
    /// ended the wait, and [`Ended::Fault`] if the hub did not carry out the call.
    #[inline]
    pub fn recv(&self, seat: &mut Seat) -> Result<Value, Ended> {
        seat.is_mine(self.hub)?;
        seat.recv(self.port)
    }

    /// Receives up to `most` values, but never more than 1,087. Waits for the first one, then takes more while the buffer holds any. A
    /// value for which it had to wait comes alone.
    ///
    /// # Errors
    ///
    /// Returns the error of [`recv`](Receiver::recv) for the first value, and [`Fault::BAD_CALL`] if `most` is 0.
    pub fn recv_up_to(&self, seat: &mut Seat, most: usize) -> Result<Vec<Value>, Ended> {
        seat.is_mine(self.hub)?;
        let values = seat.recv_up_to(self.port, most)?;
        Ok(values.into_iter().map(Value::of).collect())
    }

    /// Receives a value, and waits for it at most so long. A timeout of zero does not wait.
    ///
    /// # Errors
    ///
    /// Returns [`Ended::TimedOut`] if no value came in time, and [`Fault::BAD_CALL`] unless the hub was opened with
    /// [timeouts](crate::Builder::timeouts). Otherwise same as [`recv`](Receiver::recv).
    pub fn recv_timeout(&self, seat: &mut Seat, timeout: Duration) -> Result<Value, Ended> {
        seat.is_mine(self.hub)?;
        seat.recv_for(self.port, timeout)
    }

    /// Receives the next value, or returns `None` once the channel is closed and empty.
    ///
    /// Unlike [`drain`](Receiver::drain), this leaves the seat free between two values:
    ///
    /// ```
    /// # use chanhub::{Edition, Ended, Hub};
    /// # let (_hub, mut seats) = Hub::open(Edition::One, 1, 100).unwrap();
    /// # let mut seat = seats.remove(0);
    /// # let (send_number, numbers) = seat.channel(1).unwrap();
    /// # let (send_double, doubles) = seat.channel(1).unwrap();
    /// # send_number.send(&mut seat, 4).unwrap();
    /// # send_number.close(&mut seat).unwrap();
    /// while let Some(value) = numbers.next(&mut seat)? {
    ///     let number = value.number().expect("a number");
    ///     send_double.send(&mut seat, 2 * number)?;
    /// }
    /// # assert_eq!(doubles.recv(&mut seat)?.number(), Some(8));
    /// # Ok::<(), Ended>(())
    /// ```
    ///
    /// # Errors
    ///
    /// Same as [`recv`](Receiver::recv), except that it never returns [`Ended::Drained`].
    pub fn next(&self, seat: &mut Seat) -> Result<Option<Value>, Ended> {
        match self.recv(seat) {
            Ok(value) => Ok(Some(value)),
            Err(Ended::Drained(_)) => Ok(None),
            Err(ended) => Err(ended),
        }
    }

    /// Returns an iterator that receives values until the channel is closed and empty.
    ///
    /// If a receive fails for another reason, the error is the last item:
    ///
    /// ```
    /// use chanhub::{Edition, Ended, Hub};
    ///
    /// let (_hub, mut seats) = Hub::open(Edition::One, 1, 100).unwrap();
    /// let mut seat = seats.remove(0);
    /// let (sender, receiver) = seat.channel(2).unwrap();
    /// sender.send(&mut seat, 7).unwrap();
    ///
    /// // No other process can send or close.
    /// let came: Vec<_> = receiver.drain(&mut seat).collect();
    /// assert_eq!(came, [Ok(7.into()), Err(Ended::Stalled)]);
    ///
    /// sender.send(&mut seat, 8).unwrap();
    /// sender.close(&mut seat).unwrap();
    /// let values = receiver.drain(&mut seat).collect::<Result<Vec<_>, _>>();
    /// assert_eq!(values, Ok(vec![8.into()]));
    /// ```
    pub fn drain<'a>(&'a self, seat: &'a mut Seat) -> Drain<'a> {
        Drain {
            receiver: self,
            seat,
            has_ended: false,
        }
    }
}

/// An iterator that receives values from a channel.
///
/// It is returned by [`Receiver::drain`].
#[derive(Debug)]
#[must_use = "a `Drain` is lazy: iterate it to receive"]
pub struct Drain<'a> {
    receiver: &'a Receiver,
    seat: &'a mut Seat,
    has_ended: bool,
}

impl Iterator for Drain<'_> {
    type Item = Result<Value, Ended>;

    fn next(&mut self) -> Option<Result<Value, Ended>> {
        if self.has_ended {
            return None;
        }
        let came = self.receiver.next(self.seat).transpose();
        self.has_ended = !matches!(came, Some(Ok(_)));
        came
    }
}

impl FusedIterator for Drain<'_> {}

#[cfg(test)]
mod tests {
    use super::*;

    fn told(what: u8) -> sys::Told {
        sys::Told {
            what,
            fault: 0,
            index: 0,
            port: 0,
            value: sys::Value::default(),
        }
    }

    #[test]
    fn a_call_that_is_left_waiting_is_no_default() {
        let waiting = selected(told(sys::WAITING));
        assert_eq!(waiting, Err(Ended::Fault(Fault::BUSY)));
    }

    #[test]
    #[should_panic(expected = "no answer 3")]
    fn a_send_gets_no_value() {
        let _ = sent(told(sys::GOT));
    }

    #[test]
    #[should_panic(expected = "no answer 2")]
    fn a_receive_sends_no_value() {
        let _ = got(told(sys::SENT));
    }
}
