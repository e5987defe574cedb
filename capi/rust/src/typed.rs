//! Channels that carry values of any type, with ends like those of `std::sync::mpsc` and crossbeam.
//!
//! [`channel`] returns a [`Sender`] and a [`Receiver`], which can be cloned and moved to other threads. A thread acts as a process,
//! so it first [binds](Sender::bind) an end to its [`Seat`]. What this returns sends and receives, and stays in that thread:
//!
//! ```
//! use chanhub::{typed, Edition, Hub};
//! use std::thread;
//!
//! let (_hub, mut seats) = Hub::open(Edition::Two, 2, 1000).unwrap();
//! let (worker, boss) = (seats.pop().unwrap(), seats.pop().unwrap());
//! let (words, from_worker) = typed::channel::<String>(&boss, 2).unwrap();
//! thread::scope(|scope| {
//!     scope.spawn(move || {
//!         let words = words.bind(&worker);
//!         for word in ["any", "type"] {
//!             words.send(word.to_owned()).unwrap();
//!         }
//!     }); // the last sender is dropped here, which closes the channel, and then the seat
//!     let words = from_worker.bind(&boss);
//!     assert_eq!(words.iter().collect::<Result<Vec<_>, _>>().unwrap(), ["any", "type"]);
//! });
//! ```
//!
//! # Values
//!
//! The hub carries a number for each value, which the journal shows: 102 is the first value of process 2, 202 its second, and so on
//! ([`Table::put`]), each one that is offered. The value itself waits in a [`Table`] of the channel until whoever receives the number
//! takes it out. A value that nobody receives is dropped with the last end of its channel. The ends keep the hub, so this is never
//! later than the hub is freed. A value that is not sent comes back in the error.
//!
//! # Closing
//!
//! When the last sender of a channel is dropped, the channel is closed, and so it is when the last receiver is. A value that was
//! sent before can still be received. [`Sender::keep_open`] turns this off: the channel then stays open until it is [closed by
//! hand](BoundSender::close).
//!
//! The journal shows the close as a step of the process to whose seat the dropped end was bound. If the last end is dropped unbound,
//! such as the original after it was cloned for each thread, the step is one of some process that has called before and is in no
//! call just then. If there is none, it is one of the next process that begins or ends a call, or exits. A hub that
//! [follows](Hub::follow) a journal makes the close that the journal has, once the last end is dropped, by whichever thread. Until then
//! other calls of the process that the journal has there wait.
//!
//! An end that is bound borrows the seat, so it is dropped before the seat exits its process. An end that was not bound when its
//! thread dropped the seat could still be the last sender, but none of the processes could know: if they all wait, they stall.
//!
//! # Deadlocks
//!
//! A call that waits in vain returns [`Ended::Stalled`], as [everywhere](crate#deadlocks). That includes the receiver that waits
//! because some thread forgot to drop its sender, once all other processes wait or have exited.
//!
//! # Timeouts
//!
//! In a hub with [timeouts](crate::Builder::timeouts), [`send_timeout`](BoundSender::send_timeout),
//! [`recv_timeout`](BoundReceiver::recv_timeout) and [`select_timeout`](Select::select_timeout) wait for at most a [`Duration`]. As long
//! as one of them waits, no deadlock is reported.

use crate::error::{Ended, Fault};
use crate::hub::{recv_case, send_case, Counts, Hub, Seat, Selected};
use crate::table::{Table, TAKEN_ONCE};
use crate::value::Value;
use std::error::Error;
use std::fmt;
use std::iter::FusedIterator;
use std::ops::Deref;
use std::sync::atomic::{AtomicBool, AtomicUsize, Ordering};
use std::sync::Arc;
use std::time::Duration;

mod macros;
mod select;

pub use select::{Select, SelectTimeoutError, SelectedOperation};

/// Makes a channel that buffers up to `cap` values of type `T`, and returns its two ends. The seat is that of the process which
/// makes it.
///
/// A channel of capacity 0 has no buffer: each send waits for a receive.
///
/// # Errors
///
/// Returns the same errors as [`Seat::channel`].
pub fn channel<T>(seat: &Seat, cap: u32) -> Result<(Sender<T>, Receiver<T>), Fault> {
    seat.hub().watch();
    let channel = Arc::new(Channel::at(seat.make(cap)?, seat));
    channel.hub.closes_with_ends(channel.port);
    let sender = Sender {
        channel: Arc::clone(&channel),
        pid: None,
    };
    Ok((sender, Receiver { channel, pid: None }))
}

/// Returns a receiver from port 0, which never receives: its channel has no sender, and stays open. Use it for an arm of a select that
/// is switched off. The seat is that of any process of the hub.
///
/// # Examples
///
/// ```
/// use chanhub::{select, typed, Ended, Hub};
///
/// # let (_hub, mut seats) = Hub::builder(1).open().unwrap();
/// # let seat = seats.remove(0);
/// # let (words, from_words) = typed::channel::<String>(&seat, 1)?;
/// # let (numbers, from_numbers) = typed::channel::<u64>(&seat, 2)?;
/// # let numbers = numbers.bind(&seat);
/// # words.bind(&seat).send("a".to_string())?;
/// # (1..3).try_for_each(|number| numbers.send(number))?;
/// let (mut words, numbers) = (from_words.bind(&seat), from_numbers.bind(&seat));
/// let mut came = Vec::new();
/// while came.len() < 3 {
///     select! {
///         recv(words) -> word => match word {
///             Ok(word) => came.push(word),
///             Err(_) => words = typed::never(&seat).bind(&seat), // closed and empty: the arm is off
///         },
///         recv(numbers) -> number => came.push(number?.to_string()),
///     }?;
/// }
/// # came.sort();
/// # assert_eq!(came, ["1", "2", "a"]);
/// # Ok::<(), Ended>(())
/// ```
pub fn never<T>(seat: &Seat) -> Receiver<T> {
    let channel = Channel::at(0, seat);
    channel.stays_open.store(true, Ordering::Relaxed);
    Receiver {
        channel: Arc::new(channel),
        pid: None,
    }
}

/// What the ends of a channel share.
struct Channel<T> {
    hub: Hub,
    port: u16,
    /// The values of the numbers in the hub.
    table: Table<T>,
    senders: AtomicUsize,
    receivers: AtomicUsize,
    stays_open: AtomicBool,
    /// Whether it is closed, or is about to be.
    is_closed: AtomicBool,
}

impl<T> Channel<T> {
    /// Returns the channel of this port, with one sender and one receiver. The seat is one of its hub.
    fn at(port: u16, seat: &Seat) -> Channel<T> {
        Channel {
            hub: seat.hub().clone(),
            port,
            table: Table::new(),
            senders: AtomicUsize::new(1),
            receivers: AtomicUsize::new(1),
            stays_open: AtomicBool::new(false),
            is_closed: AtomicBool::new(false),
        }
    }

    fn counts(&self) -> Counts {
        self.hub.look(self.port).unwrap_or_default() // port 0 was not made
    }

    fn len(&self) -> usize {
        let counts = self.counts();
        (counts.sent - counts.received) as usize
    }

    fn capacity(&self) -> usize {
        self.counts().cap as usize
    }

    /// Takes the value with this number, which a receive got or no send sent.
    fn take(&self, number: Value) -> T {
        self.table.take(number).expect(TAKEN_ONCE)
    }

    /// Closes the channel, as this process or any other, unless it is closed or stays open.
    fn abandon(&self, pid: Option<u8>) {
        let stays = self.stays_open.load(Ordering::Relaxed);
        if !stays && !self.is_closed.swap(true, Ordering::Relaxed) {
            self.hub.abandon(self.port, pid);
        }
    }

    /// Returns `Fault::BAD_CALL` if the seat is one of another hub.
    fn is_for(&self, seat: &Seat) -> Result<(), Fault> {
        if self.hub.id() == seat.hub().id() {
            Ok(())
        } else {
            Err(Fault::BAD_CALL)
        }
    }

    /// Returns the process of a seat, if it is one of the channel's hub.
    fn pid_of(&self, seat: &Seat) -> Option<u8> {
        self.is_for(seat).ok().map(|()| seat.pid())
    }

    fn show(&self, name: &str, f: &mut fmt::Formatter<'_>) -> fmt::Result {
        f.debug_struct(name)
            .field("hub", &self.hub)
            .field("port", &self.port)
            .finish_non_exhaustive()
    }
}

/// The sending end of a [`channel`]. To send, a thread [binds](Sender::bind) it to its seat.
///
/// A clone sends on the same channel. When the last one is dropped, [the channel is closed](self#closing).
pub struct Sender<T> {
    channel: Arc<Channel<T>>,
    /// The process that closes the channel if this is the last sender.
    pid: Option<u8>,
}

/// The receiving end of a [`channel`]. To receive, a thread [binds](Receiver::bind) it to its seat.
///
/// A clone receives from the same channel, and each value goes to one of them. When the last one is dropped, [the channel is
/// closed](self#closing).
pub struct Receiver<T> {
    channel: Arc<Channel<T>>,
    /// The process that closes the channel if this is the last receiver.
    pid: Option<u8>,
}

/// A [`Sender`] that acts as the process of a seat.
///
/// It has the methods of a `Sender` too. So its `clone` is a `Sender` that is not bound, for another thread.
///
/// It stays in the thread that has the seat:
///
/// ```compile_fail,E0277
/// # let (_hub, seats) = chanhub::Hub::open(chanhub::Edition::Two, 1, 100).unwrap();
/// let (sender, _receiver) = chanhub::typed::channel::<u64>(&seats[0], 1).unwrap();
/// let sender = sender.bind(&seats[0]);
/// std::thread::scope(|scope| {
///     scope.spawn(|| sender.send(7));
/// });
/// ```
///
/// It is dropped before the seat:
///
/// ```compile_fail,E0505
/// # let (_hub, mut seats) = chanhub::Hub::open(chanhub::Edition::Two, 1, 100).unwrap();
/// let seat = seats.remove(0);
/// let (sender, _receiver) = chanhub::typed::channel::<u64>(&seat, 1).unwrap();
/// let sender = sender.bind(&seat);
/// seat.exit();
/// ```
pub struct BoundSender<'a, T> {
    sender: Sender<T>,
    seat: &'a Seat,
}

/// A [`Receiver`] that acts as the process of a seat. It stays in the thread that has the seat, and is dropped before it.
///
/// It has the methods of a `Receiver` too. So its `clone` is a `Receiver` that is not bound, for another thread.
pub struct BoundReceiver<'a, T> {
    receiver: Receiver<T>,
    seat: &'a Seat,
}

impl<T> Sender<T> {
    /// Returns the sender as one that acts as the process of this seat.
    pub fn bind(self, seat: &Seat) -> BoundSender<'_, T> {
        BoundSender { sender: self, seat }
    }

    /// Makes the channel stay open when its last sender or its last receiver is dropped.
    pub fn keep_open(&self) {
        self.channel.stays_open.store(true, Ordering::Relaxed);
    }

    /// Returns the number of the channel's port, by which journals, stories and pictures name the channel.
    pub fn port(&self) -> u16 {
        self.channel.port
    }

    /// Returns how many values are in the buffer.
    pub fn len(&self) -> usize {
        self.channel.len()
    }

    /// Returns whether no value is in the buffer.
    pub fn is_empty(&self) -> bool {
        self.len() == 0
    }

    /// Returns whether the buffer has no room. A channel of capacity 0 is always full.
    pub fn is_full(&self) -> bool {
        self.len() == self.capacity()
    }

    /// Returns how many values the buffer has room for.
    pub fn capacity(&self) -> usize {
        self.channel.capacity()
    }
}

impl<T> Receiver<T> {
    /// Returns the receiver as one that acts as the process of this seat.
    pub fn bind(self, seat: &Seat) -> BoundReceiver<'_, T> {
        BoundReceiver {
            receiver: self,
            seat,
        }
    }

    /// Returns the number of the channel's port, as [`Sender::port`] does.
    pub fn port(&self) -> u16 {
        self.channel.port
    }

    /// Returns how many values are in the buffer.
    pub fn len(&self) -> usize {
        self.channel.len()
    }

    /// Returns whether no value is in the buffer.
    pub fn is_empty(&self) -> bool {
        self.len() == 0
    }

    /// Returns whether the buffer has no room. A channel of capacity 0 is always full.
    pub fn is_full(&self) -> bool {
        self.len() == self.capacity()
    }

    /// Returns how many values the buffer has room for.
    pub fn capacity(&self) -> usize {
        self.channel.capacity()
    }
}

impl<T> Clone for Sender<T> {
    fn clone(&self) -> Sender<T> {
        self.channel.senders.fetch_add(1, Ordering::Relaxed);
        Sender {
            channel: Arc::clone(&self.channel),
            pid: None,
        }
    }
}

impl<T> Clone for Receiver<T> {
    fn clone(&self) -> Receiver<T> {
        self.channel.receivers.fetch_add(1, Ordering::Relaxed);
        Receiver {
            channel: Arc::clone(&self.channel),
            pid: None,
        }
    }
}

impl<T> Drop for Sender<T> {
    fn drop(&mut self) {
        if self.channel.senders.fetch_sub(1, Ordering::AcqRel) == 1 {
            self.channel.abandon(self.pid);
        }
    }
}

impl<T> Drop for Receiver<T> {
    fn drop(&mut self) {
        if self.channel.receivers.fetch_sub(1, Ordering::AcqRel) == 1 {
            self.channel.abandon(self.pid);
        }
    }
}

// These two also have the compiler refuse to drop the seat first.
impl<T> Drop for BoundSender<'_, T> {
    fn drop(&mut self) {
        self.sender.pid = self.sender.channel.pid_of(self.seat);
    }
}

impl<T> Drop for BoundReceiver<'_, T> {
    fn drop(&mut self) {
        self.receiver.pid = self.receiver.channel.pid_of(self.seat);
    }
}

/// Shows the hub and the port.
impl<T> fmt::Debug for Sender<T> {
    fn fmt(&self, f: &mut fmt::Formatter<'_>) -> fmt::Result {
        self.channel.show("Sender", f)
    }
}

/// Shows the hub and the port.
impl<T> fmt::Debug for Receiver<T> {
    fn fmt(&self, f: &mut fmt::Formatter<'_>) -> fmt::Result {
        self.channel.show("Receiver", f)
    }
}

/// Shows the hub and the port.
impl<T> fmt::Debug for BoundSender<'_, T> {
    fn fmt(&self, f: &mut fmt::Formatter<'_>) -> fmt::Result {
        self.channel.show("BoundSender", f)
    }
}

/// Shows the hub and the port.
impl<T> fmt::Debug for BoundReceiver<'_, T> {
    fn fmt(&self, f: &mut fmt::Formatter<'_>) -> fmt::Result {
        self.channel.show("BoundReceiver", f)
    }
}

impl<T> Deref for BoundSender<'_, T> {
    type Target = Sender<T>;

    fn deref(&self) -> &Sender<T> {
        &self.sender
    }
}

impl<T> Deref for BoundReceiver<'_, T> {
    type Target = Receiver<T>;

    fn deref(&self) -> &Receiver<T> {
        &self.receiver
    }
}

impl<'a, T> BoundSender<'a, T> {
    /// Returns the seat to which the sender is bound.
    pub fn seat(&self) -> &'a Seat {
        self.seat
    }

    /// Sends a value. Waits until a receiver takes it or the buffer has room for it.
    ///
    /// # Errors
    ///
    /// Returns the value with the reason why it was not sent: [`Ended::Closed`] if the channel is closed, [`Ended::Stalled`] or
    /// [`Ended::Cancelled`] if that ended the wait, and [`Ended::Fault`] if the hub did not carry out the call.
    pub fn send(&self, value: T) -> Result<(), SendError<T>> {
        let send = |number| self.seat.send(self.port(), number).map(|()| true);
        match self.offer(value, send) {
            Ok(_sent) => Ok(()),
            Err((value, ended)) => Err(SendError { value, ended }),
        }
    }

    /// Sends values, in order. Each is a step of its own, as that of [`send`](BoundSender::send), and this waits as often as it must.
    ///
    /// # Errors
    ///
    /// Returns the values that were not sent, with the reason why the first of them was not, as [`send`](BoundSender::send) does.
    pub fn send_all(&self, values: impl IntoIterator<Item = T>) -> Result<(), SendAllError<T>> {
        let channel = &self.channel;
        let values: Vec<T> = values.into_iter().collect();
        if let Err(fault) = channel.is_for(self.seat) {
            let (sent, ended) = (0, fault.into());
            return Err(SendAllError {
                sent,
                values,
                ended,
            });
        }
        let numbers = channel.table.put_all(self.seat, values);
        let sent = self.seat.send_all(channel.port, &numbers);
        sent.map_err(|error| SendAllError {
            sent: error.sent,
            values: channel.table.take_all(&numbers[error.sent..]),
            ended: error.ended,
        })
    }

    /// Sends a value, only if that needs no wait.
    ///
    /// # Errors
    ///
    /// Returns the value: as [`TrySendError::Full`] if no receiver waits and the buffer has no room, and otherwise with the reason,
    /// as [`send`](BoundSender::send) does.
    pub fn try_send(&self, value: T) -> Result<(), TrySendError<T>> {
        let try_case = |number| {
            let case = send_case(self.port(), number);
            let selected = self.seat.select_of(&[case], true, 0)?;
            Ok(selected != Selected::Default)
        };
        match self.offer(value, try_case) {
            Ok(None) => Ok(()),
            Ok(Some(value)) => Err(TrySendError::Full(value)),
            Err((value, ended)) => Err(TrySendError::Ended(value, ended)),
        }
    }

    /// Sends a value, and waits for that at most so long. A timeout of zero does not wait.
    ///
    /// # Errors
    ///
    /// Returns the value: as [`SendTimeoutError::Timeout`] if it was not sent in time, and otherwise with the reason, as
    /// [`send`](BoundSender::send) does. The reason is [`Fault::BAD_CALL`] unless the hub was opened with
    /// [timeouts](crate::Builder::timeouts).
    pub fn send_timeout(&self, value: T, timeout: Duration) -> Result<(), SendTimeoutError<T>> {
        let try_for = |number| {
            let case = send_case(self.port(), number);
            self.seat.select_for(&[case], 0, timeout).map(|_sent| true)
        };
        match self.offer(value, try_for) {
            Ok(_sent) => Ok(()),
            Err((value, Ended::TimedOut)) => Err(SendTimeoutError::Timeout(value)),
            Err((value, ended)) => Err(SendTimeoutError::Ended(value, ended)),
        }
    }

    /// Puts a value into the table, and makes a call that sends its number and tells whether it did. Returns the value if it was not
    /// sent.
    fn offer(
        &self,
        value: T,
        call: impl FnOnce(Value) -> Result<bool, Ended>,
    ) -> Result<Option<T>, (T, Ended)> {
        let channel = &self.channel;
        if let Err(fault) = channel.is_for(self.seat) {
            return Err((value, fault.into()));
        }
        let number = channel.table.put(self.seat, value);
        match call(number) {
            Ok(true) => Ok(None),
            Ok(false) => Ok(Some(channel.take(number))),
            Err(ended) => Err((channel.take(number), ended)),
        }
    }

    /// Closes the channel. Waiting sends return [`Ended::Closed`]. Receivers get the values that were sent before, and then
    /// [`Ended::Drained`].
    ///
    /// # Errors
    ///
    /// Returns [`Fault::ALREADY_CLOSED`] if the channel is closed, and another [`Fault`] if the hub refuses the call.
    pub fn close(&self) -> Result<(), Fault> {
        let channel = &self.channel;
        channel.is_for(self.seat)?;
        if channel.is_closed.swap(true, Ordering::Relaxed) {
            return Err(Fault::ALREADY_CLOSED);
        }
        let done = self.seat.close(channel.port);
        if done.is_err() {
            channel.is_closed.store(false, Ordering::Relaxed);
        }
        done
    }
}

impl<'a, T> BoundReceiver<'a, T> {
    /// Returns the seat to which the receiver is bound.
    pub fn seat(&self) -> &'a Seat {
        self.seat
    }

    /// Receives a value. Waits until there is one.
    ///
    /// # Errors
    ///
    /// Returns [`Ended::Drained`] if the channel is closed and empty, [`Ended::Stalled`] or [`Ended::Cancelled`] if that ended the
    /// wait, and [`Ended::Fault`] if the hub did not carry out the call.
    pub fn recv(&self) -> Result<T, Ended> {
        let channel = &self.channel;
        channel.is_for(self.seat)?;
        self.seat
            .recv(channel.port)
            .map(|number| channel.take(number))
    }

    /// Receives up to `most` values, but never more than 1,087. Waits for the first one, then takes more while the buffer holds any. A
    /// value for which it had to wait comes alone.
    ///
    /// ```
    /// # use chanhub::{typed, Edition, Ended, Hub};
    /// # let (_hub, mut seats) = Hub::open(Edition::Two, 1, 100).unwrap();
    /// # let seat = seats.remove(0);
    /// # let (words, receiver) = typed::channel::<&str>(&seat, 3)?;
    /// # let (words, receiver) = (words.bind(&seat), receiver.bind(&seat));
    /// words.send_all(["any", "type", "at once"])?;
    /// assert_eq!(receiver.recv_up_to(2)?, ["any", "type"]);
    /// assert_eq!(receiver.recv_up_to(2)?, ["at once"]);
    /// # Ok::<(), Ended>(())
    /// ```
    ///
    /// # Errors
    ///
    /// Returns the error of [`recv`](BoundReceiver::recv) for the first value, and [`Fault::BAD_CALL`] if `most` is 0.
    pub fn recv_up_to(&self, most: usize) -> Result<Vec<T>, Ended> {
        let channel = &self.channel;
        channel.is_for(self.seat)?;
        let numbers = self.seat.recv_up_to(channel.port, most)?;
        Ok(channel.table.take_all(&numbers))
    }

    /// Receives a value, only if that needs no wait.
    ///
    /// # Errors
    ///
    /// Returns [`TryRecvError::Empty`] if there is none, and otherwise what [`recv`](BoundReceiver::recv) returns.
    pub fn try_recv(&self) -> Result<T, TryRecvError> {
        let channel = &self.channel;
        channel.is_for(self.seat).map_err(Ended::from)?;
        match self.seat.select_of(&[recv_case(channel.port)], true, 0)? {
            Selected::Got(_, number) => Ok(channel.take(number)),
            Selected::Sent(_) | Selected::Default => Err(TryRecvError::Empty),
        }
    }

    /// Receives a value, and waits for it at most so long. A timeout of zero does not wait.
    ///
    /// # Errors
    ///
    /// Returns [`RecvTimeoutError::Timeout`] if no value came in time, and otherwise what [`recv`](BoundReceiver::recv) returns, or
    /// [`Fault::BAD_CALL`] unless the hub was opened with [timeouts](crate::Builder::timeouts).
    pub fn recv_timeout(&self, timeout: Duration) -> Result<T, RecvTimeoutError> {
        let channel = &self.channel;
        channel.is_for(self.seat).map_err(Ended::from)?;
        let number = self.seat.recv_for(channel.port, timeout)?;
        Ok(channel.take(number))
    }

    /// Returns an iterator that receives values until the channel is closed and empty. If a receive ends in another way, such as by
    /// a stall, the error is the last item.
    ///
    /// The seat stays free for other calls between two values:
    ///
    /// ```
    /// # use chanhub::{typed, Edition, Ended, Hub};
    /// # let (_hub, mut seats) = Hub::open(Edition::Two, 1, 100).unwrap();
    /// # let seat = seats.remove(0);
    /// # let (sender, numbers) = typed::channel::<u64>(&seat, 2)?;
    /// # let (doubles, receiver) = typed::channel::<u64>(&seat, 2)?;
    /// # let (sender, numbers, doubles) = (sender.bind(&seat), numbers.bind(&seat), doubles.bind(&seat));
    /// # sender.send(4)?;
    /// # drop(sender);
    /// for number in numbers.iter() {
    ///     doubles.send(2 * number?)?;
    /// }
    /// # assert_eq!(receiver.bind(&seat).recv(), Ok(8));
    /// # Ok::<(), Ended>(())
    /// ```
    pub fn iter(&self) -> Iter<'_, 'a, T> {
        Iter {
            receiver: self,
            has_ended: false,
        }
    }

    /// Returns an iterator that receives values as long as there is one at once. If a receive fails, except since the channel is
    /// closed and empty, the error is the last item.
    pub fn try_iter(&self) -> TryIter<'_, 'a, T> {
        TryIter {
            receiver: self,
            has_ended: false,
        }
    }
}

impl<'r, 'a, T> IntoIterator for &'r BoundReceiver<'a, T> {
    type Item = Result<T, Ended>;
    type IntoIter = Iter<'r, 'a, T>;

    fn into_iter(self) -> Iter<'r, 'a, T> {
        self.iter()
    }
}

/// An iterator over the values that a channel carries, until it is closed and empty. [`BoundReceiver::iter`] returns it.
#[derive(Debug)]
#[must_use = "an `Iter` is lazy: iterate it to receive"]
pub struct Iter<'r, 'a, T> {
    receiver: &'r BoundReceiver<'a, T>,
    has_ended: bool,
}

impl<T> Iterator for Iter<'_, '_, T> {
    type Item = Result<T, Ended>;

    fn next(&mut self) -> Option<Result<T, Ended>> {
        if self.has_ended {
            return None;
        }
        let came = match self.receiver.recv() {
            Err(Ended::Drained(_)) => None,
            came => Some(came),
        };
        self.has_ended = !matches!(came, Some(Ok(_)));
        came
    }
}

impl<T> FusedIterator for Iter<'_, '_, T> {}

/// An iterator over the values that can be received at once. [`BoundReceiver::try_iter`] returns it.
#[derive(Debug)]
#[must_use = "a `TryIter` is lazy: iterate it to receive"]
pub struct TryIter<'r, 'a, T> {
    receiver: &'r BoundReceiver<'a, T>,
    has_ended: bool,
}

impl<T> Iterator for TryIter<'_, '_, T> {
    type Item = Result<T, Ended>;

    fn next(&mut self) -> Option<Result<T, Ended>> {
        if self.has_ended {
            return None;
        }
        let came = match self.receiver.try_recv() {
            Ok(value) => Some(Ok(value)),
            Err(TryRecvError::Empty | TryRecvError::Ended(Ended::Drained(_))) => None,
            Err(TryRecvError::Ended(ended)) => Some(Err(ended)),
        };
        self.has_ended = !matches!(came, Some(Ok(_)));
        came
    }
}

impl<T> FusedIterator for TryIter<'_, '_, T> {}

/// The error of a send: the value that was not sent, and why.
#[derive(Clone, Copy, PartialEq, Eq)]
pub struct SendError<T> {
    /// The value that was not sent.
    pub value: T,
    /// Why it was not sent.
    pub ended: Ended,
}

/// The error of [`send_all`](BoundSender::send_all).
#[derive(Clone, PartialEq, Eq)]
pub struct SendAllError<T> {
    /// How many values were sent.
    pub sent: usize,
    /// The values that were not sent, in order.
    pub values: Vec<T>,
    /// Why the first of these was not sent.
    pub ended: Ended,
}

/// The error of a send that does not wait. It has the value that was not sent.
#[derive(Clone, Copy, PartialEq, Eq)]
#[non_exhaustive]
pub enum TrySendError<T> {
    /// The send would have to wait.
    Full(T),
    /// The send failed, for this reason.
    Ended(T, Ended),
}

/// The error of a receive that does not wait.
#[derive(Clone, Copy, Debug, PartialEq, Eq)]
#[non_exhaustive]
pub enum TryRecvError {
    /// The receive would have to wait.
    Empty,
    /// The receive failed, for this reason: [`Ended::Drained`] if the channel is closed and empty.
    Ended(Ended),
}

/// The error of a send with a timeout. It has the value that was not sent.
#[derive(Clone, Copy, PartialEq, Eq)]
#[non_exhaustive]
pub enum SendTimeoutError<T> {
    /// The timeout passed first.
    Timeout(T),
    /// The send failed, for this reason.
    Ended(T, Ended),
}

/// The error of a receive with a timeout.
#[derive(Clone, Copy, Debug, PartialEq, Eq)]
#[non_exhaustive]
pub enum RecvTimeoutError {
    /// The timeout passed first.
    Timeout,
    /// The receive failed, for this reason: [`Ended::Drained`] if the channel is closed and empty.
    Ended(Ended),
}

impl<T> SendError<T> {
    /// Returns the value that was not sent.
    pub fn into_inner(self) -> T {
        self.value
    }
}

impl<T> TrySendError<T> {
    /// Returns the value that was not sent.
    pub fn into_inner(self) -> T {
        match self {
            TrySendError::Full(value) | TrySendError::Ended(value, _) => value,
        }
    }
}

impl<T> SendTimeoutError<T> {
    /// Returns the value that was not sent.
    pub fn into_inner(self) -> T {
        match self {
            SendTimeoutError::Timeout(value) | SendTimeoutError::Ended(value, _) => value,
        }
    }
}

impl<T> fmt::Debug for SendError<T> {
    fn fmt(&self, f: &mut fmt::Formatter<'_>) -> fmt::Result {
        f.debug_struct("SendError")
            .field("ended", &self.ended)
            .finish_non_exhaustive()
    }
}

impl<T> fmt::Debug for SendAllError<T> {
    fn fmt(&self, f: &mut fmt::Formatter<'_>) -> fmt::Result {
        f.debug_struct("SendAllError")
            .field("sent", &self.sent)
            .field("ended", &self.ended)
            .finish_non_exhaustive()
    }
}

impl<T> fmt::Debug for TrySendError<T> {
    fn fmt(&self, f: &mut fmt::Formatter<'_>) -> fmt::Result {
        match self {
            TrySendError::Full(_) => f.write_str("Full(..)"),
            TrySendError::Ended(_, ended) => write!(f, "Ended(.., {ended:?})"),
        }
    }
}

impl<T> fmt::Debug for SendTimeoutError<T> {
    fn fmt(&self, f: &mut fmt::Formatter<'_>) -> fmt::Result {
        match self {
            SendTimeoutError::Timeout(_) => f.write_str("Timeout(..)"),
            SendTimeoutError::Ended(_, ended) => write!(f, "Ended(.., {ended:?})"),
        }
    }
}

impl<T> fmt::Display for SendError<T> {
    fn fmt(&self, f: &mut fmt::Formatter<'_>) -> fmt::Result {
        self.ended.fmt(f)
    }
}

impl<T> fmt::Display for SendAllError<T> {
    fn fmt(&self, f: &mut fmt::Formatter<'_>) -> fmt::Result {
        write!(f, "{}, after {} were sent", self.ended, self.sent)
    }
}

impl<T> fmt::Display for TrySendError<T> {
    fn fmt(&self, f: &mut fmt::Formatter<'_>) -> fmt::Result {
        match self {
            TrySendError::Full(_) => f.write_str("the send would have to wait"),
            TrySendError::Ended(_, ended) => ended.fmt(f),
        }
    }
}

impl fmt::Display for TryRecvError {
    fn fmt(&self, f: &mut fmt::Formatter<'_>) -> fmt::Result {
        match self {
            TryRecvError::Empty => f.write_str("the receive would have to wait"),
            TryRecvError::Ended(ended) => ended.fmt(f),
        }
    }
}

impl<T> fmt::Display for SendTimeoutError<T> {
    fn fmt(&self, f: &mut fmt::Formatter<'_>) -> fmt::Result {
        match self {
            SendTimeoutError::Timeout(_) => Ended::TimedOut.fmt(f),
            SendTimeoutError::Ended(_, ended) => ended.fmt(f),
        }
    }
}

impl fmt::Display for RecvTimeoutError {
    fn fmt(&self, f: &mut fmt::Formatter<'_>) -> fmt::Result {
        match self {
            RecvTimeoutError::Timeout => Ended::TimedOut.fmt(f),
            RecvTimeoutError::Ended(ended) => ended.fmt(f),
        }
    }
}

impl<T> Error for SendError<T> {}
impl<T> Error for SendAllError<T> {}
impl<T> Error for TrySendError<T> {}
impl Error for TryRecvError {}
impl<T> Error for SendTimeoutError<T> {}
impl Error for RecvTimeoutError {}

/// Drops the value, so that `?` passes the reason on.
impl<T> From<SendError<T>> for Ended {
    fn from(error: SendError<T>) -> Ended {
        error.ended
    }
}

/// Drops the values, so that `?` passes the reason on.
impl<T> From<SendAllError<T>> for Ended {
    fn from(error: SendAllError<T>) -> Ended {
        error.ended
    }
}

impl From<Ended> for TryRecvError {
    fn from(ended: Ended) -> TryRecvError {
        TryRecvError::Ended(ended)
    }
}

impl From<Ended> for RecvTimeoutError {
    fn from(ended: Ended) -> RecvTimeoutError {
        match ended {
            Ended::TimedOut => RecvTimeoutError::Timeout,
            ended => RecvTimeoutError::Ended(ended),
        }
    }
}
