//! A select of sends and receives that carry values of any type.

use super::{BoundReceiver, BoundSender, Channel};
use crate::error::{Ended, Fault};
use crate::hub::{send_case, with_places, Seat, Selected, MOST_CASES};
use crate::sys;
use crate::value::Value;
use std::collections::hash_map::RandomState;
use std::error::Error;
use std::fmt;
use std::hash::{BuildHasher, Hasher};
use std::time::Duration;

/// What the library promises of the others.
const FIRES: &str = "a select without a default fires a case, or ends";

/// Waits on several sends and receives, and makes one of them.
///
/// [`send`](Select::send) and [`recv`](Select::recv) each add a case and return its index. Then [`select`](Select::select) waits
/// until a case can proceed, or [`try_select`](Select::try_select) fires one that can at once. The [`SelectedOperation`] that they
/// return says which one fired, and gives its result. If the cases are fixed, [`select!`](crate::select) is shorter.
///
/// If several cases can proceed, a random one of them fires. A hub has up to 16 cases in a select, and 8 in
/// [`Edition::One`](crate::Edition::One).
///
/// # Examples
///
/// ```
/// use chanhub::typed::{channel, Select};
/// use chanhub::{Edition, Ended, Hub};
///
/// # let (_hub, mut seats) = Hub::open(Edition::Two, 1, 100).unwrap();
/// # let seat = seats.remove(0);
/// let (numbers, from_numbers) = channel::<u64>(&seat, 1)?;
/// let (words, from_words) = channel::<String>(&seat, 1)?;
/// let (numbers, from_words) = (numbers.bind(&seat), from_words.bind(&seat));
///
/// let mut number = Some(7);
/// let mut select = Select::new(&seat);
/// let word = select.recv(&from_words);
/// let sent = select.send(&numbers, &mut number);
/// let fired = select.select()?;
/// match fired.index() {
///     index if index == word => println!("{}", fired.recv(&from_words)?),
///     index if index == sent => fired.send(&numbers)?,
///     _ => unreachable!(),
/// }
/// assert_eq!(number, None); // it was sent
/// assert_eq!(from_numbers.bind(&seat).recv()?, 7);
/// # drop(words);
/// # Ok::<(), Ended>(())
/// ```
pub struct Select<'a> {
    seat: &'a Seat,
    cases: Vec<Case<'a>>,
    /// Whether each end is of the seat's hub.
    is_of_one_hub: bool,
    word: Option<u64>,
}

enum Case<'a> {
    Recv(u16),
    Send(Box<dyn Offer + 'a>),
}

/// A value that a case offers. While the hub has its number, it is in the table of the channel.
trait Offer {
    /// Puts the value into the table, as one of this seat's process, and the case that sends its number into the place. Without a
    /// value the place stays as it is.
    fn put(&mut self, seat: &Seat, place: &mut sys::Case);

    /// Takes the value out of the table again, because it was not sent.
    fn take_back(&mut self);
}

struct Offered<'a, T> {
    channel: &'a Channel<T>,
    value: &'a mut Option<T>,
    number: Option<Value>,
}

impl<T> Offer for Offered<'_, T> {
    fn put(&mut self, seat: &Seat, place: &mut sys::Case) {
        let table = &self.channel.table;
        self.number = self.value.take().map(|value| table.put(seat, value));
        if let Some(number) = self.number {
            *place = send_case(self.channel.port, number);
        }
    }

    fn take_back(&mut self) {
        *self.value = self.number.map(|number| self.channel.take(number));
    }
}

impl<'a> Select<'a> {
    /// Returns a select without cases, which acts as the process of this seat.
    pub fn new(seat: &'a Seat) -> Select<'a> {
        Select {
            seat,
            cases: Vec::with_capacity(MOST_CASES), // so that it need not grow
            is_of_one_hub: true,
            word: None,
        }
    }

    fn add<T>(&mut self, channel: &Channel<T>, case: Case<'a>) -> usize {
        self.is_of_one_hub &= channel.hub.id() == self.seat.hub().id();
        self.cases.push(case);
        self.cases.len() - 1
    }

    /// Adds a case that sends a value, and returns its index.
    ///
    /// The value is taken out of the option if the case fires and the channel is open. Otherwise it is there again after the
    /// select. A case whose option is `None` never proceeds.
    pub fn send<T>(&mut self, sender: &'a BoundSender<'_, T>, value: &'a mut Option<T>) -> usize {
        let offered = Offered {
            channel: &sender.channel,
            value,
            number: None,
        };
        self.add(&sender.channel, Case::Send(Box::new(offered)))
    }

    /// Adds a case that receives a value, and returns its index.
    pub fn recv<T>(&mut self, receiver: &'a BoundReceiver<'_, T>) -> usize {
        self.add(&receiver.channel, Case::Recv(receiver.port()))
    }

    /// Fixes the choice, which is random otherwise: if `k` cases can proceed, the one with index `word % k` among them fires. So 0
    /// picks the first.
    pub fn choose(&mut self, word: u64) {
        self.word = Some(word);
    }

    /// Waits until one of the cases can proceed, and fires it.
    ///
    /// # Errors
    ///
    /// Returns [`Ended::Stalled`] or [`Ended::Cancelled`] if that ended the wait, and [`Ended::Fault`] if the hub did not carry out
    /// the call. Then no value was sent. A case that fires on a closed channel is no such error, but the result of that case.
    pub fn select(self) -> Result<SelectedOperation, Ended> {
        let fired = self.run(|seat, cases, word| seat.select_of(cases, false, word))?;
        Ok(fired.expect(FIRES))
    }

    /// Waits at most so long until one of the cases can proceed, and fires it. A timeout of zero does not wait.
    ///
    /// # Errors
    ///
    /// Returns [`SelectTimeoutError::Timeout`] if no case fired in time, and otherwise what [`select`](Select::select) returns, or
    /// [`Fault::BAD_CALL`] unless the hub was opened with [timeouts](crate::Builder::timeouts). Then no value was sent.
    pub fn select_timeout(
        self,
        timeout: Duration,
    ) -> Result<SelectedOperation, SelectTimeoutError> {
        let fired = self.run(|seat, cases, word| seat.select_for(cases, word, timeout))?;
        Ok(fired.expect(FIRES))
    }

    /// Fires one of the cases that can proceed at once. Returns `None` if none can.
    ///
    /// # Errors
    ///
    /// Returns [`Ended::Fault`] if the hub did not carry out the call.
    pub fn try_select(self) -> Result<Option<SelectedOperation>, Ended> {
        self.run(|seat, cases, word| seat.select_of(cases, true, word))
    }

    /// The select of the macro `select!` with a default after a timeout: returns `None` if no case fired in time.
    #[doc(hidden)]
    pub fn select_within(self, timeout: Duration) -> Result<Option<SelectedOperation>, Ended> {
        match self.select_timeout(timeout) {
            Ok(fired) => Ok(Some(fired)),
            Err(SelectTimeoutError::Timeout) => Ok(None),
            Err(SelectTimeoutError::Ended(ended)) => Err(ended),
        }
    }

    /// Makes this call of the cases.
    fn run(
        mut self,
        call: impl FnOnce(&Seat, &[sys::Case], u64) -> Result<Selected, Ended>,
    ) -> Result<Option<SelectedOperation>, Ended> {
        if !self.is_of_one_hub {
            return Err(Fault::BAD_CALL.into());
        }
        with_places(self.cases.len(), |cases| {
            for (place, case) in cases.iter_mut().zip(&mut self.cases) {
                case.put(self.seat, place);
            }
            let word = self.word.unwrap_or_else(random_word);
            let told = call(self.seat, cases, word);
            let sent = match told {
                Ok(Selected::Sent(index)) => Some(index),
                _ => None,
            };
            for (index, case) in self.cases.iter_mut().enumerate() {
                if Some(index) != sent {
                    case.take_back();
                }
            }
            let (index, result) = match told {
                Ok(Selected::Default) => return Ok(None),
                Ok(Selected::Sent(index)) => (index, Ok(None)),
                Ok(Selected::Got(index, number)) => (index, Ok(Some(number))),
                Err(ended @ (Ended::Closed(index) | Ended::Drained(index))) => {
                    (index.into(), Err(ended))
                }
                Err(ended) => return Err(ended),
            };
            Ok(Some(SelectedOperation {
                index,
                place: (self.seat.hub().id(), cases[index].port),
                result,
            }))
        })
    }
}

impl Case<'_> {
    fn put(&mut self, seat: &Seat, place: &mut sys::Case) {
        match self {
            Case::Recv(port) => place.port = *port,
            Case::Send(offer) => offer.put(seat, place),
        }
    }

    fn take_back(&mut self) {
        if let Case::Send(offer) = self {
            offer.take_back();
        }
    }
}

/// A word of the standard library's random keys.
fn random_word() -> u64 {
    RandomState::new().build_hasher().finish()
}

impl fmt::Debug for Select<'_> {
    fn fmt(&self, f: &mut fmt::Formatter<'_>) -> fmt::Result {
        f.debug_struct("Select")
            .field("seat", &self.seat)
            .field("cases", &self.cases.len())
            .finish_non_exhaustive()
    }
}

/// The error of a select with a timeout.
#[derive(Clone, Copy, Debug, PartialEq, Eq)]
#[non_exhaustive]
pub enum SelectTimeoutError {
    /// The timeout passed first.
    Timeout,
    /// The select failed, for this reason.
    Ended(Ended),
}

impl fmt::Display for SelectTimeoutError {
    fn fmt(&self, f: &mut fmt::Formatter<'_>) -> fmt::Result {
        match self {
            SelectTimeoutError::Timeout => Ended::TimedOut.fmt(f),
            SelectTimeoutError::Ended(ended) => ended.fmt(f),
        }
    }
}

impl Error for SelectTimeoutError {}

impl From<Ended> for SelectTimeoutError {
    fn from(ended: Ended) -> SelectTimeoutError {
        match ended {
            Ended::TimedOut => SelectTimeoutError::Timeout,
            ended => SelectTimeoutError::Ended(ended),
        }
    }
}

/// The case of a [`Select`] that fired. [`recv`](SelectedOperation::recv) or [`send`](SelectedOperation::send) gives its result.
#[derive(Debug)]
#[must_use = "a value that was received is lost unless `recv` takes it"]
pub struct SelectedOperation {
    index: usize,
    /// The hub and the port of the case.
    place: (u64, u16),
    result: Result<Option<Value>, Ended>,
}

impl SelectedOperation {
    /// Returns the index of the case, which [`Select::send`] or [`Select::recv`] returned.
    pub fn index(&self) -> usize {
        self.index
    }

    /// Returns the value that the case received.
    ///
    /// # Errors
    ///
    /// Returns [`Ended::Drained`] if the channel is closed and empty.
    ///
    /// # Panics
    ///
    /// Panics if the case that fired is none of this receiver.
    pub fn recv<T>(self, receiver: &BoundReceiver<'_, T>) -> Result<T, Ended> {
        let number = self.result_of(&receiver.channel)?;
        let number = number.expect("the case that fired is a send");
        Ok(receiver.channel.take(number))
    }

    /// Returns whether the case sent its value.
    ///
    /// # Errors
    ///
    /// Returns [`Ended::Closed`] if the channel is closed. The value is in its option again.
    ///
    /// # Panics
    ///
    /// Panics if the case that fired is none of this sender.
    pub fn send<T>(self, sender: &BoundSender<'_, T>) -> Result<(), Ended> {
        let number = self.result_of(&sender.channel)?;
        assert_eq!(number, None, "the case that fired is a receive");
        Ok(())
    }

    fn result_of<T>(self, channel: &Channel<T>) -> Result<Option<Value>, Ended> {
        let place = (channel.hub.id(), channel.port);
        assert_eq!(
            self.place, place,
            "the case that fired is of another channel"
        );
        self.result
    }
}
