//! The table of values that are passed by number.

use crate::hub::Seat;
use crate::sys;
use crate::value::Value;
use std::collections::hash_map::{Entry, HashMap};
use std::hash::{BuildHasherDefault, Hasher};
use std::sync::{Mutex, MutexGuard, PoisonError};

/// Holds values of any type, so that channels can pass them by number.
///
/// A channel carries only numbers and byte strings of up to 32 bytes. To pass anything else, [`put`](Table::put) it into a table
/// that both threads share, and send the number that `put` returns. The receiver passes that number to [`take`](Table::take).
///
/// If a send fails, the value stays in the table, and the sender can `take` it back.
///
/// The channels of [`typed`](crate::typed) have such a table inside, so their callers need none.
///
/// # Examples
///
/// ```
/// use chanhub::{Edition, Hub, Table};
///
/// let (_hub, mut seats) = Hub::open(Edition::One, 1, 100).unwrap();
/// let mut seat = seats.remove(0);
/// let (sender, receiver) = seat.channel(1).unwrap();
/// let table = Table::new(); // to share it between threads, put it into an `Arc`
///
/// let number = table.put(&seat, String::from("a long text"));
/// sender.send(&mut seat, number).unwrap();
/// let number = receiver.recv(&mut seat).unwrap();
/// assert_eq!(table.take(number).as_deref(), Some("a long text"));
/// assert_eq!(table.take(number), None); // each value is taken once
/// ```
#[derive(Debug)]
pub struct Table<T> {
    things: Mutex<Things<T>>,
}

/// What is wrong if a channel has no value with a number that it carries.
pub(crate) const TAKEN_ONCE: &str = "a number of the channel is taken once";

type Things<T> = HashMap<u64, T, BuildHasherDefault<NumberHasher>>;

/// Hashes the number of a value by a multiplication. The table gives the numbers out itself, so nobody can choose them to collide.
#[derive(Debug, Default)]
struct NumberHasher(u64);

impl Hasher for NumberHasher {
    fn write(&mut self, _: &[u8]) {
        unreachable!("a key is a `u64`")
    }

    fn write_u64(&mut self, number: u64) {
        let product = number.wrapping_mul(0x9e37_79b9_7f4a_7c15); // odd, and 2^64 over the golden ratio
        self.0 = product ^ product >> 32; // the map looks at the low bits too
    }

    fn finish(&self) -> u64 {
        self.0
    }
}

impl<T> Default for Table<T> {
    fn default() -> Table<T> {
        Table {
            things: Mutex::default(),
        }
    }
}

impl<T> Table<T> {
    /// Creates an empty table.
    pub fn new() -> Table<T> {
        Table::default()
    }

    #[inline]
    fn lock(&self) -> MutexGuard<'_, Things<T>> {
        self.things.lock().unwrap_or_else(PoisonError::into_inner)
    }

    /// Stores a value and returns its number, as a [`Value`] that can be sent. The seat is that of the process which sends it.
    ///
    /// The `k`-th value, from 1, that process `p` of a hub puts into tables or gives to [`typed`](crate::typed) channels has the number
    /// `100 * k + p`. So in a hub that [follows](crate::Hub::follow) a journal, a process sends the numbers that it sent before. A
    /// number is left out if the table has a value of another hub by it.
    #[inline]
    pub fn put(&self, seat: &Seat, thing: T) -> Value {
        Value::Number(put_into(&mut self.lock(), seat, thing))
    }

    /// Stores values, and returns their numbers as the library has them.
    pub(crate) fn put_all(&self, seat: &Seat, values: Vec<T>) -> Vec<sys::Value> {
        let mut things = self.lock();
        let numbers = values
            .into_iter()
            .map(|thing| put_into(&mut things, seat, thing));
        numbers.map(|number| Value::Number(number).raw()).collect()
    }

    /// Removes and returns the value with this number. Returns `None` if the table has none.
    pub fn take(&self, value: Value) -> Option<T> {
        self.lock().remove(&value.number()?)
    }

    /// Removes and returns the values with these numbers, which the table has.
    pub(crate) fn take_all(&self, numbers: &[sys::Value]) -> Vec<T> {
        let mut things = self.lock();
        let taken = numbers.iter().map(|value| things.remove(&value.number));
        taken.map(|thing| thing.expect(TAKEN_ONCE)).collect()
    }
}

/// Stores a value, and returns its number.
#[inline]
fn put_into<T>(things: &mut Things<T>, seat: &Seat, thing: T) -> u64 {
    loop {
        let number = seat.next_number();
        if let Entry::Vacant(place) = things.entry(number) {
            place.insert(thing);
            return number;
        }
    }
}
