//! A hub that is opened option by option.

use crate::chapters::Chapters;
use crate::error::OpenError;
use crate::hub::{Edition, Hub, Seat};
use crate::sys;

/// The most steps that a hub makes, which is its limit unless another is chosen.
const MOST_STEPS: u32 = 1_000_000;

/// Opens a hub option by option. [`Hub::builder`] returns one.
///
/// Without any option, the hub has [`Edition::Two`], makes at most 1,000,000 steps, and its calls take no timeouts.
///
/// # Examples
///
/// ```
/// use chanhub::{Ended, Hub};
/// use std::time::Duration;
///
/// let (_hub, mut seats) = Hub::builder(1).timeouts().open()?;
/// let mut seat = seats.remove(0);
/// let (_sender, receiver) = seat.channel(1).unwrap();
/// let came = receiver.recv_timeout(&mut seat, Duration::from_millis(5));
/// assert_eq!(came, Err(Ended::TimedOut));
/// # Ok::<(), chanhub::OpenError>(())
/// ```
#[derive(Debug)]
#[must_use = "the hub is opened by `open`"]
pub struct Builder {
    procs: u8,
    edition: Edition,
    length: Length,
    has_timeouts: bool,
}

/// How long a hub goes on.
#[derive(Debug)]
enum Length {
    Limit(u32),
    Endless(u32, Chapters),
}

impl Hub {
    /// Returns a builder of a hub with this number of processes: 1 to 64, or 1 to 63 with [timeouts](Builder::timeouts).
    pub fn builder(procs: u8) -> Builder {
        Builder {
            procs,
            edition: Edition::Two,
            length: Length::Limit(MOST_STEPS),
            has_timeouts: false,
        }
    }
}

impl Builder {
    /// Chooses the edition.
    pub fn edition(mut self, edition: Edition) -> Builder {
        self.edition = edition;
        self
    }

    /// Lets the hub make at most so many steps (1 to 1,000,000), as [`Hub::open`] does.
    pub fn limit(mut self, limit: u32) -> Builder {
        self.length = Length::Limit(limit);
        self
    }

    /// Lets the hub never end, as [`Hub::open_endless`] does.
    pub fn endless(mut self, keep: u32, chapters: Chapters) -> Builder {
        self.length = Length::Endless(keep, chapters);
        self
    }

    /// Lets calls take timeouts, such as [`Receiver::recv_timeout`](crate::Receiver::recv_timeout). [`Edition::One`] has
    /// none.
    ///
    /// The hub then has one more process, the clock, whose number is the number of processes. The library makes its steps, so that
    /// the journal tells which calls timed out: the clock cancels them. While a call with a timeout waits, no deadlock is reported,
    /// since something can still happen.
    ///
    /// A call that waits with a timeout makes at most 5 steps. They count towards the limit. One step is kept for each such call, so
    /// that a full journal delays none.
    pub fn timeouts(mut self) -> Builder {
        self.has_timeouts = true;
        self
    }

    /// Opens the hub. Returns it and a seat for each process, in order.
    ///
    /// Drop every seat that no thread uses. As long as you keep it, no deadlock among the other processes is reported.
    ///
    /// # Errors
    ///
    /// Returns an [`OpenError`] if the number of processes, the limit or the number of steps to keep is out of range, if timeouts are
    /// wanted in [`Edition::One`], or if memory runs out.
    pub fn open(self) -> Result<(Hub, Vec<Seat>), OpenError> {
        let (limit, keep, handler, refusal) = match self.length {
            Length::Limit(limit) => (limit, 0, None, OpenError::Limit),
            Length::Endless(keep, chapters) => (0, keep, chapters.into_handler(), OpenError::Keep),
        };
        if limit == 0 && keep == 0 {
            return Err(refusal); // the library takes 0 for what is usual
        }
        let options = sys::Options {
            edition: self.edition.number(),
            procs: self.procs.into(),
            limit,
            keep,
            clock: self.has_timeouts,
            ..sys::Options::new()
        };
        Hub::open_with(options, handler, refusal)
    }
}
