//! Hubs that follow a journal.

use chanhub::typed::{
    channel, BoundReceiver, BoundSender, Receiver, RecvTimeoutError, Select, SendTimeoutError,
    Sender, TryRecvError, TrySendError,
};
use chanhub::{select, Builder, Edition, Ended, Fault, Hub, OpenError, Seat};
use std::fmt::Debug;
use std::sync::mpsc;
use std::thread;
use std::time::{Duration, Instant};

const JOURNAL: &str =
    "chanhub journal 2\nprocs 2\n0 make 0\n1 recv 1\n0 send 1 9\n0 close 1\n0 exit\n1 exit\n";

/// Three threads that send, and one that receives all. Returns what it got, in order.
fn race(seats: Vec<Seat>) -> Vec<u64> {
    let mut seats = seats.into_iter();
    let mut receives = seats.next().unwrap();
    let (sender, receiver) = receives.channel(2).unwrap();
    let threads: Vec<_> = seats
        .zip(0..)
        .map(|(mut seat, first)| {
            thread::spawn(move || {
                for number in 0..20u64 {
                    sender.send(&mut seat, 100 * first + number).unwrap();
                }
            })
        })
        .collect();
    let got = (0..60)
        .map(|_| receiver.recv(&mut receives).unwrap().number().unwrap())
        .collect();
    for thread in threads {
        thread.join().unwrap();
    }
    got
}

#[test]
fn a_race_is_repeated() {
    for _ in 0..20 {
        let (hub, seats) = Hub::open(Edition::Two, 4, 1000).unwrap();
        let got = race(seats);
        let journal = hub.journal().unwrap();
        let (hub, seats) = Hub::follow(&journal, false).unwrap();
        assert_eq!(race(seats), got);
        assert_eq!(hub.journal().unwrap(), journal);
    }
}

#[test]
fn a_divergence_ends_the_hub() {
    let (hub, mut seats) = Hub::follow(JOURNAL, false).unwrap();
    let (mut one, mut zero) = (seats.pop().unwrap(), seats.pop().unwrap());
    let (sender, receiver) = zero.channel(0).unwrap();
    let thread = thread::spawn(move || receiver.recv(&mut one));
    assert_eq!(sender.send(&mut zero, 8), Err(Ended::Diverged(3)));
    assert_eq!(thread.join().unwrap(), Err(Ended::Diverged(3)));
    assert_eq!(zero.channel(1), Err(Fault::DIVERGED));
    assert_eq!(sender.close(&mut zero), Err(Ended::Fault(Fault::DIVERGED)));
    assert!(JOURNAL.starts_with(&hub.journal().unwrap()));
    assert_eq!(
        hub.divergence().as_deref(),
        Some("P0 asked send 1 8, step 3 is 0 send 1 9")
    );
    assert_eq!(
        Ended::Diverged(3).to_string(),
        "the journal that the hub follows has another step here: step 3 (see Hub::divergence)"
    );
}

#[test]
fn a_hub_goes_on() {
    let (_hub, mut seats) = Hub::follow("chanhub journal 1\nprocs 1\n0 make 1\n", true).unwrap();
    let mut seat = seats.remove(0);
    let (sender, receiver) = seat.channel(1).unwrap();
    assert_eq!(sender.send(&mut seat, 5), Ok(()));
    assert_eq!(receiver.recv(&mut seat).unwrap().number(), Some(5));
}

/// Two threads that send and two that receive, with timeouts of at most so long. Returns what each was told.
fn times_out(seats: Vec<Seat>, longest: Duration) -> Vec<Vec<Result<u64, Ended>>> {
    let mut seats = seats;
    let (sender, receiver) = seats[0].channel(0).unwrap();
    let call = move |seat: &mut Seat, pid: u64, i: u64| {
        let timeout = longest * ((i + pid) % 4) as u32 / 4;
        if pid < 2 {
            sender
                .send_timeout(seat, 100 * pid + i, timeout)
                .map(|()| 0)
        } else {
            let value = receiver.recv_timeout(seat, timeout)?;
            Ok(value.number().unwrap())
        }
    };
    let threads: Vec<_> = seats
        .into_iter()
        .zip(0..)
        .map(|(mut seat, pid)| {
            thread::spawn(move || (0..30).map(|i| call(&mut seat, pid, i)).collect())
        })
        .collect();
    threads
        .into_iter()
        .map(|thread| thread.join().unwrap())
        .collect()
}

#[test]
fn timeouts_are_repeated() {
    let mut waits = 0;
    for _ in 0..40 {
        let (hub, seats) = Hub::builder(4).timeouts().open().unwrap();
        let told = times_out(seats, Duration::from_micros(400));
        let journal = hub.journal().unwrap();
        for longest in [Duration::ZERO, Duration::from_secs(3600)] {
            let (hub, seats) = Hub::follow(&journal, false).unwrap();
            assert_eq!(times_out(seats, longest), told);
            assert_eq!(hub.journal().unwrap(), journal);
        }
        waits += journal.matches("\n4 cancel ").count();
    }
    assert!(waits > 40, "{waits} calls timed out after a wait");
}

/// Records 200 runs of a program of five processes, and follows each.
fn is_repeated<R: Debug + PartialEq>(open: fn() -> Builder, program: impl Fn(Vec<Seat>) -> R) {
    for count in 0..200 {
        let (hub, seats) = open().open().unwrap();
        let told = program(seats);
        let journal = hub.journal().unwrap();
        let (hub, seats) = Hub::follow(&journal, false).unwrap();
        let again = program(seats);
        assert_eq!(hub.divergence(), None, "run {count}:\n{journal}");
        assert_eq!((again, hub.journal()), (told, Some(journal)));
    }
}

/// What a call was told: a number that it got, or else what happened, or why nothing did.
type Told = Result<u64, Ended>;
const SENT: u64 = 1000;
const NOTHING: u64 = 1001;
const TIMEOUT: u64 = 1002;

/// The ends of two channels, in a process.
struct Ends<'a> {
    numbers: BoundSender<'a, u64>,
    from_numbers: BoundReceiver<'a, u64>,
    words: BoundSender<'a, String>,
    from_words: BoundReceiver<'a, String>,
}

/// A call that a process makes.
#[derive(Clone, Copy)]
enum Call {
    Send,
    Recv,
    SendAll,
    RecvUpTo,
    TrySend,
    TryRecv,
    SelectMacro,
    Select,
    SendTimeout,
    RecvTimeout,
    SelectTimeout,
}

impl Ends<'_> {
    fn call(&self, call: Call, value: u64) -> Told {
        let (timeout, word) = (Duration::from_micros(40 * (value % 4)), value.to_string());
        let number = |word: String| word.parse::<u64>().unwrap();
        match call {
            Call::Send => Ok(self.words.send(word).map(|()| SENT)?),
            Call::Recv => self.from_words.recv().map(number),
            Call::SendAll => Ok(self.numbers.send_all([value; 3]).map(|()| SENT)?),
            Call::RecvUpTo => self
                .from_numbers
                .recv_up_to(2)
                .map(|came| came.iter().sum()),
            Call::TrySend => match self.numbers.try_send(value) {
                Err(TrySendError::Full(_)) => Ok(NOTHING),
                Err(TrySendError::Ended(_, ended)) => Err(ended),
                _ => Ok(SENT),
            },
            Call::TryRecv => match self.from_numbers.try_recv() {
                Err(TryRecvError::Ended(ended)) => Err(ended),
                came => Ok(came.unwrap_or(NOTHING)),
            },
            Call::SelectMacro => select! {
                recv(self.from_numbers) -> came => came,
                recv(self.from_words) -> came => came.map(number),
                send(self.words, word) -> sent => Ok(sent.map(|()| SENT)?),
            }?,
            Call::Select => {
                let (mut sent, mut other) = (Some(value), (value % 3 > 0).then_some(word));
                let mut select = Select::new(self.words.seat());
                select.send(&self.numbers, &mut sent);
                select.send(&self.words, &mut other);
                select.recv(&self.from_numbers);
                select.recv(&self.from_words);
                let fired = select.select()?;
                match fired.index() {
                    0 => fired.send(&self.numbers).map(|()| SENT),
                    1 => fired.send(&self.words).map(|()| SENT),
                    2 => fired.recv(&self.from_numbers),
                    _ => fired.recv(&self.from_words).map(number),
                }
            }
            Call::SendTimeout => match self.words.send_timeout(word, timeout) {
                Err(SendTimeoutError::Ended(_, ended)) => Err(ended),
                sent => Ok(if sent.is_ok() { SENT } else { TIMEOUT }),
            },
            Call::RecvTimeout => match self.from_words.recv_timeout(timeout) {
                Err(RecvTimeoutError::Ended(ended)) => Err(ended),
                came => Ok(came.map_or(TIMEOUT, number)),
            },
            Call::SelectTimeout => select! {
                recv(self.from_words) -> came => came.map(number),
                send(self.numbers, value) -> sent => Ok(sent.map(|()| SENT)?),
                default(timeout) => Ok(TIMEOUT),
            }?,
        }
    }
}

/// Runs each process in a thread of its own, where it makes these calls, and then drops its ends. Returns what each was told.
fn calls(seats: Vec<Seat>, calls_of: fn(u8) -> Vec<Call>) -> Vec<Vec<Told>> {
    let (numbers, from_numbers) = channel(&seats[0], 2).unwrap();
    let (words, from_words) = channel(&seats[0], 1).unwrap();
    let start = |seat: Seat| {
        let (numbers, from_numbers) = (numbers.clone(), from_numbers.clone());
        let (words, from_words) = (words.clone(), from_words.clone());
        thread::spawn(move || {
            let ends = Ends {
                numbers: numbers.bind(&seat),
                from_numbers: from_numbers.bind(&seat),
                words: words.bind(&seat),
                from_words: from_words.bind(&seat),
            };
            let calls = calls_of(seat.pid()).into_iter().zip(0..);
            calls.map(|(call, value)| ends.call(call, value)).collect()
        })
    };
    let threads: Vec<_> = seats.into_iter().map(start).collect();
    drop((numbers, from_numbers, words, from_words));
    joined(threads)
}

fn joined<R>(threads: Vec<thread::JoinHandle<R>>) -> Vec<R> {
    let told = threads.into_iter().map(|thread| thread.join().unwrap());
    told.collect()
}

fn are_repeated(calls_of: fn(u8) -> Vec<Call>) {
    is_repeated(|| Hub::builder(5), |seats| calls(seats, calls_of));
}

#[test]
fn typed_senders_are_repeated() {
    are_repeated(|pid| match pid {
        0 => vec![Call::Recv; 80],
        _ => vec![Call::Send; 20],
    });
}

#[test]
fn many_values_at_once_are_repeated() {
    are_repeated(|pid| match pid {
        0 | 1 => vec![Call::RecvUpTo; 40],
        _ => vec![Call::SendAll; 8],
    });
}

#[test]
fn the_macro_select_is_repeated() {
    are_repeated(|_| vec![Call::SelectMacro; 20]);
}

#[test]
fn a_select_of_sends_and_receives_is_repeated() {
    are_repeated(|_| vec![Call::Select; 20]);
}

#[test]
fn tries_are_repeated() {
    are_repeated(|pid| match pid % 2 {
        0 => [Call::TrySend, Call::TryRecv, Call::TrySend].repeat(10),
        _ => [Call::TryRecv, Call::TryRecv, Call::TrySend].repeat(10),
    });
}

#[test]
fn typed_timeouts_are_repeated() {
    let calls_of = |pid| match pid % 3 {
        0 => vec![Call::SelectTimeout; 20],
        1 => vec![Call::SendTimeout; 20],
        _ => vec![Call::RecvTimeout; 20],
    };
    is_repeated(
        || Hub::builder(5).timeouts(),
        |seats| calls(seats, calls_of),
    );
}

/// Four processes that each send on six channels, and one that receives. Each drops its ends in another way, and so does the
/// thread that starts them.
fn drops(seats: Vec<Seat>) -> Vec<Vec<Told>> {
    let channels: Vec<_> = (0..6).map(|_| channel(&seats[0], 1).unwrap()).collect();
    let start = |seat: Seat| {
        let ends = channels.clone();
        thread::spawn(move || {
            if seat.pid() == 0 {
                receives(&seat, ends)
            } else {
                sends(&seat, ends)
            }
        })
    };
    let threads: Vec<_> = seats.into_iter().map(start).collect();
    drop(channels);
    joined(threads)
}

fn receives(seat: &Seat, ends: Vec<(Sender<u64>, Receiver<u64>)>) -> Vec<Told> {
    let (senders, receivers): (Vec<_>, Vec<_>) = ends.into_iter().unzip();
    drop(senders);
    let values = |receiver: Receiver<u64>| receiver.bind(seat).iter().collect::<Vec<_>>();
    receivers.into_iter().flat_map(values).collect()
}

fn sends(seat: &Seat, ends: Vec<(Sender<u64>, Receiver<u64>)>) -> Vec<Told> {
    let mut told = Vec::new();
    for ((sender, receiver), count) in ends.into_iter().zip(0u64..) {
        let sender = sender.bind(seat);
        told.push(sender.send(count).map(|()| SENT).map_err(Ended::from));
        let unbound = (sender.clone(), receiver);
        drop(sender);
        if (count + u64::from(seat.pid())) % 2 == 0 {
            thread::spawn(move || drop(unbound));
        }
    }
    told
}

#[test]
fn drops_of_last_ends_are_repeated() {
    is_repeated(|| Hub::builder(5), drops);
}

/// A process makes channels, of which a thread without a seat drops the senders. The others make calls meanwhile, and close them.
fn foreign_drops(seats: Vec<Seat>) -> Vec<Vec<Told>> {
    let (to_drop, senders) = mpsc::channel::<Sender<u64>>();
    let dropping = thread::spawn(move || senders.iter().for_each(drop));
    let (numbers, from_numbers) = channel(&seats[0], 2).unwrap();
    let start = |seat: Seat| {
        let (numbers, from_numbers) = (numbers.clone(), from_numbers.clone());
        let to_drop = to_drop.clone();
        thread::spawn(move || {
            let drained = |_| {
                let (sender, receiver) = channel(&seat, 0).unwrap();
                to_drop.send(sender).unwrap();
                receiver.bind(&seat).recv()
            };
            let numbers = numbers.bind(&seat);
            let from_numbers = from_numbers.bind(&seat);
            let tried = |value| {
                let _ = numbers.try_send(value);
                Ok(from_numbers.try_recv().unwrap_or(NOTHING))
            };
            match seat.pid() {
                0 => (0..8).map(drained).collect(),
                _ => (0..24).map(tried).collect(),
            }
        })
    };
    let threads: Vec<_> = seats.into_iter().map(start).collect();
    drop((numbers, from_numbers, to_drop));
    dropping.join().unwrap();
    joined(threads)
}

#[test]
fn drops_by_threads_without_a_seat_are_repeated() {
    is_repeated(|| Hub::builder(5), foreign_drops);
}

#[test]
fn a_last_end_that_its_journal_does_not_close_closes_once_the_hub_goes_on() {
    let journal = "chanhub journal 2\nprocs 2\n0 make 1\n1 make 0\n";
    let (hub, mut seats) = Hub::follow(journal, true).unwrap();
    let (one, zero) = (seats.pop().unwrap(), seats.pop().unwrap());
    let (sender, receiver) = channel::<u64>(&zero, 1).unwrap();
    drop(sender);
    assert_eq!(
        hub.journal().unwrap(),
        "chanhub journal 2\nprocs 2\n0 make 1\n"
    );
    let (_other, _from_other) = channel::<u64>(&one, 0).unwrap();
    drop(one);
    assert_eq!(receiver.bind(&zero).recv(), Err(Ended::Drained(0)));
}

#[test]
fn timeouts_count_once_a_hub_goes_on() {
    let journal = "chanhub journal 2\nprocs 2\n1 recv 0\n0 make 0\n0 select 0 r1 default\n0 cancel 1\n0 recv 1\n1 cancel 0\n";
    let (_hub, mut seats) = Hub::follow(journal, true).unwrap();
    assert_eq!(seats.len(), 1, "the clock has no seat");
    let mut seat = seats.remove(0);
    let (_sender, receiver) = seat.channel(0).unwrap();
    let told = receiver.recv_timeout(&mut seat, Duration::from_secs(3600));
    assert_eq!(told, Err(Ended::TimedOut));
    let began = Instant::now();
    let told = receiver.recv_timeout(&mut seat, Duration::from_millis(5));
    assert_eq!(told, Err(Ended::TimedOut));
    assert!(began.elapsed() >= Duration::from_millis(5));
}

#[test]
fn some_journals_are_not_followed() {
    let refused = |journal| Hub::follow(journal, true).unwrap_err();
    assert_eq!(refused(""), OpenError::Malformed(1));
    assert_eq!(
        refused("chanhub journal 2\nprocs 1\n0 exits\n"),
        OpenError::Malformed(3)
    );
    assert_eq!(
        refused("chanhub journal 2\nprocs 1\n0 exit\n0 exit\n"),
        OpenError::NotAdmitted(4)
    );
    assert_eq!(
        OpenError::NotAdmitted(4).to_string(),
        "no hub admits the step of the journal in line 4"
    );
}
