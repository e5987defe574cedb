//! Channels that carry values of any type.

use chanhub::typed::{
    channel, never, BoundReceiver, Receiver, Select, SendError, Sender, TryRecvError, TrySendError,
};
use chanhub::{Chapters, Edition, Ended, Fault, Hub, Seat};
use std::error::Error;
use std::sync::atomic::{AtomicBool, AtomicUsize, Ordering};
use std::sync::{mpsc, Arc};
use std::thread;
use std::time::Duration;

fn seats<const COUNT: usize>() -> (Hub, [Seat; COUNT]) {
    let (hub, seats) = Hub::open(Edition::Two, COUNT as u8, 1_000_000).unwrap();
    (hub, seats.try_into().unwrap())
}

/// Waits until the journal has this line, so that its step has been made.
fn until_it_stands(hub: &Hub, line: &str) {
    while !hub.journal().unwrap().lines().any(|step| step == line) {
        thread::sleep(Duration::from_millis(1));
    }
}

/// Counts how many of its values were dropped.
#[derive(Clone, Default)]
struct Drops(Arc<AtomicUsize>);

struct Counted(Drops);

impl Drops {
    fn value(&self) -> Counted {
        Counted(self.clone())
    }

    fn count(&self) -> usize {
        self.0.load(Ordering::SeqCst)
    }
}

impl Drop for Counted {
    fn drop(&mut self) {
        self.0 .0.fetch_add(1, Ordering::SeqCst);
    }
}

#[test]
fn values_of_any_type_come_in_order() {
    let (hub, [seat]) = seats();
    let (sender, receiver) = channel(&seat, 3).unwrap();
    let (sender, receiver) = (sender.bind(&seat), receiver.bind(&seat));
    for word in ["a", "b", "c"] {
        sender.send(vec![word.to_string()]).unwrap();
    }
    for word in ["a", "b", "c"] {
        assert_eq!(receiver.recv(), Ok(vec![word.to_string()]));
    }
    assert_eq!(
        hub.journal().unwrap(),
        "chanhub journal 2\nprocs 1\n0 make 3\n0 send 1 100\n0 send 1 200\n0 send 1 300\n0 recv 1\n0 recv 1\n0 recv 1\n"
    );
}

#[test]
fn a_number_has_the_process_and_its_count() {
    let (hub, [zero, one]) = seats();
    let (first, _from_first) = channel(&zero, 2).unwrap();
    let (second, _from_second) = channel(&zero, 2).unwrap();
    let (first, other) = (first.bind(&one), second.clone());
    first.send("a").unwrap();
    first.send("b").unwrap();
    assert_eq!(first.try_send("c"), Err(TrySendError::Full("c")));
    second.bind(&one).send("d").unwrap();
    other.bind(&zero).send("e").unwrap();
    let journal = hub.journal().unwrap();
    let sends: Vec<_> = journal.lines().skip(4).take(5).collect();
    assert_eq!(
        sends,
        [
            "1 send 1 101",
            "1 send 1 201",
            "1 select 0 s1:301 default",
            "1 send 2 401",
            "0 send 2 100"
        ]
    );
}

#[test]
fn an_end_tells_its_length_and_capacity() {
    let (_hub, [seat]) = seats();
    let (sender, receiver) = channel(&seat, 2).unwrap();
    let sender = sender.bind(&seat);
    for (len, is_empty, is_full) in [(0, true, false), (1, false, false), (2, false, true)] {
        assert_eq!((sender.len(), receiver.len()), (len, len));
        assert_eq!(
            (sender.is_empty(), receiver.is_empty()),
            (is_empty, is_empty)
        );
        assert_eq!((sender.is_full(), receiver.is_full()), (is_full, is_full));
        assert_eq!((sender.capacity(), receiver.capacity()), (2, 2));
        let _full_at_last = sender.try_send(());
    }
    let (none, _receiver) = channel::<()>(&seat, 0).unwrap();
    assert_eq!((none.len(), none.capacity()), (0, 0));
    assert!(none.is_empty() && none.is_full());
}

#[test]
fn each_value_comes_once_and_in_order_of_its_sender() {
    const SENDERS: usize = 5;
    const RECEIVERS: usize = 4;
    const VALUES: usize = 2000;
    for cap in [0, 1, 7] {
        let (_hub, [boss, others @ ..]) = seats::<{ 1 + SENDERS + RECEIVERS }>();
        each_value_comes_once(boss, others.into(), cap, VALUES, SENDERS);
    }
    let texts = Arc::new(AtomicUsize::new(0));
    let counts = texts.clone();
    let chapters = Chapters::give_to(move |_| {
        counts.fetch_add(1, Ordering::SeqCst);
    });
    let procs = (1 + SENDERS + RECEIVERS) as u8;
    let (hub, mut others) = Hub::open_endless(Edition::Two, procs, 100, chapters).unwrap();
    let boss = others.remove(0);
    each_value_comes_once(boss, others, 3, VALUES, SENDERS);
    drop(hub);
    assert!(texts.load(Ordering::SeqCst) > 2 * SENDERS * VALUES / 100);
}

fn each_value_comes_once(boss: Seat, others: Vec<Seat>, cap: u32, values: usize, senders: usize) {
    let (sender, receiver) = channel::<Box<(usize, usize)>>(&boss, cap).unwrap();
    let mut others = others.into_iter();
    let sends = |(number, seat): (usize, Seat)| {
        let sender = sender.clone();
        thread::spawn(move || {
            let sender = sender.bind(&seat);
            for value in 0..values {
                sender.send(Box::new((number, value))).unwrap();
            }
        })
    };
    let sending: Vec<_> = others
        .by_ref()
        .take(senders)
        .enumerate()
        .map(sends)
        .collect();
    let receives = |seat: Seat| {
        let receiver = receiver.clone();
        thread::spawn(move || {
            let came: Result<Vec<_>, _> = receiver.bind(&seat).iter().collect();
            came.unwrap()
        })
    };
    let receiving: Vec<_> = others.map(receives).collect();
    drop((sender, receiver, boss));
    sending
        .into_iter()
        .for_each(|thread| thread.join().unwrap());
    let came: Vec<Vec<Box<(usize, usize)>>> = receiving
        .into_iter()
        .map(|thread| thread.join().unwrap())
        .collect();
    for values in &came {
        for sender in 0..senders {
            let of_sender = values.iter().filter(|value| value.0 == sender);
            let order: Vec<_> = of_sender.map(|value| value.1).collect();
            assert!(order.windows(2).all(|two| two[0] < two[1]));
        }
    }
    let mut all: Vec<_> = came.into_iter().flatten().map(|value| *value).collect();
    all.sort_unstable();
    let wanted = (0..senders).flat_map(|sender| (0..values).map(move |value| (sender, value)));
    assert!(all.into_iter().eq(wanted));
}

#[test]
fn a_value_is_dropped_once_by_whoever_has_it_last() {
    let drops = Drops::default();
    let (hub, [seat]) = seats();
    let (sender, receiver) = channel(&seat, 4).unwrap();
    let (sender, receiver) = (sender.bind(&seat), receiver.bind(&seat));
    for _ in 0..4 {
        sender.send(drops.value()).unwrap();
    }
    drop(receiver.recv().unwrap());
    assert_eq!(drops.count(), 1);
    let kept = receiver.recv().unwrap();
    drop(receiver);
    drop(sender);
    assert_eq!(drops.count(), 3); // with the last end, those that nobody received
    drop((seat, hub));
    assert_eq!(drops.count(), 3);
    drop(kept);
    assert_eq!(drops.count(), 4);
}

#[test]
fn ends_that_are_left_keep_the_hub_and_its_values() {
    let drops = Drops::default();
    let (hub, [seat]) = seats();
    let (sender, receiver) = channel(&seat, 4).unwrap();
    sender.clone().bind(&seat).send(drops.value()).unwrap();
    drop((hub, seat, sender));
    assert_eq!((receiver.len(), drops.count()), (1, 0));
    drop(receiver);
    assert_eq!(drops.count(), 1);
}

#[test]
fn values_that_threads_leave_are_dropped_once() {
    let drops = Drops::default();
    let (hub, [boss, sends, receives]) = seats();
    let (sender, receiver) = channel(&boss, 8).unwrap();
    let threads = [
        thread::spawn({
            let drops = drops.clone();
            move || {
                let sender = sender.bind(&sends);
                (0..500).for_each(|_| drop(sender.send(drops.value())));
            }
        }),
        thread::spawn(move || {
            let receiver = receiver.bind(&receives);
            (0..100).for_each(|_| drop(receiver.recv().unwrap()));
        }),
    ];
    drop(boss);
    threads
        .into_iter()
        .for_each(|thread| thread.join().unwrap());
    drop(hub);
    assert_eq!(drops.count(), 500);
}

#[test]
fn the_last_sender_closes() {
    let (hub, [seat]) = seats();
    let (sender, receiver) = channel::<u64>(&seat, 4).unwrap();
    let receiver = receiver.bind(&seat);
    let other = sender.clone();
    sender.bind(&seat).send(7).unwrap(); // the bound one is dropped here
    assert_eq!(receiver.recv(), Ok(7));
    assert_eq!(receiver.try_recv(), Err(TryRecvError::Empty));
    other.bind(&seat).send(8).unwrap();
    assert_eq!(receiver.iter().collect::<Vec<_>>(), [Ok(8)]);
    assert_eq!(
        receiver.try_recv(),
        Err(TryRecvError::Ended(Ended::Drained(0)))
    );
    let journal = hub.journal().unwrap();
    assert_eq!(
        journal.lines().filter(|line| *line == "0 close 1").count(),
        1
    );
}

#[test]
fn the_process_of_the_last_end_closes() {
    let (hub, [first, second]) = seats();
    let (sender, receiver) = channel::<u64>(&first, 0).unwrap();
    let (other, last) = channel::<u64>(&first, 0).unwrap();
    drop(sender.bind(&second));
    drop(last.bind(&second));
    drop((receiver, other));
    let journal = hub.journal().unwrap();
    let steps: Vec<_> = journal.lines().skip(4).collect();
    assert_eq!(steps, ["1 close 1", "1 close 2"]);
}

#[test]
fn the_last_sender_of_threads_closes_before_their_seats_exit() {
    for _ in 0..200 {
        let (_hub, [boss, workers @ ..]) = seats::<4>();
        let (jobs, todo) = channel::<u64>(&boss, 1).unwrap();
        let (results, done) = channel::<u64>(&boss, 0).unwrap();
        for seat in workers {
            let (todo, results) = (todo.clone(), results.clone());
            thread::spawn(move || {
                let (todo, results) = (todo.bind(&seat), results.bind(&seat));
                todo.iter()
                    .for_each(|job| results.send(job.unwrap()).unwrap());
            });
        }
        // Only one of the workers gets the job. The others send nothing.
        jobs.bind(&boss).send(7).unwrap();
        drop((todo, results));
        assert_eq!(done.bind(&boss).iter().collect::<Vec<_>>(), [Ok(7)]);
    }
}

#[test]
fn a_sender_that_is_dropped_without_a_seat_closes_as_a_process_that_is_free() {
    let (hub, [waits, free]) = seats();
    let (sender, receiver) = channel::<u64>(&free, 0).unwrap();
    let thread = thread::spawn(move || receiver.bind(&waits).recv());
    until_it_stands(&hub, "0 recv 1");
    drop(sender);
    assert_eq!(thread.join().unwrap(), Err(Ended::Drained(0)));
    drop(free);
    assert_eq!(
        hub.journal().unwrap(),
        "chanhub journal 2\nprocs 2\n1 make 0\n0 recv 1\n1 close 1\n0 exit\n1 exit\n"
    );
}

#[test]
fn a_process_that_has_exited_closes_nothing() {
    let (hub, [first, second]) = seats();
    let (sender, receiver) = channel::<u64>(&first, 0).unwrap();
    let receiver = receiver.bind(&second);
    assert_eq!(receiver.try_recv(), Err(TryRecvError::Empty));
    drop((first, sender));
    assert_eq!(
        receiver.try_recv(),
        Err(TryRecvError::Ended(Ended::Drained(0)))
    );
    assert!(hub
        .journal()
        .unwrap()
        .lines()
        .any(|line| line == "1 close 1"));
}

#[test]
fn a_process_is_started_again_while_its_seat_from_before_is_dropped() {
    let (_hub, mut seats) =
        Hub::open_endless(Edition::Three, 2, 1000, Chapters::discard()).unwrap();
    let (mut worker, mut boss) = (seats.pop().unwrap(), seats.pop().unwrap());
    let (sender, receiver) = channel(&boss, 1).unwrap();
    for round in 0..300 {
        let sender = sender.clone();
        let thread = thread::spawn(move || {
            sender.bind(&worker).send(round).unwrap();
        });
        worker = loop {
            match boss.start(1) {
                Ok(seat) => break seat,
                Err(fault) => assert_eq!(fault, Fault::NOT_GONE),
            }
            thread::yield_now();
        };
        assert_eq!(receiver.clone().bind(&worker).recv(), Ok(round));
        thread.join().unwrap();
    }
    drop(sender);
    assert_eq!(receiver.bind(&boss).recv(), Err(Ended::Drained(0)));
}

#[test]
fn a_process_that_waits_since_before_the_first_channel_closes_nothing() {
    let (hub, [mut waits, makes]) = seats();
    let (_, numbers) = waits.channel(0).unwrap();
    let thread = thread::spawn(move || numbers.recv(&mut waits));
    until_it_stands(&hub, "0 recv 1");
    let (sender, receiver) = channel::<u64>(&makes, 0).unwrap();
    drop(sender);
    assert_eq!(receiver.bind(&makes).recv(), Err(Ended::Drained(0)));
    assert!(hub
        .journal()
        .unwrap()
        .lines()
        .any(|line| line == "1 close 2"));
    drop(makes);
    assert_eq!(thread.join().unwrap(), Err(Ended::Stalled));
}

#[test]
fn a_sender_that_is_dropped_without_a_seat_is_closed_by_a_first_call_or_an_exit() {
    for exits in [false, true] {
        let (hub, [waits, unused]) = seats();
        let (sender, receiver) = channel::<u64>(&waits, 0).unwrap();
        let other = receiver.clone();
        let thread = thread::spawn(move || receiver.bind(&waits).recv());
        until_it_stands(&hub, "0 recv 1");
        drop(sender);
        if exits {
            drop(unused);
        } else {
            assert_eq!(other.bind(&unused).recv(), Err(Ended::Drained(0)));
        }
        assert_eq!(thread.join().unwrap(), Err(Ended::Drained(0)));
        let journal = hub.journal().unwrap();
        let steps: Vec<_> = journal.lines().skip(2).take(3).collect();
        assert_eq!(steps, ["0 make 0", "0 recv 1", "1 close 1"]);
    }
}

#[test]
fn a_sender_that_no_process_is_free_to_close_is_closed_once_a_call_returns() {
    let (runs, is_running) = mpsc::channel();
    let (may_end, ends) = mpsc::channel::<()>();
    let slow = Chapters::give_to(move |_| {
        let _ = runs.send(());
        let _ = ends.recv();
    });
    let (hub, mut seats) = Hub::open_endless(Edition::Two, 2, 2, slow).unwrap();
    let (waits, mut calls) = (seats.pop().unwrap(), seats.pop().unwrap());
    let (sender, receiver) = channel::<u64>(&calls, 0).unwrap();
    let waiting = thread::spawn(move || receiver.bind(&waits).recv());
    until_it_stands(&hub, "1 recv 1");
    // A step of process 0 makes a chapter fall out, and its call does not return before the closure does.
    let calling = thread::spawn(move || {
        for _ in 0..5 {
            calls.select(&[], true, 0).unwrap();
        }
        calls
    });
    is_running.recv().unwrap();
    drop(sender);
    assert!(!hub.journal().unwrap().contains("close"));
    drop(may_end);
    assert_eq!(waiting.join().unwrap(), Err(Ended::Drained(0)));
    let closes = |journal: String| journal.lines().any(|line| line == "0 close 1");
    assert!(closes(hub.journal().unwrap()) || closes(hub.before().unwrap()));
    drop(calling.join().unwrap());
}

#[test]
fn a_sender_that_is_dropped_while_another_is_closed_is_closed_too() {
    let (runs, is_running) = mpsc::channel();
    let (may_end, ends) = mpsc::channel::<()>();
    let is_slow = Arc::new(AtomicBool::new(false));
    let slow = is_slow.clone();
    let chapters = Chapters::give_to(move |_| {
        if slow.swap(false, Ordering::SeqCst) {
            let _ = runs.send(());
            let _ = ends.recv();
        }
    });
    let (hub, mut seats) = Hub::open_endless(Edition::Two, 2, 1, chapters).unwrap();
    let (waits, free) = (seats.pop().unwrap(), seats.pop().unwrap());
    let (first, _from_first) = channel::<u64>(&free, 0).unwrap();
    let (second, from_second) = channel::<u64>(&free, 0).unwrap();
    let waiting = thread::spawn(move || from_second.bind(&waits).recv());
    until_it_stands(&hub, "1 recv 2");
    // This close makes a chapter fall out, so process 0 is in it until the closure returns.
    is_slow.store(true, Ordering::SeqCst);
    let closing = thread::spawn(move || drop(first));
    is_running.recv().unwrap();
    drop(second);
    drop(may_end);
    closing.join().unwrap();
    let journals = [hub.journal().unwrap(), hub.before().unwrap()].concat();
    assert!(journals.lines().any(|line| line == "0 close 2"));
    assert_eq!(waiting.join().unwrap(), Err(Ended::Drained(0)));
}

#[test]
fn senders_that_are_dropped_while_calls_run_are_all_closed() {
    for _ in 0..20 {
        let (_hub, [waits, calls]) = seats();
        let (ends, to_drop) = mpsc::channel::<Sender<u64>>();
        let dropping = thread::spawn(move || to_drop.iter().for_each(drop));
        let (ticks, ticked) = channel(&calls, 1).unwrap();
        let (stop, stopped) = mpsc::channel::<()>();
        let calling = thread::spawn(move || {
            let (ticks, ticked) = (ticks.bind(&calls), ticked.bind(&calls));
            while stopped.try_recv() == Err(mpsc::TryRecvError::Empty) {
                ticks.send(()).unwrap();
                ticked.recv().unwrap();
            }
        });
        for _ in 0..60 {
            let (sender, receiver) = channel(&waits, 0).unwrap();
            ends.send(sender).unwrap();
            assert_eq!(receiver.bind(&waits).recv(), Err(Ended::Drained(0)));
        }
        drop((stop, ends));
        calling.join().unwrap();
        dropping.join().unwrap();
    }
}

#[test]
fn a_channel_that_is_kept_open_is_closed_by_hand() {
    let (_hub, [seat]) = seats();
    let (sender, receiver) = channel::<u64>(&seat, 1).unwrap();
    sender.keep_open();
    let last = receiver.clone();
    drop(sender);
    assert_eq!(receiver.bind(&seat).try_recv(), Err(TryRecvError::Empty));
    assert_eq!(last.bind(&seat).recv(), Err(Ended::Stalled));

    let (sender, receiver) = channel::<u64>(&seat, 1).unwrap();
    let sender = sender.bind(&seat);
    sender.keep_open();
    drop(receiver);
    assert_eq!(sender.try_send(7), Ok(()));
    assert_eq!(sender.close(), Ok(()));
    assert_eq!(sender.close(), Err(Fault::ALREADY_CLOSED));
}

#[test]
fn the_last_receiver_closes_and_the_value_comes_back() {
    let (hub, [seat]) = seats();
    let (sender, receiver) = channel(&seat, 1).unwrap();
    let sender = sender.bind(&seat);
    drop(receiver);
    let refused = sender.send(String::from("whole")).unwrap_err();
    assert_eq!(refused.ended, Ended::Closed(0));
    assert_eq!(refused.into_inner(), "whole");
    drop(sender);
    let journal = hub.journal().unwrap();
    assert_eq!(
        journal
            .lines()
            .filter(|line| line.contains("close"))
            .count(),
        1
    );
}

#[test]
fn a_value_that_is_not_sent_comes_back() {
    let (_hub, [seat]) = seats();
    let (sender, receiver) = channel(&seat, 1).unwrap();
    let sender = sender.bind(&seat);
    sender.send(Box::new(1)).unwrap();
    assert_eq!(
        sender.try_send(Box::new(2)),
        Err(TrySendError::Full(Box::new(2)))
    );
    let stalled = SendError {
        value: Box::new(3),
        ended: Ended::Stalled,
    };
    assert_eq!(sender.send(Box::new(3)), Err(stalled));
    sender.close().unwrap();
    let closed = TrySendError::Ended(Box::new(4), Ended::Closed(0));
    assert_eq!(sender.try_send(Box::new(4)), Err(closed));
    assert_eq!(
        receiver.bind(&seat).iter().collect::<Vec<_>>(),
        [Ok(Box::new(1))]
    );

    let (hub, mut few) = Hub::open(Edition::Two, 1, 1).unwrap();
    let full = few.remove(0);
    let (sender, _receiver) = channel(&full, 1).unwrap();
    let refused = sender.bind(&full).send(Box::new(5)).unwrap_err();
    assert_eq!(refused.ended, Ended::Fault(Fault::JOURNAL_FULL));
    assert_eq!(*refused.value, 5);
    drop(hub);
}

#[test]
fn a_send_that_is_cancelled_gives_its_value_back() {
    let (hub, [waits, mut cancels]) = seats();
    let (sender, _receiver) = channel(&waits, 0).unwrap();
    let thread = thread::spawn(move || sender.bind(&waits).send(String::from("whole")));
    until_it_stands(&hub, "0 send 1 100");
    cancels.cancel(0).unwrap();
    let refused = thread.join().unwrap().unwrap_err();
    assert_eq!(
        (refused.value.as_str(), refused.ended),
        ("whole", Ended::Cancelled)
    );
}

#[test]
fn an_end_of_another_hub_is_refused() {
    let bad = Ended::Fault(Fault::BAD_CALL);
    let (one, [seat]) = seats();
    let (other, [_, stranger]) = seats();
    let (sender, receiver) = channel(&seat, 1).unwrap();
    let (sender, receiver) = (sender.bind(&stranger), receiver.bind(&stranger));
    assert_eq!(
        sender.send(1),
        Err(SendError {
            value: 1,
            ended: bad
        })
    );
    assert_eq!(sender.try_send(2), Err(TrySendError::Ended(2, bad)));
    assert_eq!(sender.close(), Err(Fault::BAD_CALL));
    assert_eq!(receiver.recv(), Err(bad));
    assert_eq!(receiver.try_recv(), Err(TryRecvError::Ended(bad)));
    let mut value = Some(3);
    let mut select = Select::new(&stranger);
    select.send(&sender, &mut value);
    assert_eq!(select.try_select().unwrap_err(), bad);
    assert_eq!(value, Some(3));
    drop((sender, receiver));
    assert_eq!(
        one.journal().unwrap(),
        "chanhub journal 2\nprocs 1\n0 make 1\n0 close 1\n"
    );
    assert_eq!(
        other.journal().unwrap(),
        "chanhub journal 2\nprocs 2\n0 exit\n"
    );
}

#[test]
fn iterators_end_with_their_error() {
    let (_hub, [seat]) = seats();
    let (sender, receiver) = channel(&seat, 3).unwrap();
    let (sender, receiver) = (sender.bind(&seat), receiver.bind(&seat));
    (1..=3).for_each(|number| sender.send(number).unwrap());
    assert_eq!(
        receiver.try_iter().collect::<Vec<_>>(),
        [Ok(1), Ok(2), Ok(3)]
    );
    sender.send(4).unwrap();
    let mut stalls = receiver.iter();
    assert_eq!(stalls.next(), Some(Ok(4)));
    assert_eq!(stalls.next(), Some(Err(Ended::Stalled)));
    assert_eq!(stalls.next(), None);
    sender.send(5).unwrap();
    drop(sender);
    assert_eq!((&receiver).into_iter().collect::<Vec<_>>(), [Ok(5)]);
    assert_eq!(receiver.try_iter().next(), None);

    let (_hub, mut few) = Hub::open(Edition::Two, 1, 1).unwrap();
    let full = few.remove(0);
    let (_sender, receiver) = channel::<u64>(&full, 1).unwrap();
    let refused = Err(Ended::Fault(Fault::JOURNAL_FULL));
    assert_eq!(
        receiver.bind(&full).try_iter().collect::<Vec<_>>(),
        [refused]
    );
}

fn words_and_numbers(
    seat: &Seat,
) -> (Sender<String>, Receiver<String>, Sender<u64>, Receiver<u64>) {
    let (words, from_words) = channel(seat, 1).unwrap();
    let (numbers, from_numbers) = channel(seat, 1).unwrap();
    (words, from_words, numbers, from_numbers)
}

#[test]
fn a_select_makes_one_of_its_cases() {
    let (_hub, [seat]) = seats();
    let (words, from_words, numbers, from_numbers) = words_and_numbers(&seat);
    let (words, from_words) = (words.bind(&seat), from_words.bind(&seat));
    let (numbers, from_numbers) = (numbers.bind(&seat), from_numbers.bind(&seat));

    let (mut number, mut none) = (Some(7), None);
    let mut select = Select::new(&seat);
    assert_eq!(select.recv(&from_words), 0);
    assert_eq!(select.send(&words, &mut none), 1);
    assert_eq!(select.send(&numbers, &mut number), 2);
    let fired = select.select().unwrap();
    assert_eq!(fired.index(), 2);
    assert_eq!(fired.send(&numbers), Ok(()));
    assert_eq!((number, none), (None, None));

    let mut word = Some(String::from("later"));
    let mut select = Select::new(&seat);
    select.choose(1);
    select.send(&words, &mut word);
    select.recv(&from_numbers);
    let fired = select.select().unwrap();
    assert_eq!(fired.index(), 1);
    assert_eq!(fired.recv(&from_numbers), Ok(7));
    assert_eq!(word.as_deref(), Some("later"));
    assert_eq!((words.len(), numbers.len()), (0, 0));

    let mut select = Select::new(&seat);
    select.recv(&from_words);
    assert!(select.try_select().unwrap().is_none());
    let mut select = Select::new(&seat);
    select.recv(&from_words);
    assert_eq!(select.select().unwrap_err(), Ended::Stalled);
}

#[test]
fn a_receiver_that_never_receives_waits_in_vain() {
    let (hub, [seat]) = seats();
    let (sender, receiver) = channel::<u64>(&seat, 1).unwrap();
    let (sender, receiver) = (sender.bind(&seat), receiver.bind(&seat));
    let never = never::<u64>(&seat).bind(&seat);
    assert_eq!((never.port(), never.len(), never.capacity()), (0, 0, 0));
    assert_eq!(never.try_recv(), Err(TryRecvError::Empty));
    assert_eq!(never.recv(), Err(Ended::Stalled));
    sender.send(7).unwrap();
    let mut select = Select::new(&seat);
    select.recv(&never);
    select.recv(&receiver);
    let fired = select.select().unwrap();
    assert_eq!((fired.index(), fired.recv(&receiver)), (1, Ok(7)));
    let before = hub.journal();
    drop(never.clone());
    drop(never);
    assert_eq!(hub.journal(), before);
}

#[test]
fn a_select_tells_of_closed_channels_and_gives_values_back() {
    let drops = Drops::default();
    let (_hub, [seat]) = seats();
    let (sender, receiver) = channel(&seat, 1).unwrap();
    let (sender, receiver) = (sender.bind(&seat), receiver.bind(&seat));
    sender.send(drops.value()).unwrap();
    let mut value = Some(drops.value());
    let mut select = Select::new(&seat);
    select.send(&sender, &mut value);
    assert!(select.try_select().unwrap().is_none());
    assert!(value.is_some());
    let mut select = Select::new(&seat);
    select.send(&sender, &mut value);
    assert_eq!(select.select().unwrap_err(), Ended::Stalled);
    assert!(value.is_some());
    sender.close().unwrap();
    let mut select = Select::new(&seat);
    select.send(&sender, &mut value);
    assert_eq!(
        select.select().unwrap().send(&sender),
        Err(Ended::Closed(0))
    );
    assert!(value.is_some());
    assert_eq!(drops.count(), 0);
    drop(receiver.recv().unwrap());
    let mut select = Select::new(&seat);
    select.recv(&receiver);
    let fired = select.select().unwrap();
    assert!(matches!(fired.recv(&receiver), Err(Ended::Drained(0))));
    assert_eq!(drops.count(), 1);
}

#[test]
fn a_select_of_more_than_16_cases_is_refused_and_gives_values_back() {
    let (_hub, [seat]) = seats();
    let (sender, receiver) = channel::<usize>(&seat, 1).unwrap();
    let (sender, receiver) = (sender.bind(&seat), receiver.bind(&seat));
    for count in 1..=20 {
        let mut values: Vec<_> = (0..count).map(Some).collect();
        let mut select = Select::new(&seat);
        select.choose(count as u64 - 1);
        for value in &mut values {
            select.send(&sender, value);
        }
        let told = select.select();
        if count <= 16 {
            assert_eq!(told.unwrap().send(&sender), Ok(()));
            assert_eq!(receiver.recv(), Ok(count - 1));
            assert_eq!(values[count - 1].replace(count - 1), None); // it was sent
        } else {
            assert_eq!(told.unwrap_err(), Ended::Fault(Fault::BAD_CALL));
        }
        assert!(values.into_iter().eq((0..count).map(Some)));
    }
}

#[test]
fn a_select_chooses_each_case_at_some_time() {
    let (_hub, [seat]) = seats();
    let (words, from_words, numbers, from_numbers) = words_and_numbers(&seat);
    let (from_words, from_numbers) = (from_words.bind(&seat), from_numbers.bind(&seat));
    drop((words, numbers));
    let mut fired = [0; 2];
    while fired.contains(&0) {
        let mut select = Select::new(&seat);
        select.recv(&from_words);
        select.recv(&from_numbers);
        fired[select.select().unwrap().index()] += 1;
    }
}

#[test]
#[should_panic(expected = "the case that fired is of another channel")]
fn a_select_is_completed_with_its_own_end() {
    let (_hub, [seat]) = seats();
    let (words, from_words, _numbers, from_numbers) = words_and_numbers(&seat);
    let (from_words, from_numbers) = (from_words.bind(&seat), from_numbers.bind(&seat));
    words.bind(&seat).send(String::new()).unwrap();
    let mut select = Select::new(&seat);
    select.recv(&from_words);
    let _ = select.select().unwrap().recv(&from_numbers);
}

#[test]
fn threads_select_each_value_once() {
    const VALUES: u64 = 3000;
    let (_hub, [boss, sends, relays]) = seats();
    let (words, from_words, numbers, from_numbers) = words_and_numbers(&boss);
    let (there, back) = channel::<u64>(&boss, 0).unwrap();
    let sending = thread::spawn(move || {
        let (words, numbers) = (words.bind(&sends), numbers.bind(&sends));
        for number in 0..VALUES {
            if number % 3 == 0 {
                words.send(number.to_string()).unwrap();
            } else {
                numbers.send(number).unwrap();
            }
        }
    });
    let relaying = thread::spawn(move || {
        let (from_words, from_numbers) = (from_words.bind(&relays), from_numbers.bind(&relays));
        let there = there.bind(&relays);
        let (mut held, mut open): (Option<u64>, [bool; 2]) = (None, [true; 2]);
        while held.is_some() || open.contains(&true) {
            let holds = held.is_some();
            let mut select = Select::new(&relays);
            let (mut word, mut number) = (usize::MAX, usize::MAX);
            if open[0] && !holds {
                word = select.recv(&from_words);
            }
            if open[1] && !holds {
                number = select.recv(&from_numbers);
            }
            select.send(&there, &mut held);
            let fired = select.select().unwrap();
            if fired.index() == word {
                match fired.recv(&from_words) {
                    Ok(word) => held = word.parse().ok(),
                    Err(ended) => open[0] = ended != Ended::Drained(word as u8),
                }
            } else if fired.index() == number {
                match fired.recv(&from_numbers) {
                    Ok(number) => held = Some(number),
                    Err(ended) => open[1] = ended != Ended::Drained(number as u8),
                }
            } else {
                fired.send(&there).unwrap();
            }
        }
    });
    let came: Result<Vec<u64>, _> = back.bind(&boss).iter().collect();
    let mut came = came.unwrap();
    sending.join().unwrap();
    relaying.join().unwrap();
    came.sort_unstable();
    assert!(came.into_iter().eq(0..VALUES));
}

#[test]
fn a_forgotten_sender_is_a_stall() {
    let (_hub, [boss, sends, receives]) = seats();
    let (sender, receiver) = channel::<u64>(&boss, 1).unwrap();
    let other = sender.clone();
    let sending = thread::spawn(move || other.bind(&sends).send(7));
    let receiving = thread::spawn(move || receiver.bind(&receives).iter().collect::<Vec<_>>());
    drop(boss);
    assert_eq!(receiving.join().unwrap(), [Ok(7), Err(Ended::Stalled)]);
    assert_eq!(sending.join().unwrap(), Ok(()));
    drop(sender);
}

#[test]
fn a_panic_closes_what_its_thread_sends_on() {
    let (_hub, [boss, panics]) = seats();
    let (sender, receiver) = channel::<u64>(&boss, 1).unwrap();
    let thread = thread::spawn(move || {
        let sender = sender.bind(&panics);
        sender.send(7).unwrap();
        panic!("as it should");
    });
    assert_eq!(receiver.bind(&boss).iter().collect::<Vec<_>>(), [Ok(7)]);
    assert!(thread.join().is_err());
}

#[test]
fn values_may_borrow() {
    let text = String::from("borrowed");
    let (_hub, [boss, other]) = seats();
    let (sender, receiver) = channel::<&str>(&boss, 0).unwrap();
    thread::scope(|scope| {
        scope.spawn(|| {
            let other = other;
            sender.bind(&other).send(&text).unwrap();
        });
        assert_eq!(receiver.bind(&boss).recv(), Ok("borrowed"));
    });
}

#[test]
fn ends_go_where_their_values_may_go() {
    fn may_be_shared<T: Send + Sync>() {}
    fn is_error<E: Error + Send + Sync + 'static>() {}
    may_be_shared::<Sender<std::cell::Cell<u64>>>();
    may_be_shared::<Receiver<Box<dyn FnOnce() + Send>>>();
    is_error::<SendError<u64>>();
    is_error::<TrySendError<u64>>();
    is_error::<TryRecvError>();
}

#[test]
fn errors_and_ends_can_be_shown() {
    let (_hub, [seat]) = seats();
    let (sender, receiver) = channel::<Counted>(&seat, 1).unwrap();
    assert!(format!("{sender:?}").ends_with("port: 1, .. }"));
    let receiver: BoundReceiver<Counted> = receiver.bind(&seat);
    assert!(format!("{receiver:?}").starts_with("BoundReceiver { hub: Hub { id: "));
    let drops = Drops::default();
    let stalled = SendError {
        value: drops.value(),
        ended: Ended::Stalled,
    };
    assert_eq!(stalled.to_string(), "every process was waiting");
    assert_eq!(format!("{stalled:?}"), "SendError { ended: Stalled, .. }");
    let full = TrySendError::Full(drops.value());
    assert_eq!(full.to_string(), "the send would have to wait");
    assert_eq!(format!("{full:?}"), "Full(..)");
    let ended = TrySendError::Ended(drops.value(), Ended::Closed(0));
    assert_eq!(ended.to_string(), "send on a closed port");
    assert_eq!(
        TryRecvError::Empty.to_string(),
        "the receive would have to wait"
    );
    assert_eq!(Ended::from(stalled), Ended::Stalled);
}

/// The lines of a program, except its first comment.
fn lines_of(program: &str) -> usize {
    program
        .lines()
        .filter(|line| !line.starts_with("//!"))
        .count()
}

#[test]
fn a_program_is_at_most_5_lines_longer_than_with_crossbeam() {
    let own = lines_of(include_str!("../examples/typed.rs"));
    let crossbeam = lines_of(include_str!("../examples/crossbeam/typed.rs"));
    assert!(own <= crossbeam + 5, "{own} and {crossbeam} lines");
}
