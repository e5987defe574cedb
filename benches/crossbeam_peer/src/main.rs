//! Times the channels of crossbeam, which keep no journal, on workloads of `hub_trials`.
//!
//!     crossbeam_peer times [CALLS [RUNS]]
//!
//! It prints `NAME best N median M` for each workload, in calls a second, over RUNS runs (10), each on new channels. CALLS
//! (200,000) is the number of calls that all threads together make in a run. All begin at one signal, and the time ends
//! with the last one. There are no looks: `len` tells neither how many values were sent and received nor whether the
//! channel is closed.

use crossbeam_channel::{Receiver, Sender, bounded, select};
use std::error::Error;
use std::sync::Barrier;
use std::thread;
use std::time::Instant;

/// What each send sends.
const SEVEN: u64 = 7;

/// Both ends of a channel. Each thread has all of them, so that no channel is closed before the last thread ends.
type Port = (Sender<u64>, Receiver<u64>);

/// Makes the calls of one thread in so many rounds, on the ports of its workload.
type Script = fn(&[Port], u64);

/// What is timed: its name, how many calls its threads make together in a round, the capacities of its ports, and a script
/// for each thread.
type Workload = (&'static str, u64, &'static [usize], &'static [Script]);

const SENDS: Script = send::<0>;
const RECEIVES: Script = receive::<0>;
const ALONE: &[Script] = &[send_then_receive::<0, 0>];
const PING_PONG: &[Script] = &[send_then_receive::<0, 1>, receive_then_send::<0, 1>];
const ONE_TO_ONE: &[Script] = &[SENDS, RECEIVES];
const FOUR_TO_FOUR: &[Script] = &[
    SENDS, SENDS, SENDS, SENDS, RECEIVES, RECEIVES, RECEIVES, RECEIVES,
];
const SELECT: &[Script] = &[send::<0>, send::<1>, send::<2>, send::<3>, select_four];

const WORKLOADS: [Workload; 5] = [
    ("alone", 2, &[64], ALONE),
    ("ping_pong", 4, &[0, 0], PING_PONG),
    ("one_to_one", 2, &[64], ONE_TO_ONE),
    ("four_to_four", 8, &[64], FOUR_TO_FOUR),
    ("select_over_four", 8, &[16; 4], SELECT),
];

fn send<const TO: usize>(ports: &[Port], rounds: u64) {
    let to = &ports[TO].0;
    for _ in 0..rounds {
        to.send(SEVEN).unwrap();
    }
}

fn receive<const FROM: usize>(ports: &[Port], rounds: u64) {
    let from = &ports[FROM].1;
    for _ in 0..rounds {
        assert_eq!(from.recv(), Ok(SEVEN));
    }
}

fn send_then_receive<const TO: usize, const FROM: usize>(ports: &[Port], rounds: u64) {
    let (to, from) = (&ports[TO].0, &ports[FROM].1);
    for _ in 0..rounds {
        to.send(SEVEN).unwrap();
        assert_eq!(from.recv(), Ok(SEVEN));
    }
}

fn receive_then_send<const FROM: usize, const TO: usize>(ports: &[Port], rounds: u64) {
    let (from, to) = (&ports[FROM].1, &ports[TO].0);
    for _ in 0..rounds {
        assert_eq!(from.recv(), Ok(SEVEN));
        to.send(SEVEN).unwrap();
    }
}

/// Receives four times in a round, from any of the four ports.
fn select_four(ports: &[Port], rounds: u64) {
    let [one, two, three, four] = [0, 1, 2, 3].map(|place: usize| &ports[place].1);
    for _ in 0..4 * rounds {
        let received = select! {
            recv(one) -> received => received,
            recv(two) -> received => received,
            recv(three) -> received => received,
            recv(four) -> received => received,
        };
        assert_eq!(received, Ok(SEVEN));
    }
}

/// Calls a second in one run on new channels, with a thread for each script, from the signal for which all wait to the
/// end of the last.
fn rate(calls: u64, (_, in_round, capacities, scripts): Workload) -> u64 {
    let ports: Vec<Port> = capacities.iter().copied().map(bounded).collect();
    let rounds = calls / in_round;
    let start = Barrier::new(scripts.len());
    let begin = |script: Script| {
        start.wait();
        let begun = Instant::now();
        script(&ports, rounds);
        (begun, Instant::now())
    };
    let spans: Vec<(Instant, Instant)> = thread::scope(|scope| {
        let threads: Vec<_> = scripts
            .iter()
            .map(|script| scope.spawn(|| begin(*script)))
            .collect();
        threads
            .into_iter()
            .map(|thread| thread.join().unwrap())
            .collect()
    });
    let begun = spans.iter().map(|span| span.0).min().unwrap();
    let ended = spans.iter().map(|span| span.1).max().unwrap();
    ((rounds * in_round) as f64 / (ended - begun).as_secs_f64()) as u64
}

/// Runs each workload so many times, and prints a line for it.
fn print(calls: u64, runs: usize) {
    assert!(runs > 0);
    for workload in WORKLOADS {
        let mut rates: Vec<u64> = (0..runs).map(|_| rate(calls, workload)).collect();
        rates.sort();
        let median = (rates[(runs - 1) / 2] + rates[runs / 2]) / 2;
        println!("{} best {} median {median}", workload.0, rates[runs - 1]);
    }
}

fn main() -> Result<(), Box<dyn Error>> {
    let words: Vec<String> = std::env::args().skip(1).collect();
    let words: Vec<&str> = words.iter().map(String::as_str).collect();
    match words[..] {
        ["times"] => print(200_000, 10),
        ["times", calls] => print(calls.parse()?, 10),
        ["times", calls, runs] => print(calls.parse()?, runs.parse()?),
        _ => return Err("words: times [CALLS [RUNS]]".into()),
    }
    Ok(())
}
