//! How many operations a second the hub answers, to threads that begin at one signal.

use live_peer::hub::{Case, Entry, Hub, LiveHub, Pid, Step, What};
use live_peer::value::Value;
use std::hint::black_box;
use std::sync::Barrier;
use std::thread;
use std::time::Instant;

/// The calls that a process makes over and over. One without any looks at port 1.
type Script = &'static [&'static [Case]];

const SEVEN: Value = Value::number(7);

// S and R are sends and receives, as in a journal's text, with the number of the port.
const S1: Script = &[&[Case::Send(1, SEVEN)]];
const S2: Script = &[&[Case::Send(2, SEVEN)]];
const S3: Script = &[&[Case::Send(3, SEVEN)]];
const S4: Script = &[&[Case::Send(4, SEVEN)]];
const R1: Script = &[&[Case::Recv(1)]];
const TURNS: Script = &[&[Case::Send(1, SEVEN)], &[Case::Recv(1)]];
const PING: Script = &[&[Case::Send(1, SEVEN)], &[Case::Recv(2)]];
const PONG: Script = &[&[Case::Recv(1)], &[Case::Send(2, SEVEN)]];
const ANY: &[Case] = &[Case::Recv(1), Case::Recv(2), Case::Recv(3), Case::Recv(4)];
const SELECTS: Script = &[ANY, ANY, ANY, ANY];
const LOOKS: Script = &[];

/// Names, capacities of the ports, and scripts of the processes.
const WORKLOADS: [(&str, &[u32], &[Script]); 8] = [
    ("alone", &[64], &[TURNS]),
    ("ping_pong", &[0, 0], &[PING, PONG]),
    ("one_to_one", &[64], &[S1, R1]),
    ("four_to_four", &[64], &[S1, S1, S1, S1, R1, R1, R1, R1]),
    ("select_over_four", &[16; 4], &[S1, S2, S3, S4, SELECTS]),
    ("looks_1", &[0], &[LOOKS]),
    ("looks_2", &[0], &[LOOKS; 2]),
    ("looks_4", &[0], &[LOOKS; 4]),
];

/// Runs each workload so many times, and prints a line for it.
pub fn print(calls: u64, runs: usize) {
    assert!(runs > 0);
    for (name, capacities, scripts) in WORKLOADS {
        let run = |_| rate(calls, capacities, scripts);
        let mut rates: Vec<u64> = (0..runs).map(run).collect();
        rates.sort();
        let median = (rates[(runs - 1) / 2] + rates[runs / 2]) / 2;
        println!("{name} best {} median {median}", rates[runs - 1]);
    }
}

/// Operations a second in one run on a new hub, with a thread for each process, from the signal for
/// which all wait to the end of the last.
fn rate(calls: u64, capacities: &[u32], scripts: &[Script]) -> u64 {
    let processes = scripts.len() as Pid;
    let hub = LiveHub::new(processes, usize::MAX);
    for capacity in capacities {
        hub.step(0, Step::Make(*capacity));
    }
    let in_round: usize = scripts.iter().map(|script| script.len()).sum();
    let rounds = calls / in_round.max(1) as u64;
    let start = Barrier::new(scripts.len());
    let begin = |pid, script| {
        start.wait();
        let begun = Instant::now();
        follow(&hub, pid, script, rounds);
        (begun, Instant::now())
    };
    let spans: Vec<(Instant, Instant)> = thread::scope(|scope| {
        let spawn = |(pid, &script)| scope.spawn(move || begin(pid, script));
        let threads: Vec<_> = (0..).zip(scripts).map(spawn).collect();
        threads.into_iter().map(|t| t.join().unwrap()).collect()
    });
    let begun = spans.iter().map(|span| span.0).min().unwrap();
    let ended = spans.iter().map(|span| span.1).max().unwrap();

    // The journal's entries, made again by one thread, lead to the same counts.
    let counts = [1, 2, 3, 4].map(|port| hub.look(port));
    let mut again = Hub::new(processes, usize::MAX);
    for Entry { pid, step } in hub.into_journal() {
        again.step(pid, step);
    }
    assert_eq!(counts, [1, 2, 3, 4].map(|port| again.look(port)));

    // Where all look, each thread makes one look in a round.
    let operations = rounds * in_round.max(scripts.len()) as u64;
    (operations as f64 / (ended - begun).as_secs_f64()) as u64
}

/// Makes the calls of a script so many times. The choice word of a select counts.
fn follow(hub: &LiveHub, pid: Pid, script: Script, rounds: u64) {
    if script.is_empty() {
        for _ in 0..rounds {
            black_box(hub.look(1));
        }
    }
    let mut turn = 0;
    for _ in 0..rounds {
        for cases in script {
            let word = if cases.len() > 1 { turn } else { 0 };
            let answer = hub.step(pid, Step::call(cases, false, word));
            assert!(matches!(answer, What::Sent(_) | What::Got(_, SEVEN)));
            turn += 1;
        }
    }
}
