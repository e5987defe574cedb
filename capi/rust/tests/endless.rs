//! Hubs that never end: their chapters, and that no call tells where they were cut.

use chanhub::{
    Case, ChapterFiles, Chapters, Counts, Edition, Ended, Fault, Hub, OpenError, Receiver, Seat,
    Selected,
};
use std::collections::HashSet;
use std::env;
use std::fs;
use std::io;
use std::panic::{self, RefUnwindSafe, UnwindSafe};
use std::path::{Path, PathBuf};
use std::process::{self, Command};
use std::sync::atomic::{AtomicUsize, Ordering};
use std::sync::{mpsc, Arc, Mutex};
use std::thread;
use std::time::Duration;

/// More steps than a hub of `Hub::open` makes.
const MANY: u64 = 1_200_001;

fn one_seat(keep: u32, chapters: Chapters) -> (Hub, Seat) {
    let (hub, mut seats) = Hub::open_endless(Edition::Two, 1, keep, chapters).unwrap();
    (hub, seats.remove(0))
}

/// The texts of the chapters that a hub gave.
#[derive(Clone, Default)]
struct Texts(Arc<Mutex<Vec<String>>>);

impl Texts {
    fn chapters(&self) -> Chapters {
        let texts = self.clone();
        Chapters::give_to(move |text| {
            texts.0.lock().unwrap().push(text.expect("memory").into());
        })
    }

    fn count(&self) -> usize {
        self.0.lock().unwrap().len()
    }

    fn of(self) -> Vec<String> {
        Arc::try_unwrap(self.0).unwrap().into_inner().unwrap()
    }
}

/// A folder of one test, which is removed at its end.
struct Folder(PathBuf);

impl Folder {
    fn new(test: &str) -> Folder {
        let path = env::temp_dir().join(format!("chanhub-{test}-{}", process::id()));
        fs::create_dir_all(&path).unwrap();
        Folder(path)
    }

    fn name(&self, name: &str) -> PathBuf {
        self.0.join(name)
    }
}

impl Drop for Folder {
    fn drop(&mut self) {
        fs::remove_dir_all(&self.0).unwrap();
    }
}

/// The path of the file with this number.
fn numbered(name: &Path, number: usize) -> PathBuf {
    PathBuf::from(format!("{}.{number}", name.display()))
}

/// Asks chanhub_tool whether these files are one history, if CHANHUB_TOOL names it.
fn are_chained(files: &[PathBuf]) {
    let tool = match env::var_os("CHANHUB_TOOL") {
        Some(tool) if !tool.is_empty() => tool,
        _ => return,
    };
    let answer = Command::new(tool)
        .arg("chain")
        .args(files)
        .output()
        .unwrap();
    assert_eq!(
        String::from_utf8_lossy(&answer.stdout),
        "whole\n",
        "{answer:?}"
    );
}

/// The line of a step: port 1 is made, and is then sent each number, which is received.
fn line_of(step: u64) -> String {
    match step {
        0 => "0 make 1".into(),
        _ if step % 2 == 1 => format!("0 send 1 {}", step / 2),
        _ => "0 recv 1".into(),
    }
}

/// Makes these steps.
fn make_steps(seat: &mut Seat, steps: u64) -> Receiver {
    let (sender, receiver) = seat.channel(1).unwrap();
    for step in 1..steps {
        if step % 2 == 1 {
            sender.send(seat, step / 2).unwrap();
        } else {
            assert_eq!(receiver.recv(seat), Ok((step / 2 - 1).into()));
        }
    }
    receiver
}

/// Checks that these are the chapters of so many such steps, each with `keep` of them, and of the exit at the end.
fn are_chapters(texts: &[String], keep: u64, steps: u64) {
    let mut step = 0;
    for text in texts {
        let mut wanted = vec!["chanhub journal 2".to_string(), "procs 1".into()];
        if step > 0 {
            wanted.push(line_of(0));
            wanted.extend((step % 2 == 0).then(|| line_of(step - 1)));
        }
        let next = steps.min(step + keep);
        wanted.extend((step..next).map(line_of));
        wanted.extend((next == steps).then(|| "0 exit".into()));
        assert!(text.lines().eq(&wanted), "the chapter with step {step}");
        step = next;
    }
    assert_eq!(step, steps);
}

#[test]
fn a_hub_goes_on_after_a_million_steps() {
    let texts = Texts::default();
    let (hub, mut seat) = one_seat(999, texts.chapters());
    let receiver = make_steps(&mut seat, MANY);
    let counts = Counts {
        cap: 1,
        sent: MANY / 2,
        received: MANY / 2,
        closed: false,
    };
    assert_eq!(hub.look_at(&receiver), Some(counts));
    drop((hub, seat));
    are_chapters(&texts.of(), 999, MANY);
}

#[test]
fn chapters_go_to_files() {
    let folder = Folder::new("files");
    let name = folder.name("run");
    let files = ChapterFiles::new(&name).unwrap();
    let (hub, mut seat) = one_seat(9_999, Chapters::write_to(&files));
    make_steps(&mut seat, 100_001);
    drop((hub, seat));
    assert!(files.error().is_none());
    let count = fs::read_dir(&folder.0).unwrap().count();
    let paths: Vec<_> = (0..count).map(|number| numbered(&name, number)).collect();
    let texts: Vec<_> = paths
        .iter()
        .map(|path| fs::read_to_string(path).unwrap())
        .collect();
    are_chapters(&texts, 9_999, 100_001);
    are_chained(&paths);
}

#[test]
fn each_chapter_comes_before_its_call_returns() {
    let texts = Texts::default();
    let (hub, mut seat) = one_seat(2, texts.chapters());
    let counts = (1..=7).map(|_| {
        seat.select(&[], true, 0).unwrap();
        texts.count()
    });
    assert_eq!(counts.collect::<Vec<_>>(), [0, 0, 0, 0, 1, 1, 2]);
    drop(hub);
    assert_eq!(texts.count(), 2);
    drop(seat);
    assert_eq!(texts.count(), 4);
}

#[test]
fn a_hub_without_a_closure_keeps_two_chapters() {
    let (hub, mut seat) = one_seat(2, Chapters::discard());
    assert_eq!(hub.before(), None);
    make_steps(&mut seat, 7);
    let head = "chanhub journal 2\nprocs 1\n0 make 1\n";
    let before = format!("{head}0 send 1 0\n0 recv 1\n0 send 1 1\n0 recv 1\n0 send 1 2\n");
    assert_eq!(hub.before(), Some(before));
    let present = format!("{head}0 send 1 2\n0 recv 1\n");
    assert_eq!(hub.journal(), Some(present.clone()));
    hub.cut().unwrap();
    assert_eq!(hub.before(), Some(present));
    assert_eq!(hub.journal(), Some(head.into()));
}

#[test]
fn a_cut_by_hand_ends_a_chapter() {
    let texts = Texts::default();
    let (hub, mut seat) = one_seat(1000, texts.chapters());
    let (sender, receiver) = seat.channel(1).unwrap();
    hub.cut().unwrap();
    sender.send(&mut seat, 7).unwrap();
    assert_eq!(texts.count(), 0);
    hub.cut().unwrap();
    assert_eq!(texts.count(), 1);
    assert_eq!(receiver.recv(&mut seat), Ok(7.into()));
    drop((hub, seat));
    let head = "chanhub journal 2\nprocs 1\n0 make 1\n";
    assert_eq!(
        texts.of(),
        [
            head.to_string(),
            format!("{head}0 send 1 7\n"),
            format!("{head}0 send 1 7\n0 recv 1\n0 exit\n")
        ]
    );
}

#[test]
fn a_hub_that_ends_is_not_cut() {
    let (hub, mut seats) = Hub::open(Edition::Two, 1, 100).unwrap();
    seats[0].channel(1).unwrap();
    assert_eq!(hub.cut(), Err(Fault::BAD_CALL));
    assert_eq!(hub.before(), None);
    assert_eq!(
        hub.journal().unwrap(),
        "chanhub journal 2\nprocs 1\n0 make 1\n"
    );
}

#[test]
fn calls_wait_across_cuts() {
    let texts = Texts::default();
    let (hub, mut seats) = Hub::open_endless(Edition::Two, 3, 2, texts.chapters()).unwrap();
    let mut cancelled = seats.pop().unwrap();
    let mut waits = seats.pop().unwrap();
    let mut seat = seats.pop().unwrap();
    let (sender, receiver) = seat.channel(0).unwrap();
    let (_, other) = seat.channel(0).unwrap();
    let waiting = thread::spawn(move || {
        let cases = [Case::Recv(other), Case::Recv(receiver)];
        let selected = waits.select(&cases, false, 0);
        (selected, receiver.recv(&mut waits))
    });
    let cancelling = thread::spawn(move || other.recv(&mut cancelled));
    while !hub.journal().unwrap().contains("\n1 select 0 r2 r1\n") {
        thread::sleep(Duration::from_millis(1));
    }
    // A chapter begins with both channels and both calls at most, so it has at most 8 further steps.
    for _ in 0..400 {
        seat.select(&[], true, 0).unwrap();
    }
    while seat.cancel(2).is_err() {
        thread::sleep(Duration::from_millis(1));
    }
    assert_eq!(cancelling.join().unwrap(), Err(Ended::Cancelled));
    hub.cut().unwrap();
    sender.send(&mut seat, 7).unwrap();
    hub.cut().unwrap();
    drop(seat);
    let told = waiting.join().unwrap();
    assert_eq!(told, (Ok(Selected::Got(1, 7.into())), Err(Ended::Stalled)));
    assert!(texts.count() >= 50);
}

#[test]
fn a_call_that_waits_gives_its_chapter_first() {
    let (give, chapters) = mpsc::channel();
    let to_channel = Chapters::give_to(move |text| give.send(text.unwrap().to_string()).unwrap());
    let (hub, mut seats) = Hub::open_endless(Edition::Two, 2, 1, to_channel).unwrap();
    let mut waits = seats.pop().unwrap();
    let mut seat = seats.pop().unwrap();
    let (sender, receiver) = seat.channel(1).unwrap();
    for _ in 0..2 {
        seat.select(&[], true, 0).unwrap();
    }
    let waiting = thread::spawn(move || receiver.recv(&mut waits));
    assert_eq!(
        chapters.recv().unwrap(),
        "chanhub journal 2\nprocs 2\n0 make 1\n"
    );
    sender.send(&mut seat, 7).unwrap();
    assert_eq!(waiting.join().unwrap(), Ok(7.into()));
    drop((hub, seat));
}

#[test]
fn the_closure_may_look_at_its_hub() {
    let seen = Arc::new(Mutex::new(None::<(Hub, Receiver)>));
    let looks = Arc::new(Mutex::new(Vec::new()));
    let (sees, keeps) = (seen.clone(), looks.clone());
    let look = Chapters::give_to(move |text| {
        if let Some((hub, receiver)) = &*sees.lock().unwrap() {
            let sent = hub.look_at(receiver).unwrap().sent;
            let is_other = hub.journal() != hub.before() && hub.before().as_deref() != text;
            keeps.lock().unwrap().push((sent, is_other));
        }
    });
    let (hub, mut seat) = one_seat(2, look);
    let (sender, receiver) = seat.channel(18).unwrap();
    *seen.lock().unwrap() = Some((hub, receiver));
    for number in 1..=18u64 {
        sender.send(&mut seat, number).unwrap();
    }
    drop(seen.lock().unwrap().take());
    assert_eq!(*looks.lock().unwrap(), [(6, true), (18, true)]);
}

#[test]
fn a_closure_lives_as_long_as_its_hub() {
    let held = Arc::new(());
    let holds = |panics: bool| {
        let held = held.clone();
        Chapters::give_to(move |_| {
            let _held = &held;
            assert!(!panics, "as it should");
        })
    };
    for panics in [false, true] {
        let (hub, seat) = one_seat(1000, holds(panics));
        drop(hub);
        assert_eq!(Arc::strong_count(&held), 2);
        drop(seat);
        assert_eq!(Arc::strong_count(&held), 1);
    }
    drop(holds(false));
    for refused in [
        Hub::open_endless(Edition::One, 0, 1000, holds(false)),
        Hub::open_endless(Edition::One, 65, 1000, holds(false)),
    ] {
        assert_eq!(refused.err(), Some(OpenError::Procs));
    }
    for refused in [
        Hub::open_endless(Edition::Two, 1, 0, holds(false)),
        Hub::open_endless(Edition::Two, 1, 900_001, holds(false)),
        Hub::open_endless(Edition::Two, 1, u32::MAX, Chapters::discard()),
    ] {
        assert_eq!(refused.err(), Some(OpenError::Keep));
    }
    assert_eq!(Arc::strong_count(&held), 1);
    assert!(Hub::open_endless(Edition::One, 64, 900_000, Chapters::discard()).is_ok());
}

/// Runs this test again, alone and in another process, where `is_apart` is true. Returns what that wrote to standard error.
fn standard_error_of(test: &str) -> String {
    let output = Command::new(env::current_exe().unwrap())
        .args(["--exact", test, "--nocapture"])
        .env("CHANHUB_APART", "1")
        .output()
        .unwrap();
    assert!(output.status.success(), "{output:?}");
    String::from_utf8(output.stderr).unwrap()
}

fn is_apart() -> bool {
    env::var_os("CHANHUB_APART").is_some()
}

/// A payload whose drop panics too.
struct Bomb;

impl Drop for Bomb {
    fn drop(&mut self) {
        panic!("the bomb goes off");
    }
}

#[test]
fn a_panic_is_told_once_and_stops_no_step() {
    if !is_apart() {
        let said = standard_error_of("a_panic_is_told_once_and_stops_no_step");
        assert_eq!(said.matches("panicked at").count(), 1, "{said}");
        return;
    }
    let calls = Arc::new(AtomicUsize::new(0));
    let called = calls.clone();
    let panics = Chapters::give_to(move |_| {
        called.fetch_add(1, Ordering::Relaxed);
        panic::panic_any(Bomb);
    });
    let (hub, mut seat) = one_seat(10, panics);
    make_steps(&mut seat, 1001);
    hub.cut().unwrap();
    drop((hub, seat));
    assert_eq!(calls.load(Ordering::Relaxed), 1);
}

#[test]
fn an_error_of_the_disk_is_told_once_and_stops_no_step() {
    if !is_apart() {
        let said = standard_error_of("an_error_of_the_disk_is_told_once_and_stops_no_step");
        let lines: Vec<_> = said
            .lines()
            .filter(|line| line.starts_with("chanhub: "))
            .collect();
        assert_eq!(lines.len(), 1, "{said}");
        assert!(lines[0].ends_with("/later/run.0: No such file or directory"));
        return;
    }
    let folder = Folder::new("disk");
    let later = folder.name("later");
    let files = ChapterFiles::new(later.join("run")).unwrap();
    let (hub, mut seat) = one_seat(100, Chapters::write_to(&files));
    make_steps(&mut seat, 1001);
    assert_eq!(files.error().unwrap().kind(), io::ErrorKind::NotFound);
    fs::create_dir(&later).unwrap();
    drop((hub, seat));
    assert_eq!(files.error().unwrap().kind(), io::ErrorKind::NotFound);
    let mut written: Vec<_> = fs::read_dir(&later)
        .unwrap()
        .map(|entry| entry.unwrap().file_name().into_string().unwrap())
        .collect();
    written.sort();
    assert_eq!(written, ["run.10", "run.9"]);
}

#[test]
fn a_name_has_no_zero_byte() {
    let refused = ChapterFiles::new("a\0b").unwrap_err();
    assert_eq!(refused.kind(), io::ErrorKind::InvalidInput);
}

/// The numbers that these chapters send, each where it first stands.
fn sent_in(texts: &[String]) -> Vec<u64> {
    let mut known = HashSet::new();
    texts
        .iter()
        .flat_map(|text| text.lines())
        .filter_map(|line| line.split_once(" send 1 ")?.1.parse().ok())
        .filter(|&number| known.insert(number))
        .collect()
}

#[test]
fn threads_make_one_history() {
    const PAIRS: u64 = 6;
    const VALUES: u64 = 4000;
    let texts = Texts::default();
    let slow = {
        let texts = texts.clone();
        Chapters::give_to(move |text| {
            thread::sleep(Duration::from_micros(200));
            texts.0.lock().unwrap().push(text.unwrap().into());
        })
    };
    let (hub, mut seats) = Hub::open_endless(Edition::Two, 2 * PAIRS as u8 + 1, 100, slow).unwrap();
    let mut boss = seats.pop().unwrap();
    let (sender, receiver) = boss.channel(3).unwrap();
    let receives = seats.split_off(PAIRS as usize);
    let senders = seats.into_iter().map(|mut seat| {
        thread::spawn(move || {
            let pid = u64::from(seat.pid());
            for value in 0..VALUES {
                sender.send(&mut seat, pid * VALUES + value).unwrap();
            }
        })
    });
    let senders: Vec<_> = senders.collect();
    let receivers = receives.into_iter().map(|mut seat| {
        thread::spawn(move || {
            let values = receiver.drain(&mut seat);
            values.map(|value| value.unwrap().number().unwrap()).sum()
        })
    });
    let receivers: Vec<thread::JoinHandle<u64>> = receivers.collect();
    let cuts = {
        let hub = hub.clone();
        thread::spawn(move || (0..20).for_each(|_| hub.cut().unwrap()))
    };
    for sender in senders {
        sender.join().unwrap();
    }
    sender.close(&mut boss).unwrap();
    let sum: u64 = receivers.into_iter().map(|sum| sum.join().unwrap()).sum();
    cuts.join().unwrap();
    let all = PAIRS * VALUES;
    assert_eq!(sum, all * (all - 1) / 2);
    assert_eq!(hub.look_at(&receiver).unwrap().received, all);
    drop((hub, boss));

    let texts = texts.of();
    let sent = sent_in(&texts);
    for pid in 0..PAIRS {
        let own = sent.iter().copied().filter(|sent| sent / VALUES == pid);
        assert!(own.eq(pid * VALUES..(pid + 1) * VALUES));
    }
    let folder = Folder::new("threads");
    let paths: Vec<_> = (0..texts.len())
        .map(|number| numbered(&folder.name("run"), number))
        .collect();
    for (path, text) in paths.iter().zip(&texts) {
        fs::write(path, text).unwrap();
    }
    are_chained(&paths);
}

#[test]
fn hubs_go_where_they_went() {
    fn may_go<T: Send + 'static>() {}
    fn may_be_shared<T: Send + Sync + UnwindSafe + RefUnwindSafe + 'static>() {}
    may_go::<Chapters>();
    may_be_shared::<ChapterFiles>();
    may_be_shared::<Hub>();
    may_go::<Seat>();
    assert_eq!(format!("{:?}", Chapters::discard()), "Chapters { .. }");
}
