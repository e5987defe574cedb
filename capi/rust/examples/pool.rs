//! A pool of workers: process 0 hands out jobs, the others do them, and each result comes back.

use chanhub::{Edition, Ended, Hub};
use std::error::Error;
use std::thread;

fn main() -> Result<(), Box<dyn Error>> {
    let (_hub, mut seats) = Hub::open(Edition::One, 4, 1000)?;
    let mut boss = seats.remove(0);
    let (to_workers, jobs) = boss.channel(2)?;
    let (to_boss, results) = boss.channel(100)?;
    let workers = seats.into_iter().map(|mut seat| {
        thread::spawn(move || -> Result<(), Ended> {
            while let Some(job) = jobs.next(&mut seat)? {
                let job = job.number().expect("a number");
                to_boss.send(&mut seat, job * job)?;
            }
            Ok(())
        })
    });
    let workers: Vec<_> = workers.collect();
    for job in 1..=10u64 {
        to_workers.send(&mut boss, job)?;
    }
    to_workers.close(&mut boss)?;
    let mut sum = 0;
    for _ in 1..=10 {
        sum += results.recv(&mut boss)?.number().expect("a number");
    }
    println!("{sum}");
    boss.exit();
    for worker in workers {
        worker.join().expect("no panic")?;
    }
    Ok(())
}
