//! A plain hub of Go's channels under one lock: its times, and the events of a journal.

mod times;

use live_peer::hub::{Case, Hub, Pid, Step};
use live_peer::value::Value;
use std::error::Error;
use std::io::{self, BufWriter, Write};

fn main() -> Result<(), Box<dyn Error>> {
    let words: Vec<String> = std::env::args().skip(1).collect();
    let words: Vec<&str> = words.iter().map(String::as_str).collect();
    match words[..] {
        ["replay"] => return replay(),
        ["times"] => times::print(200_000, 10),
        ["times", calls] => times::print(calls.parse()?, 10),
        ["times", calls, runs] => times::print(calls.parse()?, runs.parse()?),
        _ => return Err("words: times [CALLS [RUNS]], or replay < JOURNAL".into()),
    }
    Ok(())
}

/// Makes the steps of the well-formed journal on standard input, and prints their events.
fn replay() -> Result<(), Box<dyn Error>> {
    let text = io::read_to_string(io::stdin())?;
    let mut lines = text.lines();
    let head = lines.nth(1).and_then(|line| line.strip_prefix("procs "));
    // A journal's text has no more than a million entries that are no exits.
    let mut hub = Hub::new(head.ok_or("not a journal")?.parse()?, 1_000_000);
    let mut out = BufWriter::new(io::stdout().lock());
    for line in lines {
        let (pid, step) = entry_of(line)?;
        writeln!(out, "{pid} {}", hub.step(pid, step))?;
        for (pid, what) in &hub.ended {
            writeln!(out, "{pid} {what}")?;
        }
    }
    Ok(out.flush()?)
}

fn entry_of(line: &str) -> Result<(Pid, Step), Box<dyn Error>> {
    let fields: Vec<&str> = line.split(' ').collect();
    let step = match fields[1..] {
        ["make", capacity] => Step::Make(capacity.parse()?),
        ["send", port, value] => {
            let case = Case::Send(port.parse()?, Value::number(value.parse()?));
            Step::call(&[case], false, 0)
        }
        ["recv", port] => Step::call(&[Case::Recv(port.parse()?)], false, 0),
        ["select", word, ref fields @ ..] => {
            let default = fields.last() == Some(&"default");
            let fields = &fields[..fields.len() - usize::from(default)];
            let cases: Result<Vec<Case>, _> = fields.iter().map(|field| case_of(field)).collect();
            Step::call(&cases?, default, word.parse()?)
        }
        ["close", port] => Step::Close(port.parse()?),
        ["exit"] => Step::Exit,
        _ => return Err(format!("not an entry: {line}").into()),
    };
    Ok((fields[0].parse()?, step))
}

fn case_of(field: &str) -> Result<Case, Box<dyn Error>> {
    if let Some(port) = field.strip_prefix('r') {
        return Ok(Case::Recv(port.parse()?));
    }
    let send = field.strip_prefix('s').ok_or("not a case")?;
    let (port, value) = send.split_once(':').ok_or("not a case")?;
    Ok(Case::Send(port.parse()?, Value::number(value.parse()?)))
}
