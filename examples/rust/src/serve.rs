//! A job that a live master decides for, by a pipe to `mrjob serve`: `serve LOG [PROGRAM]`.
//!
//! Each line is kept in LOG before it is sent. Where LOG has lines already, they are told to a new master, and the job
//! goes on from there. Here a task is done as soon as it starts.
use std::collections::BTreeSet;
use std::env;
use std::fs::{File, OpenOptions};
use std::io::{self, BufRead, BufReader, Error, ErrorKind, Read, Write};
use std::process::{Child, ChildStdin, ChildStdout, Command, ExitStatus, Stdio};

const HEAD: &str = "script 2\ncentre c\nrack r c\nrack q c\n\
    worker a r 2\nworker b r 1\nworker d q 1\n\
    split s 10 a\nsplit t 20 b\nsplit u 30 d\n\
    doc one s the cat\ndoc two t the dog\ndoc three u a cat and a dog\nbegin";

/// Lines, each with its answer.
type Told = Vec<(String, Vec<String>)>;

struct Master {
    process: Child,
    lines: ChildStdin,
    answers: BufReader<ChildStdout>,
    log: File,
}

impl Master {
    /// A new master of the job that the log has, or else the head; and the lines behind `begin` with their answers.
    fn open(program: &str, head: &str, path: &str) -> io::Result<(Master, Told)> {
        let mut log = OpenOptions::new().read(true).append(true).create(true).open(path)?;
        let mut kept = String::new();
        log.read_to_string(&mut kept)?;
        kept.truncate(kept.rfind('\n').map_or(0, |it| it + 1)); // (a line that was cut off was never sent)
        log.set_len(kept.len() as u64)?;
        let mut process =
            Command::new(program).arg("serve").stdin(Stdio::piped()).stdout(Stdio::piped()).spawn()?;
        let (lines, answers) =
            (process.stdin.take().unwrap(), BufReader::new(process.stdout.take().unwrap()));
        let mut master = Master { process, lines, answers, log };
        let Some((first, rest)) = kept.split_once("\nbegin\n") else {
            let fault = master.tell(head)?;
            return if fault.is_empty() { Ok((master, vec![])) } else { Err(Error::other(fault.join("\n"))) };
        };
        master.send(&format!("{first}\nbegin"))?;
        master.answer()?;
        let mut told = vec![];
        for line in rest.lines() {
            master.send(line)?;
            told.push((line.to_string(), master.answer()?));
        }
        Ok((master, told))
    }

    /// The lines of the answer to a line, which the log has before it is sent.
    fn tell(&mut self, line: &str) -> io::Result<Vec<String>> {
        writeln!(self.log, "{line}")?;
        self.send(line)?;
        self.answer()
    }

    fn send(&mut self, line: &str) -> io::Result<()> {
        self.lines.write_all(format!("{line}\n").as_bytes())
    }

    /// The lines up to the first empty one.
    fn answer(&mut self) -> io::Result<Vec<String>> {
        let mut lines = vec![];
        loop {
            let mut line = String::new();
            self.answers.read_line(&mut line)?;
            match line.strip_suffix('\n') {
                None => return Err(Error::new(ErrorKind::UnexpectedEof, "the master has ended")),
                Some("") => return Ok(lines),
                Some(line) => lines.push(line.to_string()),
            }
        }
    }

    /// Ends the session, and gives what the master ended with.
    fn close(self) -> io::Result<ExitStatus> {
        let Master { mut process, lines, .. } = self;
        drop(lines);
        process.wait()
    }
}

/// What runs, by the lines that were told and their answers.
#[derive(Default)]
struct Running(BTreeSet<u64>);

impl Running {
    /// Takes in a line with its answer, and gives how many attempts it started.
    fn note(&mut self, line: &str, answer: &[String]) -> usize {
        if let Some(attempt) = line.strip_prefix("done ") {
            self.0.remove(&attempt.parse().unwrap());
        }
        let starts = answer.iter().filter_map(|it| it.strip_prefix("start ").or(it.strip_prefix("reduce ")));
        let attempts: Vec<u64> = starts.map(|it| it.split(' ').next().unwrap().parse().unwrap()).collect();
        self.0.extend(&attempts);
        attempts.len()
    }
}

fn main() -> io::Result<()> {
    let words: Vec<String> = env::args().collect();
    let Some(log) = words.get(1) else { return Err(Error::other("usage: serve LOG [PROGRAM]")) };
    let program = words.get(2).map_or("mrjob", String::as_str);
    let (mut master, told) = Master::open(program, HEAD, log)?;
    let mut running = Running::default();
    for (line, answer) in &told {
        running.note(line, answer);
    }
    println!("told {} lines, {} attempts run", told.len(), running.0.len());
    let mut idle = 0;
    while idle < 2 {
        let line = match running.0.first() {
            Some(attempt) => format!("done {attempt}"),
            None => ["wave", "reduce"][idle].to_string(),
        };
        let answer = master.tell(&line)?;
        println!("{line}: {}", answer.join(", "));
        idle = if running.note(&line, &answer) > 0 || line.starts_with("done") { 0 } else { idle + 1 };
    }
    println!("{}", master.tell("end")?.join("\n"));
    let status = master.close()?;
    if status.success() {
        Ok(())
    } else {
        Err(Error::other(format!("the master ended with {status}")))
    }
}
