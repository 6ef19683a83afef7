//! The receiver as a child process, with a time by which all must be done.

use std::io::{BufRead, BufReader};
use std::process::{Child, ChildStdout, Command, Stdio};
use std::sync::mpsc::{self, Receiver as Lines};
use std::thread;
use std::time::{Duration, Instant};

use crate::Outcome;

pub struct Receiver {
    child: Child,
    lines: Lines<String>,
    deadline: Instant,
    pub ports: Vec<u16>,
}

impl Receiver {
    pub fn start(program: &str, options: &[String], deadline: Instant) -> Outcome<Self> {
        let mut child = Command::new(program)
            .arg("--answer")
            .args(options)
            .args(["0"; 4])
            .stdout(Stdio::piped())
            .spawn()
            .map_err(|error| format!("{program}: {error}"))?;
        let lines = lines(child.stdout.take().ok_or("no output")?);
        let mut receiver = Self { child, lines, deadline, ports: Vec::new() };
        let first = receiver.line()?;
        let ports = first.strip_prefix("ports ").ok_or("the first line names no ports")?;
        receiver.ports = ports.split(' ').map(str::parse).collect::<Result<_, _>>()?;
        if receiver.ports.len() != 4 {
            return Err(format!("not four ports: {first}").into());
        }
        Ok(receiver)
    }

    pub fn time_left(&self) -> Outcome<Duration> {
        let left = self.deadline.saturating_duration_since(Instant::now());
        if left.is_zero() {
            return Err("the time is over".into());
        }
        Ok(left)
    }

    fn line(&self) -> Outcome<String> {
        Ok(self.lines.recv_timeout(self.time_left()?)?)
    }

    /// Asks the receiver to end, and answers its last line.
    pub fn stop(&mut self) -> Outcome<String> {
        let id = self.child.id().to_string();
        Command::new("sh").args(["-c", "kill -TERM \"$0\"", &id]).status()?;
        let mut last = self.line()?;
        while !last.starts_with("total ") {
            last = self.line()?;
        }
        // Its output ends with it, and nothing may follow the last line.
        match self.lines.recv_timeout(self.time_left()?) {
            Err(mpsc::RecvTimeoutError::Disconnected) => {}
            other => return Err(format!("after the last line: {other:?}").into()),
        }
        let status = self.child.wait()?;
        if !status.success() {
            return Err(format!("the receiver ended with {status}").into());
        }
        Ok(last)
    }
}

impl Drop for Receiver {
    /// A receiver that has ended already is left as it is.
    fn drop(&mut self) {
        let _ = self.child.kill();
        let _ = self.child.wait();
    }
}

/// The lines of an output as they come, so that they can be awaited for a bounded time.
fn lines(output: ChildStdout) -> Lines<String> {
    let (sender, receiver) = mpsc::channel();
    thread::spawn(move || {
        for line in BufReader::new(output).lines().map_while(Result::ok) {
            if sender.send(line).is_err() {
                break;
            }
        }
    });
    receiver
}
