//! `send RECEIVER [OPTION..]`: starts the receiver with these options on loopback, sends it generated datagrams and compares its
//! answers and its counts with the second program's verdicts.

mod cases;
mod receiver;

use std::collections::VecDeque;
use std::io;
use std::net::UdpSocket;
use std::process::ExitCode;
use std::time::{Duration, Instant};

use cases::{Counts, Sent};
use receiver::Receiver;

const DATAGRAMS: usize = 4_000;
const MOST_UNANSWERED: usize = 32;
const LEAST_RATE: f64 = 900.0;
const LONGEST_RUN: Duration = Duration::from_secs(20);

type Outcome<T> = Result<T, Box<dyn std::error::Error>>;

fn main() -> ExitCode {
    let words: Vec<String> = std::env::args().skip(1).collect();
    let Some((program, options)) = words.split_first() else {
        eprintln!("usage: send RECEIVER [OPTION..]");
        return ExitCode::from(2);
    };
    let (passed, failed) = run(program, options).unwrap_or_else(|error| {
        println!("send: {error}");
        (0, 1)
    });
    println!("{passed} passed, {failed} failed");
    ExitCode::from(u8::from(failed != 0))
}

fn run(program: &str, options: &[String]) -> Outcome<(u32, u32)> {
    let sent = cases::cases(DATAGRAMS);
    let [judge, clean] = cases::counts(&sent);
    let mut receiver = Receiver::start(program, options, Instant::now() + LONGEST_RUN)?;
    let began = Instant::now();
    // The last one alone, since the order between ports is open: its copies are those that the receiver keeps.
    let (last, others) = sent.split_last().ok_or("nothing to send")?;
    let wrong = exchange(&receiver, others)? + exchange(&receiver, std::slice::from_ref(last))?;
    let rate = sent.len() as f64 / began.elapsed().as_secs_f64();
    let total = receiver.stop()?;
    println!("{} datagrams, {rate:.0} a second, {wrong} answers differ", sent.len());
    println!("{total}");
    let checks = [
        ("answers", wrong == 0),
        ("datagrams", printed(&total, "datagrams", 1)? == [sent.len()]),
        ("judge counts", printed(&total, "judge", judge.len())? == judge),
        ("clean counts", printed(&total, "clean", clean.len())? == clean),
        ("every code a datagram can get", cases::all_reached(&judge) && cases::all_reached(&clean)),
        ("three levels deep on S10", sent.iter().filter(|one| one.case.kind == 4 && one.is_deep()).count() >= 50),
        ("masked copies", printed(&total, "copies", 1)? == [cases::copies(&judge)]),
        ("in parts as whole", printed(&total, "unlike", 1)? == [0]),
        ("the last masked copy", printed(&total, "copy", 1)? == [last.case.message.len()]),
        ("the last cleaned copy", printed(&total, "cleaned", 1)? == [last.cleaned()] && last.cleaned() == 13),
        ("rate", rate > LEAST_RATE),
    ];
    for (name, _) in checks.iter().filter(|(_, good)| !good) {
        println!("failed: {name}");
    }
    let failed = checks.iter().filter(|(_, good)| !good).count();
    Ok(((checks.len() - failed) as u32, failed as u32))
}

/// Sends all, with few unanswered, and answers how many answers differ. The receiver takes the datagrams
/// of a port in their order, so the next answer from a port is that to its oldest datagram.
fn exchange(receiver: &Receiver, sent: &[Sent]) -> Outcome<usize> {
    let sockets = receiver.ports.iter().map(|port| connected(*port)).collect::<io::Result<Vec<_>>>()?;
    let mut unanswered = VecDeque::new();
    let mut wrong = 0;
    for one in sent {
        if unanswered.len() == MOST_UNANSWERED {
            wrong += usize::from(differs(receiver, &sockets, unanswered.pop_front())?);
        }
        sockets[one.port()].send(&one.case.message)?;
        unanswered.push_back(one);
    }
    while !unanswered.is_empty() {
        wrong += usize::from(differs(receiver, &sockets, unanswered.pop_front())?);
    }
    Ok(wrong)
}

fn connected(port: u16) -> io::Result<UdpSocket> {
    let socket = UdpSocket::bind(("127.0.0.1", 0))?;
    socket.connect(("127.0.0.1", port))?;
    Ok(socket)
}

fn differs(receiver: &Receiver, sockets: &[UdpSocket], oldest: Option<&Sent>) -> Outcome<bool> {
    let oldest = oldest.ok_or("nothing is unanswered")?;
    let socket = &sockets[oldest.port()];
    socket.set_read_timeout(Some(receiver.time_left()?))?;
    let mut answer = [0; 64];
    let length = socket.recv(&mut answer).map_err(|error| format!("no answer: {error}"))?;
    Ok(answer[..length] != oldest.answer())
}

/// The numbers that follow a name in the receiver's line.
fn printed(line: &str, name: &str, count: usize) -> Outcome<Counts> {
    let words = line.split(' ').skip_while(|word| *word != name).skip(1).take(count);
    Ok(words.map(str::parse).collect::<Result<Counts, _>>()?)
}
