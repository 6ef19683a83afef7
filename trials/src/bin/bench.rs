//! Judge and copy in one call, clean alone, and build, through the C interface against the second program: the ratio is the second program's time
//! divided by ours, so that higher is better. Turns are interleaved, and the best of each side counts. Buffers are made once and not cleared between
//! messages. The pieces form is measured against the library's own call on the whole message, with the same table, which its start makes zero: that
//! call's time, which has the copy in it, divided by its own. The count of rows is measured against that call too, and against the second program.
//! `bench LINE SIDE TURNS` does one line (0 to 11) of one side (ours, or the other) so many times and measures nothing: trials/instructions counts.
use second::generate::{Build, Generator};
use std::hint::black_box;
use std::time::Instant;
use trials::{BuildCall, CleanCall, JudgeCopyCall, RowsCall};

const TURNS: usize = 60;
const LARGEST: usize = 4_096;

struct Buffers {
    table: Vec<u8>,
    copy: Vec<u8>,
    five: Vec<u8>,
    answer: Vec<u8>,
    state: Vec<u8>,
}

type Messages = Vec<(u32, Vec<u8>)>;
/// One turn of one side.
type Turn = Box<dyn Fn(&mut Buffers)>;

struct Line {
    name: &'static str,
    /// What ours is measured against.
    against: &'static str,
    count: usize,
    sides: [Turn; 2],
}

/// Judge and copy of each message, by either.
fn judge_copies(messages: &Messages, call: JudgeCopyCall) -> Turn {
    let messages = messages.clone();
    Box::new(move |b| {
        for (kind, message) in &messages {
            black_box(call(*kind, black_box(message), &mut b.table, &mut b.copy, &mut b.five));
        }
    })
}

fn judge_and_copy(name: &'static str, messages: &Messages) -> Line {
    let sides = [judge_copies(messages, trials::judge_copy), judge_copies(messages, second::judge_copy_octets)];
    Line { name, against: "second", count: messages.len(), sides }
}

/// The rows of each message, by either.
fn row_counts(messages: &Messages, call: RowsCall) -> Turn {
    let messages = messages.clone();
    Box::new(move |b| {
        for (kind, message) in &messages {
            black_box(call(*kind, black_box(message), &mut b.answer));
        }
    })
}

fn clean_alone(name: &'static str, messages: &Messages) -> Line {
    let side = |clean: CleanCall| -> Turn {
        let messages = messages.clone();
        Box::new(move |b| {
            for (kind, message) in &messages {
                black_box(clean(*kind, black_box(message), &mut b.copy, &mut b.answer));
            }
        })
    };
    Line { name, against: "second", count: messages.len(), sides: [side(trials::clean), side(second::clean_octets)] }
}

fn builds(name: &'static str, builds: Vec<Build>) -> Line {
    let with_tables: Vec<_> = builds.into_iter().map(|build| (build.table_octets(2 * build.table.len()), build)).collect();
    let side = |call: BuildCall| -> Turn {
        let builds = with_tables.clone();
        Box::new(move |b| {
            for (table, what) in &builds {
                black_box(call(what.head, black_box(table), black_box(&what.values), &mut b.copy, &mut b.answer));
            }
        })
    };
    Line { name, against: "second", count: with_tables.len(), sides: [side(trials::build), side(second::build_octets)] }
}

/// The messages in parts of so many octets, each from its start to its end.
fn in_parts(name: &'static str, messages: &Messages, octets: usize) -> Line {
    let own = messages.clone();
    let pieces: Turn = Box::new(move |b| {
        for (kind, message) in &own {
            black_box(trials::start(*kind, &mut b.state, &mut b.table));
            for part in message.chunks(octets) {
                black_box(trials::part(&mut b.state, black_box(part), &mut b.table, &mut b.five));
            }
            black_box(trials::end(&mut b.state, &mut b.table, &mut b.five));
        }
    });
    Line { name, against: "whole", count: messages.len(), sides: [pieces, judge_copies(messages, trials::judge_copy)] }
}

/// A message of this header, with its length put right.
fn with_length(mut message: Vec<u8>) -> Vec<u8> {
    let length = (message.len() - 4) as u16;
    message[2..4].copy_from_slice(&length.to_be_bytes());
    message
}

/// An Echo Request with `3/0` and then so many elements of that type, each of `length` octets.
fn echo(typ: u8, count: usize, length: usize) -> Vec<u8> {
    let mut message = vec![0x40, 1, 0, 0, 0, 0, 1, 0, 3, 0, 1, 0, 7];
    for _ in 0..count {
        message.extend([typ, (length / 256) as u8, (length % 256) as u8, 0]);
        message.extend(std::iter::repeat_n(0xA5, length));
    }
    with_length(message)
}

/// A Delete Bearer Command with so many bearer contexts, each with its `73/0`.
fn bearers(count: usize) -> Vec<u8> {
    let mut message = vec![0x48, 66, 0, 0, 0, 0, 0, 1, 0, 0, 1, 0];
    message.extend([93, 0, 5, 0, 73, 0, 1, 0, 5].repeat(count));
    with_length(message)
}

/// A Context Response with so many PDN connections, each with what it must have and a bearer, which is its third level.
fn connections(count: usize) -> Vec<u8> {
    let inside = [&[73, 0, 1, 0, 5, 80, 0, 22, 0][..], &[0; 22]].concat();
    let bearer = [&[93, 0, 31, 0][..], &inside].concat();
    let beside = [71, 0, 1, 0, 0, 73, 0, 1, 0, 5, 87, 0, 5, 0, 7, 0, 0, 0, 1, 72, 0, 8, 0, 0, 0, 0, 1, 0, 0, 0, 2];
    let mut message = vec![0x48, 131, 0, 0, 0, 0, 0, 1, 0, 0, 1, 0, 2, 0, 2, 0, 16, 0];
    message.extend([&[109, 0, 66, 0], &beside[..], &bearer].concat().repeat(count));
    with_length(message)
}

/// The lines, of so many generated messages and builds; the large messages a fiftieth as often.
fn lines(count: usize) -> [Line; 12] {
    let mut generator = Generator::new(11);
    let mix: Messages = (0..count).map(|_| generator.case()).map(|case| (case.kind, case.message)).collect();
    let few_on = |kind, message: Vec<u8>| vec![(kind, message); count.div_ceil(50)];
    let few = |message| few_on(1, message);
    let rows = |against, other| Line { name: "rows, the mix", against, count, sides: [row_counts(&mix, trials::rows), other] };
    [
        judge_and_copy("judge and copy, the mix", &mix),
        judge_and_copy("judge and copy, 453 bearers", &few(bearers(453))),
        judge_and_copy("judge and copy, 1,021 rows of private extensions", &few(echo(255, 1_020, 0))),
        judge_and_copy("judge and copy, one value of 4,075 octets", &few(echo(200, 1, 4_075))),
        clean_alone("clean, the mix", &mix),
        builds("build, whole and with a fault", (0..count).map(|_| generator.build()).collect()),
        in_parts("pieces, the mix in one part", &mix, usize::MAX),
        in_parts("pieces, the mix in parts of 64 octets", &mix, 64),
        in_parts("pieces, the mix octet by octet", &mix, 1),
        judge_and_copy("judge and copy, 58 PDN connections with a bearer each", &few_on(4, connections(58))),
        rows("judge and copy", judge_copies(&mix, trials::judge_copy)),
        rows("second", row_counts(&mix, second::rows_octets)),
    ]
}

fn compare(line: &Line, buffers: &mut Buffers) {
    let mut best = [f64::MAX; 2];
    for _ in 0..TURNS {
        for (best, turn) in best.iter_mut().zip(&line.sides) {
            let began = Instant::now();
            turn(buffers);
            *best = best.min(began.elapsed().as_secs_f64());
        }
    }
    let each = 1e9 / line.count as f64;
    let [ours, theirs] = best;
    println!("{}: ours {:.0} ns, {} {:.0} ns each, ratio {:.2}", line.name, ours * each, line.against, theirs * each, theirs / ours);
}

fn main() {
    let state = vec![0; trials::state_octets()];
    let mut buffers = Buffers { table: vec![0; 2 * 6_138], copy: vec![0; LARGEST], five: vec![0; 10], answer: vec![0; 12], state };
    let words: Vec<String> = std::env::args().skip(1).collect();
    if let [line, side, turns] = &words[..] {
        let line = &lines(150)[line.parse::<usize>().expect("a line")];
        let turn = &line.sides[usize::from(side != "ours")];
        (0..turns.parse().expect("a count")).for_each(|_| turn(&mut buffers));
        return;
    }
    lines(10_000).iter().for_each(|line| compare(line, &mut buffers));
}
