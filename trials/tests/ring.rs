//! A message that is rewritten while it is judged and copied, as a ring's buffer is that is refilled too early. That breaks what the caller owes, and no
//! contract says what comes of it. The library takes each octet once, so verdict, table and copy are still of one string of octets, be it neither of the
//! two messages. That string's copy, handed to the call with the same buffers, gives the same verdict, table and copy again.

use second::generate::Buffers;
use std::sync::atomic::{AtomicBool, AtomicU8, Ordering::Relaxed};
use std::time::{Duration, Instant};
use trials::{judge_copy, judge_copy_shared, Judged};

/// With each pair of messages; more, where the two threads seldom run at once, until both forms and what is neither were met, or it has taken too long.
const CALLS: usize = 50_000;
const LONGEST: Duration = Duration::from_secs(60);
const KIND: u32 = 1;

/// An element with its value.
fn element(typ: u8, instance: u8, value: &[u8]) -> Vec<u8> {
    let [high, low] = (value.len() as u16).to_be_bytes();
    [&[typ, high, low, instance], value].concat()
}

/// A Delete Bearer Command of that TEID and sequence number with these elements.
fn message(number: u8, elements: &[Vec<u8>]) -> Vec<u8> {
    let body = elements.concat();
    let [high, low] = (8 + body.len() as u16).to_be_bytes();
    let header = [0x48, 66, high, low, number, number, number, number, 0, number, number, 0];
    [&header[..], &body].concat()
}

/// Two messages of one length, other in nearly every octet: bearer contexts, a place and a private extension; and the other way round, the elements
/// longer or shorter, some of them not listed, some repeated.
fn of_one_type(bearers: usize) -> [Vec<u8>; 2] {
    let bearer = |id| element(93, 0, &element(73, 0, &[id]));
    let place = element(86, 0, &[0x18, 1, 2, 3, 4, 5, 6, 7, 8, 9, 10, 11, 12]);
    let mut one = vec![bearer(5); bearers];
    one.extend([place.clone(), element(255, 0, &[0x11; 40])]);
    let one = message(0x11, &one);
    let mut other = vec![element(200, 3, &[0x22; 7]), place.clone(), place];
    other.extend(vec![element(93, 0, &[element(73, 0, &[6, 6, 6]), element(201, 1, &[0x22; 5])].concat()); bearers / 3]);
    let rest = one.len() - message(0x22, &other).len() - 4;
    other.push(element(255, 2, &vec![0x22; rest]));
    [one, message(0x22, &other)]
}

/// Two messages of one length with other headers: one of type 66, and an Echo Request, whose first element stands four octets earlier.
fn of_two_types() -> [Vec<u8>; 2] {
    let [one, _] = of_one_type(3);
    let mut other = [&[0x40, 1, one[2], one[3], 0, 0x22, 0x22, 0], &element(3, 0, &[7])[..], &element(152, 0, &[7])].concat();
    let rest = one.len() - other.len() - 4;
    other.extend(element(255, 2, &vec![0x22; rest]));
    [one, other]
}

/// Writes the one form and the other in turn, an octet at a time, and lets each stand a while, until it is told to end.
fn rewrite(shared: &[AtomicU8], forms: &[Vec<u8>; 2], ended: &AtomicBool) {
    for turn in 0.. {
        if ended.load(Relaxed) {
            return;
        }
        for (to, octet) in shared.iter().zip(&forms[turn % 2]) {
            to.store(*octet, Relaxed);
        }
        for _ in 0..turn % 7 * 30 {
            std::hint::spin_loop();
        }
    }
}

/// How often each form was met, how often a message that is neither and has a copy, and how often one that is refused without.
#[derive(Debug, Default)]
struct Met {
    forms: [usize; 2],
    torn: usize,
    refused: usize,
}

impl Met {
    fn is_enough(&self) -> bool {
        self.forms.iter().all(|count| *count >= 10) && self.torn + self.refused >= 10
    }
}

/// One call on the shared message, and the same on its copy, with these buffers.
fn one_string(shared: &[AtomicU8], lent: &Judged) -> Judged {
    let mut first = lent.clone();
    first.code = judge_copy_shared(KIND, shared, &mut first.table, &mut first.copy, &mut first.five);
    if !matches!(first.code, 0 | 11 | 12) {
        assert!(first.table == lent.table && first.copy == lent.copy, "a refusal by {} writes", first.code);
        return first;
    }
    let again = whole(&first.copy, lent);
    assert!(again == first, "verdict, table and copy are of several strings: {:?}, and again {:?}", first.five, again.five);
    first
}

/// One call on a message that stays.
fn whole(message: &[u8], lent: &Judged) -> Judged {
    let mut judged = lent.clone();
    judged.code = judge_copy(KIND, message, &mut judged.table, &mut judged.copy, &mut judged.five);
    judged
}

fn rewritten_meanwhile(forms: [Vec<u8>; 2]) -> Met {
    let length = forms[0].len();
    assert_eq!(length, forms[1].len());
    // a copy as long as the message, so that it is handed on whole, and a table for as many rows as there can be
    let lent = Judged::before(Buffers { table: 12 + 3 * length, copy: length, five: 10, clean: 0, answer: 0 });
    let alone = forms.each_ref().map(|form| whole(form, &lent));
    assert!(alone.iter().all(|judged| judged.code == 0) && alone[0].table != alone[1].table, "{:?}", alone.map(|judged| judged.five));
    let shared: Vec<AtomicU8> = forms[0].iter().map(|octet| AtomicU8::new(*octet)).collect();
    let ended = AtomicBool::new(false);
    let mut met = Met::default();
    std::thread::scope(|scope| {
        scope.spawn(|| rewrite(&shared, &forms, &ended));
        // the other thread ends where this one fails, too
        let calls = std::panic::catch_unwind(std::panic::AssertUnwindSafe(|| {
            let began = Instant::now();
            let mut calls = 0;
            while calls < CALLS || !met.is_enough() && began.elapsed() < LONGEST {
                calls += 1;
                let judged = one_string(&shared, &lent);
                match alone.iter().position(|whole| *whole == judged) {
                    Some(form) => met.forms[form] += 1,
                    None if matches!(judged.code, 0 | 11 | 12) => met.torn += 1,
                    None => met.refused += 1,
                }
            }
        }));
        ended.store(true, Relaxed);
        if let Err(failure) = calls {
            std::panic::resume_unwind(failure);
        }
    });
    println!("{length} octets: {met:?}");
    met
}

/// Each form is met, and what is neither.
#[test]
fn table_and_copy_are_of_one_string() {
    for forms in [of_one_type(3), of_one_type(30), of_one_type(70), of_two_types()] {
        let met = rewritten_meanwhile(forms);
        assert!(met.is_enough(), "{met:?}");
    }
}
