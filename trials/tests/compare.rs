//! The proved library against the second program: every answer and every lent octet, with buffers around each boundary.

use second::generate::{Buffers, Build, builds, Call, Case, Cut, Feed, figures, Generator, lends, Random, What, CUTS};
use trials::{build_difference, difference, feed_difference, is_deep, rubbish_fault, state_octets, Judged, OFF_KIND};

/// One more than the largest code.
const CODES: usize = OFF_KIND as usize + 1;

/// How often each code was met: of judge and copy with the largest buffers and with those of the trials, of the cleaner with those of the trials, of the
/// count of rows. And how many messages have a void group in the library's table, and how many are three levels deep.
#[derive(Debug, Default)]
struct Codes {
    judge: [usize; CODES],
    lent: [usize; CODES],
    clean: [usize; CODES],
    rows: [usize; CODES],
    void: usize,
    deep: usize,
}

/// The code with the largest table and copy, and whether a row of that table is void.
fn judged(case: &Case) -> (u16, bool) {
    let (mut table, mut copy) = ([0; 12_276], [0; 4_096]);
    let code = trials::judge_copy(case.kind, &case.message, &mut table, &mut copy, &mut []);
    let rows = usize::from(u16::from_be_bytes([table[0], table[1]]));
    let mut rows = table[12..].chunks(12).take(rows);
    (code, code == 0 && rows.any(|row| row[10..] == [0, 4]))
}

/// All trials of each case.
fn compare(cases: impl IntoIterator<Item = Case>) -> Codes {
    let mut codes = Codes::default();
    for (seed, case) in cases.into_iter().enumerate() {
        for lent in case.buffers(seed as u64) {
            if let Some(what) = difference(&case, lent) {
                panic!("{what}\n{}", second::lines::case_line(&case));
            }
            codes.lent[usize::from(Judged::of(trials::judge_copy, &case, lent).code)] += 1;
            let mut copy = vec![0; lent.clean];
            codes.clean[usize::from(trials::clean(case.kind, &case.message, &mut copy, &mut []))] += 1;
        }
        let (code, is_void) = judged(&case);
        codes.judge[usize::from(code)] += 1;
        codes.rows[usize::from(trials::rows(case.kind, &case.message, &mut []))] += 1;
        codes.void += usize::from(is_void);
        codes.deep += usize::from(is_deep(&case));
    }
    codes
}

/// The messages of which second/tests/all/pinned.rs shows that they see any figure that is wrong, with the same buffers.
#[test]
fn every_figure() {
    let codes = compare(figures());
    for code in (0..=13).chain([OFF_KIND.into()]) {
        assert!(code == 10 || code == 13 || codes.judge[code] >= 10, "{codes:?}");
        assert!(codes.lent[code] >= 10, "{codes:?}");
        assert!(code == 10 || codes.clean[code] >= 10, "{codes:?}");
        let is_told = !(10..=13).contains(&code);
        assert!(if is_told { codes.rows[code] >= 10 } else { codes.rows[code] == 0 }, "{codes:?}");
    }
    assert!(codes.void >= 1_400 && codes.deep >= 2_000, "{codes:?}");
}

/// Tables around what the rows need, each with copies around the message's length and with buffers around the ten octets of the five numbers.
fn around_each_limit(case: &Case) -> impl Iterator<Item = Buffers> {
    let enough = case.enough();
    let (table, copy) = (enough.table, enough.copy);
    let tables = [0, table - 12, table - 2, table - 1, table, table + 1, table + 2, table + 13];
    let copies = [0, copy.saturating_sub(1), copy, copy + 1, copy + 9];
    let pairs = tables.into_iter().flat_map(move |table| copies.map(|copy| (table, copy)));
    pairs.flat_map(move |(table, copy)| [0, 9, 10, 11].map(|five| Buffers { table, copy, five, ..enough }))
}

/// The code with these buffers, by the order of the refusals, from that with room enough.
fn in_order(enough: u16, case: &Case, lent: Buffers) -> u16 {
    match enough {
        1..=9 | OFF_KIND => enough,
        _ if lent.copy < case.message.len() => 13,
        _ if lent.table / 2 < case.table_need() => 10,
        _ => enough,
    }
}

/// The octets of table, copy and five numbers that a code writes, each from the buffer's start; those after them stay.
fn written(code: u16, case: &Case, lent: Buffers) -> [usize; 3] {
    let table = if code == 0 { 2 * case.table_need() } else { 0 };
    let copy = if matches!(code, 0 | 11 | 12) { case.message.len() } else { 0 };
    [table, copy, if lent.five < 10 { 0 } else { 10 }]
}

/// Messages of each kind of verdict, void groups and the largest ones among them, with every pair of lengths around both limits: the order of the
/// refusals, what each writes, and what the second program leaves in all three buffers.
#[test]
fn refusals_in_their_order() {
    let mut codes = [0; CODES];
    for (case, _) in lends() {
        let (enough, _) = judged(&case);
        for lent in around_each_limit(&case) {
            let said = || format!("{lent:?}\n{}", second::lines::case_line(&case));
            let (before, ours) = (Judged::before(lent), Judged::of(trials::judge_copy, &case, lent));
            assert_eq!(ours.code, in_order(enough, &case, lent), "{}", said());
            let [table, copy, five] = written(ours.code, &case, lent);
            assert_eq!(ours.table[table..], before.table[table..], "table, {}", said());
            assert_eq!(ours.copy[copy..], before.copy[copy..], "copy, {}", said());
            assert_eq!(ours.five[five..], before.five[five..], "five, {}", said());
            assert!(ours == Judged::of(second::judge_copy_octets, &case, lent), "the second program, {}", said());
            codes[usize::from(ours.code)] += 1;
        }
    }
    assert!((0..=13).chain([OFF_KIND.into()]).all(|code| codes[code] >= 100), "{codes:?}");
}

/// Both trials of each build, and how often each code was met.
fn compare_builds(builds: impl IntoIterator<Item = Build>) -> [usize; CODES] {
    let mut codes = [0; CODES];
    for (seed, build) in builds.into_iter().enumerate() {
        for lent in build.lent(seed as u64) {
            if let Some(what) = build_difference(&build, lent) {
                panic!("{what}\n{}", second::lines::build_line(&build));
            }
            let (table, mut room) = (build.table_octets(lent.table), vec![0; lent.room]);
            codes[usize::from(trials::build(build.head, &table, &build.values, &mut room, &mut []))] += 1;
        }
    }
    codes
}

/// The builds of which second/tests/all/build.rs shows that they meet every reason to refuse, with the same lengths.
#[test]
fn every_build() {
    let codes = compare_builds(builds());
    for code in [0, 1, 7, 14, 15, 16, OFF_KIND.into()] {
        assert!(codes[code] >= 100, "{codes:?}");
    }
}

#[test]
fn ten_thousand_builds_of_the_mix() {
    let mut generator = Generator::new(2030);
    compare_builds((0..10_000).map(|_| generator.build()));
}

#[test]
fn ten_thousand_of_the_mix() {
    let codes = compare(Generator::new(2029).take(10_000));
    assert!(codes.void >= 100 && codes.deep >= 300, "{codes:?}");
}

/// Groups with about as many elements as they may hold, whole and with faults inside and beside them.
#[test]
fn ten_thousand_overloads() {
    let mut generator = Generator::new(2032);
    let codes = compare((0..10_000).map(|_| generator.overload()));
    assert!(codes.void >= 2_500, "{codes:?}");
    for code in [0, 9, 11, 12] {
        assert!(codes.judge[code] >= 300, "{codes:?}");
    }
}

#[test]
fn damaged_ones() {
    let mut generator = Generator::new(4096);
    compare((0..5_000).map(|_| generator.damaged()));
}

#[test]
fn at_the_limits() {
    let mut generator = Generator::new(1022);
    compare((0..300).map(|_| generator.at_limit()));
}

/// An Echo Request with one value of `first` octets and then so many elements without one, and `cut` octets that are none.
fn rows_after(first: usize, count: usize, cut: usize) -> Case {
    let mut message = vec![0x40, 1, 0, 0, 0, 0, 1, 0, 3, (first / 256) as u8, (first % 256) as u8, 0];
    message.extend(vec![9; first]);
    for _ in 1..count {
        message.extend([3, 0, 0, 0]);
    }
    message.extend(vec![9; cut]);
    let length = message.len() - 4;
    message[2..4].copy_from_slice(&(length as u16).to_be_bytes());
    Case { kind: 1, message }
}

#[test]
fn around_the_small_scratch() {
    // Rows around 64, and around the 264 octets that cannot have more: read once into the small scratch, once into the large one at a
    // guess by the first siblings, or into both where a long value spoils the guess.
    for first in [0, 1, 40, 600, 3_000] {
        let counts = (40..80).flat_map(|count| (0..4).map(move |cut| (count, cut)));
        compare(counts.map(|(count, cut)| rows_after(first, count, cut)));
    }
}

/// The samples, each with its name.
fn samples() -> Vec<(String, Vec<u8>)> {
    let folder = concat!(env!("CARGO_MANIFEST_DIR"), "/../samples");
    let paths = std::fs::read_dir(folder).expect("samples/ is there").map(|entry| entry.expect("a file").path());
    let paths = paths.filter(|path| path.extension().is_some_and(|ending| ending == "hex"));
    let sample = |path: std::path::PathBuf| {
        let text = std::fs::read_to_string(&path).expect("text");
        (path.display().to_string(), second::lines::octets(&text).expect("hex"))
    };
    paths.map(sample).collect()
}

/// Each octet of a sample with each value, on each kind; answers how many messages that is.
fn every_octet_changed(name: &str, message: &[u8]) -> usize {
    let mut count = 0;
    for at in 0..message.len() {
        for value in 0..=255 {
            let mut changed = message.to_vec();
            changed[at] = value;
            for kind in 1..=4 {
                let case = Case { kind, message: changed.clone() };
                let enough = case.enough();
                let mut lent = vec![enough];
                // buffers one short and one longer for every eighth value
                if value % 8 == 7 {
                    lent.push(Buffers { table: enough.table - 1, ..enough });
                    lent.push(Buffers { copy: enough.copy.saturating_sub(1), clean: enough.clean.saturating_sub(1), ..enough });
                    lent.push(Buffers { copy: enough.copy + 1, clean: enough.clean + 1, ..enough });
                }
                for buffers in lent {
                    assert_eq!(difference(&case, buffers), None, "{name} at {at}: {value}");
                }
                count += 1;
            }
        }
    }
    count
}

#[test]
fn every_octet_of_every_sample_changed() {
    let samples = samples();
    let cores = std::thread::available_parallelism().map_or(1, usize::from);
    let count: usize = std::thread::scope(|scope| {
        let share = |first| samples.iter().skip(first).step_by(cores);
        let threads: Vec<_> =
            (0..cores).map(|first| scope.spawn(move || share(first).map(|(name, message)| every_octet_changed(name, message)).sum::<usize>())).collect();
        threads.into_iter().map(|thread| thread.join().expect("no difference")).sum()
    });
    assert!(count > 100_000, "only {count} changes were tried");
}

/// Each case in parts, with the seeds that second/tests/all/pieces.rs gives the figures.
fn compare_pieces(cases: impl IntoIterator<Item = Case>) {
    for (seed, case) in cases.into_iter().enumerate() {
        if let Some(what) = feed_difference(&case.feed(seed as u64)) {
            panic!("{what}\n{}", second::lines::case_line(&case));
        }
    }
}

/// The feeds of which second/tests/all/pieces.rs shows that they see a form with any of the faults that it tries.
#[test]
fn pieces_of_every_figure() {
    compare_pieces(figures());
}

#[test]
fn pieces_of_ten_thousand_of_the_mix() {
    let mut generator = Generator::new(2031);
    compare_pieces((0..10_000).map(|turn| if turn % 3 == 0 { generator.damaged() } else { generator.case() }));
}

/// The same as above in parts, with tables that the inside of a void group overruns, and others.
#[test]
fn pieces_of_ten_thousand_overloads() {
    let mut generator = Generator::new(2033);
    let cases: Vec<_> = (0..10_000).map(|_| generator.overload()).collect();
    let void = cases.iter().filter(|case| judged(case).1).count();
    assert!(void >= 2_500, "only {void} have a void group");
    compare_pieces(cases);
}

/// One octet a part, and a table of each length around what is needed with and without the inside of the void groups.
#[test]
fn pieces_of_void_groups_octet_by_octet() {
    let mut generator = Generator::new(2034);
    let mut count = 0;
    for _ in 0..1_000 {
        let case = generator.overload();
        let (need, more) = (case.table_need(), case.table_need_with_insides());
        if need == more {
            continue;
        }
        for numbers in [need - 1, need, need + 1, need + 6, more - 1, more] {
            let mut calls = vec![What::Start(case.kind)];
            calls.extend(case.message.chunks(1).map(What::Part));
            calls.push(What::End);
            let calls = calls.into_iter().map(|what| Call { what, state: state_octets(), table: 2 * numbers, five: 10 });
            let feed = Feed { calls: calls.collect() };
            assert_eq!(feed_difference(&feed), None, "{numbers} numbers\n{}", second::lines::case_line(&case));
            count += 1;
        }
    }
    assert!(count > 1_000, "only {count} were fed");
}

#[test]
fn pieces_at_the_limits() {
    let mut generator = Generator::new(1023);
    compare_pieces((0..200).map(|_| generator.at_limit()));
}

/// Each sample on each kind in two parts, cut at each place, and in every other way.
#[test]
fn pieces_of_every_sample_cut_everywhere() {
    let mut random = Random::new(7);
    let mut count = 0;
    for (name, message) in samples() {
        for kind in 1..=4 {
            let case = Case { kind, message: message.clone() };
            let everywhere = (0..=message.len()).map(Cut::At);
            for cut in everywhere.chain(CUTS) {
                let is_enough = random.percent(75);
                let feed = case.feed_cut(cut, is_enough, &mut random);
                assert_eq!(feed_difference(&feed), None, "{name} on {kind}, {cut:?}");
                count += 1;
            }
        }
    }
    assert!(count > 10_000, "only {count} cuts were tried");
}

/// C and Rust say it in a place each.
#[test]
fn pieces_have_one_length_of_a_state() {
    let header = include_str!("../../include/wokshimmer.h");
    let mut lines = header.lines().filter_map(|line| line.strip_prefix("#define WOK_STATE_OCTETS "));
    let number = lines.next().and_then(|rest| rest.split('u').next());
    assert_eq!(number, Some(state_octets().to_string().as_str()));
}

/// A good message and after it so many parts of 65,536 octets; the code at the end.
fn with_more(parts: usize) -> u16 {
    let message = [0x40, 1, 0, 9, 0, 0, 1, 0, 3, 0, 1, 0, 7];
    let more = vec![0; 1 << 16];
    let (mut state, mut table) = (vec![0xEE; state_octets()], vec![0xEE; 24]);
    assert_eq!(trials::start(1, &mut state, &mut table), 0);
    assert_eq!(trials::part(&mut state, &message, &mut table, &mut []), 0);
    for _ in 0..parts {
        assert_eq!(trials::part(&mut state, &more, &mut table, &mut []), 0);
    }
    let code = trials::end(&mut state, &mut table, &mut []);
    assert!(code == 0 || table == [0; 24], "{table:?}");
    code
}

/// The number of octets would be the message's own again, were it kept in 16 or in 32 bits.
#[test]
fn pieces_past_every_count() {
    assert_eq!(with_more(0), 0);
    assert_eq!(with_more(1), 2);
    assert_eq!(with_more(1 << 16), 2);
}

/// Octets for a state: any, all alike, or those of a message that was begun, some of them changed.
fn rubbish(random: &mut Random, generator: &mut Generator, table: &mut [u8]) -> Vec<u8> {
    let length = state_octets() + random.below(12);
    match random.below(5) {
        0 => random.octets(length),
        1 => vec![*random.pick(&[0, 1, 0x7F, 0x80, 0xFF]); length],
        _ => {
            let mut state = random.octets(length);
            // within a group that may turn out void there is more to remember
            let case = if random.percent(30) { generator.overload() } else { generator.case() };
            trials::start(case.kind, &mut state, table);
            let part = &case.message[..random.below(case.message.len() + 1)];
            trials::part(&mut state, part, table, &mut []);
            for _ in 0..random.below(6) {
                let (at, any) = (random.below(state.len()), random.octet());
                state[at] = *random.pick(&[0, 1, 0x7F, 0x80, 0xFF, any, state[at].wrapping_add(1)]);
            }
            state
        }
    }
}

#[test]
fn pieces_with_rubbish_for_a_state() {
    let (mut random, mut generator) = (Random::new(91), Generator::new(92));
    let mut taken = 0;
    for turn in 0..100_000 {
        let numbers = *random.pick(&[0, 1, 5, 6, 12, 13, 30, 100, 400]);
        let mut table = random.octets(2 * numbers + 3);
        let state = rubbish(&mut random, &mut generator, &mut table[..2 * numbers]);
        let part = generator.case().message;
        let what = [What::Part(&part), What::Part(&part[..part.len().min(1)]), What::End, What::Start(1)][random.below(4)];
        let lent = *random.pick(&[state.len(), state.len(), state.len(), state_octets(), state_octets() - 1, 0]);
        let table_len = 2 * numbers + random.below(2) + 2 * usize::from(random.percent(10));
        let call = Call { what, state: lent, table: table_len, five: 13 };
        assert_eq!(rubbish_fault(&call, &state, &table), None, "turn {turn}");
        taken += usize::from(trials::end(&mut state.clone(), &mut table[..2 * numbers], &mut []) != trials::NOT_TAKEN);
    }
    assert!(taken > 1_000, "only {taken} states were taken for a message");
}
