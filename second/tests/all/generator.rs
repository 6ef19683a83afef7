//! The generator itself.

use crate::support::judged;
use second::generate::{Case, Generator, Random};
use second::DOCUMENT;

#[test]
fn numbers_are_those_of_splitmix64() {
    let mut random = Random::new(1_234_567);
    let expected = [
        6_457_827_717_110_365_317,
        3_203_168_211_198_807_973,
        9_817_491_932_198_370_423,
    ];
    assert_eq!(expected.map(|_| random.number()), expected);
}

#[test]
fn one_seed_gives_one_run() {
    let run = |seed| Generator::new(seed).take(500).collect::<Vec<Case>>();
    assert_eq!(run(1), run(1));
    assert_ne!(run(1), run(2));
}

#[test]
fn good_messages_are_accepted() {
    let mut generator = Generator::new(51);
    for _ in 0..20_000 {
        let case = generator.good();
        let (verdict, _) = judged(case.kind, &case.message);
        assert!(verdict.accepted(), "{verdict:?} {case:?}");
    }
}

#[test]
fn limits_are_met_exactly() {
    let mut generator = Generator::new(52);
    let mut longest_accepted = 0;
    let mut most_rows_accepted = 0;
    let mut most_rows = 0;
    let mut one_too_long = 0;
    for _ in 0..500 {
        let case = generator.at_limit();
        one_too_long += usize::from(case.message.len() == 4097);
        let rows = DOCUMENT.rows(case.kind, &case.message);
        let rows = rows.map_or(0, |rows| rows.len());
        most_rows = rows.max(most_rows);
        if judged(case.kind, &case.message).0.accepted() {
            longest_accepted = case.message.len().max(longest_accepted);
            most_rows_accepted = rows.max(most_rows_accepted);
        }
    }
    assert!(one_too_long > 0);
    assert_eq!(longest_accepted, 4096);
    assert_eq!(most_rows_accepted, 1021);
    assert_eq!(most_rows, 1022);
}

#[test]
fn the_ordinary_mix_has_the_size_of_ordinary_messages() {
    const CASES: usize = 40_000;
    let (mut octets, mut rows, mut walked, mut accepted) = (0, 0, 0, 0);
    for case in Generator::new(53).take(CASES) {
        octets += case.message.len();
        if let Ok(met) = DOCUMENT.rows(case.kind, &case.message) {
            walked += 1;
            rows += met.len();
            accepted += usize::from(judged(case.kind, &case.message).0.accepted());
        }
    }
    println!("octets {octets}, rows {rows} of {walked}, accepted {accepted}");
    assert!((130..=170).contains(&(octets / CASES)));
    assert!((9..=12).contains(&(rows / walked)));
    assert!((CASES / 2..CASES * 3 / 4).contains(&accepted));
}
