//! The library against the second program on many generated messages, judged, counted and cleaned: `million [COUNT [SEED]]`, 1,000,000 by default. Those
//! that pin the figures come first. After every fifth message something is built, and every seventh is fed in parts too.
use second::generate::{figures, Generator};
use trials::{build_difference, difference, feed_difference, is_deep};

fn main() {
    let mut words = std::env::args().skip(1);
    let count: usize = words.next().map_or(1_000_000, |word| word.parse().expect("a count"));
    let seed: u64 = words.next().map_or(1, |word| word.parse().expect("a seed"));
    let mut generator = Generator::new(seed);
    let generated = (0..).map(|turn| match turn % 50 {
        0 => generator.at_limit(),
        1 | 26 => generator.overload(),
        turn if turn % 3 == 0 => generator.damaged(),
        _ => generator.case(),
    });
    let mut builder = Generator::new(!seed);
    let (mut differences, mut builds, mut feeds, mut void, mut deep) = (0, 0, 0, 0, 0);
    for (turn, case) in figures().into_iter().chain(generated).take(count).enumerate() {
        let lent = case.buffers(seed.wrapping_add(turn as u64));
        if let Some(what) = difference(&case, lent[turn % lent.len()]) {
            differences += 1;
            println!("{what}\n{}", second::lines::case_line(&case));
        }
        void += usize::from(case.table_need() != case.table_need_with_insides());
        deep += usize::from(is_deep(&case));
        if turn % 7 == 0 {
            if let Some(what) = feed_difference(&case.feed(seed.wrapping_add(turn as u64))) {
                differences += 1;
                println!("{what}\n{}", second::lines::case_line(&case));
            }
            feeds += 1;
        }
        if turn % 5 == 0 {
            let build = builder.build();
            let [enough, some] = build.lent(seed.wrapping_add(turn as u64));
            if let Some(what) = build_difference(&build, if turn % 2 == 0 { enough } else { some }) {
                differences += 1;
                println!("{what}\n{}", second::lines::build_line(&build));
            }
            builds += 1;
        }
    }
    let met = format!("{void} with a void group, {deep} three levels deep, {feeds} in parts too");
    println!("{count} messages, {met}, and {builds} builds, {differences} differences");
    std::process::exit(i32::from(differences > 0));
}
