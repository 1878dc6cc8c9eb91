//! Random calls of four clients with open transactions, some of which began at pins, each reply beside that of a plain
//! model.
#[path = "../fixtures/feed.rs"]
mod feed;
mod model;
mod run;

/// How many calls a run has.
const CALLS: usize = 500;

#[test]
fn drawn_calls_are_answered_as_the_model_answers_them() {
    let calls = std::env::var("PDT_CALLS").map_or(100_000, |count| count.parse::<usize>().unwrap());
    let mut counts = run::Counts::new();
    for seed in 0..calls.div_ceil(CALLS) {
        for (reply, count) in run::run(seed as u64, CALLS) {
            *counts.entry(reply).or_default() += count;
        }
    }
    println!("{counts:?}");
    for reply in run::REPLIES {
        assert!(counts.contains_key(reply), "no call was answered {reply}: {counts:?}");
    }
}
