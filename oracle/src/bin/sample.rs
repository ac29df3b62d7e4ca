//! sample CASES SEED: writes to standard output what crates/replay_vectors replays: a list of so many of the original's answers, the lists of chosen questions, a list of applications, a tenth as long as the first, and short lists in each of which one answer is wrong; behind them the same of calendars. Counts of what is drawn, and the names of what is chosen, go to standard error.
use oracle::sample::applications::applications;
use oracle::sample::blackboard::blackboard;
use oracle::sample::calendars::calendars;
use oracle::sample::chains::chains;
use oracle::sample::damaged::{damaged, damaged_calendars};
use oracle::sample::hooks::hooks;
use oracle::sample::indexes::indexes;
use oracle::sample::lists::Lists;
use oracle::sample::sampler::Sampler;
use std::process::ExitCode;

fn main() -> ExitCode {
    let numbers: Vec<u64> = std::env::args().skip(1).filter_map(|word| word.parse().ok()).collect();
    let [cases, seed] = numbers[..] else {
        eprintln!("usage: sample CASES SEED");
        return ExitCode::from(2);
    };
    let mut sampler = Sampler::new(seed);
    sampler.sample(cases);
    print!("{}", sampler.text);
    eprint!("{}", sampler.counts.table());
    // what follows changes the cells that the list before it left
    let mut lists = Lists::over(&mut sampler.lending);
    blackboard(&mut lists);
    indexes(&mut lists);
    hooks(&mut lists);
    chains(&mut lists);
    applications(&mut lists);
    print!("{}", lists.text);
    eprint!("{}the chosen questions:\n{}", lists.names, lists.counts.searches());
    sampler.applications(cases);
    print!("{}", sampler.text);
    eprint!("applications:\n{}", sampler.counts.table());
    print!("{}", damaged(seed, &mut sampler.lending));
    let mut lists = Lists::over(&mut sampler.lending);
    calendars(&mut lists);
    print!("{}", lists.text);
    eprint!("{}", lists.names);
    sampler.calendars(cases);
    print!("{}", sampler.text);
    eprint!("calendars:\n{}", sampler.counts.table());
    print!("{}", damaged_calendars(seed, &mut sampler.lending));
    ExitCode::SUCCESS
}
