//! differ CASES SEED [ENTRY..]: the small families (thinned out where CASES is less than they have) and then CASES random cases, each put to the original and to the static library. With names of entries, those alone are asked. Prints counts for each kind; a disagreement is shrunk, printed with both answers, and ends the run with status 1.
use oracle::differ::library::Linked;
use oracle::differ::question::{Kind, KINDS};
use oracle::differ::run::{report, Run};
use std::process::ExitCode;
use std::time::Instant;

struct Arguments {
    cases: u64,
    seed: u64,
    kinds: Vec<Kind>,
}

/// An entry by its name; walks are asked with the steps, acts in turn with applications, calendars read back with those written, and an entry that is lent a struct behind the one that is not.
fn kinds(name: &str) -> Option<Vec<Kind>> {
    let (kind, _) = KINDS.into_iter().find(|(_, of)| *of == name)?;
    Some(match kind {
        Kind::Step => vec![Kind::Step, Kind::Walk],
        Kind::EjectionStep => vec![Kind::EjectionStep, Kind::EjectionWalk, Kind::OwnEjections],
        Kind::Apply => vec![Kind::Apply, Kind::Acts],
        Kind::DriverCalendar => vec![Kind::DriverCalendar, Kind::CalendarBack],
        Kind::Records => vec![Kind::Final, Kind::Records],
        Kind::StepAt => vec![Kind::Step, Kind::StepAt],
        _ => vec![kind],
    })
}

fn arguments() -> Option<Arguments> {
    let words: Vec<String> = std::env::args().skip(1).collect();
    let [cases, seed, names @ ..] = words.as_slice() else { return None };
    let all = || KINDS.map(|(kind, _)| kind).to_vec();
    let named = names.iter().map(|name| kinds(name)).collect::<Option<Vec<_>>>()?.concat();
    let kinds = if names.is_empty() { all() } else { named };
    Some(Arguments { cases: cases.replace('_', "").parse().ok()?, seed: seed.parse().ok()?, kinds })
}

fn main() -> ExitCode {
    let Some(Arguments { cases, seed, kinds }) = arguments() else {
        eprintln!("usage: differ CASES SEED [ENTRY..]");
        return ExitCode::from(2);
    };
    let mut run = Run::of(&Linked, &kinds);
    let one_in = run.small_cases().div_ceil(cases.max(1));
    let began = Instant::now();
    let result = run.small(one_in as usize, seed);
    let small = run.counts.total();
    println!("small families, one board in {one_in}: {small} cases, {:.1} s", began.elapsed().as_secs_f64());
    let began = Instant::now();
    let result = result.and_then(|()| run.random(cases, seed));
    println!("random, seed {seed}: {} cases, {:.1} s", run.counts.total() - small, began.elapsed().as_secs_f64());
    print!("{}", run.counts.table());
    match result {
        Ok(()) => {
            println!("{} cases, no disagreement", run.counts.total());
            ExitCode::SUCCESS
        }
        Err(met) => {
            println!("DISAGREEMENT, after {} cases that agree. As met:\n{met:?}\n", run.counts.total());
            let (case, disagreement) = report(&Linked, *met);
            println!("The smallest:\n{case:#?}\nthe slices:\n{:?}", case.lent());
            match disagreement {
                Some(d) => println!("the original: {:?}\nthe library: {:?}", d.expected, d.answered),
                None => println!("(it agrees when it is put by itself: something is kept between calls)"),
            }
            ExitCode::FAILURE
        }
    }
}
