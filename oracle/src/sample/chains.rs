//! Long searches, on the chains of the differ: moves of one to nine rows, and of many emptied ones; dead ends; searches without a move; and lists that are found and fail the final test.
use super::lists::Lists;
use crate::differ::chains::{Chain, Dead, End, Start, Way};
use crate::differ::lent::{pack, EMPTY};
use crate::differ::question::Question;
use crate::differ::sketch::Bystander;
use crate::SearchRequest;

fn ask(lists: &mut Lists, name: &str, chain: &Chain, request: SearchRequest) -> usize {
    let (tables, roster) = chain.board();
    lists.ask(name, &pack(&tables, &roster, 0), Question::Search(request, [tables.rows; 2])).numbers[1]
}

/// The search that a chain is built for.
fn request(depth: usize, displacement: bool) -> SearchRequest {
    SearchRequest { row: 0, value: 0, depth, displacement, candidate_limit: None, budget: EMPTY }
}

/// The search without a budget, with one of as many asks as it makes, and with one less.
fn around(lists: &mut Lists, name: &str, chain: &Chain, request: SearchRequest) {
    let asks = ask(lists, name, chain, request);
    for budget in [asks, asks - 1] {
        ask(lists, &format!("the same, budget {budget}"), chain, SearchRequest { budget, ..request });
    }
}

fn lengths(lists: &mut Lists) {
    for links in 0..=8 {
        let chain = Chain::plain(links, Way::Key);
        around(lists, &format!("{links} links by keys"), &chain, request(links, false));
        if links != 0 {
            ask(lists, "the same, one depth less", &chain, request(links - 1, true));
        }
    }
    for (name, way, high) in
        [("a row above", Way::Above, true), ("a row below", Way::Below, false), ("a key and a row above", Way::Both, true)]
    {
        for (links, round) in [(3, 0), (8, 2)] {
            let chain = Chain { round, high, ..Chain::plain(links, way) };
            around(lists, &format!("{links} links, each by {name}"), &chain, request(links, false));
        }
    }
}

fn dead_ends(lists: &mut Lists) {
    for (name, links, dead) in [
        ("the value held, twice, first", 8, Dead::Held),
        ("an illegal value first", 8, Dead::Illegal),
        ("a value first that a row keeps", 8, Dead::Taken),
        ("the same one row behind", 8, Dead::Deep),
        ("a value behind that a row keeps", 8, Dead::Behind),
        ("branches that double first", 6, Dead::Branches),
    ] {
        let chain = Chain { dead, ..Chain::plain(links, Way::Key) };
        around(lists, name, &chain, request(links, false));
        ask(lists, "the same, one candidate offered", &chain, SearchRequest { candidate_limit: Some(1), ..request(links, false) });
    }
}

/// Rows that are not required, asked both ways; the last three have no move either way.
fn not_required(lists: &mut Lists) {
    let (keys, rule) = (Chain::plain(8, Way::Key), Chain::plain(8, Way::Above));
    let beside = Some(Bystander::Optional);
    for (name, chain) in [
        ("the fifth row of nine not required", Chain { optional: Some((4, true)), ..keys }),
        ("an optional row has the last key", Chain { end: End::Bystander(Bystander::Optional), ..keys }),
        ("an optional row has each key too", Chain { beside, ..keys }),
        ("an optional row below each", Chain { beside, ..rule }),
        ("a required row has the last key", Chain { end: End::Bystander(Bystander::Stone), ..keys }),
        ("a required row has the first key too: all is undone", Chain { beside: Some(Bystander::Stone), ..keys }),
        ("nine links", Chain::plain(9, Way::Key)),
    ] {
        ask(lists, name, &chain, request(8, false));
        around(lists, "the same, displacing", &chain, request(8, true));
    }
    let again = Chain { end: End::Chain(4), ..Chain::plain(7, Way::Key) };
    around(lists, "the last row takes what the fourth wants: undone, and another way", &again, request(8, false));
}

/// A list is found, the final test refuses it, and no other alternative is sought.
fn failing(lists: &mut Lists) {
    let (keys, rule) = (Chain::plain(8, Way::Key), Chain::plain(8, Way::Below));
    let stuck = Some(Bystander::Stuck);
    for (name, displacement, chain) in [
        ("the first row of two moves twice", false, Chain { end: End::Chain(0), ..Chain::plain(1, Way::Key) }),
        ("the first row of eight moves twice", false, Chain { end: End::Chain(0), ..Chain::plain(7, Way::Key) }),
        ("the fourth row of eight moves twice", false, Chain { end: End::Chain(3), ..Chain::plain(7, Way::Above) }),
        ("the first row is emptied and moves", true, Chain { end: End::Chain(0), optional: Some((0, true)), ..Chain::plain(7, Way::Key) }),
        ("a row that may not be empty has the last key", true, Chain { end: End::Bystander(Bystander::Stuck), ..keys }),
        ("the fifth row of nine not required, but never empty", true, Chain { optional: Some((4, false)), ..keys }),
        ("a row that may not be empty above each", true, Chain { beside: stuck, ..rule }),
        ("the key that the first row leaves has two holders more", false, Chain { start: Start::Crowded, ..keys }),
        ("the place that the first row leaves has a refused pair", false, Chain { start: Start::Strained, ..keys }),
    ] {
        around(lists, name, &chain, request(chain.depth(), displacement));
    }
}

/// The search on a chain whose rows and values have numbers up to 127 and 63.
fn far_apart(lists: &mut Lists) {
    let chain = Chain { dead: Dead::Branches, ..Chain::plain(8, Way::Both) };
    let mut sketch = chain.sketch();
    let numbers = |own: usize, step: usize, all: usize| {
        let mut numbers: Vec<usize> = (0..own).map(|i| all - 1 - step * i).collect();
        let others: Vec<usize> = (0..all).filter(|number| !numbers.contains(number)).collect();
        numbers.extend(others);
        numbers
    };
    let (rows, values) = (numbers(sketch.rows.len(), 7, 128), numbers(sketch.values, 5, 64));
    sketch.pad(128, 64);
    let (tables, roster) = sketch.board(&rows, &values);
    let lent = pack(&tables, &roster, 0);
    let request = SearchRequest { row: rows[0], value: values[0], ..request(8, false) };
    for (name, budget) in [("rows up to 127 and values up to 63", EMPTY), ("the same, budget 513", 513), ("the same, budget 512", 512)] {
        lists.ask(name, &lent, Question::Search(SearchRequest { budget, ..request }, [128; 2]));
    }
}

pub fn chains(lists: &mut Lists) {
    lists.begin("chains");
    lengths(lists);
    dead_ends(lists);
    not_required(lists);
    failing(lists);
    far_apart(lists);
    lists.end();
}
