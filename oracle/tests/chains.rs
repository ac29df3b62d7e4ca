//! The boards that are built for long searches do what they are built for, by the original Rust.
use oracle::differ::chains::{Chain, Dead, End, Start, Way};
use oracle::differ::lent::EMPTY;
use oracle::differ::sketch::Bystander;
use oracle::sample::sampler::Sampler;
use oracle::*;

const WAYS: [Way; 4] = [Way::Key, Way::Above, Way::Below, Way::Both];

struct Found {
    /// What the search answers.
    answer: Option<Vec<Edit>>,
    /// The list before the final test.
    list: Option<Vec<Edit>>,
    asks: usize,
}

fn searched(chain: &Chain, depth: usize, displacement: bool, budget: usize) -> Found {
    let (tables, roster) = chain.board();
    let mut original = Original::new(&tables, &roster);
    let request = SearchRequest { row: 0, value: 0, depth, displacement, candidate_limit: None, budget };
    let (answer, asks) = original.search(&request);
    Found { answer, list: original.found_list(&request), asks }
}

/// Every row of the chain, the last one first, gets the value of the one behind it.
fn all_moved(links: usize) -> Vec<Edit> {
    (0..=links).rev().map(|row| (row, Some(row))).collect()
}

#[test]
fn each_link_is_a_depth() {
    for links in 0..=8 {
        for way in WAYS {
            for high in [false, true] {
                let chain = Chain { high, ..Chain::plain(links, way) };
                let found = searched(&chain, links, false, EMPTY);
                assert_eq!((found.answer, found.asks), (Some(all_moved(links)), 2 * links + 3), "{chain:?}");
                assert_eq!(searched(&chain, links, true, found.asks).answer, Some(all_moved(links)), "{chain:?}");
                assert_eq!(searched(&chain, links, false, found.asks - 1).answer, None, "{chain:?}");
                assert!(links == 0 || searched(&chain, links - 1, false, EMPTY).answer.is_none(), "{chain:?}");
            }
        }
    }
    assert_eq!(searched(&Chain::plain(9, Way::Key), 8, true, EMPTY).answer, None);
}

#[test]
fn dead_ends_cost_asks_and_nothing_else() {
    for way in WAYS {
        for (dead, asks) in
            [(Dead::Held, 35), (Dead::Illegal, 35), (Dead::Taken, 35), (Dead::Deep, 49), (Dead::Behind, 19), (Dead::Branches, 513)]
        {
            let chain = Chain { dead, ..Chain::plain(8, way) };
            let found = searched(&chain, 8, false, EMPTY);
            assert_eq!((found.answer, found.asks), (Some(all_moved(8)), asks), "{chain:?}");
        }
    }
}

/// The search finds this list, the final test refuses it, and the answer is no move, with all asks.
fn refused(chain: Chain, depth: usize, displacement: bool, list: Vec<Edit>) {
    let found = searched(&chain, depth, displacement, EMPTY);
    assert_eq!((found.answer, found.list), (None, Some(list)), "{chain:?}");
    assert_eq!(searched(&chain, depth, displacement, found.asks).asks, found.asks, "{chain:?}");
}

/// What the last row wants is held by a row that is being tried: it goes elsewhere, and then where it wanted to go.
#[test]
fn a_row_that_is_tried_moves_twice() {
    for (links, again) in [(1, 0), (2, 0), (2, 1), (7, 0), (7, 1), (7, 4), (7, 6)] {
        for way in WAYS {
            let chain = Chain { end: End::Chain(again), ..Chain::plain(links, way) };
            let mut list = vec![(again, Some(links + 3)), (links, Some(links + 2))];
            list.extend(all_moved(links - 1));
            if again == 0 || matches!(way, Way::Above | Way::Below) {
                refused(chain, links + 1, false, list);
            } else {
                // the last row then has the key that the row before that one wants: all is undone, and the free candidate is tried
                let mut list = vec![(again, Some(links + 3))];
                list.extend(all_moved(again - 1));
                assert_eq!(searched(&chain, links + 1, false, EMPTY).answer, Some(list), "{chain:?}");
            }
        }
    }
}

/// The first row is not required and in the way of the last one: it is emptied, and then gets its value.
#[test]
fn the_first_row_is_emptied() {
    for links in 1..=8 {
        let chain = Chain { end: End::Chain(0), optional: Some((0, true)), ..Chain::plain(links, Way::Key) };
        let mut list = vec![(0, None), (links, Some(links + 2))];
        list.extend(all_moved(links - 1));
        refused(chain, links, true, list);
    }
}

/// Emptied by displacement, and refused where the row may not be empty.
#[test]
fn a_row_that_may_not_be_empty_is_emptied() {
    for way in WAYS {
        let plain = Chain::plain(8, way);
        let end = |who| Chain { end: End::Bystander(who), ..plain };
        let mut list = vec![(9, None)];
        list.extend(all_moved(8));
        refused(end(Bystander::Stuck), 8, true, list.clone());
        assert_eq!(searched(&end(Bystander::Optional), 8, true, EMPTY).answer, Some(list));
        for who in [Bystander::Stone, Bystander::Optional, Bystander::Stuck] {
            assert_eq!(searched(&end(who), 8, false, EMPTY).list, None);
        }
        for row in 1..=8 {
            let optional = |may_empty| Chain { optional: Some((row, may_empty)), ..plain };
            let mut list = vec![(row, None)];
            list.extend(all_moved(row - 1));
            refused(optional(false), 8, true, list.clone());
            assert_eq!(searched(&optional(true), 8, true, EMPTY).answer, Some(list));
            assert_eq!(searched(&optional(true), 8, false, EMPTY).list, None);
        }
    }
}

/// At each link another row is in the way: all of them are emptied on the way down.
#[test]
fn rows_beside_the_chain() {
    for way in WAYS {
        let beside = |who| Chain { beside: Some(who), ..Chain::plain(8, way) };
        let mut list: Vec<Edit> = (9..17).map(|row| (row, None)).collect();
        list.extend(all_moved(8));
        assert_eq!(searched(&beside(Bystander::Optional), 8, true, EMPTY).answer, Some(list.clone()));
        refused(beside(Bystander::Stuck), 8, true, list);
        // a required row that has the key is in the way still when all others have moved: that is undone
        let stays = searched(&beside(Bystander::Stone), 8, false, EMPTY);
        assert_eq!((stays.list.is_none(), stays.asks), (way == Way::Key, 19));
    }
}

/// The roster was not sound where the first row stood, and is not when it has left.
#[test]
fn the_first_row_leaves_what_is_not_sound() {
    for links in [0, 1, 4, 8] {
        for way in WAYS {
            for start in [Start::Crowded, Start::Strained] {
                refused(Chain { start, ..Chain::plain(links, way) }, links, false, all_moved(links));
            }
            let alone = Chain { start: Start::Alone, ..Chain::plain(links, way) };
            assert_eq!(searched(&alone, links, false, EMPTY).answer, Some(all_moved(links)));
        }
    }
}

/// The list that is in the repository: moves of every length, and lists that the final test refuses.
#[test]
fn the_sample_has_long_searches() {
    let mut sampler = Sampler::new(2026);
    sampler.sample(5000);
    for edits in 1..=9 {
        assert!(sampler.counts.moves(edits) >= 10, "{} moves of {edits} edits", sampler.counts.moves(edits));
    }
    assert!(sampler.counts.failing_lists() >= 50);
}
