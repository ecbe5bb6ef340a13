//! A hundred thousand facts of ten predicates in plain hashed maps, one for each predicate, and with the word
//! `found` each of them looked up ten times, in the order of the tests `finds` of the crate `test_book`.
use std::collections::HashMap;
use std::env::args;
use std::hint::black_box;

const FACTS: u32 = 100_000;
const PREDS: u32 = 10;
const ROUNDS: u32 = 10;

/// The value of a fact by its number.
fn value_of(number: u32) -> i64 {
    i64::from(number) * 48_271 % 2_147_483_647
}

fn filled() -> Vec<HashMap<Vec<i64>, u32>> {
    let mut maps = vec![HashMap::new(); PREDS as usize];
    for number in 0..FACTS {
        maps[(number % PREDS) as usize].insert(vec![value_of(number)], number);
    }
    maps
}

fn are_found(maps: &[HashMap<Vec<i64>, u32>]) -> bool {
    (0..FACTS).all(|number| {
        let tuple = black_box([value_of(number)]);
        maps[(number % PREDS) as usize].get(&tuple[..]) == Some(&number)
    })
}

fn main() {
    let maps = filled();
    assert_eq!(maps.iter().map(HashMap::len).sum::<usize>(), FACTS as usize);
    if args().nth(1).as_deref() == Some("found") {
        for _ in 0..ROUNDS {
            assert!(are_found(&maps));
        }
    }
}
