//! Measures tables of the crate `cube_forms` against a vector of counted pointers that is cloned and
//! one whose items are copied, with a version after every tenth push, in one run.
use std::hint::black_box;
use std::sync::Arc;
use std::time::Instant;

extern "C" {
    fn cube_forms_pushes(pushes: u32, every: u32) -> u64;
}

const PUSHES: u32 = 100_000;
const EVERY: u32 = 10;
const ROUNDS: usize = 5;

/// An item with a list of four numbers.
#[derive(Clone)]
struct Row {
    values: Vec<u32>,
}

fn row(value: u32) -> Row {
    Row { values: vec![value; 4] }
}

/// Pushes items, and adds up what the versions' last items are. One version lives at a time.
fn pushed<T: Clone>(make: impl Fn(u32) -> T, read: impl Fn(&T) -> u32) -> u64 {
    let mut list = Vec::new();
    let mut version = list.clone();
    let mut total: u64 = 0;
    for at in 0..PUSHES {
        list.push(make(at));
        if at % EVERY == EVERY - 1 {
            version = black_box(list.clone());
            total = total.wrapping_add(u64::from(read(&version[at as usize])));
        }
    }
    drop(version);
    total
}

fn seconds(mut f: impl FnMut() -> u64, wanted: u64) -> f64 {
    let begun = Instant::now();
    assert_eq!(black_box(f()), wanted);
    begun.elapsed().as_secs_f64()
}

fn main() {
    // The last items are 9, 19 and so on.
    let wanted = (0..PUSHES / EVERY).map(|k| u64::from(k * EVERY + EVERY - 1)).sum();
    let own = (0..ROUNDS)
        .map(|_| seconds(|| unsafe { cube_forms_pushes(PUSHES, EVERY) }, wanted))
        .fold(f64::MAX, f64::min);
    let counted = seconds(|| pushed(|at| Arc::new(row(at)), |item| item.values[0]), wanted);
    let copied = seconds(|| pushed(row, |item| item.values[0]), wanted);
    println!("table {:.3} s, counted pointers {counted:.3} s, copied items {copied:.3} s", own);
    println!(
        "the table takes 1/{:.0} of the time of counted pointers and 1/{:.0} of that of copies",
        counted / own,
        copied / own
    );
}
