//! Measures `sign_of_dot` of the crate `lin_atoms` against a plain loop in `i128`, in one run.
use std::hint::black_box;
use std::time::Instant;

extern "C" {
    fn lin_atoms_sign_of_dot(a: *const i64, a_len: usize, b: *const i64, b_len: usize, c: i64) -> i8;
}

const TERMS: usize = 1000;
const CALLS: i64 = 20_000;
const ROUNDS: usize = 5;

/// The plain loop: it is exact only where no sum passes 128 bits.
#[inline(never)]
fn plain(a: &[i64], b: &[i64], c: i64) -> i8 {
    let mut total = i128::from(c);
    for (x, y) in a.iter().zip(b) {
        total = total.wrapping_add(i128::from(*x) * i128::from(*y));
    }
    total.signum() as i8
}

#[inline(never)]
fn proved(a: &[i64], b: &[i64], c: i64) -> i8 {
    // Both slices live through the call, and are as long as is said.
    unsafe { lin_atoms_sign_of_dot(a.as_ptr(), a.len(), b.as_ptr(), b.len(), c) }
}

/// Numbers of a seeded generator, shifted to the width that is wanted.
fn numbers(state: &mut u64, shift: u32) -> Vec<i64> {
    (0..TERMS)
        .map(|_| {
            *state = state.wrapping_mul(6364136223846793005).wrapping_add(1442695040888963407);
            ((*state ^ (*state >> 29)) as i64 >> shift).max(-i64::MAX)
        })
        .collect()
}

/// The least seconds of several rounds of calls.
fn seconds(f: fn(&[i64], &[i64], i64) -> i8, a: &[i64], b: &[i64]) -> f64 {
    (0..ROUNDS)
        .map(|_| {
            let begun = Instant::now();
            for c in 0..CALLS {
                black_box(f(black_box(a), black_box(b), c));
            }
            begun.elapsed().as_secs_f64()
        })
        .fold(f64::MAX, f64::min)
}

fn main() {
    for (name, shift) in [("numbers of 16 bits", 48), ("numbers of 64 bits", 0)] {
        let mut state = 42;
        let a = numbers(&mut state, shift);
        let b = numbers(&mut state, shift);
        if shift > 0 {
            assert_eq!(proved(&a, &b, 1), plain(&a, &b, 1));
        }
        let base = seconds(plain, &a, &b);
        let own = seconds(proved, &a, &b);
        let per_term = 1e9 / (TERMS as f64 * CALLS as f64);
        println!(
            "{name}: plain loop {:.2} ns a term, sign_of_dot {:.2} ns a term, ratio {:.2}",
            base * per_term,
            own * per_term,
            own / base
        );
    }
}
