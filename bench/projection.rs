//! Measures `project` of the crate `model_project` against a plain loop of the same rules on machine
//! integers, in one run. The cubes have to be equal.
use std::hint::black_box;
use std::time::Instant;

extern "C" {
    fn model_project_rounds(
        rows: *const i64,
        rows_len: usize,
        model: *const i64,
        model_len: usize,
        keep: *const u32,
        keep_len: usize,
        rounds: u32,
        answer: *mut i64,
        answer_len: usize,
    ) -> i64;
}

const ROUNDS: usize = 5;
const CALLS: u32 = 20;

/// That a form is at most 0, and that it is 0. Another number divides the form.
const LE: i64 = 0;
const EQ: i64 = -1;

/// How many numbers a literal has for the call: what is claimed, the constant, and three variables
/// with their coefficients.
const ROW: usize = 8;

/// A literal, with rising variables.
#[derive(Clone, PartialEq, Debug)]
struct Lit {
    kind: i64,
    terms: Vec<(u32, i64)>,
    constant: i64,
}

impl Lit {
    fn coefficient(&self, v: u32) -> i64 {
        for &(variable, a) in &self.terms {
            if variable >= v {
                return if variable == v { a } else { 0 };
            }
        }
        0
    }

    fn value(&self, model: &[i64]) -> i64 {
        let terms = self.terms.iter().map(|&(v, a)| a.wrapping_mul(model[v as usize]));
        terms.fold(self.constant, i64::wrapping_add)
    }

    fn divisor(&self) -> i64 {
        if self.kind > 0 { self.kind } else { 1 }
    }
}

fn gcd(a: i64, b: i64) -> i64 {
    let (mut a, mut b) = (a, b);
    while b != 0 {
        (a, b) = (b, a % b);
    }
    a
}

/// `k` times the one form and `m` times the other.
fn combined(k: i64, ours: &[(u32, i64)], m: i64, theirs: &[(u32, i64)]) -> Vec<(u32, i64)> {
    let mut made = Vec::with_capacity(ours.len() + theirs.len());
    let (mut i, mut j) = (0, 0);
    while i < ours.len() || j < theirs.len() {
        let left = ours.get(i).map_or(u32::MAX, |t| t.0);
        let right = theirs.get(j).map_or(u32::MAX, |t| t.0);
        let mut a: i64 = 0;
        if left <= right {
            a = a.wrapping_add(k.wrapping_mul(ours[i].1));
            i += 1;
        }
        if right <= left {
            a = a.wrapping_add(m.wrapping_mul(theirs[j].1));
            j += 1;
        }
        if a != 0 {
            made.push((left.min(right), a));
        }
    }
    made
}

/// Removes the variable by an equation: in each literal, and the equation itself where it stands.
fn substitute(lits: &mut Vec<Lit>, v: u32, equation: &Lit, mut came: bool) {
    let sign = equation.coefficient(v).signum();
    let a = equation.coefficient(v).wrapping_mul(sign);
    let terms: Vec<_> = equation.terms.iter().map(|&(u, b)| (u, b.wrapping_mul(sign))).collect();
    let constant = equation.constant.wrapping_mul(sign);
    let left_over = Lit {
        kind: a,
        terms: if a == 1 { vec![] } else { terms.iter().copied().filter(|t| t.0 != v).collect() },
        constant,
    };
    let first = came;
    for lit in lits.iter_mut() {
        let b = lit.coefficient(v);
        if b == 0 {
            continue;
        }
        if !came && lit.kind == EQ {
            came = true;
            *lit = left_over.clone();
            continue;
        }
        if lit.kind > 0 {
            lit.kind = lit.kind.wrapping_mul(a);
        }
        lit.terms = combined(a, &lit.terms, b.wrapping_neg(), &terms);
        lit.constant = a.wrapping_mul(lit.constant).wrapping_sub(b.wrapping_mul(constant));
    }
    lits.retain(|lit| !lit.terms.is_empty());
    if first && !left_over.terms.is_empty() {
        lits.insert(0, left_over);
    }
}

/// The bound on one side whose gap, divided by its coefficient, is least.
fn nearest(lits: &[Lit], model: &[i64], v: u32, side: i64) -> Option<(usize, i64, i64)> {
    let mut best: Option<(usize, i64, i64)> = None;
    for (at, lit) in lits.iter().enumerate() {
        let a = lit.coefficient(v).wrapping_mul(side);
        if lit.kind != LE || a <= 0 {
            continue;
        }
        let gap = lit.value(model).wrapping_neg();
        if best.is_none_or(|(_, b, least)| gap.wrapping_mul(b) < least.wrapping_mul(a)) {
            best = Some((at, a, gap));
        }
    }
    best
}

/// The least common multiple of the divisors beside the variable.
fn period(lits: &[Lit], v: u32) -> i64 {
    let mut period = 1;
    for lit in lits {
        if lit.kind > 0 && lit.coefficient(v) != 0 {
            period = period / gcd(period, lit.divisor()) * lit.divisor();
        }
    }
    period
}

/// Removes a variable by the first rule that fits.
fn remove(lits: &mut Vec<Lit>, model: &[i64], v: u32) {
    if lits.iter().all(|lit| lit.coefficient(v) == 0) {
        return;
    }
    if let Some(equation) = lits.iter().find(|lit| lit.kind == EQ && lit.coefficient(v) != 0) {
        let equation = equation.clone();
        return substitute(lits, v, &equation, false);
    }
    let period = period(lits, v);
    let bound = nearest(lits, model, v, -1).or_else(|| nearest(lits, model, v, 1));
    let equation = match bound {
        Some((at, a, gap)) => Lit {
            kind: EQ,
            terms: lits[at].terms.clone(),
            constant: lits[at].constant.wrapping_add(gap % (a * period)),
        },
        None => Lit {
            kind: EQ,
            terms: vec![(v, 1)],
            constant: -model[v as usize].rem_euclid(period),
        },
    };
    substitute(lits, v, &equation, true);
}

/// The plain loop. No number of these conjunctions comes near 2^63.
#[inline(never)]
fn plain(lits: &[Lit], model: &[i64], keep: &[u32]) -> Vec<Lit> {
    let mut made: Vec<Lit> = lits.iter().filter(|lit| !lit.terms.is_empty()).cloned().collect();
    for v in (0..model.len() as u32).rev() {
        if !keep.contains(&v) {
            remove(&mut made, model, v);
        }
    }
    made
}

fn row(lit: &Lit) -> [i64; ROW] {
    let mut row = [0; ROW];
    row[0] = lit.kind;
    row[1] = lit.constant;
    for (at, &(v, a)) in lit.terms.iter().enumerate() {
        row[2 * at + 2] = i64::from(v);
        row[2 * at + 3] = a;
    }
    row
}

#[inline(never)]
fn proved(rows: &[i64], model: &[i64], keep: &[u32], rounds: u32, answer: &mut [i64]) -> i64 {
    // The slices live through the call, and are as long as is said.
    unsafe {
        model_project_rounds(
            rows.as_ptr(),
            rows.len(),
            model.as_ptr(),
            model.len(),
            keep.as_ptr(),
            keep.len(),
            rounds,
            answer.as_mut_ptr(),
            answer.len(),
        )
    }
}

fn below(state: &mut u64, n: i64) -> i64 {
    *state = state.wrapping_mul(6364136223846793005).wrapping_add(1442695040888963407);
    ((*state >> 33) % n as u64) as i64
}

/// Differences of variables that are bounded, equal to a number, or divisible by 2 or 3, all of them
/// true at the model.
fn conjunction(state: &mut u64, model: &[i64], equations: i64, divisors: i64, bounds: i64) -> Vec<Lit> {
    let mut made = Vec::new();
    while made.len() < 1000 {
        let (x, y) = (below(state, 200) as u32, below(state, 200) as u32);
        if x >= y {
            continue;
        }
        let sign = 1 - 2 * below(state, 2);
        let terms = vec![(x, sign), (y, -sign)];
        let value = sign * (model[x as usize] - model[y as usize]);
        let drawn = below(state, equations + divisors + bounds);
        let (kind, constant) = if drawn < equations {
            (EQ, -value)
        } else if drawn < equations + divisors {
            let n = 2 + below(state, 2);
            (n, -value + n * below(state, 9))
        } else {
            (LE, -value - below(state, 50))
        };
        made.push(Lit { kind, terms, constant });
    }
    made
}

fn least(mut f: impl FnMut()) -> f64 {
    (0..ROUNDS)
        .map(|_| {
            let begun = Instant::now();
            f();
            begun.elapsed().as_secs_f64()
        })
        .fold(f64::MAX, f64::min)
}

fn main() {
    for (name, equations, divisors) in [("bounds", 0, 0), ("bounds, equations and divisors", 5, 5)] {
        let mut state = 42;
        let model: Vec<i64> = (0..200).map(|_| below(&mut state, 1000)).collect();
        let lits = conjunction(&mut state, &model, equations, divisors, 90);
        let keep: Vec<u32> = (0..10).map(|k| 20 * k + 7).collect();
        let rows: Vec<i64> = lits.iter().flat_map(row).collect();
        let cube = plain(&lits, &model, &keep);
        let mut answer = vec![0; ROW * 2000];
        let count = proved(&rows, &model, &keep, 1, &mut answer);
        let wanted: Vec<i64> = cube.iter().flat_map(row).collect();
        assert_eq!(count, cube.len() as i64, "the cube's literals");
        assert_eq!(answer[..wanted.len()], wanted, "the cubes");
        let base = least(|| {
            for _ in 0..CALLS {
                black_box(plain(black_box(&lits), &model, &keep));
            }
        });
        // The call makes the literals once and then projects them so many times.
        let once = least(|| {
            black_box(proved(black_box(&rows), &model, &keep, 1, &mut answer));
        });
        let all = least(|| {
            black_box(proved(black_box(&rows), &model, &keep, CALLS + 1, &mut answer));
        });
        let per_call = 1e6 / f64::from(CALLS);
        println!(
            "{name}: {} literals in the cube; plain loop {:.0} us, project {:.0} us, ratio {:.2}",
            cube.len(),
            base * per_call,
            (all - once) * per_call,
            (all - once) / base
        );
    }
}
