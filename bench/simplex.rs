//! Measures `feasible` of the crate `simplex_core` against a plain simplex over checked fractions of
//! `i128`, under the same rule from the same start, in one run. The answers have to be equal.
use std::hint::black_box;
use std::time::Instant;

extern "C" {
    fn simplex_core_feasible(
        variables: u32,
        coefficients: *const i64,
        coefficients_len: usize,
        lower: *const i64,
        lower_len: usize,
        upper: *const i64,
        upper_len: usize,
        answer: *mut i64,
        answer_len: usize,
    ) -> i32;
}

const ROUNDS: usize = 9;

/// No lower bound, and no upper bound.
const NONE_BELOW: i64 = i64::MIN;
const NONE_ABOVE: i64 = i64::MAX;

/// A vertex, multipliers of a conflict, or any other answer.
const VERTEX: i32 = 0;
const CONFLICT: i32 = 1;
const OTHER: i32 = 2;

/// Forms row by row, and bounds on the variables and then on the forms.
struct System {
    variables: usize,
    coefficients: Vec<i64>,
    lower: Vec<i64>,
    upper: Vec<i64>,
}

impl System {
    fn rows(&self) -> usize {
        self.coefficients.len() / self.variables
    }

    fn columns(&self) -> usize {
        self.variables + self.rows()
    }
}

/// A quotient in lowest terms with a positive denominator.
#[derive(Clone, Copy, PartialEq)]
struct Fraction {
    num: i128,
    den: i128,
}

fn gcd(a: u128, b: u128) -> u128 {
    let (mut a, mut b) = (a, b);
    while b > u128::from(u64::MAX) {
        (a, b) = (b, a % b);
    }
    if b == 0 {
        return a;
    }
    let (mut x, mut y) = (b as u64, (a % b) as u64);
    while y != 0 {
        (x, y) = (y, x % y);
    }
    u128::from(x)
}

impl Fraction {
    const ZERO: Fraction = Fraction { num: 0, den: 1 };

    fn whole(num: i128) -> Fraction {
        Fraction { num, den: 1 }
    }

    fn plus(self, other: Fraction) -> Option<Fraction> {
        if self.den == 1 && other.den == 1 {
            return Some(Fraction::whole(self.num.checked_add(other.num)?));
        }
        let common = gcd(self.den as u128, other.den as u128) as i128;
        let own = self.den / common;
        let num = self.num.checked_mul(other.den / common)?.checked_add(other.num.checked_mul(own)?)?;
        let divisor = gcd(num.unsigned_abs(), common as u128) as i128;
        Some(Fraction { num: num / divisor, den: own.checked_mul(other.den / divisor)? })
    }

    fn times(self, other: Fraction) -> Option<Fraction> {
        if self.den == 1 && other.den == 1 {
            return Some(Fraction::whole(self.num.checked_mul(other.num)?));
        }
        let left = gcd(self.num.unsigned_abs(), other.den as u128) as i128;
        let right = gcd(other.num.unsigned_abs(), self.den as u128) as i128;
        Some(Fraction {
            num: (self.num / left).checked_mul(other.num / right)?,
            den: (self.den / right).checked_mul(other.den / left)?,
        })
    }

    fn inverse(self) -> Fraction {
        Fraction { num: self.den * self.num.signum(), den: self.num.abs() }
    }

    fn negated(self) -> Fraction {
        Fraction { num: -self.num, den: self.den }
    }

    fn minus(self, other: Fraction) -> Option<Fraction> {
        self.plus(other.negated())
    }

    /// Whether the number is below an integer.
    fn is_below(self, bound: i128) -> Option<bool> {
        Some(self.num < bound.checked_mul(self.den)?)
    }

    fn is_above(self, bound: i128) -> Option<bool> {
        Some(self.num > bound.checked_mul(self.den)?)
    }
}

/// Each basic column as a sum of multiples of the columns outside the basis, and the value of each
/// column (Dutertre and de Moura, A Fast Linear-Arithmetic Solver for DPLL(T), section 3).
struct Plain {
    rows: Vec<Vec<Fraction>>,
    basic: Vec<usize>,
    outside: Vec<usize>,
    value: Vec<Fraction>,
    lower: Vec<Option<i128>>,
    upper: Vec<Option<i128>>,
}

enum Answer {
    Vertex,
    Crossed(usize),
    Conflict(usize, bool),
}

impl Plain {
    fn new(system: &System) -> Option<Plain> {
        let some = |bound: &i64, none: i64| if *bound == none { None } else { Some(i128::from(*bound)) };
        let lower: Vec<_> = system.lower.iter().map(|b| some(b, NONE_BELOW)).collect();
        let upper: Vec<_> = system.upper.iter().map(|b| some(b, NONE_ABOVE)).collect();
        let rows: Vec<Vec<Fraction>> = system
            .coefficients
            .chunks(system.variables)
            .map(|row| row.iter().map(|a| Fraction::whole(i128::from(*a))).collect())
            .collect();
        let mut value: Vec<Fraction> = (0..system.variables)
            .map(|c| Fraction::whole(lower[c].or(upper[c]).unwrap_or(0)))
            .collect();
        for row in &rows {
            let mut sum = Fraction::ZERO;
            for (a, x) in row.iter().zip(&value[..system.variables]) {
                sum = sum.plus(a.times(*x)?)?;
            }
            value.push(sum);
        }
        Some(Plain {
            basic: (system.variables..system.columns()).collect(),
            outside: (0..system.variables).collect(),
            rows,
            value,
            lower,
            upper,
        })
    }

    fn is_low(&self, column: usize) -> Option<bool> {
        self.lower[column].map_or(Some(false), |l| self.value[column].is_below(l))
    }

    fn is_high(&self, column: usize) -> Option<bool> {
        self.upper[column].map_or(Some(false), |u| self.value[column].is_above(u))
    }

    /// The row of the least basic column that is outside its bounds.
    fn leaving(&self) -> Option<Option<usize>> {
        let mut least: Option<usize> = None;
        for (row, column) in self.basic.iter().enumerate() {
            let before = least.is_some_and(|other| self.basic[other] < *column);
            if !before && (self.is_low(*column)? || self.is_high(*column)?) {
                least = Some(row);
            }
        }
        Some(least)
    }

    fn can_rise(&self, column: usize) -> Option<bool> {
        self.upper[column].map_or(Some(true), |u| self.value[column].is_below(u))
    }

    fn can_sink(&self, column: usize) -> Option<bool> {
        self.lower[column].map_or(Some(true), |l| self.value[column].is_above(l))
    }

    /// The place of the least column that can move so that the basic one of the row rises, or sinks.
    fn entering(&self, row: usize, rises: bool) -> Option<Option<usize>> {
        let mut least: Option<usize> = None;
        for (place, column) in self.outside.iter().enumerate() {
            let sign = self.rows[row][place].num.signum() * if rises { 1 } else { -1 };
            let before = least.is_some_and(|other| self.outside[other] < *column);
            if before || sign == 0 {
                continue;
            }
            if if sign > 0 { self.can_rise(*column)? } else { self.can_sink(*column)? } {
                least = Some(place);
            }
        }
        Some(least)
    }

    /// Moves the column at the place so far that the basic one of the row is at the bound.
    fn update(&mut self, row: usize, place: usize, bound: i128) -> Option<()> {
        let leaver = self.basic[row];
        let change = Fraction::whole(bound).minus(self.value[leaver])?;
        let step = change.times(self.rows[row][place].inverse())?;
        self.value[leaver] = Fraction::whole(bound);
        let enterer = self.outside[place];
        self.value[enterer] = self.value[enterer].plus(step)?;
        for (other, entries) in self.rows.iter().enumerate() {
            let a = entries[place];
            if other != row && a.num != 0 {
                let column = self.basic[other];
                self.value[column] = self.value[column].plus(a.times(step)?)?;
            }
        }
        Some(())
    }

    fn pivot(&mut self, row: usize, place: usize) -> Option<()> {
        let inverse = self.rows[row][place].inverse();
        let mut solved = std::mem::take(&mut self.rows[row]);
        for a in &mut solved {
            if a.num != 0 {
                *a = a.times(inverse)?.negated();
            }
        }
        solved[place] = inverse;
        for entries in &mut self.rows {
            if entries.is_empty() || entries[place].num == 0 {
                continue;
            }
            let factor = entries[place];
            entries[place] = Fraction::ZERO;
            for (a, b) in entries.iter_mut().zip(&solved) {
                if b.num != 0 {
                    *a = a.plus(factor.times(*b)?)?;
                }
            }
        }
        self.rows[row] = solved;
        std::mem::swap(&mut self.basic[row], &mut self.outside[place]);
        Some(())
    }

    /// The answer and the number of pivots, where no number passes 128 bits.
    fn run(&mut self) -> Option<(Answer, usize)> {
        let crossed = |c: &usize| matches!((self.lower[*c], self.upper[*c]), (Some(l), Some(u)) if u < l);
        if let Some(column) = (0..self.value.len()).find(crossed) {
            return Some((Answer::Crossed(column), 0));
        }
        for pivots in 0.. {
            let Some(row) = self.leaving()? else {
                return Some((Answer::Vertex, pivots));
            };
            let leaver = self.basic[row];
            let rises = self.is_low(leaver)?;
            let Some(place) = self.entering(row, rises)? else {
                return Some((Answer::Conflict(row, rises), pivots));
            };
            let bound = if rises { self.lower[leaver]? } else { self.upper[leaver]? };
            self.update(row, place, bound)?;
            self.pivot(row, place)?;
        }
        None
    }

    /// The row as integers that only 1 divides, its own column's positive: 0 = own - others.
    fn primitive(&self, row: usize) -> Option<Vec<i128>> {
        let mut entries = vec![Fraction::ZERO; self.value.len()];
        entries[self.basic[row]] = Fraction::whole(1);
        for (place, a) in self.rows[row].iter().enumerate() {
            entries[self.outside[place]] = a.negated();
        }
        let mut multiple: i128 = 1;
        for a in &entries {
            multiple = (multiple / gcd(multiple as u128, a.den as u128) as i128).checked_mul(a.den)?;
        }
        let whole: Vec<i128> = entries
            .iter()
            .map(|a| a.num.checked_mul(multiple / a.den))
            .collect::<Option<_>>()?;
        let divisor = whole.iter().fold(0, |d, a| gcd(d, a.unsigned_abs())) as i128;
        Some(whole.iter().map(|a| a / divisor).collect())
    }
}

/// The low bits of a number, which tell answers apart.
fn low(n: i128) -> i64 {
    (n % (1 << 62)) as i64
}

/// The kind of answer, two numbers a column, and the number of pivots: numerators and denominators
/// of a vertex, or multipliers of lower and upper bounds.
fn plain(system: &System) -> Option<(i32, Vec<i64>, usize)> {
    let mut table = Plain::new(system)?;
    let (answer, pivots) = table.run()?;
    let (kind, numbers) = match answer {
        Answer::Vertex => (VERTEX, table.value.iter().flat_map(|x| [low(x.num), low(x.den)]).collect()),
        Answer::Crossed(column) => {
            let mut numbers = vec![0; 2 * system.columns()];
            numbers[2 * column..2 * column + 2].fill(1);
            (CONFLICT, numbers)
        }
        Answer::Conflict(row, rises) => {
            let sign = if rises { 1 } else { -1 };
            let entries = table.primitive(row)?;
            let parts = entries.iter().flat_map(|a| [low((sign * a).max(0)), low((-sign * a).max(0))]);
            (CONFLICT, parts.collect())
        }
    };
    Some((kind, numbers, pivots))
}

fn proved(system: &System) -> (i32, Vec<i64>) {
    let mut numbers = vec![0; 2 * system.columns()];
    // All slices live through the call, and are as long as is said.
    let kind = unsafe {
        simplex_core_feasible(
            system.variables as u32,
            system.coefficients.as_ptr(),
            system.coefficients.len(),
            system.lower.as_ptr(),
            system.lower.len(),
            system.upper.as_ptr(),
            system.upper.len(),
            numbers.as_mut_ptr(),
            numbers.len(),
        )
    };
    (kind, numbers)
}

/// Numbers of a seeded generator.
struct Seeded(u64);

impl Seeded {
    fn below(&mut self, n: u64) -> i64 {
        self.0 = self.0.wrapping_mul(6364136223846793005).wrapping_add(1442695040888963407);
        ((self.0 >> 33) % n) as i64
    }

    fn between(&mut self, low: i64, high: i64) -> i64 {
        low + self.below((high - low + 1) as u64)
    }
}

/// Forms with no coefficient 0, each in a range about its value at a hidden point.
fn dense(seeded: &mut Seeded, variables: usize, rows: usize) -> System {
    let point: Vec<i64> = (0..variables).map(|_| seeded.between(-20, 20)).collect();
    let coefficients: Vec<i64> = (0..variables * rows)
        .map(|_| seeded.between(1, 5) * if seeded.below(2) == 0 { 1 } else { -1 })
        .collect();
    let mut lower = vec![-30; variables];
    let mut upper = vec![30; variables];
    for row in coefficients.chunks(variables) {
        let value: i64 = row.iter().zip(&point).map(|(a, x)| a * x).sum();
        let off = if seeded.below(8 * rows as u64) == 0 { 400 } else { 0 };
        lower.push(value + off - seeded.below(4));
        upper.push(value + off + seeded.below(4));
    }
    System { variables, coefficients, lower, upper }
}

/// Forms of six variables at most, in a range about their values at a hidden point.
fn sparse(seeded: &mut Seeded, variables: usize, rows: usize) -> System {
    let point: Vec<i64> = (0..variables).map(|_| seeded.between(-20, 20)).collect();
    let mut coefficients = vec![0; variables * rows];
    let mut lower = vec![-30; variables];
    let mut upper = vec![30; variables];
    for row in coefficients.chunks_mut(variables) {
        for _ in 0..6 {
            row[seeded.below(variables as u64) as usize] = seeded.between(1, 3) * (1 - 2 * seeded.below(2));
        }
        let value: i64 = row.iter().zip(&point).map(|(a, x)| a * x).sum();
        let off = if seeded.below(8 * rows as u64) == 0 { 400 } else { 0 };
        lower.push(value + off - seeded.below(4));
        upper.push(value + off + seeded.below(4));
    }
    System { variables, coefficients, lower, upper }
}

/// Differences of two variables with a lower bound: a variable for each two rows.
fn differences(seeded: &mut Seeded, rows: usize) -> System {
    let variables = rows / 2;
    let point: Vec<i64> = (0..variables).map(|_| seeded.between(-1000, 1000)).collect();
    let mut coefficients = vec![0; variables * rows];
    let mut lower = vec![NONE_BELOW; variables];
    let mut upper = vec![NONE_ABOVE; variables];
    lower[0] = 0;
    upper[0] = 0;
    for row in 0..rows {
        let first = seeded.below(variables as u64) as usize;
        let second = (first + 1 + seeded.below(variables as u64 - 1) as usize) % variables;
        coefficients[row * variables + first] = 1;
        coefficients[row * variables + second] = -1;
        let off = if seeded.below(4 * rows as u64) == 0 { 2000 } else { 0 };
        lower.push(point[first] - point[second] + off - seeded.below(50));
        upper.push(NONE_ABOVE);
    }
    System { variables, coefficients, lower, upper }
}

/// A flow in a network: at each node what comes in, less what goes out, is what is wanted there, and
/// two arcs a node have room for so much.
fn flow(seeded: &mut Seeded, nodes: usize) -> System {
    let variables = 2 * nodes;
    let mut coefficients = vec![0; variables * nodes];
    let mut wanted = vec![0; nodes];
    let mut upper = Vec::new();
    for arc in 0..variables {
        let from = arc / 2;
        let to = (from + 1 + seeded.below(nodes as u64 - 1) as usize) % nodes;
        coefficients[from * variables + arc] = -1;
        coefficients[to * variables + arc] = 1;
        let room = seeded.between(5, 50);
        let carried = seeded.between(0, room);
        wanted[from] -= carried;
        wanted[to] += carried;
        upper.push(room);
    }
    if seeded.below(4) == 0 {
        wanted[0] += 1;
    }
    let mut lower = vec![0; variables];
    lower.extend(&wanted);
    upper.extend(&wanted);
    System { variables, coefficients, lower, upper }
}

/// The seconds of one round over all systems.
fn seconds(solve: impl Fn(&System), systems: &[System]) -> f64 {
    let begun = Instant::now();
    for system in systems {
        solve(black_box(system));
    }
    begun.elapsed().as_secs_f64()
}

fn measure(name: &str, systems: Vec<System>) {
    let mut kinds = [0; 2];
    let mut pivots = 0;
    let (mut kept, mut passed) = (Vec::new(), 0);
    for system in systems {
        let Some((kind, numbers, count)) = plain(&system) else {
            passed += 1;
            continue;
        };
        let own = proved(&system);
        if own.0 >= OTHER {
            passed += 1;
            continue;
        }
        assert!(own == (kind, numbers), "{}: other answers", name);
        kinds[kind as usize] += 1;
        pivots += count;
        kept.push(system);
    }
    // In turns, so that a host that is slower for a while slows both.
    let (mut base, mut own) = (f64::MAX, f64::MAX);
    for _ in 0..ROUNDS {
        base = base.min(seconds(|s| drop(black_box(plain(s))), &kept));
        own = own.min(seconds(|s| drop(black_box(proved(s))), &kept));
    }
    println!(
        "{name}: {} vertices, {} conflicts, {passed} without room, {pivots} pivots; plain {:.2} us a pivot, feasible {:.2} us a pivot, ratio {:.2}",
        kinds[0],
        kinds[1],
        base * 1e6 / pivots as f64,
        own * 1e6 / pivots as f64,
        own / base
    );
}

fn main() {
    let mut seeded = Seeded(42);
    for (variables, rows) in [(8, 10), (10, 15), (12, 20)] {
        let systems = (0..200).map(|_| dense(&mut seeded, variables, rows)).collect();
        measure(&format!("{rows} dense rows, {variables} variables"), systems);
    }
    for rows in [50, 100] {
        let systems = (0..20).map(|_| differences(&mut seeded, rows)).collect();
        measure(&format!("{rows} differences"), systems);
    }
    for nodes in [50, 100] {
        let systems = (0..20).map(|_| flow(&mut seeded, nodes)).collect();
        measure(&format!("flows of {nodes} nodes"), systems);
    }
    for variables in [30, 60] {
        let systems = (0..10).map(|_| sparse(&mut seeded, variables, 30)).collect();
        measure(&format!("30 rows, {variables} variables"), systems);
    }
}
