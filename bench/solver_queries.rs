//! Queries of a seeded generator, for `solver.rs`.

/// How many coefficients a row of the library has, and so how many variables a query has at most.
pub const VARIABLES: usize = 12;

/// What a literal says of its form.
#[derive(Clone, Copy, PartialEq)]
pub enum Kind {
    AtMostZero,
    Zero,
    Divided(i64),
    Undivided(i64),
}

/// A form over the variables of the query, and what is said of it.
#[derive(Clone)]
pub struct Lit {
    pub kind: Kind,
    pub constant: i64,
    pub terms: [i64; VARIABLES],
}

#[derive(Clone)]
pub enum Form {
    Lit(Lit),
    And(Vec<Form>),
    Or(Vec<Form>),
}

/// A formula, lemmas, and how many variables there are.
pub struct Query {
    pub vars: usize,
    pub form: Form,
    pub lemmas: Vec<Form>,
}

impl Lit {
    fn value(&self, point: &[i64]) -> i64 {
        let product = |(a, x): (&i64, &i64)| a.checked_mul(*x).expect("room");
        let products = self.terms.iter().zip(point).map(product);
        products.fold(self.constant, |sum, next| sum.checked_add(next).expect("room"))
    }

    pub fn holds(&self, point: &[i64]) -> bool {
        let value = self.value(point);
        match self.kind {
            Kind::AtMostZero => value <= 0,
            Kind::Zero => value == 0,
            Kind::Divided(n) => value % n == 0,
            Kind::Undivided(n) => value % n != 0,
        }
    }

    fn add(&mut self, other: &Lit, times: i64) {
        self.constant += times * other.constant;
        for (a, b) in self.terms.iter_mut().zip(&other.terms) {
            *a += times * b;
        }
    }

    fn has_variable(&self) -> bool {
        self.terms.iter().any(|a| *a != 0)
    }
}

impl Form {
    pub fn holds(&self, point: &[i64]) -> bool {
        match self {
            Form::Lit(lit) => lit.holds(point),
            Form::And(parts) => parts.iter().rev().all(|part| part.holds(point)),
            Form::Or(parts) => parts.iter().any(|part| part.holds(point)),
        }
    }
}

impl Query {
    pub fn holds(&self, point: &[i64]) -> bool {
        self.form.holds(point) && self.lemmas.iter().all(|lemma| lemma.holds(point))
    }

    fn of(vars: usize, lits: Vec<Lit>, lemmas: Vec<Form>) -> Query {
        let form = Form::And(lits.into_iter().map(Form::Lit).collect());
        Query { vars, form, lemmas }
    }
}

/// Numbers of a seeded generator.
pub struct Seeded(pub u64);

impl Seeded {
    pub fn below(&mut self, n: usize) -> usize {
        self.0 = self.0.wrapping_mul(6364136223846793005).wrapping_add(1442695040888963407);
        ((self.0 >> 33) % n as u64) as usize
    }

    fn between(&mut self, low: i64, high: i64) -> i64 {
        low + self.below((high - low + 1) as usize) as i64
    }

    /// Whether one of `n` turns comes.
    fn one_of(&mut self, n: usize) -> bool {
        self.below(n) == 0
    }

    fn point(&mut self, vars: usize, most: i64) -> Vec<i64> {
        (0..vars).map(|_| self.between(-most, most)).collect()
    }

    /// A coefficient, mostly 1 or -1.
    fn coefficient(&mut self, most: i64) -> i64 {
        let size = if self.below(5) < 3 { 1 } else { self.between(1, most) };
        if self.one_of(2) { size } else { -size }
    }

    /// A sum of `count` variables, which is as yet said to be at most 0.
    fn sum(&mut self, vars: usize, count: usize, most: i64) -> Lit {
        let mut lit = Lit { kind: Kind::AtMostZero, constant: 0, terms: [0; VARIABLES] };
        for _ in 0..count {
            lit.terms[self.below(vars)] = self.coefficient(most);
        }
        lit
    }

    /// What may be said of a form: half of the time that it is at most 0.
    fn kind(&mut self) -> Kind {
        match self.below(20) {
            0..=11 => Kind::AtMostZero,
            12..=16 => Kind::Zero,
            17 | 18 => Kind::Divided(self.between(2, 6)),
            _ => Kind::Undivided(self.between(2, 6)),
        }
    }

    /// The literal of that kind over the sum, with a constant by which it is true at the point.
    fn true_at(&mut self, point: &[i64], sum: Lit, kind: Kind) -> Lit {
        let value = sum.value(point);
        let off = match kind {
            Kind::AtMostZero => -self.between(0, 5),
            Kind::Zero => 0,
            Kind::Divided(n) => n * self.between(-2, 2),
            Kind::Undivided(n) => n * self.between(-2, 2) + self.between(1, n - 1),
        };
        Lit { kind, constant: off - value, ..sum }
    }

    /// A literal that is true at the point: a bound of a variable, or of a sum of up to three.
    fn literal_at(&mut self, point: &[i64]) -> Lit {
        let count = self.below(4).max(1);
        let sum = self.sum(point.len(), count, 5);
        let kind = if count == 1 { Kind::AtMostZero } else { self.kind() };
        self.true_at(point, sum, kind)
    }

    /// A literal of any kind and constant.
    fn literal(&mut self, vars: usize, most: i64) -> Lit {
        let count = self.below(3) + 1;
        let mut lit = self.sum(vars, count, 3);
        lit.kind = self.kind();
        lit.constant = self.between(-most, most);
        lit
    }

    /// A bound that contradicts multiples of bounds and equations, if they have variables together.
    fn against(&mut self, lits: &[Lit]) -> Vec<Lit> {
        let mut sum = self.sum(1, 0, 1);
        for _ in 0..self.below(3) + 2 {
            let lit = &lits[self.below(lits.len())];
            match lit.kind {
                Kind::AtMostZero => sum.add(lit, -self.between(1, 3)),
                Kind::Zero => sum.add(lit, self.between(-3, 3)),
                _ => {}
            }
        }
        sum.constant += 1 + self.between(0, 2);
        if sum.has_variable() { vec![sum] } else { Vec::new() }
    }

    /// What twice, three or four times a sum is, and what is between two such numbers.
    fn strip(&mut self, point: &[i64]) -> Vec<Lit> {
        let n = self.between(2, 4);
        let sum = self.sum(point.len(), 3, 3);
        let (mut low, mut high) = (sum.clone(), sum.clone());
        low.add(&sum, -n - 1);
        high.add(&sum, n - 1);
        let least = n * self.between(-9, 9);
        low.constant = least + 1;
        high.constant = -(least + n - 1);
        vec![low, high]
    }

    /// Two equations over multiples of a number, with other remainders.
    fn parity(&mut self, vars: usize) -> Vec<Lit> {
        let n = self.between(2, 5);
        let first = self.sum(vars, 2, 3);
        let made = [0, self.between(1, n - 1)].map(|rest| {
            let mut lit = first.clone();
            lit.add(&self.sum(vars, 2, 3), n);
            Lit { kind: Kind::Zero, constant: rest + n * self.between(-3, 3), ..lit }
        });
        made.to_vec()
    }

    /// A number divides two sums, but not a sum of their multiples.
    fn remainders(&mut self, vars: usize) -> Vec<Lit> {
        let n = self.between(2, 12);
        let made = [0, 1].map(|_| {
            let sum = self.sum(vars, 2, 3);
            Lit { kind: Kind::Divided(n), constant: self.between(-9, 9), ..sum }
        });
        let mut last = self.sum(vars, 0, 1);
        for lit in &made {
            last.add(lit, self.coefficient(3));
        }
        last.add(&self.sum(vars, 1, 3), n);
        let kind = if self.one_of(3) { Kind::Divided(n) } else { Kind::Undivided(n) };
        let off = if kind == Kind::Divided(n) { self.between(1, n - 1) } else { 0 };
        let last = Lit { kind, constant: last.constant + off, ..last };
        [made.to_vec(), vec![last]].concat()
    }

    /// A number divides none of as many numbers in a row as it says.
    fn in_a_row(&mut self, vars: usize) -> Vec<Lit> {
        let n = self.between(2, 5);
        let mut sum = self.sum(vars, 2, 3);
        let from = self.between(-9, 9);
        let made = (0..n).map(|i| {
            sum.constant = from + i;
            Lit { kind: Kind::Undivided(n), ..sum.clone() }
        });
        made.collect()
    }

    fn mixed(&mut self, lits: &mut Vec<Lit>) {
        for at in (1..lits.len()).rev() {
            lits.swap(at, self.below(at + 1));
        }
    }
}

/// Six to thirty literals over four to twelve variables: true at a point, or with two to three among them
/// that contradict others.
pub fn conjunction(seeded: &mut Seeded, refutable: bool) -> Query {
    let vars = seeded.below(9) + 4;
    let count = seeded.below(25) + 6;
    let point = seeded.point(vars, 20);
    let mut lits: Vec<Lit> = (0..count - 3).map(|_| seeded.literal_at(&point)).collect();
    let mut more = Vec::new();
    while refutable && more.is_empty() {
        more = match seeded.below(10) {
            0..=5 => seeded.against(&lits),
            6 => seeded.strip(&point),
            7 => seeded.parity(vars),
            _ => seeded.remainders(vars),
        };
    }
    lits.extend(more);
    while lits.len() < count {
        lits.push(seeded.literal_at(&point));
    }
    seeded.mixed(&mut lits);
    Query::of(vars, lits, Vec::new())
}

/// The variable is between two numbers.
fn bounds(variable: usize, low: i64, high: i64) -> [Lit; 2] {
    [(-1, low), (1, -high)].map(|(sign, constant)| {
        let mut terms = [0; VARIABLES];
        terms[variable] = sign;
        Lit { kind: Kind::AtMostZero, constant, terms }
    })
}

fn boxed(vars: usize, most: i64) -> Vec<Lit> {
    (0..vars).flat_map(|variable| bounds(variable, -most, most)).collect()
}

/// A part of a disjunction: a literal, or two.
fn part(seeded: &mut Seeded, vars: usize) -> Form {
    let first = Form::Lit(seeded.literal(vars, 12));
    if seeded.one_of(2) {
        return first;
    }
    Form::And(vec![first, Form::Lit(seeded.literal(vars, 12))])
}

/// Parts of which one may be true at the point.
fn disjunction(seeded: &mut Seeded, point: &[i64], is_true: bool) -> Form {
    let mut parts: Vec<Form> = (0..seeded.below(3) + 2).map(|_| part(seeded, point.len())).collect();
    if is_true {
        let at = seeded.below(parts.len());
        parts[at] = Form::And(vec![
            Form::Lit(seeded.literal_at(point)),
            Form::Lit(seeded.literal_at(point)),
        ]);
    }
    Form::Or(parts)
}

/// Bounds, three to eight literals and five to twenty disjunctions, half of the time with a point at which
/// all is true.
fn cases(seeded: &mut Seeded) -> Query {
    let vars = seeded.below(7) + 4;
    let is_true = seeded.one_of(2);
    let point = seeded.point(vars, 20);
    let mut lits = boxed(vars, 20);
    for _ in 0..seeded.below(6) + 3 {
        lits.push(seeded.literal_at(&point));
    }
    let count = seeded.below(16) + 5;
    let lemmas = (0..count).map(|_| disjunction(seeded, &point, is_true)).collect();
    Query::of(vars, lits, lemmas)
}

/// Tasks that one machine does one after the other, with just as much time as they take, or less.
fn tasks(seeded: &mut Seeded) -> Query {
    let vars = seeded.below(3) + 4;
    let long: Vec<i64> = (0..vars).map(|_| seeded.between(1, 9)).collect();
    let time = long.iter().sum::<i64>() - seeded.between(0, 1);
    let lits = (0..vars).flat_map(|task| bounds(task, 0, time - long[task])).collect();
    let mut lemmas = Vec::new();
    for a in 0..vars {
        for b in a + 1..vars {
            let parts = [(a, b), (b, a)].map(|(one, other)| {
                let mut terms = [0; VARIABLES];
                (terms[one], terms[other]) = (1, -1);
                Form::Lit(Lit { kind: Kind::AtMostZero, constant: long[one], terms })
            });
            lemmas.push(Form::Or(parts.to_vec()));
        }
    }
    Query::of(vars, lits, lemmas)
}

/// A formula with five to twenty open disjunctions, as lemmas or as parts of the formula.
pub fn disjunctions(seeded: &mut Seeded) -> Query {
    let query = if seeded.one_of(4) { tasks(seeded) } else { cases(seeded) };
    if seeded.one_of(2) {
        return query;
    }
    let form = Form::And([vec![query.form], query.lemmas].concat());
    Query { form, lemmas: Vec::new(), vars: query.vars }
}

/// Remainders of sums over two to five variables, some of them with bounds: true at a point, or with some
/// among them that contradict each other.
pub fn residues(seeded: &mut Seeded, refutable: bool) -> Query {
    let vars = seeded.below(4) + 2;
    let point = seeded.point(vars, 50);
    let mut lits = if seeded.one_of(2) { boxed(vars, 50) } else { Vec::new() };
    for _ in 0..seeded.below(5) + 2 {
        let count = seeded.below(3) + 1;
        let sum = seeded.sum(vars, count, 4);
        let n = seeded.between(2, 12);
        let kind = if seeded.one_of(3) { Kind::Undivided(n) } else { Kind::Divided(n) };
        lits.push(seeded.true_at(&point, sum, kind));
    }
    for _ in 0..seeded.below(3) {
        let sum = seeded.sum(vars, 2, 4);
        let kind = if seeded.one_of(2) { Kind::Zero } else { Kind::AtMostZero };
        lits.push(seeded.true_at(&point, sum, kind));
    }
    if refutable {
        let more = match seeded.below(4) {
            0 => seeded.in_a_row(vars),
            1 => seeded.parity(vars),
            _ => seeded.remainders(vars),
        };
        lits.extend(more);
    }
    seeded.mixed(&mut lits);
    Query::of(vars, lits, Vec::new())
}

/// Two to nine literals over up to six variables from -4 to 4.
pub fn small(seeded: &mut Seeded) -> Query {
    let vars = seeded.below(6) + 1;
    let mut lits = boxed(vars, 4);
    for _ in 0..seeded.below(8) + 2 {
        lits.push(seeded.literal(vars, 6));
    }
    Query::of(vars, lits, Vec::new())
}

/// A formula of so many levels of And and Or.
fn nested(seeded: &mut Seeded, vars: usize, levels: usize, is_and: bool) -> Form {
    if levels == 0 || seeded.one_of(5) {
        return Form::Lit(seeded.literal(vars, 6));
    }
    let count = seeded.below(3) + 2;
    let parts = (0..count).map(|_| nested(seeded, vars, levels - 1, !is_and)).collect();
    if is_and { Form::And(parts) } else { Form::Or(parts) }
}

/// A formula of three levels, and up to three more as lemmas, over up to six variables from -4 to 4.
pub fn small_formula(seeded: &mut Seeded) -> Query {
    let vars = seeded.below(6) + 1;
    let mut parts: Vec<Form> = boxed(vars, 4).into_iter().map(Form::Lit).collect();
    let is_and = seeded.one_of(2);
    parts.push(nested(seeded, vars, 3, is_and));
    let lemmas = (0..seeded.below(4)).map(|_| nested(seeded, vars, 3, false)).collect();
    Query { vars, form: Form::And(parts), lemmas }
}
