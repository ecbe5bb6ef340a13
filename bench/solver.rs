//! Measures `decide` of the crate `lia_cases` against z3, in one run over the same queries of a seeded
//! generator, which z3 gets as one incremental script, and compares all answers. Then it compares small
//! boxed queries with a search of all points.
use std::fs::write;
use std::process::{Command, exit};

#[path = "solver_queries.rs"]
mod queries;

use queries::{Form, Kind, Lit, Query, Seeded, VARIABLES};

extern "C" {
    fn lia_cases_decide(
        rows: *const i64,
        rows_len: usize,
        vars: u32,
        nodes: u32,
        point: *mut i64,
        point_len: usize,
    ) -> i32;

    fn clock_gettime(clock: i32, time: *mut [i64; 2]) -> i32;

    fn getrusage(who: i32, usage: *mut [i64; 18]) -> i32;
}

/// As many inner nodes as the program allows where nothing else is said, and at the most.
const NODES: u32 = 2000;
const MOST_NODES: u32 = 10_000;

/// How often all queries are decided and handed to z3; the least time counts.
const ROUNDS: usize = 2;

/// How often a query that was given up is handed to z3, and the seconds in which it may not decide it.
const TIMES: usize = 20;
const SOON: f64 = 0.010;

/// How many seconds z3 gets for a query.
const PATIENCE: u64 = 10;

#[derive(Clone, PartialEq)]
enum Answer {
    Refuted,
    Model(Vec<i64>),
    GivenUp,
}

/// The processor time of this process in seconds.
fn own_seconds() -> f64 {
    let mut time = [0; 2];
    // The clock 2 is that of the process, and the place lives through the call.
    unsafe { clock_gettime(2, &mut time) };
    time[0] as f64 + time[1] as f64 / 1e9
}

/// The processor time in seconds of the programs that were run.
fn seconds_of_runs() -> f64 {
    let mut usage = [0; 18];
    // -1 stands for the programs that have ended, and the place lives through the call.
    unsafe { getrusage(-1, &mut usage) };
    usage[0] as f64 + usage[2] as f64 + (usage[1] + usage[3]) as f64 / 1e6
}

fn add_row(kind: i64, number: i64, constant: i64, terms: &[i64], rows: &mut Vec<i64>) {
    rows.extend([kind, number, constant]);
    rows.extend(terms);
}

fn add_lit(lit: &Lit, rows: &mut Vec<i64>) {
    let (kind, number) = match lit.kind {
        Kind::AtMostZero => (0, 0),
        Kind::Zero => (1, 0),
        Kind::Divided(n) => (2, n),
        Kind::Undivided(n) => (3, n),
    };
    add_row(kind, number, lit.constant, &lit.terms, rows);
}

/// The rows that make the formula. The library takes the parts that were made last first.
fn add_form(form: &Form, rows: &mut Vec<i64>) {
    let (kind, parts) = match form {
        Form::Lit(lit) => return add_lit(lit, rows),
        Form::And(parts) => (4, parts),
        Form::Or(parts) => (5, parts),
    };
    parts.iter().rev().for_each(|part| add_form(part, rows));
    add_row(kind, parts.len() as i64, 0, &[0; VARIABLES], rows);
}

fn rows(query: &Query) -> Vec<i64> {
    let mut rows = Vec::new();
    query.lemmas.iter().for_each(|lemma| add_form(lemma, &mut rows));
    add_form(&query.form, &mut rows);
    rows
}

fn decided(rows: &[i64], vars: usize, nodes: u32) -> Answer {
    let mut point = vec![0; vars];
    // Both slices live through the call, and are as long as is said.
    let answer = unsafe {
        lia_cases_decide(rows.as_ptr(), rows.len(), vars as u32, nodes, point.as_mut_ptr(), vars)
    };
    match answer {
        0 => Answer::Refuted,
        1 => Answer::Model(point),
        2 => Answer::GivenUp,
        _ => panic!("no answer"),
    }
}

/// A number as z3 reads it.
fn number(n: i64) -> String {
    if n < 0 { format!("(- {})", -n) } else { n.to_string() }
}

fn sum_text(lit: &Lit) -> String {
    let mut text = format!("(+ {}", number(lit.constant));
    for (variable, a) in lit.terms.iter().enumerate() {
        match a {
            0 => {}
            1 => text += &format!(" x{variable}"),
            _ => text += &format!(" (* {} x{variable})", number(*a)),
        }
    }
    text + ")"
}

fn lit_text(lit: &Lit) -> String {
    let sum = sum_text(lit);
    match lit.kind {
        Kind::AtMostZero => format!("(<= {sum} 0)"),
        Kind::Zero => format!("(= {sum} 0)"),
        Kind::Divided(n) => format!("(= (mod {sum} {n}) 0)"),
        Kind::Undivided(n) => format!("(not (= (mod {sum} {n}) 0))"),
    }
}

fn text(form: &Form) -> String {
    let (name, parts) = match form {
        Form::Lit(lit) => return lit_text(lit),
        Form::And(parts) => ("and", parts),
        Form::Or(parts) => ("or", parts),
    };
    let parts: Vec<String> = parts.iter().map(text).collect();
    format!("({name} {})", parts.join(" "))
}

/// The assertions of a query. The parts of a conjunction are asserted one by one.
fn assertions(query: &Query) -> String {
    let all = std::slice::from_ref(&query.form).iter().chain(&query.lemmas);
    let parts = all.flat_map(|form| match form {
        Form::And(parts) => parts.iter().collect(),
        form => vec![form],
    });
    parts.map(|part| format!("(assert {})\n", text(part))).collect()
}

/// An incremental script of the queries.
fn script<'a>(queries: impl Iterator<Item = &'a Query>) -> String {
    let mut made = String::from("(set-logic QF_LIA)\n");
    for variable in 0..VARIABLES {
        made += &format!("(declare-const x{variable} Int)\n");
    }
    for query in queries {
        made += &format!("(push)\n{}(check-sat)\n(pop)\n", assertions(query));
    }
    made
}

/// What z3 says of a script, and the seconds that it takes.
fn z3(script: &str) -> (Vec<String>, f64) {
    let file = std::env::temp_dir().join(format!("solver-{}.smt2", std::process::id()));
    write(&file, script).expect("the script is written");
    let begun = seconds_of_runs();
    let ran = Command::new("z3").arg(format!("-t:{}", PATIENCE * 1000)).arg(&file).output().expect("z3 runs");
    let seconds = seconds_of_runs() - begun;
    std::fs::remove_file(&file).expect("the script is removed");
    let said = String::from_utf8(ran.stdout).expect("z3 writes text");
    (said.lines().map(String::from).collect(), seconds)
}

/// The seconds in which z3 decides the query, where it does.
fn seconds_for(query: &Query) -> Option<f64> {
    let (said, seconds) = z3(&script((0..TIMES).map(|_| query)));
    if said[0] == "unknown" { None } else { Some(seconds / TIMES as f64) }
}

/// All answers, and the seconds of each: the least of some rounds.
fn all_decided(queries: &[Query]) -> Vec<(Answer, f64)> {
    let taken = |query: &Query| {
        let rows = rows(query);
        let begun = own_seconds();
        let answer = decided(&rows, query.vars, NODES);
        (answer, own_seconds() - begun)
    };
    let mut all: Vec<_> = queries.iter().map(taken).collect();
    for _ in 1..ROUNDS {
        for (query, kept) in queries.iter().zip(&mut all) {
            let (answer, seconds) = taken(query);
            assert!(answer == kept.0, "another answer");
            kept.1 = kept.1.min(seconds);
        }
    }
    all
}

/// Whether the answer isn't another one than z3's.
fn is_right(query: &Query, answer: &Answer, said: &str) -> bool {
    match answer {
        Answer::Model(point) => query.holds(point) && said != "unsat",
        Answer::Refuted => said != "sat",
        Answer::GivenUp => true,
    }
}

/// How many of the queries that were given up z3 decides soon.
fn easy(queries: &[Query], answers: &[(Answer, f64)]) -> usize {
    let pairs = queries.iter().zip(answers);
    let given_up = pairs.filter(|(_, (answer, _))| *answer == Answer::GivenUp);
    given_up.filter(|(query, _)| seconds_for(query).is_some_and(|seconds| seconds < SOON)).count()
}

fn count(answers: &[(Answer, f64)], which: impl Fn(&Answer) -> bool) -> usize {
    answers.iter().filter(|(answer, _)| which(answer)).count()
}

/// The milliseconds of half of the queries at most, of all but a hundredth, and of all.
fn spread(answers: &[(Answer, f64)]) -> String {
    let mut times: Vec<f64> = answers.iter().map(|(_, seconds)| seconds * 1e3).collect();
    times.sort_by(f64::total_cmp);
    let last = times.len() - 1;
    let [half, most, all] = [last / 2, last - last / 100, last].map(|at| times[at]);
    format!("takes {half:.3} ms or less for half of them, {most:.1} ms for all but a hundredth, {all:.0} ms at most")
}

/// Whether all answers are right, and the time is at most `most` of z3's.
fn measure(name: &str, queries: Vec<Query>, most: f64) -> bool {
    let answers = all_decided(&queries);
    let own: f64 = answers.iter().map(|(_, seconds)| seconds).sum();
    let script = script(queries.iter());
    let (said, first) = z3(&script);
    let other = (1..ROUNDS).map(|_| z3(&script).1).fold(first, f64::min);
    let reading = z3(&script.replace("(check-sat)\n", "")).1;
    let unknown = said.iter().filter(|word| *word == "unknown").count();
    println!(
        "{name}: {} true, {} refuted, {} given up; z3 doesn't tell {unknown}",
        count(&answers, |answer| matches!(answer, Answer::Model(_))),
        count(&answers, |answer| *answer == Answer::Refuted),
        count(&answers, |answer| *answer == Answer::GivenUp)
    );
    println!(
        "  decide {own:.3} s; z3 {other:.3} s, of which reading takes {reading:.3} s; ratio {:.2}",
        own / other
    );
    println!("  a query of decide {}", spread(&answers));
    assert!(said.len() == queries.len(), "z3 says: {}", said[0]);
    let pairs = queries.iter().zip(&answers).zip(&said);
    let wrong = pairs.filter(|((query, (answer, _)), word)| !is_right(query, answer, word)).count();
    let easy = easy(&queries, &answers);
    println!("  {wrong} other answers than z3's, {easy} given up that z3 decides in {:.0} ms", SOON * 1e3);
    if own > most * other {
        println!("  that is more than {most} times z3's time");
    }
    wrong == 0 && easy == 0 && own <= most * other
}

/// Whether some point from -4 to 4 has the values so far and makes the query true.
fn has_point(query: &Query, point: &mut [i64], from: usize) -> bool {
    if from == point.len() {
        return query.holds(point);
    }
    (-4..5).any(|value| {
        point[from] = value;
        has_point(query, point, from + 1)
    })
}

fn is_told(query: &Query) -> bool {
    match decided(&rows(query), query.vars, MOST_NODES) {
        Answer::Model(point) => query.holds(&point),
        Answer::Refuted => !has_point(query, &mut vec![0; query.vars], 0),
        Answer::GivenUp => false,
    }
}

/// Whether all queries are decided as a search of all points decides them.
fn compare(name: &str, queries: Vec<Query>) -> bool {
    let wrong = queries.iter().filter(|query| !is_told(query)).count();
    println!("{name}: {} queries, {wrong} of them wrong or given up", queries.len());
    wrong == 0
}

fn many(count: usize, make: impl FnMut(usize) -> Query) -> Vec<Query> {
    (0..count).map(make).collect()
}

/// Runs the part of that name. Each begins with a generator of its own, so that it has the same queries alone.
fn run(part: &str) -> bool {
    let mut seeded = Seeded(42);
    let seeded = &mut seeded;
    match part {
        "conjunctions" => measure(part, many(10_000, |at| queries::conjunction(seeded, at % 2 == 0)), 0.2),
        "disjunctions" => measure(part, many(2000, |_| queries::disjunctions(seeded)), 1.0),
        "residues" => measure(part, many(500, |at| queries::residues(seeded, at % 2 == 0)), 1.0),
        "boxes" => compare(part, many(2000, |_| queries::small(seeded))),
        "formulas" => compare(part, many(2000, |_| queries::small_formula(seeded))),
        _ => panic!("a part is one of {:?}", PARTS),
    }
}

const PARTS: [&str; 5] = ["conjunctions", "disjunctions", "residues", "boxes", "formulas"];

fn main() {
    let mut parts: Vec<String> = std::env::args().skip(1).collect();
    if parts.is_empty() {
        parts = PARTS.map(String::from).to_vec();
    }
    let failed = parts.iter().filter(|part| !run(part)).count();
    exit(if failed == 0 { 0 } else { 1 });
}
