// A schedule by the rules of locks, in plain Rust: what `bench-sched` compares with. It has the design of counter.design for so many tables
// of cells and so many types that bump the cells of each, reads a script and an order, and prints the lines that the schedule has.
mod machine;

use machine::*;
use std::fmt::Write as _;

// ---- the design

fn local(x: usize) -> Linear {
    Linear { terms: vec![(x, 1)], constant: 0 }
}

fn constant(constant: i64) -> Linear {
    Linear { terms: Vec::new(), constant }
}

fn is(x: usize, value: i64) -> Vec<Relation> {
    vec![Relation { linear: Linear { terms: vec![(x, 1)], constant: -value }, equal: true }]
}

fn path(guard: Vec<Relation>, actions: Vec<Action>, target: Target) -> Path {
    Path { guard, actions, target }
}

fn undone() -> Step {
    Step { reads: Vec::new(), paths: vec![path(Vec::new(), Vec::new(), Target::Undone)] }
}

// The type that makes a table's cells.
fn make(table: u32) -> Type {
    let next = Step {
        reads: vec![Read::Has(1, table, vec![local(0)])],
        paths: vec![
            path(is(1, 0), vec![Action::Put(table, vec![local(0)], vec![constant(0)])], Target::Commit),
            path(Vec::new(), Vec::new(), Target::Refuse(1)),
        ],
    };
    let points = vec![Point { name: "start".into(), next, undo: undone() }];
    Type { name: format!("make{table}"), params: 1, locals: 2, points, returns: Vec::new(), limit: 1 }
}

// One of the types that bump a table's cells.
fn bump(table: u32, kind: usize) -> Type {
    let look = Step {
        reads: vec![Read::Has(1, table, vec![local(0)]), Read::Column(2, table, vec![local(0)], 0)],
        paths: vec![path(is(1, 1), Vec::new(), Target::Point(1)), path(Vec::new(), Vec::new(), Target::Refuse(1))],
    };
    let more = Linear { terms: vec![(2, 1)], constant: 1 };
    let change = Step {
        reads: Vec::new(),
        paths: vec![path(Vec::new(), vec![Action::Set(table, vec![local(0)], 0, more)], Target::Commit)],
    };
    let points = vec![
        Point { name: "start".into(), next: look, undo: undone() },
        Point { name: "mid".into(), next: change, undo: undone() },
    ];
    Type { name: format!("bump{table}_{kind}"), params: 1, locals: 3, points, returns: vec![2], limit: 2 }
}

fn counters(tables: u32, kinds: usize) -> Design {
    let mut types = Vec::new();
    let mut entries = Vec::new();
    for table in 0..tables {
        types.push(make(table));
        let first = types.len();
        types.extend((0..kinds).map(|kind| bump(table, kind)));
        for held in first..types.len() {
            let held = At { ty: held, point: 1 };
            let steps = (first..types.len()).map(|ty| At { ty, point: 1 });
            entries.extend(steps.map(|step| Entry { held, step, side: Side::Next, pairs: vec![(0, 0)] }));
        }
    }
    Design::new(types, entries)
}

fn main() {
    let words: Vec<String> = std::env::args().collect();
    let script = std::fs::read_to_string(&words[3]).expect("a script");
    let order = std::fs::read_to_string(&words[4]).expect("an order");
    let design = counters(words[1].parse().expect("a number of tables"), words[2].parse().expect("a number of types"));
    let calls: Vec<Call> = lines(&script).map(|line| call(&design, line)).collect();
    let order: Vec<usize> = lines(&order).flat_map(str::split_whitespace).map(|word| word.parse().expect("a place")).collect();
    let mut machine = Machine::new(design, MapRows::default());
    let mut numbers: Vec<Option<u64>> = vec![None; calls.len()];
    let mut places = Vec::new();
    let mut out = String::new();
    for place in order {
        if numbers[place - 1].is_none() {
            if let Some(t) = machine.begin(&calls[place - 1]) {
                numbers[place - 1] = Some(t);
                places.push(place);
            }
        }
        match numbers[place - 1] {
            Some(t) if machine.frames.contains_key(&t) => {
                let turn = machine.turn(t);
                push_turn(&mut out, &machine.design, &places, place, turn);
            }
            Some(_) => writeln!(out, "{place} over").unwrap(),
            None => writeln!(out, "{place} full").unwrap(),
        }
    }
    end_all(&mut machine);
    for at in 0..calls.len() {
        if numbers[at].is_none() {
            numbers[at] = machine.begin(&calls[at]);
            end_all(&mut machine);
        }
    }
    for (at, number) in numbers.iter().enumerate() {
        match number.and_then(|t| machine.replies[t as usize - 1].as_ref()) {
            Some(outcome) => push_reply(&mut out, at + 1, outcome),
            None => writeln!(out, "{} unbegun", at + 1).unwrap(),
        }
    }
    writeln!(out, "events {}", machine.events.len()).unwrap();
    print!("{out}");
}
