// `acc bench` in plain Rust, and the same transactions over SQLite: what `bench-tpcc` compares with. It makes the workload from its
// numbers, runs the load and then the mix, and prints the lines of `acc bench`; over SQLite the mix's transactions run one after the
// other. Seconds go to standard error.
//
//     tpcc (map|sqlite) DESIGN WAREHOUSES ITEMS CUSTOMERS COUNT START
mod conditions;
mod designs;
mod machine;
mod sqlite;
mod workload;

use machine::*;
use sqlite::SqliteRows;
use std::time::Instant;
use workload::Scale;

fn calls(design: &Design, script: &str) -> Vec<Call> {
    lines(script).map(|line| call(design, line)).collect()
}

fn ended<R: Rows>(machine: &mut Machine<R>, call: &Call) -> Option<u64> {
    let t = machine.begin(call);
    end_all(machine);
    t
}

// How many turns were blocked, how many turned a victim, and the numbers of the transactions.
fn ordered<R: Rows>(machine: &mut Machine<R>, mix: &[Call], order: &[usize]) -> (u64, u64, Vec<Option<u64>>) {
    let (mut blocked, mut victims, mut numbers) = (0, 0, vec![None; mix.len()]);
    for place in order {
        if numbers[place - 1].is_none() {
            numbers[place - 1] = machine.begin(&mix[place - 1]);
        }
        if let Some(t) = numbers[place - 1].filter(|t| machine.frames.contains_key(t)) {
            match machine.turn(t) {
                Turn::Blocked(..) => blocked += 1,
                Turn::Turned(Cause::Victim) => victims += 1,
                Turn::Turned(_) | Turn::Stepped(_) | Turn::Back(_) | Turn::Ended => {}
            }
        }
    }
    end_all(machine);
    for (at, number) in numbers.iter_mut().enumerate() {
        if number.is_none() {
            *number = ended(machine, &mix[at]);
        }
    }
    (blocked, victims, numbers)
}

fn told<R>(machine: &Machine<R>, numbers: &[Option<u64>], blocked: u64, victims: u64) {
    let outcomes = || numbers.iter().flatten().filter_map(|t| machine.replies[*t as usize - 1].as_ref());
    let committed = outcomes().filter(|outcome| matches!(outcome, Outcome::Committed(_))).count();
    let compensated = outcomes().count() - committed;
    let events = machine.events.len();
    println!("mix committed {committed} compensated {compensated} blocked {blocked} victims {victims} events {events}");
}

fn seconds(of: &str, begun: Instant) -> Instant {
    eprintln!("{of} {:.3}", begun.elapsed().as_secs_f64());
    Instant::now()
}

fn in_map(design: Design, tables: &[designs::Table], load: &[Call], mix: &[Call], order: &[usize]) {
    let mut machine = Machine::new(design, MapRows::default());
    let begun = Instant::now();
    for call in load {
        ended(&mut machine, call);
    }
    println!("load places {} events {}", load.len(), machine.events.len());
    let begun = seconds("load", begun);
    let (blocked, victims, numbers) = ordered(&mut machine, mix, order);
    told(&machine, &numbers, blocked, victims);
    let begun = seconds("mix", begun);
    match conditions::first_false(&machine.rows, tables) {
        Some((condition, key)) => println!("condition {condition} false {key:?}"),
        None => println!("conditions true"),
    }
    seconds("conditions", begun);
    eprintln!("rows {}", machine.rows.0.len());
}

fn in_sqlite(design: Design, tables: Vec<designs::Table>, load: &[Call], mix: &[Call]) {
    let mut machine = Machine::new(design, SqliteRows::new(tables));
    let begin = machine.rows.prepared("begin");
    let commit = machine.rows.prepared("commit");
    let whole = |machine: &mut Machine<SqliteRows>, call: &Call| {
        machine.rows.run(begin);
        let t = ended(machine, call);
        machine.rows.run(commit);
        t
    };
    let begun = Instant::now();
    for call in load {
        whole(&mut machine, call);
    }
    println!("load places {} events {}", load.len(), machine.events.len());
    let begun = seconds("load", begun);
    let numbers: Vec<Option<u64>> = mix.iter().map(|call| whole(&mut machine, call)).collect();
    told(&machine, &numbers, 0, 0);
    seconds("mix", begun);
}

fn main() {
    let words: Vec<String> = std::env::args().collect();
    let number = |at: usize| words[at].parse::<u64>().expect("a number");
    let text = std::fs::read_to_string(&words[2]).expect("a design");
    let scale = Scale { warehouses: number(3), items: number(4), customers: number(5) };
    let (design, tables) = designs::design(&text);
    let begun = Instant::now();
    let load = calls(&design, &workload::load(scale));
    let (mix, mut behind) = workload::mix(scale, number(6), number(7));
    let mix = calls(&design, &mix);
    let order = workload::order(&mut behind, number(6));
    seconds("workload", begun);
    if words[1] == "sqlite" {
        in_sqlite(design, tables, &load, &mix);
    } else {
        in_map(design, &tables, &load, &mix, &order);
    }
}
