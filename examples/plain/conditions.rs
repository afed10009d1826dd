// The consistency conditions 1 to 9 of TPC-C (3.3.2.1 to 3.3.2.9) of rows in a map, in plain Rust for `bench-tpcc`.
use crate::designs::Table;
use crate::machine::{Key, MapRows, Rows};
use std::collections::HashMap;

// The places of columns in the shipped design.
const YTD: usize = 0;
const NEXT: usize = 2;
const CARRIER: usize = 1;
const LINES: usize = 2;
const DATE: usize = 4;
const AMOUNT: usize = 0;

struct Numbers {
    warehouse: u32,
    district: u32,
    history: u32,
    waiting: u32,
    orders: u32,
    line: u32,
}

fn numbers(tables: &[Table]) -> Numbers {
    let number = |name: &str| tables.iter().position(|table| table.name == name).expect("a table") as u32;
    Numbers {
        warehouse: number("WAREHOUSE"),
        district: number("DISTRICT"),
        history: number("HISTORY"),
        waiting: number("NEWORDER"),
        orders: number("ORDERS"),
        line: number("LINE"),
    }
}

fn order_of(line: &Key) -> Vec<i64> {
    vec![line.1[0], line.1[1], line.1[3]]
}

// The first condition that is false, with the key of a row that shows it.
pub fn first_false(rows: &MapRows, tables: &[Table]) -> Option<(u32, Vec<i64>)> {
    let n = numbers(tables);
    let mut lines: HashMap<Vec<i64>, i128> = HashMap::new();
    for (key, _) in rows.below(n.line, &[]) {
        *lines.entry(order_of(key)).or_default() += 1;
    }
    let part = |table, key: &[i64], last| rows.part(table, key, last) as i128;
    type Test<'a> = Box<dyn Fn(&Key, &[i128]) -> bool + 'a>;
    let tests: [(u32, Test); 9] = [
        (n.warehouse, Box::new(|key, row| row[YTD] == rows.sum(n.district, &key.1, YTD))),
        (n.district, Box::new(|key, row| {
            let last = row[NEXT] - 1;
            last == part(n.orders, &key.1, true) && (rows.count(n.waiting, &key.1) == 0 || last == part(n.waiting, &key.1, true))
        })),
        (n.district, Box::new(|key, _| {
            let count = rows.count(n.waiting, &key.1);
            count == 0 || part(n.waiting, &key.1, true) - part(n.waiting, &key.1, false) + 1 == count
        })),
        (n.district, Box::new(|key, _| rows.sum(n.orders, &key.1, LINES) == rows.count(n.line, &key.1))),
        (n.orders, Box::new(|key, row| (row[CARRIER] == 0) == rows.has(&(n.waiting, key.1.clone())))),
        (n.orders, Box::new(|key, row| row[LINES] == lines.get(&key.1).copied().unwrap_or(0))),
        (n.line, Box::new(|key, row| (row[DATE] == 0) == (rows.column(&(n.orders, order_of(key)), CARRIER) == 0))),
        (n.warehouse, Box::new(|key, row| row[YTD] == rows.sum(n.history, &key.1, AMOUNT))),
        (n.district, Box::new(|key, row| row[YTD] == rows.sum(n.history, &key.1, AMOUNT))),
    ];
    for (at, (table, test)) in tests.iter().enumerate() {
        if let Some((key, _)) = rows.below(*table, &[]).find(|(key, row)| !test(key, row)) {
            return Some((at as u32 + 1, key.1.clone()));
        }
    }
    None
}
