// Rows in SQLite in memory, for `bench-tpcc`: each table has its key as primary key and no other row number, each statement is prepared
// once, a row is read once a step however many of its columns are, and written once.
use crate::designs::Table;
use crate::machine::{Key, Rows, Write};
use std::cell::RefCell;
use std::collections::HashMap;
use std::ffi::{CString, c_char, c_int, c_void};
use std::ptr::null_mut;

const OK: c_int = 0;
const ROW: c_int = 100;
const DONE: c_int = 101;

#[link(name = "sqlite3")]
unsafe extern "C" {
    fn sqlite3_open(name: *const c_char, db: *mut *mut c_void) -> c_int;
    fn sqlite3_prepare_v2(db: *mut c_void, text: *const c_char, length: c_int, made: *mut *mut c_void, rest: *mut *const c_char) -> c_int;
    fn sqlite3_bind_int64(statement: *mut c_void, at: c_int, value: i64) -> c_int;
    fn sqlite3_step(statement: *mut c_void) -> c_int;
    fn sqlite3_reset(statement: *mut c_void) -> c_int;
    fn sqlite3_column_int64(statement: *mut c_void, at: c_int) -> i64;
}

#[derive(Clone, Copy, Hash, PartialEq, Eq)]
enum Asked {
    Row,
    Count(usize),
    Sum(usize, usize),
    Least(usize),
    Greatest(usize),
    Put,
    Drop,
}

pub struct SqliteRows {
    db: *mut c_void,
    tables: Vec<Table>,
    statements: RefCell<HashMap<(u32, Asked), *mut c_void>>,
    // The rows that were read since the last write.
    read: RefCell<Vec<(Key, Option<Vec<i128>>)>>,
}

fn named(letter: char, count: usize) -> Vec<String> {
    (0..count).map(|n| format!("{letter}{n}")).collect()
}

fn all_equal(parts: usize) -> String {
    named('k', parts).iter().map(|part| format!("{part} = ?")).collect::<Vec<_>>().join(" and ")
}

impl SqliteRows {
    pub fn new(tables: Vec<Table>) -> Self {
        let mut db = null_mut();
        assert_eq!(unsafe { sqlite3_open(c":memory:".as_ptr(), &mut db) }, OK);
        let rows = SqliteRows { db, tables, statements: RefCell::default(), read: RefCell::default() };
        for (n, table) in rows.tables.iter().enumerate() {
            let columns = [named('k', table.parts), named('c', table.columns.len())].concat();
            let columns = columns.iter().map(|column| format!("{column} integer not null")).collect::<Vec<_>>().join(", ");
            let key = named('k', table.parts).join(", ");
            rows.run(rows.prepared(&format!("create table t{n} ({columns}, primary key ({key})) without rowid")));
        }
        rows
    }

    pub fn prepared(&self, text: &str) -> *mut c_void {
        let text = CString::new(text).expect("a text");
        let mut made = null_mut();
        assert_eq!(unsafe { sqlite3_prepare_v2(self.db, text.as_ptr(), -1, &mut made, null_mut()) }, OK, "{text:?}");
        made
    }

    // Runs a statement that answers nothing.
    pub fn run(&self, statement: *mut c_void) {
        assert_eq!(unsafe { sqlite3_step(statement) }, DONE);
        unsafe { sqlite3_reset(statement) };
    }

    fn text(&self, number: u32, asked: Asked) -> String {
        let table = &self.tables[number as usize];
        let columns = named('c', table.columns.len());
        let all = [named('k', table.parts), columns.clone()].concat();
        let wanted = if columns.is_empty() { "1".into() } else { columns.join(", ") };
        let marks = vec!["?"; all.len()].join(", ");
        match asked {
            Asked::Row => format!("select {wanted} from t{number} where {}", all_equal(table.parts)),
            Asked::Count(parts) => format!("select count(*) from t{number} where {}", all_equal(parts)),
            Asked::Sum(parts, column) => format!("select total(c{column}) from t{number} where {}", all_equal(parts)),
            Asked::Least(parts) => format!("select min(k{parts}) from t{number} where {}", all_equal(parts)),
            Asked::Greatest(parts) => format!("select max(k{parts}) from t{number} where {}", all_equal(parts)),
            Asked::Put => format!("insert or replace into t{number} values ({marks})"),
            Asked::Drop => format!("delete from t{number} where {}", all_equal(table.parts)),
        }
    }

    // Runs a statement with these numbers, and hands its one row, if there is one, on.
    fn ask<A>(&self, table: u32, asked: Asked, numbers: impl Iterator<Item = i64>, answer: impl FnOnce(Option<*mut c_void>) -> A) -> A {
        let mut statements = self.statements.borrow_mut();
        let statement = *statements.entry((table, asked)).or_insert_with(|| self.prepared(&self.text(table, asked)));
        for (at, number) in numbers.enumerate() {
            assert_eq!(unsafe { sqlite3_bind_int64(statement, at as c_int + 1, number) }, OK);
        }
        let told = unsafe { sqlite3_step(statement) };
        assert!(told == ROW || told == DONE);
        let answer = answer(if told == ROW { Some(statement) } else { None });
        unsafe { sqlite3_reset(statement) };
        answer
    }

    fn number(&self, table: u32, asked: Asked, prefix: &[i64]) -> i64 {
        self.ask(table, asked, prefix.iter().copied(), |row| row.map_or(0, |row| unsafe { sqlite3_column_int64(row, 0) }))
    }

    fn with_row<A>(&self, key: &Key, answer: impl FnOnce(&Option<Vec<i128>>) -> A) -> A {
        let mut read = self.read.borrow_mut();
        let at = read.iter().position(|(other, _)| other == key).unwrap_or_else(|| {
            let count = self.tables[key.0 as usize].columns.len();
            let columns = |row| (0..count).map(|at| unsafe { sqlite3_column_int64(row, at as c_int) } as i128).collect();
            let row = self.ask(key.0, Asked::Row, key.1.iter().copied(), |row| row.map(columns));
            read.push((key.clone(), row));
            read.len() - 1
        });
        answer(&read[at].1)
    }
}

impl Rows for SqliteRows {
    fn column(&self, key: &Key, column: usize) -> i128 {
        self.with_row(key, |row| row.as_ref().map_or(0, |columns| columns[column]))
    }

    fn has(&self, key: &Key) -> bool {
        self.with_row(key, |row| row.is_some())
    }

    fn row(&self, key: &Key) -> Option<Vec<i128>> {
        self.with_row(key, |row| row.clone())
    }

    fn count(&self, table: u32, prefix: &[i64]) -> i128 {
        self.number(table, Asked::Count(prefix.len()), prefix).into()
    }

    fn sum(&self, table: u32, prefix: &[i64], column: usize) -> i128 {
        self.number(table, Asked::Sum(prefix.len(), column), prefix).into()
    }

    fn part(&self, table: u32, prefix: &[i64], last: bool) -> i64 {
        let asked = if last { Asked::Greatest(prefix.len()) } else { Asked::Least(prefix.len()) };
        self.number(table, asked, prefix)
    }

    fn write(&mut self, writes: Vec<Write>) {
        self.read.get_mut().clear();
        for (at, (key, columns)) in writes.iter().enumerate() {
            if writes[at + 1..].iter().any(|(later, _)| later == key) {
                continue;
            }
            let parts = key.1.iter().copied();
            match columns {
                Some(columns) => self.ask(key.0, Asked::Put, parts.chain(columns.iter().map(|value| *value as i64)), |_| ()),
                None => self.ask(key.0, Asked::Drop, parts, |_| ()),
            }
        }
    }
}
