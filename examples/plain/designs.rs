// A reader of the text of a design, for `bench-tpcc`. It takes what a machine runs, passes over what is asserted, and is at a loss with any
// text that `acc print` refuses.
use crate::machine::*;
use std::collections::HashMap;

type Names = HashMap<String, usize>;

struct Words<'a> {
    words: Vec<&'a str>,
    at: usize,
}

impl<'a> Words<'a> {
    fn of(statement: &'a str) -> Self {
        let mut words = Vec::new();
        let mut rest = statement.trim_start();
        while !rest.is_empty() {
            let is_word = |c: char| c.is_alphanumeric() || c == '_';
            let length = match rest.find(|c| !is_word(c)) {
                Some(0) if rest.starts_with("<=") || rest.starts_with(">=") => 2,
                Some(0) => 1,
                Some(length) => length,
                None => rest.len(),
            };
            words.push(&rest[..length]);
            rest = rest[length..].trim_start();
        }
        Words { words, at: 0 }
    }

    fn peek(&self) -> &'a str {
        self.words.get(self.at).copied().unwrap_or("")
    }

    fn next(&mut self) -> &'a str {
        let word = self.peek();
        self.at += 1;
        word
    }

    fn takes(&mut self, word: &str) -> bool {
        let taken = self.peek() == word;
        self.at += taken as usize;
        taken
    }

    fn rest(&mut self) -> Vec<String> {
        let rest = self.words[self.at..].iter().map(|word| word.to_string()).collect();
        self.at = self.words.len();
        rest
    }
}

// What names stand for within a type.
struct Scope<'a> {
    tables: &'a Names,
    columns: &'a [Names],
    locals: &'a Names,
    points: &'a Names,
}

impl Scope<'_> {
    // A local, or the transaction's number, which is behind them all.
    fn variable(&self, word: &str) -> usize {
        if word == "self" { self.locals.len() } else { self.locals[word] }
    }

    fn term(&self, words: &mut Words, sign: i64, linear: &mut Linear) {
        let word = words.next();
        match word.parse::<i64>() {
            Ok(number) if words.takes("*") => linear.terms.push((self.variable(words.next()), sign * number)),
            Ok(number) => linear.constant += sign * number,
            Err(_) => linear.terms.push((self.variable(word), sign)),
        }
    }

    fn value(&self, words: &mut Words) -> Linear {
        let mut linear = Linear { terms: Vec::new(), constant: 0 };
        let sign = if words.takes("-") { -1 } else { 1 };
        self.term(words, sign, &mut linear);
        while matches!(words.peek(), "+" | "-") {
            let sign = if words.next() == "+" { 1 } else { -1 };
            self.term(words, sign, &mut linear);
        }
        linear
    }

    fn values(&self, words: &mut Words) -> Vec<Linear> {
        let mut values = vec![self.value(words)];
        while words.takes(",") {
            values.push(self.value(words));
        }
        values
    }

    // A table with a key or a prefix, and the column where one is named.
    fn place(&self, words: &mut Words) -> (u32, Vec<Linear>, usize) {
        let table = self.tables[words.next()];
        assert!(words.takes("["));
        let key = self.values(words);
        assert!(words.takes("]"));
        let column = if words.takes(".") { self.columns[table][words.next()] } else { 0 };
        (table as u32, key, column)
    }

    fn assigned(&self, words: &mut Words) -> usize {
        let x = self.variable(words.next());
        assert!(words.takes("="));
        x
    }

    fn read(&self, first: &str, words: &mut Words) -> Read {
        if first == "take" {
            return Read::Take(self.variable(words.next()));
        }
        let x = self.assigned(words);
        match first {
            "let" => Read::Let(x, self.value(words)),
            "mul" => Read::Mul(x, self.variable(words.next()), self.variable(words.next())),
            "div" => Read::Div(x, self.variable(words.next()), words.next().parse().expect("a number")),
            _ => {
                let (table, key, column) = self.place(words);
                match first {
                    "get" => Read::Column(x, table, key, column),
                    "has" => Read::Has(x, table, key),
                    "count" => Read::Count(x, table, key),
                    "sum" => Read::Sum(x, table, key, column),
                    "least" => Read::Least(x, table, key),
                    "greatest" => Read::Greatest(x, table, key),
                    other => panic!("a read, not {other}"),
                }
            }
        }
    }

    fn relation(&self, words: &mut Words) -> Relation {
        let left = self.value(words);
        let sign = words.next();
        let right = self.value(words);
        let (mut low, high) = if sign == ">=" { (right, left) } else { (left, right) };
        low.terms.extend(high.terms.iter().map(|(x, by)| (*x, -by)));
        low.constant -= high.constant;
        Relation { linear: low, equal: sign == "=" }
    }

    fn guard(&self, words: &mut Words) -> Vec<Relation> {
        let mut guard = Vec::new();
        while words.at < words.words.len() {
            guard.push(self.relation(words));
            words.takes(",");
        }
        guard
    }

    fn action(&self, first: &str, words: &mut Words) -> Action {
        let (table, key, column) = self.place(words);
        match first {
            "put" if words.at == words.words.len() => Action::Put(table, key, Vec::new()),
            "put" => Action::Put(table, key, self.values(words)),
            "del" => Action::Del(table, key),
            "set" => Action::Set(table, key, column, self.value(words)),
            "add" => Action::Add(table, key, column, self.value(words)),
            other => panic!("an action, not {other}"),
        }
    }

    fn target(&self, first: &str, words: &mut Words) -> Target {
        match first {
            "goto" => Target::Point(self.points[words.next()]),
            "commit" => Target::Commit,
            "undone" => Target::Undone,
            "refuse" => Target::Refuse(words.next().parse().expect("a number")),
            other => panic!("where a path leads, not {other}"),
        }
    }
}

fn numbered(names: impl IntoIterator<Item = String>) -> Names {
    names.into_iter().enumerate().map(|(n, name)| (name, n)).collect()
}

// The statements of a text, each with its first word and the others.
fn statements(text: &str) -> Vec<(&str, Words<'_>)> {
    let lines = text.lines().filter(|line| !line.trim_start().starts_with('#'));
    let statements = lines.flat_map(|line| line.split(';')).filter(|statement| !statement.trim().is_empty());
    let words = statements.map(Words::of);
    words.map(|mut words| (words.next(), words)).collect()
}

// A type as its statements are read.
struct Draft {
    name: String,
    params: Vec<String>,
    locals: Vec<String>,
    returns: Vec<String>,
    limit: u32,
    points: Vec<String>,
}

fn drafts(text: &str) -> Vec<Draft> {
    let mut drafts: Vec<Draft> = Vec::new();
    for (first, mut words) in statements(text) {
        let last = drafts.last_mut();
        match (first, last) {
            ("type", _) => {
                let name = words.next().to_string();
                let params = words.rest();
                drafts.push(Draft { name, params, locals: Vec::new(), returns: Vec::new(), limit: 0, points: Vec::new() });
            }
            ("limit", Some(draft)) => draft.limit = words.next().parse().expect("a limit"),
            ("returns", Some(draft)) => draft.returns = words.rest(),
            ("local", Some(draft)) => draft.locals = words.rest(),
            ("point", Some(draft)) => draft.points.push(words.next().to_string()),
            _ => {}
        }
    }
    drafts
}

fn empty() -> Step {
    Step { reads: Vec::new(), paths: Vec::new() }
}

// Fills the steps of the types, which have their points.
fn fill(text: &str, tables: &Names, columns: &[Names], drafts: &[Draft], types: &mut [Type]) {
    let (mut ty, mut point, mut undo) = (usize::MAX, 0, false);
    let locals: Vec<Names> = drafts.iter().map(|draft| numbered(draft.params.iter().chain(&draft.locals).cloned())).collect();
    let points: Vec<Names> = drafts.iter().map(|draft| numbered(draft.points.clone())).collect();
    for (first, mut words) in statements(text) {
        match first {
            "table" | "private" | "always" | "limit" | "returns" | "local" | "ensures" | "repairs" => continue,
            "variant" | "holds" | "entry" | "hint" => continue,
            "type" => ty = ty.wrapping_add(1),
            "point" => point = points[ty][words.next()],
            "next" => undo = false,
            "undo" => undo = true,
            _ => {
                let scope = Scope { tables, columns, locals: &locals[ty], points: &points[ty] };
                let point = &mut types[ty].points[point];
                let step = if undo { &mut point.undo } else { &mut point.next };
                match first {
                    "path" => {
                        let guard = scope.guard(&mut words);
                        step.paths.push(Path { guard, actions: Vec::new(), target: Target::Commit });
                    }
                    "put" | "del" | "set" | "add" => {
                        let path = step.paths.last_mut().expect("a path");
                        path.actions.push(scope.action(first, &mut words));
                    }
                    "goto" | "commit" | "undone" | "refuse" => {
                        let path = step.paths.last_mut().expect("a path");
                        path.target = scope.target(first, &mut words);
                    }
                    _ => step.reads.push(scope.read(first, &mut words)),
                }
            }
        }
    }
}

fn entries(text: &str, drafts: &[Draft], types: &[Type]) -> Vec<Entry> {
    let at = |words: &mut Words| {
        let name = words.next();
        let ty = types.iter().position(|ty| ty.name == name).expect("a type");
        assert!(words.takes("."));
        let name = words.next();
        let point = types[ty].points.iter().position(|point| point.name == name).expect("a point");
        At { ty, point }
    };
    let local = |at: At, name: &str| {
        let draft = &drafts[at.ty];
        draft.params.iter().chain(&draft.locals).position(|local| local == name).expect("a local")
    };
    let mut entries = Vec::new();
    for (_, mut words) in statements(text).into_iter().filter(|(first, _)| *first == "entry") {
        let held = at(&mut words);
        assert!(words.takes("by"));
        let step = at(&mut words);
        let side = if words.next() == "next" { Side::Next } else { Side::Undo };
        let mut pairs = Vec::new();
        words.takes(":");
        while words.at < words.words.len() {
            let x = local(held, words.next());
            assert!(words.takes("="));
            pairs.push((x, local(step, words.next())));
            words.takes(",");
        }
        entries.push(Entry { held, step, side, pairs });
    }
    entries
}

// What a table is named, how many parts its keys have, and the names of its columns.
pub struct Table {
    pub name: String,
    pub parts: usize,
    pub columns: Vec<String>,
}

fn tables(text: &str) -> Vec<Table> {
    let rows = statements(text).into_iter().filter(|(first, _)| matches!(*first, "table" | "private"));
    let table = |mut words: Words| {
        let name = words.next().to_string();
        let parts = words.next().parse().expect("a number of parts");
        Table { name, parts, columns: words.rest() }
    };
    rows.map(|(_, words)| table(words)).collect()
}

// The design of a text, and its tables.
pub fn design(text: &str) -> (Design, Vec<Table>) {
    let tables = tables(text);
    let names = numbered(tables.iter().map(|table| table.name.clone()));
    let columns: Vec<Names> = tables.iter().map(|table| numbered(table.columns.clone())).collect();
    let drafts = drafts(text);
    let point = |name: &String| Point { name: name.clone(), next: empty(), undo: empty() };
    let ty = |draft: &Draft| {
        let locals: Vec<&String> = draft.params.iter().chain(&draft.locals).collect();
        let returns = draft.returns.iter().map(|name| locals.iter().position(|local| *local == name).expect("a local"));
        Type {
            name: draft.name.clone(),
            params: draft.params.len(),
            locals: locals.len(),
            points: draft.points.iter().map(point).collect(),
            returns: returns.collect(),
            limit: draft.limit,
        }
    };
    let mut types: Vec<Type> = drafts.iter().map(ty).collect();
    fill(text, &names, &columns, &drafts, &mut types);
    let entries = entries(text, &drafts, &types);
    (Design::new(types, entries), tables)
}
