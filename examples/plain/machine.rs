// Designs and the machine that runs them by the rules of locks, in plain Rust: what `bench-sched` and `bench-tpcc` compare with. Rows
// stand in a map with keys of their own, or where a program that uses this keeps them.
use std::collections::BTreeMap;
use std::fmt::Write as _;

const EDGE: i128 = 1 << 45;
// No key has more parts.
const LONGEST_KEY: usize = 7;
const MOST_EVENTS: usize = 1 << 20;
const MOST_UNFINISHED: usize = 64;

pub struct Linear {
    pub terms: Vec<(usize, i64)>,
    pub constant: i64,
}

pub enum Read {
    Let(usize, Linear),
    Column(usize, u32, Vec<Linear>, usize),
    Has(usize, u32, Vec<Linear>),
    Count(usize, u32, Vec<Linear>),
    Sum(usize, u32, Vec<Linear>, usize),
    Least(usize, u32, Vec<Linear>),
    Greatest(usize, u32, Vec<Linear>),
    Take(usize),
    Mul(usize, usize, usize),
    Div(usize, usize, i64),
}

pub enum Action {
    Put(u32, Vec<Linear>, Vec<Linear>),
    Del(u32, Vec<Linear>),
    Set(u32, Vec<Linear>, usize, Linear),
    Add(u32, Vec<Linear>, usize, Linear),
}

#[derive(Clone, Copy)]
pub enum Target {
    Point(usize),
    Commit,
    Undone,
    Refuse(u32),
}

// A relation of a guard: that a linear value is 0, or at most 0.
pub struct Relation {
    pub linear: Linear,
    pub equal: bool,
}

pub struct Path {
    pub guard: Vec<Relation>,
    pub actions: Vec<Action>,
    pub target: Target,
}

pub struct Step {
    pub reads: Vec<Read>,
    pub paths: Vec<Path>,
}

pub struct Point {
    pub name: String,
    pub next: Step,
    pub undo: Step,
}

pub struct Type {
    pub name: String,
    pub params: usize,
    pub locals: usize,
    pub points: Vec<Point>,
    pub returns: Vec<usize>,
    pub limit: u32,
}

#[derive(Clone, Copy, PartialEq)]
pub struct At {
    pub ty: usize,
    pub point: usize,
}

#[derive(Clone, Copy, PartialEq)]
pub enum Side {
    Next,
    Undo,
}

pub struct Entry {
    pub held: At,
    pub step: At,
    pub side: Side,
    pub pairs: Vec<(usize, usize)>,
}

pub struct Design {
    pub types: Vec<Type>,
    pub entries: Vec<Entry>,
    // For each point the points that undo steps reach from it.
    pub reached: Vec<Vec<Vec<bool>>>,
}

#[derive(Clone)]
pub struct Call {
    pub ty: usize,
    pub params: Vec<i64>,
    pub tape: Vec<i64>,
    pub ask: Option<u32>,
}

pub struct Frame {
    pub at: At,
    pub side: Side,
    pub locals: Vec<i64>,
    pub tape: Vec<i64>,
    pub pos: usize,
    pub steps: u32,
    pub ask: Option<u32>,
    pub cause: Option<Cause>,
}

#[derive(Clone, Copy)]
pub enum Cause {
    Refused(u32),
    Range,
    Limit,
    Asked,
    Victim,
}

pub enum Event {
    Begin(Call),
    Step(u64),
    Abort(u64, Cause),
    Undo(u64),
}

pub enum Outcome {
    Committed(Vec<i64>),
    Compensated(Cause),
}

pub enum Turn {
    Stepped(At),
    Blocked(u64, usize),
    Turned(Cause),
    Back(At),
    Ended,
}

pub type Key = (u32, Vec<i64>);

// A row that is written, or none where it is dropped.
pub type Write = (Key, Option<Vec<i128>>);

pub struct Effect {
    pub locals: Vec<i64>,
    pub pos: usize,
    pub writes: Vec<Write>,
    pub target: Target,
}

// A number of a step is out of range.
pub struct OutOfRange;

pub fn within(value: i128) -> Result<i64, OutOfRange> {
    if -EDGE <= value && value <= EDGE { Ok(value as i64) } else { Err(OutOfRange) }
}

impl Linear {
    fn value(&self, locals: &[i64], number: u64) -> i128 {
        let value_of = |x: usize| if x < locals.len() { locals[x] as i128 } else { number as i128 };
        self.terms.iter().map(|(x, by)| value_of(*x) * *by as i128).sum::<i128>() + self.constant as i128
    }
}

impl Relation {
    fn holds(&self, locals: &[i64], number: u64) -> bool {
        let value = self.linear.value(locals, number);
        if self.equal { value == 0 } else { value <= 0 }
    }
}

pub fn key_of(parts: &[Linear], locals: &[i64], number: u64) -> Result<Vec<i64>, OutOfRange> {
    parts.iter().map(|part| within(part.value(locals, number))).collect()
}

// The rows that a machine works on.
pub trait Rows {
    // A column of a row, 0 where there is none.
    fn column(&self, key: &Key, column: usize) -> i128;
    fn has(&self, key: &Key) -> bool;
    fn row(&self, key: &Key) -> Option<Vec<i128>>;
    fn count(&self, table: u32, prefix: &[i64]) -> i128;
    fn sum(&self, table: u32, prefix: &[i64], column: usize) -> i128;
    // The first or last part behind a prefix, 0 where no key has it.
    fn part(&self, table: u32, prefix: &[i64], last: bool) -> i64;
    // Writes in order; none is a row that is dropped.
    fn write(&mut self, writes: Vec<Write>);
}

// Rows in a map.
#[derive(Default)]
pub struct MapRows(pub BTreeMap<Key, Vec<i128>>);

impl MapRows {
    pub fn below(&self, table: u32, prefix: &[i64]) -> impl DoubleEndedIterator<Item = (&Key, &Vec<i128>)> {
        let mut last = prefix.to_vec();
        last.resize(LONGEST_KEY, i64::MAX);
        self.0.range((table, prefix.to_vec())..=(table, last))
    }
}

impl Rows for MapRows {
    fn column(&self, key: &Key, column: usize) -> i128 {
        self.0.get(key).map_or(0, |columns| columns[column])
    }

    fn has(&self, key: &Key) -> bool {
        self.0.contains_key(key)
    }

    fn row(&self, key: &Key) -> Option<Vec<i128>> {
        self.0.get(key).cloned()
    }

    fn count(&self, table: u32, prefix: &[i64]) -> i128 {
        self.below(table, prefix).count() as i128
    }

    fn sum(&self, table: u32, prefix: &[i64], column: usize) -> i128 {
        self.below(table, prefix).map(|(_, columns)| columns[column]).sum()
    }

    fn part(&self, table: u32, prefix: &[i64], last: bool) -> i64 {
        let mut below = self.below(table, prefix);
        let found = if last { below.next_back() } else { below.next() };
        found.map_or(0, |(key, _)| key.1[prefix.len()])
    }

    fn write(&mut self, writes: Vec<Write>) {
        for (key, columns) in writes {
            match columns {
                Some(columns) => self.0.insert(key, columns),
                None => self.0.remove(&key),
            };
        }
    }
}

pub struct Machine<R> {
    pub design: Design,
    pub rows: R,
    pub frames: BTreeMap<u64, Frame>,
    pub replies: Vec<Option<Outcome>>,
    pub events: Vec<Event>,
}

impl<R: Rows> Machine<R> {
    pub fn new(design: Design, rows: R) -> Self {
        Machine { design, rows, frames: BTreeMap::new(), replies: Vec::new(), events: Vec::new() }
    }

    fn read(&self, read: &Read, tape: &[i64], number: u64, locals: &mut [i64], pos: &mut usize) -> Result<(), OutOfRange> {
        let (x, value) = match read {
            Read::Let(x, linear) => (*x, linear.value(locals, number)),
            Read::Column(x, table, key, column) => {
                (*x, self.rows.column(&(*table, key_of(key, locals, number)?), *column))
            }
            Read::Has(x, table, key) => (*x, self.rows.has(&(*table, key_of(key, locals, number)?)).into()),
            Read::Count(x, table, prefix) => (*x, self.rows.count(*table, &key_of(prefix, locals, number)?)),
            Read::Sum(x, table, prefix, column) => (*x, self.rows.sum(*table, &key_of(prefix, locals, number)?, *column)),
            Read::Least(x, table, prefix) => (*x, self.rows.part(*table, &key_of(prefix, locals, number)?, false).into()),
            Read::Greatest(x, table, prefix) => (*x, self.rows.part(*table, &key_of(prefix, locals, number)?, true).into()),
            Read::Take(x) => {
                let value = tape.get(*pos).copied().unwrap_or(0);
                *pos = (*pos + 1).min(tape.len());
                (*x, value.into())
            }
            Read::Mul(x, a, b) => (*x, locals[*a] as i128 * locals[*b] as i128),
            Read::Div(x, a, by) => (*x, (locals[*a] as i128).div_euclid((*by).into())),
        };
        locals[x] = within(value)?;
        Ok(())
    }

    // A row as the writes before this one leave it.
    fn row(&self, writes: &[Write], key: &Key) -> Option<Vec<i128>> {
        match writes.iter().rev().find(|(written, _)| written == key) {
            Some((_, columns)) => columns.clone(),
            None => self.rows.row(key),
        }
    }

    fn act(
        &self,
        action: &Action,
        locals: &[i64],
        number: u64,
        side: Side,
        writes: &mut Vec<Write>,
    ) -> Result<(), OutOfRange> {
        match action {
            Action::Put(table, key, values) => {
                let key = (*table, key_of(key, locals, number)?);
                let columns = key_of(values, locals, number)?;
                writes.push((key, Some(columns.into_iter().map(i128::from).collect())));
            }
            Action::Del(table, key) => writes.push(((*table, key_of(key, locals, number)?), None)),
            Action::Set(table, key, column, value) => {
                let key = (*table, key_of(key, locals, number)?);
                let value = within(value.value(locals, number))?;
                if let Some(mut columns) = self.row(writes, &key) {
                    columns[*column] = value as i128;
                    writes.push((key, Some(columns)));
                }
            }
            Action::Add(table, key, column, value) => {
                let key = (*table, key_of(key, locals, number)?);
                let value = within(value.value(locals, number))?;
                if let Some(mut columns) = self.row(writes, &key) {
                    columns[*column] += value as i128;
                    if side == Side::Next {
                        within(columns[*column])?;
                    }
                    writes.push((key, Some(columns)));
                }
            }
        }
        Ok(())
    }

    // What a step does; nothing where a number of it leaves its range.
    fn effect(&self, t: u64, frame: &Frame, side: Side) -> Result<Effect, OutOfRange> {
        let point = &self.design.types[frame.at.ty].points[frame.at.point];
        let step = if side == Side::Next { &point.next } else { &point.undo };
        let mut locals = frame.locals.clone();
        let mut pos = frame.pos;
        for read in &step.reads {
            self.read(read, &frame.tape, t, &mut locals, &mut pos)?;
        }
        let path = step.paths.iter().find(|path| path.guard.iter().all(|relation| relation.holds(&locals, t)));
        let path = path.expect("some path is open");
        let mut writes = Vec::new();
        for action in &path.actions {
            self.act(action, &locals, t, side, &mut writes)?;
        }
        Ok(Effect { locals, pos, writes, target: path.target })
    }

    // Why a forward transaction turns, or what its step does.
    fn ahead(&self, t: u64, frame: &Frame) -> Result<Effect, Cause> {
        if frame.ask == Some(frame.steps) {
            return Err(Cause::Asked);
        }
        if frame.steps == self.design.types[frame.at.ty].limit {
            return Err(Cause::Limit);
        }
        match self.effect(t, frame, Side::Next) {
            Ok(Effect { target: Target::Refuse(n), .. }) => Err(Cause::Refused(n)),
            Ok(effect) => Ok(effect),
            Err(OutOfRange) => Err(Cause::Range),
        }
    }

    // Whether the undo step that an entry forbids may come to run from the one place while the other may come to be held.
    fn clashes(&self, entry: &Entry, a: At, a_locals: &[i64], b: At, b_locals: &[i64]) -> bool {
        entry.side == Side::Undo
            && entry.step.ty == a.ty
            && self.design.reached[a.ty][a.point][entry.step.point]
            && entry.held.ty == b.ty
            && self.design.reached[b.ty][b.point][entry.held.point]
            && entry.pairs.iter().all(|(x, y)| b_locals[*x] == a_locals[*y])
    }

    // The lowest holder that blocks a step, and its lowest entry.
    fn blocker(&self, t: u64, at: At, effect: &Effect) -> Option<(u64, usize)> {
        for (h, holder) in &self.frames {
            if *h == t {
                continue;
            }
            for (n, entry) in self.design.entries.iter().enumerate() {
                let forbids = entry.held == holder.at
                    && entry.step == at
                    && entry.side == Side::Next
                    && entry.pairs.iter().all(|(x, y)| holder.locals[*x] == effect.locals[*y]);
                let clashes = match effect.target {
                    Target::Point(point) => {
                        let next = At { ty: at.ty, point };
                        self.clashes(entry, next, &effect.locals, holder.at, &holder.locals)
                            || self.clashes(entry, holder.at, &holder.locals, next, &effect.locals)
                    }
                    _ => false,
                };
                if forbids || clashes {
                    return Some((*h, n + 1));
                }
            }
        }
        None
    }

    fn is_stuck(&self) -> bool {
        !self.frames.is_empty()
            && self.frames.iter().all(|(t, frame)| {
                frame.side == Side::Next
                    && match self.ahead(*t, frame) {
                        Ok(effect) => self.blocker(*t, frame.at, &effect).is_some(),
                        Err(_) => false,
                    }
            })
    }

    pub fn begin(&mut self, call: &Call) -> Option<u64> {
        if self.events.len() >= MOST_EVENTS || self.frames.len() >= MOST_UNFINISHED {
            return None;
        }
        self.replies.push(None);
        let t = self.replies.len() as u64;
        let mut locals = call.params.clone();
        locals.resize(self.design.types[call.ty].locals, 0);
        let at = At { ty: call.ty, point: 0 };
        let tape = call.tape.clone();
        self.frames.insert(t, Frame { at, side: Side::Next, locals, tape, pos: 0, steps: 0, ask: call.ask, cause: None });
        self.events.push(Event::Begin(call.clone()));
        Some(t)
    }

    fn turn_back(&mut self, t: u64, cause: Cause) -> Turn {
        let frame = self.frames.get_mut(&t).expect("an unfinished transaction");
        frame.side = Side::Undo;
        frame.cause = Some(cause);
        self.events.push(Event::Abort(t, cause));
        Turn::Turned(cause)
    }

    fn end(&mut self, t: u64, outcome: Outcome) -> Turn {
        self.frames.remove(&t);
        self.replies[t as usize - 1] = Some(outcome);
        Turn::Ended
    }

    fn step(&mut self, t: u64, effect: Effect) -> Turn {
        let Effect { locals, pos, writes, target } = effect;
        self.events.push(Event::Step(t));
        self.rows.write(writes);
        let frame = self.frames.get_mut(&t).expect("an unfinished transaction");
        match target {
            Target::Point(point) => {
                frame.locals = locals;
                frame.pos = pos;
                frame.at.point = point;
                frame.steps += 1;
                Turn::Stepped(frame.at)
            }
            _ => {
                let returns = &self.design.types[frame.at.ty].returns;
                let values = returns.iter().map(|x| locals[*x]).collect();
                self.end(t, Outcome::Committed(values))
            }
        }
    }

    fn undo(&mut self, t: u64) -> Turn {
        let frame = &self.frames[&t];
        let Ok(effect) = self.effect(t, frame, Side::Undo) else {
            unreachable!("no undo step leaves its range");
        };
        self.events.push(Event::Undo(t));
        self.rows.write(effect.writes);
        let frame = self.frames.get_mut(&t).expect("an unfinished transaction");
        match effect.target {
            Target::Point(point) => {
                frame.locals = effect.locals;
                frame.pos = effect.pos;
                frame.at.point = point;
                Turn::Back(frame.at)
            }
            _ => {
                let cause = frame.cause.expect("the cause of an undo");
                self.end(t, Outcome::Compensated(cause))
            }
        }
    }

    pub fn turn(&mut self, t: u64) -> Turn {
        let frame = &self.frames[&t];
        if frame.side == Side::Undo {
            return self.undo(t);
        }
        let at = frame.at;
        match self.ahead(t, frame) {
            Err(cause) => self.turn_back(t, cause),
            Ok(effect) => match self.blocker(t, at, &effect) {
                None => self.step(t, effect),
                Some(_) if self.is_stuck() => self.turn_back(t, Cause::Victim),
                Some((holder, entry)) => Turn::Blocked(holder, entry),
            },
        }
    }
}

// ---- designs

fn reached(points: &[Point], from: usize) -> Vec<bool> {
    let mut reached = vec![false; points.len()];
    let mut pending = vec![from];
    while let Some(point) = pending.pop() {
        if !reached[point] {
            reached[point] = true;
            for path in &points[point].undo.paths {
                if let Target::Point(next) = path.target {
                    pending.push(next);
                }
            }
        }
    }
    reached
}

impl Design {
    pub fn new(types: Vec<Type>, entries: Vec<Entry>) -> Self {
        let reached = types.iter().map(|ty| (0..ty.points.len()).map(|point| reached(&ty.points, point)).collect()).collect();
        Design { types, entries, reached }
    }
}

// ---- scripts, orders and lines

pub fn lines(text: &str) -> impl Iterator<Item = &str> {
    text.lines().map(str::trim).filter(|line| !line.is_empty() && !line.starts_with('#'))
}

pub fn call(design: &Design, line: &str) -> Call {
    let mut words = line.split_whitespace();
    let name = words.next().expect("a type");
    let ty = design.types.iter().position(|ty| ty.name == name).expect("a type of the design");
    let params = (0..design.types[ty].params).map(|_| words.next().expect("a parameter").parse().expect("a number")).collect();
    let (mut tape, mut ask) = (Vec::new(), None);
    while let Some(word) = words.next() {
        match word {
            "|" => {}
            "@" => ask = Some(words.next().expect("a number").parse().expect("a number")),
            number => tape.push(number.parse().expect("a number")),
        }
    }
    Call { ty, params, tape, ask }
}

pub fn push_cause(out: &mut String, cause: Cause) {
    match cause {
        Cause::Refused(n) => write!(out, "refused {n}").unwrap(),
        Cause::Range => out.push_str("range"),
        Cause::Limit => out.push_str("limit"),
        Cause::Asked => out.push_str("asked"),
        Cause::Victim => out.push_str("victim"),
    }
}

pub fn push_at(out: &mut String, design: &Design, at: At) {
    let ty = &design.types[at.ty];
    write!(out, "{}.{}", ty.name, ty.points[at.point].name).unwrap();
}

pub fn push_turn(out: &mut String, design: &Design, places: &[usize], place: usize, turn: Turn) {
    write!(out, "{place} ").unwrap();
    match turn {
        Turn::Stepped(at) => {
            out.push_str("stepped ");
            push_at(out, design, at);
        }
        Turn::Back(at) => {
            out.push_str("back ");
            push_at(out, design, at);
        }
        Turn::Blocked(holder, entry) => write!(out, "blocked by {} entry {entry}", places[holder as usize - 1]).unwrap(),
        Turn::Turned(cause) => {
            out.push_str("turned ");
            push_cause(out, cause);
        }
        Turn::Ended => out.push_str("ended"),
    }
    out.push('\n');
}

pub fn push_reply(out: &mut String, place: usize, outcome: &Outcome) {
    match outcome {
        Outcome::Committed(values) => {
            write!(out, "{place} committed").unwrap();
            for value in values {
                write!(out, " {value}").unwrap();
            }
        }
        Outcome::Compensated(cause) => {
            write!(out, "{place} compensated ").unwrap();
            push_cause(out, *cause);
        }
    }
    out.push('\n');
}

pub fn end_all<R: Rows>(machine: &mut Machine<R>) {
    while !machine.frames.is_empty() {
        let numbers: Vec<u64> = machine.frames.keys().copied().collect();
        for t in numbers {
            if machine.frames.contains_key(&t) {
                machine.turn(t);
            }
        }
    }
}
