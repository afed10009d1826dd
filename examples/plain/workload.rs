// The workload that `acc tpcc load` and `acc tpcc mix` make, and the order of `acc bench`, in plain Rust for `bench-tpcc`: docs/TPCC.md,
// part 'The workload from a number', says each draw.
use std::fmt::Write as _;

const MULTIPLIER: u64 = 6364136223846793005;
// Stream 1.
const INCREMENT: u64 = 3;
const DISTRICTS: u64 = 10;
const A_RUN: u64 = 100;
const MENTIONS: u64 = 32;

pub struct Words {
    state: u64,
}

impl Words {
    pub fn new(start: u64) -> Self {
        let mut words = Words { state: 0 };
        words.step();
        words.state = words.state.wrapping_add(start);
        words.step();
        words
    }

    fn step(&mut self) {
        self.state = self.state.wrapping_mul(MULTIPLIER).wrapping_add(INCREMENT);
    }

    fn word(&mut self) -> u32 {
        let old = self.state;
        self.step();
        ((((old >> 18) ^ old) >> 27) as u32).rotate_right((old >> 59) as u32)
    }

    fn random(&mut self, low: u64, high: u64) -> u64 {
        low + self.word() as u64 % (high - low + 1)
    }

    fn uneven(&mut self, a: u64, low: u64, high: u64) -> u64 {
        let first = self.random(0, a);
        let second = self.random(low, high);
        low + ((first | second) + 77) % (high - low + 1)
    }
}

#[derive(Clone, Copy)]
pub struct Scale {
    pub warehouses: u64,
    pub items: u64,
    pub customers: u64,
}

fn push(out: &mut String, numbers: &[u64]) {
    for number in numbers {
        write!(out, " {number}").unwrap();
    }
}

// The lines of runs of up to 100, each number with one that is drawn for it.
fn push_runs(out: &mut String, words: &mut Words, head: &str, total: u64, low: u64, high: u64) {
    for first in (1..=total).step_by(A_RUN as usize) {
        let last = total.min(first + A_RUN - 1);
        write!(out, "{head} {} |", last + 1 - first).unwrap();
        for k in first..=last {
            let drawn = words.random(low, high);
            push(out, &[k, drawn]);
        }
        out.push('\n');
    }
}

fn push_order(out: &mut String, words: &mut Words, scale: Scale, w: u64, d: u64, o: u64) {
    let delivered = 10 * o <= 7 * scale.customers;
    let count = words.random(5, 15);
    let carrier = if delivered { words.random(1, 10) } else { 0 };
    out.push_str("ldorder");
    push(out, &[w, d, scale.customers + 1 - o, count, 1, carrier, delivered as u64]);
    out.push_str(" |");
    for _ in 0..count {
        let item = words.random(1, scale.items);
        let cents = if delivered { 0 } else { words.random(1, 999999) };
        push(out, &[item, w, cents]);
    }
    out.push('\n');
}

pub fn load(scale: Scale) -> String {
    let words = &mut Words::new(1);
    let mut out = String::new();
    for w in 1..=scale.warehouses {
        writeln!(out, "ldwh {w} {}", words.random(0, 2000)).unwrap();
    }
    let districts = (1..=scale.warehouses).flat_map(|w| (1..=DISTRICTS).map(move |d| (w, d)));
    for (w, d) in districts.clone() {
        writeln!(out, "lddist {w} {d} {}", words.random(0, 2000)).unwrap();
    }
    push_runs(&mut out, words, "lditem", scale.items, 100, 10000);
    for w in 1..=scale.warehouses {
        push_runs(&mut out, words, &format!("ldstock {w}"), scale.items, 10, 100);
    }
    for (w, d) in districts.clone() {
        push_runs(&mut out, words, &format!("ldcust {w} {d}"), scale.customers, 0, 5000);
    }
    for (w, d) in districts {
        for o in 1..=scale.customers {
            push_order(&mut out, words, scale, w, d, o);
        }
    }
    out
}

fn another(words: &mut Words, scale: Scale, w: u64) -> u64 {
    let v = words.random(1, scale.warehouses - 1);
    if v < w { v } else { v + 1 }
}

fn push_new_order(out: &mut String, words: &mut Words, scale: Scale, w: u64, place: u64) {
    let d = words.random(1, DISTRICTS);
    let c = words.uneven(1023, 1, scale.customers);
    let n = words.random(5, 15);
    let fails = words.random(1, 100) == 1;
    out.push_str("neworder");
    push(out, &[w, d, c, n, place]);
    out.push_str(" |");
    for k in 1..=n {
        let drawn = words.uneven(8191, 1, scale.items);
        let item = if fails && k == n { scale.items + 1 } else { drawn };
        let away = words.random(1, 100) == 1 && scale.warehouses > 1;
        let supplier = if away { another(words, scale, w) } else { w };
        let pieces = words.random(1, 10);
        push(out, &[item, supplier, pieces]);
    }
}

fn push_payment(out: &mut String, words: &mut Words, scale: Scale, w: u64) {
    let d = words.random(1, DISTRICTS);
    let (mut cw, mut cd) = (w, d);
    if words.random(1, 100) > 85 && scale.warehouses > 1 {
        cw = another(words, scale, w);
        cd = words.random(1, DISTRICTS);
    }
    let c = words.uneven(1023, 1, scale.customers);
    let cents = words.random(100, 500000);
    out.push_str("payment");
    push(out, &[w, d, cw, cd, c, cents]);
}

fn push_place(out: &mut String, words: &mut Words, scale: Scale, place: u64) {
    let kind = words.random(1, 100);
    let w = words.random(1, scale.warehouses);
    if kind <= 45 {
        push_new_order(out, words, scale, w, place);
    } else if kind <= 88 {
        push_payment(out, words, scale, w);
    } else if kind <= 92 {
        let d = words.random(1, DISTRICTS);
        let c = words.uneven(1023, 1, scale.customers);
        write!(out, "orderstatus {w} {d} {c}").unwrap();
    } else if kind <= 96 {
        write!(out, "delivery {w} {} {place}", words.random(1, 10)).unwrap();
    } else {
        let d = words.random(1, DISTRICTS);
        write!(out, "stocklevel {w} {d} {}", words.random(10, 20)).unwrap();
    }
    out.push('\n');
}

// The mix, and the words that are behind it.
pub fn mix(scale: Scale, count: u64, start: u64) -> (String, Words) {
    let mut words = Words::new(start);
    let mut out = String::new();
    for place in 1..=count {
        push_place(&mut out, &mut words, scale, place);
    }
    (out, words)
}

// The order, drawn behind the mix.
pub fn order(words: &mut Words, count: u64) -> Vec<usize> {
    (0..MENTIONS * count).map(|j| count.min(1 + j / MENTIONS + words.random(0, 7)) as usize).collect()
}
