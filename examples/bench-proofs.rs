//! The checker of proofs once more, in plain Rust and without any proof: what `bench-proofs` compares with.
//!
//! Its input has the lines of `crates/acc_cases` of the kind `search`, of which it answers `proves`, `certificate` and `next`.
use std::collections::BTreeMap;
use std::io::{BufRead, BufWriter, Write};

// ---- JSON

enum Json {
    Array(Vec<Json>),
    Number(u64),
    Text(String),
}

struct Reader<'a> {
    bytes: &'a [u8],
    at: usize,
}

impl Reader<'_> {
    fn skip(&mut self) {
        while self.bytes.get(self.at).is_some_and(u8::is_ascii_whitespace) {
            self.at += 1;
        }
    }

    fn take(&mut self, byte: u8) -> Option<()> {
        self.skip();
        (self.bytes.get(self.at) == Some(&byte)).then(|| self.at += 1)
    }

    fn array(&mut self) -> Option<Json> {
        self.take(b'[')?;
        let mut items = Vec::new();
        if self.take(b']').is_some() {
            return Some(Json::Array(items));
        }
        loop {
            items.push(self.value()?);
            if self.take(b']').is_some() {
                return Some(Json::Array(items));
            }
            self.take(b',')?;
        }
    }

    fn text(&mut self) -> Option<Json> {
        self.take(b'"')?;
        let from = self.at;
        while *self.bytes.get(self.at)? != b'"' {
            self.at += 1;
        }
        self.at += 1;
        let text = std::str::from_utf8(&self.bytes[from..self.at - 1]).ok()?;
        Some(Json::Text(text.to_string()))
    }

    fn number(&mut self) -> Option<Json> {
        let from = self.at;
        while self.bytes.get(self.at).is_some_and(u8::is_ascii_digit) {
            self.at += 1;
        }
        let digits = std::str::from_utf8(&self.bytes[from..self.at]).ok()?;
        Some(Json::Number(digits.parse().ok()?))
    }

    fn value(&mut self) -> Option<Json> {
        self.skip();
        match self.bytes.get(self.at)? {
            b'[' => self.array(),
            b'"' => self.text(),
            _ => self.number(),
        }
    }
}

fn json(text: &str) -> Option<Json> {
    let mut reader = Reader {
        bytes: text.as_bytes(),
        at: 0,
    };
    let value = reader.value()?;
    reader.skip();
    (reader.at == text.len()).then_some(value)
}

impl Json {
    fn items(&self) -> Option<&[Json]> {
        match self {
            Json::Array(items) => Some(items),
            _ => None,
        }
    }

    fn word(&self) -> Option<&str> {
        match self {
            Json::Text(text) => Some(text),
            _ => None,
        }
    }

    fn index(&self) -> Option<u32> {
        match self {
            Json::Number(n) => u32::try_from(*n).ok(),
            _ => None,
        }
    }

    /// A number within 2^120 of 0, spelled in the one way.
    fn wide(&self) -> Option<i128> {
        let text = self.word()?;
        let n: i128 = text.parse().ok()?;
        (fits(n) && n.to_string() == text).then_some(n)
    }

    fn narrow(&self) -> Option<i64> {
        let text = self.word()?;
        let n: i64 = text.parse().ok()?;
        (n.to_string() == text).then_some(n)
    }

    fn list<A>(&self, item: fn(&Json) -> Option<A>) -> Option<Vec<A>> {
        self.items()?.iter().map(item).collect()
    }

    fn pair<A, B>(&self, a: fn(&Json) -> Option<A>, b: fn(&Json) -> Option<B>) -> Option<(A, B)> {
        let [x, y] = self.items()? else { return None };
        Some((a(x)?, b(y)?))
    }
}

// ---- what is read

#[derive(Clone, PartialEq, Eq, PartialOrd, Ord)]
struct Lin {
    coeffs: Vec<(u32, i64)>,
    constant: i64,
}

#[derive(Clone, PartialEq, Eq, PartialOrd, Ord)]
enum Atom {
    One,
    Var(u32),
    Has(u32, Vec<Lin>),
    Col(u32, Vec<Lin>, u32),
    Count(u32, Vec<Lin>),
    Sum(u32, Vec<Lin>, u32),
}

#[derive(Clone, PartialEq, Eq, PartialOrd, Ord)]
struct Unknown {
    under: Vec<Lin>,
    atom: Atom,
}

#[derive(Clone)]
struct Form {
    terms: Vec<(Unknown, i128)>,
    constant: i128,
}

#[derive(Clone)]
struct Rel {
    form: Form,
    equal: bool,
}

struct Clause {
    vars: u32,
    guards: Vec<Rel>,
    rel: Rel,
}

struct Sequent {
    rule: u32,
    vars: u32,
    ty: u32,
    hyps: Vec<Clause>,
    rels: Vec<Rel>,
    goal: Form,
}

struct Design {
    tables: Vec<(u32, u32)>,
    locals: Vec<u32>,
}

type Mults = Vec<(u32, i128)>;

enum Schema {
    Has(u32, Vec<Lin>),
    Count(u32, Vec<Lin>),
    Front(u32, Vec<Lin>, u32),
    Same(Unknown, Unknown),
    NoCol(u32, Vec<Lin>, u32),
    NoSum(u32, Vec<Lin>, u32),
    OneCount(u32, Vec<Lin>),
    OneSum(u32, Vec<Lin>, u32),
    Opened(Unknown),
    Shut(Unknown, u32, u32),
    Empty(Unknown),
    Fresh(u32, Vec<Lin>),
}

enum Node {
    Split(Form),
    Inst(u32, Vec<Lin>, Vec<Mults>),
    Axiom(Schema, Vec<Mults>),
    Leaf(Mults),
}

fn lin(j: &Json) -> Option<Lin> {
    let (coeffs, constant) = j.pair(
        |c| c.list(|p| p.pair(Json::index, Json::narrow)),
        Json::narrow,
    )?;
    Some(Lin { coeffs, constant })
}

fn lins(j: &Json) -> Option<Vec<Lin>> {
    j.list(lin)
}

fn atom(j: &Json) -> Option<Atom> {
    let items = j.items()?;
    Some(match (items.first()?.word()?, &items[1..]) {
        ("one", []) => Atom::One,
        ("var", [x]) => Atom::Var(x.index()?),
        ("has", [t, k]) => Atom::Has(t.index()?, lins(k)?),
        ("col", [t, k, c]) => Atom::Col(t.index()?, lins(k)?, c.index()?),
        ("count", [t, k]) => Atom::Count(t.index()?, lins(k)?),
        ("sum", [t, k, c]) => Atom::Sum(t.index()?, lins(k)?, c.index()?),
        _ => return None,
    })
}

fn unknown(j: &Json) -> Option<Unknown> {
    let (under, atom) = j.pair(lins, atom)?;
    Some(Unknown { under, atom })
}

fn form(j: &Json) -> Option<Form> {
    let (terms, constant) = j.pair(|t| t.list(|p| p.pair(unknown, Json::wide)), Json::wide)?;
    Some(Form { terms, constant })
}

fn mults(j: &Json) -> Option<Mults> {
    j.list(|p| p.pair(Json::index, Json::wide))
}

fn schema(number: u32, j: &Json) -> Option<Schema> {
    Some(match (number, j.items()?) {
        (1, [t, k]) => Schema::Has(t.index()?, lins(k)?),
        (2, [t, k]) => Schema::Count(t.index()?, lins(k)?),
        (3, [t, k, n]) => Schema::Front(t.index()?, lins(k)?, n.index()?),
        (4, [u, v]) => Schema::Same(unknown(u)?, unknown(v)?),
        (5, [t, k, c]) => Schema::NoCol(t.index()?, lins(k)?, c.index()?),
        (6, [t, k, c]) => Schema::NoSum(t.index()?, lins(k)?, c.index()?),
        (7, [t, k]) => Schema::OneCount(t.index()?, lins(k)?),
        (8, [t, k, c]) => Schema::OneSum(t.index()?, lins(k)?, c.index()?),
        (9, [u]) => Schema::Opened(unknown(u)?),
        (10, [u, n, side]) => Schema::Shut(unknown(u)?, n.index()?, side.index()?),
        (11, [u]) => Schema::Empty(unknown(u)?),
        (12, [t, k]) => Schema::Fresh(t.index()?, lins(k)?),
        _ => return None,
    })
}

fn node(j: &Json) -> Option<Node> {
    let items = j.items()?;
    Some(match (items.first()?.word()?, &items[1..]) {
        ("split", [f]) => Node::Split(form(f)?),
        ("inst", [h, own, shown]) => Node::Inst(h.index()?, lins(own)?, shown.list(mults)?),
        ("axiom", [n, args, shown]) => Node::Axiom(schema(n.index()?, args)?, shown.list(mults)?),
        ("leaf", [m]) => Node::Leaf(mults(m)?),
        _ => return None,
    })
}

fn certificate(text: &str) -> Option<Vec<Vec<Node>>> {
    json(text)?.list(|proof| proof.list(node))
}

fn rel(j: &Json) -> Option<Rel> {
    let (form, equal) = j.pair(form, Json::index)?;
    Some(Rel {
        form,
        equal: equal == 1,
    })
}

fn clause(j: &Json) -> Option<Clause> {
    let [vars, guards, of] = j.items()? else {
        return None;
    };
    Some(Clause {
        vars: vars.index()?,
        guards: guards.list(rel)?,
        rel: rel(of)?,
    })
}

fn sequent(text: &str) -> Option<Sequent> {
    let whole = json(text)?;
    let [numbers, hyps, known] = whole.items()? else {
        return None;
    };
    let [rule, vars, ty] = numbers.items()? else {
        return None;
    };
    let (rels, goal) = known.pair(|r| r.list(rel), form)?;
    Some(Sequent {
        rule: rule.index()?,
        vars: vars.index()?,
        ty: ty.index()?,
        hyps: hyps.list(clause)?,
        rels,
        goal,
    })
}

fn design(text: &str) -> Option<Design> {
    let (tables, locals) = json(text)?.pair(
        |t| t.list(|p| p.pair(Json::index, Json::index)),
        |l| l.list(Json::index),
    )?;
    Some(Design { tables, locals })
}

// ---- numbers and forms

/// A number is too large.
struct Wide;

fn fits(n: i128) -> bool {
    n.unsigned_abs() <= 1 << 120
}

fn bounded(n: Option<i128>) -> Result<i128, Wide> {
    n.filter(|n| fits(*n)).ok_or(Wide)
}

/// The sums of unknowns, with their places in the order in which the unknowns come.
#[derive(Default)]
struct Sums<'a> {
    sums: Vec<(&'a Unknown, i128)>,
    places: BTreeMap<&'a Unknown, usize>,
}

impl<'a> Sums<'a> {
    fn add(&mut self, unknown: &'a Unknown, n: i128) -> Result<(), Wide> {
        let place = *self.places.entry(unknown).or_insert(self.sums.len());
        if place == self.sums.len() {
            self.sums.push((unknown, 0));
        }
        let sum = &mut self.sums[place].1;
        *sum = bounded(sum.checked_add(n))?;
        Ok(())
    }
}

fn plus(a: &Form, by: i128, b: &Form) -> Result<Form, Wide> {
    let product = bounded(by.checked_mul(b.constant))?;
    let constant = bounded(a.constant.checked_add(product))?;
    let mut sums = Sums::default();
    for (unknown, n) in &a.terms {
        sums.add(unknown, *n)?;
    }
    for (unknown, n) in &b.terms {
        sums.add(unknown, bounded(by.checked_mul(*n))?)?;
    }
    let left = sums.sums.into_iter().filter(|(_, n)| *n != 0);
    Ok(Form {
        terms: left.map(|(u, n)| (u.clone(), n)).collect(),
        constant,
    })
}

fn number(constant: i128) -> Form {
    Form {
        terms: Vec::new(),
        constant,
    }
}

fn below(form: &Form) -> Result<Rel, Wide> {
    Ok(Rel {
        form: plus(form, 1, &number(1))?,
        equal: false,
    })
}

fn above(form: &Form) -> Result<Rel, Wide> {
    Ok(Rel {
        form: plus(&number(1), -1, form)?,
        equal: false,
    })
}

// ---- hypotheses at linear values

fn add_coefficient(coeffs: &mut Vec<(u32, i64)>, x: u32, n: i64) -> Result<(), Wide> {
    match coeffs.iter_mut().find(|c| c.0 == x) {
        Some(c) => c.1 = c.1.checked_add(n).ok_or(Wide)?,
        None => coeffs.push((x, n)),
    }
    Ok(())
}

fn value_for(n: u32, own: &[Lin], x: u32) -> Option<&Lin> {
    own.get(x.checked_sub(n)? as usize)
}

fn lin_at(n: u32, own: &[Lin], l: &Lin) -> Result<Lin, Wide> {
    let mut sum = Lin {
        coeffs: Vec::new(),
        constant: 0,
    };
    for (x, c) in &l.coeffs {
        let Some(value) = value_for(n, own, *x) else {
            add_coefficient(&mut sum.coeffs, *x, *c)?;
            continue;
        };
        let product = c.checked_mul(value.constant).ok_or(Wide)?;
        sum.constant = sum.constant.checked_add(product).ok_or(Wide)?;
        for (y, d) in &value.coeffs {
            add_coefficient(&mut sum.coeffs, *y, c.checked_mul(*d).ok_or(Wide)?)?;
        }
    }
    sum.constant = sum.constant.checked_add(l.constant).ok_or(Wide)?;
    sum.coeffs.retain(|c| c.1 != 0);
    Ok(sum)
}

fn lins_at(n: u32, own: &[Lin], ls: &[Lin]) -> Result<Vec<Lin>, Wide> {
    ls.iter().map(|l| lin_at(n, own, l)).collect()
}

fn atom_at(n: u32, own: &[Lin], atom: &Atom) -> Result<Atom, Wide> {
    Ok(match atom {
        Atom::One => Atom::One,
        Atom::Var(x) => Atom::Var(*x),
        Atom::Has(t, k) => Atom::Has(*t, lins_at(n, own, k)?),
        Atom::Col(t, k, c) => Atom::Col(*t, lins_at(n, own, k)?, *c),
        Atom::Count(t, p) => Atom::Count(*t, lins_at(n, own, p)?),
        Atom::Sum(t, p, c) => Atom::Sum(*t, lins_at(n, own, p)?, *c),
    })
}

fn is_bare_one(unknown: &Unknown) -> bool {
    unknown.under.is_empty() && unknown.atom == Atom::One
}

fn add_summand(form: &mut Form, unknown: Unknown, n: i128) -> Result<(), Wide> {
    if is_bare_one(&unknown) {
        form.constant = bounded(form.constant.checked_add(n))?;
    } else {
        form.terms.push((unknown, n));
    }
    Ok(())
}

fn add_term_at(
    form: &mut Form,
    n: u32,
    own: &[Lin],
    unknown: &Unknown,
    m: i128,
) -> Result<(), Wide> {
    let under = lins_at(n, own, &unknown.under)?;
    let value = match unknown.atom {
        Atom::Var(x) => value_for(n, own, x),
        _ => None,
    };
    let Some(value) = value else {
        let atom = atom_at(n, own, &unknown.atom)?;
        return add_summand(form, Unknown { under, atom }, bounded(Some(m))?);
    };
    for (x, c) in &value.coeffs {
        let product = bounded(m.checked_mul(i128::from(*c)))?;
        add_summand(
            form,
            Unknown {
                under: under.clone(),
                atom: Atom::Var(*x),
            },
            product,
        )?;
    }
    let product = bounded(m.checked_mul(i128::from(value.constant)))?;
    add_summand(
        form,
        Unknown {
            under,
            atom: Atom::One,
        },
        product,
    )
}

fn rel_at(n: u32, own: &[Lin], rel: &Rel) -> Result<Rel, Wide> {
    let mut raw = number(rel.form.constant);
    for (unknown, m) in &rel.form.terms {
        add_term_at(&mut raw, n, own, unknown, *m)?;
    }
    Ok(Rel {
        form: plus(&number(0), 1, &raw)?,
        equal: rel.equal,
    })
}

// ---- axioms

struct Need {
    facts: Vec<Rel>,
    added: Vec<Rel>,
}

fn plain(atom: Atom) -> Unknown {
    Unknown {
        under: Vec::new(),
        atom,
    }
}

fn at_most(form: Form) -> Rel {
    Rel { form, equal: false }
}

fn is_zero(form: Form) -> Rel {
    Rel { form, equal: true }
}

fn one_term(u: Unknown, n: i128, constant: i128) -> Form {
    Form {
        terms: vec![(u, n)],
        constant,
    }
}

fn less(u: Unknown, v: Unknown) -> Form {
    Form {
        terms: vec![(u, 1), (v, -1)],
        constant: 0,
    }
}

fn less_atom(u: &Unknown) -> Form {
    match u.atom {
        Atom::One => one_term(u.clone(), 1, -1),
        _ => less(u.clone(), plain(u.atom.clone())),
    }
}

fn variables(l: &Lin, by: i128) -> impl Iterator<Item = (Unknown, i128)> + '_ {
    l.coeffs
        .iter()
        .map(move |(x, n)| (plain(Atom::Var(*x)), by * i128::from(*n)))
}

fn scaled(l: &Lin, by: i128, constant: i128) -> Form {
    Form {
        terms: variables(l, by).collect(),
        constant: by * i128::from(l.constant) + constant,
    }
}

fn difference(a: &Lin, b: &Lin) -> Form {
    Form {
        terms: variables(a, 1).chain(variables(b, -1)).collect(),
        constant: i128::from(a.constant) - i128::from(b.constant),
    }
}

fn table_of(atom: &Atom) -> Option<u32> {
    match atom {
        Atom::One | Atom::Var(_) => None,
        Atom::Has(t, _) | Atom::Col(t, ..) | Atom::Count(t, _) | Atom::Sum(t, ..) => Some(*t),
    }
}

fn key_of(atom: &Atom) -> &[Lin] {
    match atom {
        Atom::One | Atom::Var(_) => &[],
        Atom::Has(_, k) | Atom::Col(_, k, _) | Atom::Count(_, k) | Atom::Sum(_, k, _) => k,
    }
}

fn alike(a: &Atom, b: &Atom) -> bool {
    let same = match (a, b) {
        (Atom::Has(t, _), Atom::Has(u, _)) | (Atom::Count(t, _), Atom::Count(u, _)) => t == u,
        (Atom::Col(t, _, c), Atom::Col(u, _, e)) | (Atom::Sum(t, _, c), Atom::Sum(u, _, e)) => {
            t == u && c == e
        }
        _ => false,
    };
    same && key_of(a).len() == key_of(b).len()
}

impl Design {
    fn has(&self, t: u32) -> bool {
        (t as usize) < self.tables.len()
    }

    fn is_whole(&self, t: u32, k: &[Lin]) -> bool {
        self.tables
            .get(t as usize)
            .is_some_and(|table| table.0 as usize == k.len())
    }

    fn is_private(&self, t: u32) -> bool {
        self.tables
            .get(t as usize)
            .is_some_and(|table| table.1 == 1)
    }

    fn is_table_atom(&self, atom: &Atom) -> bool {
        table_of(atom).is_some_and(|t| self.has(t))
    }

    fn ends_in_own(&self, q: &Sequent, k: &[Lin]) -> bool {
        let locals =
            q.ty.checked_sub(1)
                .and_then(|ty| self.locals.get(ty as usize));
        match (locals, k.last()) {
            (Some(own), Some(last)) => last.coeffs == [(*own, 1)] && last.constant == 0,
            _ => false,
        }
    }
}

fn need(facts: Vec<Rel>, added: Vec<Rel>) -> Option<Need> {
    Some(Need { facts, added })
}

fn need_of(d: &Design, q: &Sequent, schema: &Schema) -> Option<Need> {
    let has = |t: &u32, k: &Vec<Lin>| plain(Atom::Has(*t, k.clone()));
    let col = |t: &u32, k: &Vec<Lin>, c: &u32| plain(Atom::Col(*t, k.clone(), *c));
    let count = |t: &u32, k: &[Lin]| plain(Atom::Count(*t, k.to_vec()));
    let sum = |t: &u32, k: &Vec<Lin>, c: &u32| plain(Atom::Sum(*t, k.clone(), *c));
    let zero = |u: Unknown| vec![is_zero(one_term(u, 1, 0))];
    match schema {
        Schema::Has(t, k) if d.has(*t) => need(
            vec![],
            vec![
                at_most(one_term(has(t, k), -1, 0)),
                at_most(one_term(has(t, k), 1, -1)),
            ],
        ),
        Schema::Count(t, p) if d.has(*t) => {
            need(vec![], vec![at_most(one_term(count(t, p), -1, 0))])
        }
        Schema::Front(t, k, n) if d.has(*t) && *n as usize <= k.len() => need(
            vec![],
            vec![at_most(less(has(t, k), count(t, &k[..*n as usize])))],
        ),
        Schema::Same(u, v)
            if d.is_table_atom(&u.atom)
                && alike(&u.atom, &v.atom)
                && u.under.is_empty()
                && v.under.is_empty() =>
        {
            let keys = key_of(&u.atom).iter().zip(key_of(&v.atom));
            need(
                keys.map(|(a, b)| is_zero(difference(a, b))).collect(),
                vec![is_zero(less(u.clone(), v.clone()))],
            )
        }
        Schema::NoCol(t, k, c) if d.has(*t) => {
            need(vec![at_most(one_term(has(t, k), 1, 0))], zero(col(t, k, c)))
        }
        Schema::NoSum(t, p, c) if d.has(*t) => need(
            vec![at_most(one_term(count(t, p), 1, 0))],
            zero(sum(t, p, c)),
        ),
        Schema::OneCount(t, k) if d.is_whole(*t, k) => {
            need(vec![], vec![is_zero(less(count(t, k), has(t, k)))])
        }
        Schema::OneSum(t, k, c) if d.is_whole(*t, k) => {
            need(vec![], vec![is_zero(less(sum(t, k, c), col(t, k, c)))])
        }
        Schema::Opened(u) if !u.under.is_empty() => need(
            u.under.iter().map(|l| is_zero(scaled(l, 1, 0))).collect(),
            vec![is_zero(less_atom(u))],
        ),
        Schema::Shut(u, n, side) => {
            let l = u.under.get(*n as usize)?;
            let off = match side {
                0 => scaled(l, 1, 1),
                1 => scaled(l, -1, 1),
                _ => return None,
            };
            need(vec![at_most(off)], zero(u.clone()))
        }
        Schema::Empty(u) if q.rule == 8 && d.is_table_atom(&u.atom) => {
            need(vec![], zero(u.clone()))
        }
        Schema::Fresh(t, k)
            if q.rule == 0 && d.is_private(*t) && d.is_whole(*t, k) && d.ends_in_own(q, k) =>
        {
            need(vec![], zero(has(t, k)))
        }
        _ => None,
    }
}

// ---- proofs

/// What is known: the relations of the sequent, and those behind them.
struct Known<'a> {
    first: &'a [Rel],
    more: Vec<Rel>,
}

impl Known<'_> {
    fn at(&self, place: usize) -> Option<&Rel> {
        match self.first.get(place) {
            Some(rel) => Some(rel),
            None => self.more.get(place - self.first.len()),
        }
    }

    /// Whether multipliers refute what is known.
    fn refuted(&self, m: &Mults) -> Result<bool, Wide> {
        let rise = m.windows(2).all(|w| w[0].0 < w[1].0);
        if !rise
            || m.last()
                .is_some_and(|(place, _)| self.at(*place as usize).is_none())
        {
            return Ok(false);
        }
        let mut sums = Sums::default();
        let mut constant = 0i128;
        let mut signs = true;
        for (place, by) in m {
            let Some(rel) = self.at(*place as usize) else {
                return Ok(false);
            };
            signs &= rel.equal || *by >= 0;
            for (unknown, n) in &rel.form.terms {
                let product = bounded(by.checked_mul(*n))?;
                if is_bare_one(unknown) {
                    constant = bounded(constant.checked_add(product))?;
                } else {
                    sums.add(unknown, product)?;
                }
            }
            let product = bounded(by.checked_mul(rel.form.constant))?;
            constant = bounded(constant.checked_add(product))?;
        }
        Ok(signs && constant > 0 && sums.sums.iter().all(|(_, n)| *n == 0))
    }

    /// Whether the next multipliers refute what is known and the contrary of a fact.
    fn excluded<'m>(
        &mut self,
        contrary: Rel,
        shown: &'m [Mults],
    ) -> Result<Option<&'m [Mults]>, Wide> {
        let Some((m, rest)) = shown.split_first() else {
            return Ok(None);
        };
        self.more.push(contrary);
        let yes = self.refuted(m);
        self.more.pop();
        Ok(yes?.then_some(rest))
    }

    fn shown<'m>(&mut self, fact: &Rel, shown: &'m [Mults]) -> Result<Option<&'m [Mults]>, Wide> {
        match self.excluded(above(&fact.form)?, shown)? {
            Some(rest) if fact.equal => self.excluded(below(&fact.form)?, rest),
            rest => Ok(rest),
        }
    }
}

type Branches = Vec<Vec<Rel>>;

fn instance(
    q: &Sequent,
    known: &mut Known,
    h: u32,
    own: &[Lin],
    shown: &[Mults],
) -> Result<Option<Branches>, Wide> {
    let Some(clause) = q.hyps.get(h as usize) else {
        return Ok(None);
    };
    if own.len() != clause.vars as usize {
        return Ok(None);
    }
    let mut left = shown;
    for guard in &clause.guards {
        match known.shown(&rel_at(q.vars, own, guard)?, left)? {
            Some(rest) => left = rest,
            None => return Ok(None),
        }
    }
    if !left.is_empty() {
        return Ok(None);
    }
    Ok(Some(vec![vec![rel_at(q.vars, own, &clause.rel)?]]))
}

fn axiom(
    d: &Design,
    q: &Sequent,
    known: &mut Known,
    schema: &Schema,
    shown: &[Mults],
) -> Result<Option<Branches>, Wide> {
    let Some(need) = need_of(d, q, schema) else {
        return Ok(None);
    };
    let mut left = shown;
    for fact in &need.facts {
        match known.shown(fact, left)? {
            Some(rest) => left = rest,
            None => return Ok(None),
        }
    }
    Ok(left.is_empty().then(|| vec![need.added]))
}

fn branches(
    d: &Design,
    q: &Sequent,
    known: &mut Known,
    node: &Node,
) -> Result<Option<Branches>, Wide> {
    match node {
        Node::Split(form) => {
            let (low, high) = (below(form)?, above(form)?);
            Ok(Some(vec![
                vec![low],
                vec![is_zero(form.clone())],
                vec![high],
            ]))
        }
        Node::Inst(h, own, shown) => instance(q, known, *h, own, shown),
        Node::Axiom(schema, shown) => axiom(d, q, known, schema, shown),
        Node::Leaf(m) => Ok(known.refuted(m)?.then(Vec::new)),
    }
}

/// Whether nodes are a proof of a sequent; the error is the number of the node where a number is too large.
fn proves(d: &Design, q: &Sequent, nodes: &[Node]) -> Result<bool, usize> {
    let mut known = Known {
        first: &q.rels,
        more: Vec::new(),
    };
    let mut open = vec![(0, vec![above(&q.goal).map_err(|Wide| 0usize)?])];
    for (number, node) in nodes.iter().enumerate() {
        let Some((length, added)) = open.pop() else {
            return Ok(false);
        };
        known.more.truncate(length);
        known.more.extend(added);
        match branches(d, q, &mut known, node) {
            Err(Wide) => return Err(number),
            Ok(None) => return Ok(false),
            Ok(Some(list)) => open.extend(
                list.into_iter()
                    .rev()
                    .map(|added| (known.more.len(), added)),
            ),
        }
    }
    Ok(open.is_empty())
}

// ---- lines

fn judged(question: &Option<(Design, Sequent)>, proof: Option<&Vec<Node>>) -> String {
    let Some((d, q)) = question else {
        return "no design or no sequent".to_string();
    };
    match proof.map(|nodes| proves(d, q, nodes)) {
        Some(Ok(true)) => "a proof".to_string(),
        Some(Ok(false)) => "no proof".to_string(),
        Some(Err(node)) => format!("wide at {node}"),
        None => "no proof left".to_string(),
    }
}

#[derive(Default)]
struct Given {
    design: String,
    sequent: String,
    cert: Option<Vec<Vec<Node>>>,
    asked: usize,
}

impl Given {
    fn question(&self) -> Option<(Design, Sequent)> {
        Some((design(&self.design)?, sequent(&self.sequent)?))
    }

    fn next(&mut self) -> String {
        self.asked += 1;
        let proof = self.cert.as_ref().and_then(|cert| cert.get(self.asked - 1));
        judged(&self.question(), proof)
    }

    fn answer(&mut self, verb: &str, text: &str) -> Option<String> {
        match verb {
            "design" => self.design = text.to_string(),
            "sequent" => self.sequent = text.to_string(),
            "certificate" => {
                self.cert = certificate(text);
                self.asked = 0;
                return Some(match &self.cert {
                    Some(cert) => format!("{} proofs", cert.len()),
                    None => "no certificate".to_string(),
                });
            }
            "next" => return Some(self.next()),
            "proves" => {
                return Some(match certificate(text) {
                    Some(cert) => judged(&self.question(), cert.first()),
                    None => "no certificate".to_string(),
                })
            }
            _ => {}
        }
        None
    }
}

fn main() -> std::io::Result<()> {
    let mut given = Given::default();
    let mut out = BufWriter::new(std::io::stdout().lock());
    for line in std::io::stdin().lock().lines() {
        let line = line?;
        let question = line.strip_prefix("search ").unwrap_or(&line);
        let (verb, text) = question.split_once(' ').unwrap_or((question, ""));
        match given.answer(verb, text) {
            Some(said) => writeln!(out, "{line} -> {said}")?,
            None => writeln!(out, "{line}")?,
        }
    }
    out.flush()
}
