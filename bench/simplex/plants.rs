// A plant file in plain Rust, and the program that its states are condensed to.
use crate::fractions::{Fast, Frac, Rules, Wide, euclid};
use std::collections::BTreeMap;

pub const ZERO: Frac = Frac { num: 0, den: 1 };
pub type Matrix = Vec<Vec<Frac>>;

// ---- numbers
pub fn negative(x: &Frac) -> Frac {
    Frac { num: -x.num, den: x.den }
}

fn dot(x: &[Frac], y: &[Frac]) -> Result<Frac, Wide> {
    x.iter().zip(y).try_fold(ZERO, |sum, (x, y)| if x.num == 0 || y.num == 0 { Ok(sum) } else { Fast::add(&sum, &Fast::mul(x, y)?) })
}

fn columns(m: &Matrix) -> Matrix {
    let count = m.first().map_or(0, Vec::len);
    (0..count).map(|j| m.iter().map(|row| row[j]).collect()).collect()
}

pub fn product(m: &Matrix, k: &Matrix) -> Result<Matrix, Wide> {
    let columns = columns(k);
    m.iter().map(|row| columns.iter().map(|column| dot(row, column)).collect()).collect()
}

fn add(entry: &mut Frac, x: &Frac) -> Result<(), Wide> {
    *entry = Fast::add(entry, x)?;
    Ok(())
}

/// Adds m to the block that begins at this row and this column.
fn add_block(out: &mut Matrix, row: usize, column: usize, m: &Matrix) -> Result<(), Wide> {
    let lines = out[row..].iter_mut().zip(m);
    lines.flat_map(|(line, more)| line[column..].iter_mut().zip(more)).try_for_each(|(entry, x)| add(entry, x))
}

fn zeros(rows: usize, columns: usize) -> Matrix {
    vec![vec![ZERO; columns]; rows]
}

// ---- the text
#[derive(Debug)]
enum Json {
    Word(String),
    List(Vec<Json>),
    Object(BTreeMap<String, Json>),
}

struct Text<'a> {
    rest: &'a str,
}

impl Text<'_> {
    fn takes(&mut self, mark: char) -> bool {
        self.rest = self.rest.trim_start();
        let found = self.rest.strip_prefix(mark);
        self.rest = found.unwrap_or(self.rest);
        found.is_some()
    }

    fn word(&mut self) -> String {
        let quoted = self.takes('"');
        let ends = |c: char| if quoted { c == '"' } else { ",]} \t\r\n".contains(c) };
        let (word, rest) = self.rest.split_at(self.rest.find(ends).expect("the end of a word"));
        self.rest = if quoted { &rest[1..] } else { rest };
        word.to_string()
    }

    /// What stands up to the closing mark, with commas between.
    fn items(&mut self, close: char, mut item: impl FnMut(&mut Self)) {
        while !self.takes(close) {
            item(self);
            self.takes(',');
        }
    }

    fn value(&mut self) -> Json {
        if self.takes('[') {
            let mut list = Vec::new();
            self.items(']', |text| list.push(text.value()));
            return Json::List(list);
        }
        if self.takes('{') {
            let mut object = BTreeMap::new();
            self.items('}', |text| {
                let key = text.word();
                assert!(text.takes(':'), "a colon behind {key}");
                object.insert(key, text.value());
            });
            return Json::Object(object);
        }
        Json::Word(self.word())
    }
}

fn number(text: &str) -> Frac {
    if let Some((num, den)) = text.split_once('/') {
        let (num, den) = (number(num), number(den));
        return Fast::new(num.num, den.num);
    }
    let (front, back) = text.split_once('.').unwrap_or((text, ""));
    let (num, den): (i128, i128) = (format!("{front}{back}").parse().expect("a number"), 10i128.pow(back.len() as u32));
    let g = euclid(num.unsigned_abs(), den as u128) as i128;
    Frac { num: num / g, den: den / g }
}

impl Json {
    fn get(&self, key: &str) -> Option<&Json> {
        if let Json::Object(object) = self { object.get(key) } else { None }
    }

    fn needed(&self, key: &str) -> &Json {
        self.get(key).unwrap_or_else(|| panic!("the key {key}"))
    }

    fn list(&self) -> &[Json] {
        if let Json::List(list) = self { list } else { panic!("a list instead of {self:?}") }
    }

    fn number(&self) -> Frac {
        if let Json::Word(word) = self { number(word) } else { panic!("a number instead of {self:?}") }
    }

    fn vector(&self) -> Vec<Frac> {
        self.list().iter().map(Json::number).collect()
    }

    fn matrix(&self) -> Matrix {
        self.list().iter().map(Json::vector).collect()
    }

    fn vector_at(&self, key: &str, length: usize) -> Vec<Frac> {
        self.get(key).map_or(vec![ZERO; length], Json::vector)
    }
}

// ---- the plant
struct Limit {
    x: Vec<Frac>,
    u: Vec<Frac>,
    max: Frac,
}

pub struct Plant {
    horizon: usize,
    a: Matrix,
    b: Matrix,
    q: Matrix,
    r: Matrix,
    last: Matrix,
    drift: Vec<Frac>,
    xgoal: Vec<Frac>,
    ugoal: Vec<Frac>,
    rows: Vec<Limit>,
    terminal: Vec<Limit>,
    lows: Vec<Frac>,
    steps: Vec<Frac>,
    counts: Vec<i128>,
}

fn limits(value: Option<&Json>, n: usize, p: usize) -> Vec<Limit> {
    let rows = value.map_or(&[][..], Json::list);
    rows.iter().map(|row| Limit { x: row.vector_at("x", n), u: row.vector_at("u", p), max: row.needed("max").number() }).collect()
}

impl Plant {
    /// The plant of a file; what stands behind a line `states` is left out.
    pub fn read(text: &str) -> Plant {
        let value = Text { rest: text.split("\nstates\n").next().unwrap_or(text) }.value();
        let (a, b) = (value.needed("A").matrix(), value.needed("B").matrix());
        let (n, p) = (a.len(), b[0].len());
        let axes = value.needed("grid").list();
        let along = |key: &str| axes.iter().map(|axis| axis.needed(key).number()).collect::<Vec<_>>();
        Plant {
            horizon: value.needed("horizon").number().num as usize,
            a,
            b,
            q: value.needed("Q").matrix(),
            r: value.needed("R").matrix(),
            last: value.needed("P").matrix(),
            drift: value.vector_at("drift", n),
            xgoal: value.vector_at("xgoal", n),
            ugoal: value.vector_at("ugoal", p),
            rows: limits(value.get("rows"), n, p),
            terminal: limits(value.get("terminal"), n, p),
            lows: along("low"),
            steps: along("step"),
            counts: along("count").iter().map(|count| count.num).collect(),
        }
    }
}

// ---- the program
/// `z'h z + 2 z'f c` is least under the rows `g z <= w c`, where c is 1 and the counts t behind it.
pub struct Program {
    pub h: Matrix,
    pub f: Matrix,
    pub g: Matrix,
    pub w: Matrix,
    pub counts: Vec<i128>,
}

/// The state at a step: `x c + z (the moves)`.
struct State {
    x: Matrix,
    z: Matrix,
}

impl Plant {
    fn inputs(&self) -> usize {
        self.b[0].len()
    }

    fn unknowns(&self) -> usize {
        self.inputs() * self.horizon
    }

    fn start(&self) -> State {
        let n = self.a.len();
        let mut x = zeros(n, n + 1);
        for (i, row) in x.iter_mut().enumerate() {
            (row[0], row[i + 1]) = (self.lows[i], self.steps[i]);
        }
        State { x, z: zeros(n, self.unknowns()) }
    }

    fn next(&self, state: &State, k: usize) -> Result<State, Wide> {
        let (mut x, mut z) = (product(&self.a, &state.x)?, product(&self.a, &state.z)?);
        x.iter_mut().zip(&self.drift).try_for_each(|(row, drift)| add(&mut row[0], drift))?;
        add_block(&mut z, 0, k * self.inputs(), &self.b)?;
        Ok(State { x, z })
    }

    fn add_cost(&self, program: &mut Program, state: &State, k: usize) -> Result<(), Wide> {
        let mut distance = state.x.clone();
        distance.iter_mut().zip(&self.xgoal).try_for_each(|(row, goal)| add(&mut row[0], &negative(goal)))?;
        let weighted = product(&columns(&state.z), if k < self.horizon { &self.q } else { &self.last })?;
        add_block(&mut program.h, 0, 0, &product(&weighted, &state.z)?)?;
        add_block(&mut program.f, 0, 0, &product(&weighted, &distance)?)?;
        if k < self.horizon {
            let first = k * self.inputs();
            add_block(&mut program.h, first, first, &self.r)?;
            let goal = self.r.iter().map(|row| Ok(vec![negative(&dot(row, &self.ugoal)?)])).collect::<Result<_, Wide>>()?;
            add_block(&mut program.f, first, 0, &goal)?;
        }
        Ok(())
    }

    fn add_rows(&self, program: &mut Program, state: &State, k: usize) -> Result<(), Wide> {
        for limit in if k < self.horizon { &self.rows } else { &self.terminal } {
            let x = vec![limit.x.clone()];
            let mut g = product(&x, &state.z)?;
            if k < self.horizon {
                add_block(&mut g, 0, k * self.inputs(), &vec![limit.u.clone()])?;
            }
            let mut w: Matrix = vec![product(&x, &state.x)?[0].iter().map(negative).collect()];
            add(&mut w[0][0], &limit.max)?;
            program.g.append(&mut g);
            program.w.append(&mut w);
        }
        Ok(())
    }

    /// The program in the moves of all steps.
    pub fn program(&self) -> Result<Program, Wide> {
        let unknowns = self.unknowns();
        let (h, f) = (zeros(unknowns, unknowns), zeros(unknowns, self.a.len() + 1));
        let mut program = Program { h, f, g: Vec::new(), w: Vec::new(), counts: self.counts.clone() };
        let mut state = self.start();
        for k in 0..=self.horizon {
            self.add_cost(&mut program, &state, k)?;
            self.add_rows(&mut program, &state, k)?;
            state = if k < self.horizon { self.next(&state, k)? } else { state };
        }
        Ok(program)
    }
}
