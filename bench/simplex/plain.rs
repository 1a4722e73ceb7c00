// The run of the simplex method by least numbers in plain Rust, by the rules of the proved one.
use crate::fractions::{Fast, Frac, Rules, Wide};
use std::cmp::Ordering;

pub const ZERO: Frac = Frac { num: 0, den: 1 };
pub const ONE: Frac = Frac { num: 1, den: 1 };
const MINUS_ONE: Frac = Frac { num: -1, den: 1 };

/// The row `a v <= b`, or `a v < b` where it is strict.
#[derive(Clone)]
pub struct Row {
    pub a: Vec<Frac>,
    pub b: Frac,
    pub strict: bool,
}

#[derive(Clone)]
pub struct System {
    pub width: usize,
    pub rows: Vec<Row>,
}

#[derive(PartialEq, Debug)]
pub enum Answer {
    Point(Vec<(Frac, Frac)>),
    Refuted(Vec<Frac>),
    Wide,
}

/// A nonbasic side: its column, and its bound.
struct Free {
    column: usize,
    first: Frac,
    second: Frac,
}

struct Run<'a> {
    system: &'a System,
    /// Row by row, `width` entries each.
    entries: Vec<Frac>,
    row_variables: Vec<usize>,
    column_variables: Vec<usize>,
    /// The column of each nonbasic variable, by its number.
    columns: Vec<Option<usize>>,
    /// The nonbasic sides in the order of their numbers.
    free: Vec<Free>,
    row: Vec<Frac>,
    pivots: u64,
}

fn is_zero(x: &Frac) -> bool {
    x.num == 0
}

fn add_product(s: &Frac, x: &Frac, y: &Frac) -> Result<Frac, Wide> {
    if is_zero(x) || is_zero(y) {
        return Ok(*s);
    }
    let product = Fast::mul(x, y)?;
    if is_zero(s) { Ok(product) } else { Fast::add(s, &product) }
}

fn is_above(value: &(Frac, Frac), bound: &(Frac, Frac)) -> bool {
    match Fast::cmp(&value.0, &bound.0) {
        Ordering::Less => false,
        Ordering::Greater => true,
        Ordering::Equal => Fast::cmp(&value.1, &bound.1).is_gt(),
    }
}

impl<'a> Run<'a> {
    fn new(system: &'a System) -> Self {
        let (width, height) = (system.width, system.rows.len());
        Run {
            system,
            entries: system.rows.iter().flat_map(|row| row.a.iter().copied()).collect(),
            row_variables: (width..width + height).collect(),
            column_variables: (0..width).collect(),
            columns: (0..width).map(Some).chain((0..height).map(|_| None)).collect(),
            free: Vec::with_capacity(width),
            row: vec![ZERO; width],
            pivots: 0,
        }
    }

    fn bound(&self, side: usize) -> (Frac, Frac) {
        let row = &self.system.rows[side - self.system.width];
        (row.b, if row.strict { MINUS_ONE } else { ZERO })
    }

    fn line(&self, r: usize) -> &[Frac] {
        &self.entries[r * self.system.width..(r + 1) * self.system.width]
    }

    fn list_free(&mut self) {
        self.free.clear();
        for side in self.system.width..self.columns.len() {
            if let Some(column) = self.columns[side] {
                let (first, second) = self.bound(side);
                self.free.push(Free { column, first, second });
            }
        }
    }

    fn value(&self, r: usize) -> Result<(Frac, Frac), Wide> {
        let line = self.line(r);
        let mut value = (ZERO, ZERO);
        for side in &self.free {
            let k = &line[side.column];
            value.0 = add_product(&value.0, k, &side.first)?;
            value.1 = add_product(&value.1, k, &side.second)?;
        }
        Ok(value)
    }

    /// The row whose variable leaves. All values are formed.
    fn leaving(&self) -> Result<Option<usize>, Wide> {
        let mut out: Option<usize> = None;
        for (r, &x) in self.row_variables.iter().enumerate() {
            let value = self.value(r)?;
            if x >= self.system.width && is_above(&value, &self.bound(x)) && out.is_none_or(|s| x < self.row_variables[s]) {
                out = Some(r);
            }
        }
        Ok(out)
    }

    /// The column whose variable enters.
    fn entering(&self, r: usize) -> Option<usize> {
        let line = self.line(r);
        let may_enter = |c: &usize| {
            if self.column_variables[*c] < self.system.width { line[*c].num != 0 } else { line[*c].num > 0 }
        };
        (0..self.system.width).filter(may_enter).min_by_key(|c| self.column_variables[*c])
    }

    fn own_row(&mut self, l: usize, e: usize) -> Result<(), Wide> {
        let width = self.system.width;
        let pivot = self.entries[l * width + e];
        let sign = if pivot.num < 0 { -1 } else { 1 };
        let inverse = Frac { num: sign * pivot.den, den: pivot.num.abs() };
        for c in 0..width {
            let old = self.entries[l * width + c];
            self.row[c] = if c == e {
                inverse
            } else if is_zero(&old) {
                ZERO
            } else {
                Fast::mul(&Frac { num: -old.num, den: old.den }, &inverse)?
            };
        }
        Ok(())
    }

    fn pivot(&mut self, l: usize, e: usize) -> Result<(), Wide> {
        let width = self.system.width;
        self.own_row(l, e)?;
        for (r, line) in self.entries.chunks_exact_mut(width).enumerate() {
            let k = line[e];
            if r == l || is_zero(&k) {
                continue;
            }
            for (c, (entry, own)) in line.iter_mut().zip(&self.row).enumerate() {
                *entry = if c == e { Fast::mul(&k, own)? } else { add_product(entry, &k, own)? };
            }
        }
        self.entries[l * width..(l + 1) * width].copy_from_slice(&self.row);
        let (out, into) = (self.row_variables[l], self.column_variables[e]);
        self.row_variables[l] = into;
        self.column_variables[e] = out;
        self.columns[into] = None;
        self.columns[out] = Some(e);
        self.pivots += 1;
        Ok(())
    }

    fn point(&self) -> Result<Answer, Wide> {
        let mut point = vec![(ZERO, ZERO); self.system.width];
        for (r, &x) in self.row_variables.iter().enumerate() {
            if x < self.system.width {
                point[x] = self.value(r)?;
            }
        }
        Ok(Answer::Point(point))
    }

    fn multipliers(&self, l: usize) -> Answer {
        let mut multipliers = vec![ZERO; self.system.rows.len()];
        for (c, &y) in self.column_variables.iter().enumerate() {
            if y >= self.system.width {
                let k = self.line(l)[c];
                multipliers[y - self.system.width] = Frac { num: -k.num, den: k.den };
            }
        }
        multipliers[self.row_variables[l] - self.system.width] = ONE;
        Answer::Refuted(multipliers)
    }

    fn end(&mut self) -> Result<Answer, Wide> {
        loop {
            self.list_free();
            let Some(l) = self.leaving()? else {
                return self.point();
            };
            let Some(e) = self.entering(l) else {
                return Ok(self.multipliers(l));
            };
            self.pivot(l, e)?;
        }
    }
}

/// What the system is found to have, and how many pivots it took.
pub fn decide(system: &System) -> (Answer, u64) {
    let mut run = Run::new(system);
    let answer = run.end().unwrap_or(Answer::Wide);
    (answer, run.pivots)
}
