// The proved runs in whole numbers, with their tests in plain Rust: one within a limit for all rows, in 64 bits, and where there is none or it is
// passed, one from the same start that is judged row by row, in 128 bits. Where that gives up, the run over fractions follows.
use crate::fractions::{Fast, Frac, Rules, divisor};
use crate::judged::Judged;
use crate::plain::{self, Answer, ONE, System, ZERO};

/// What no number may exceed in size.
const TOP: u128 = 1 << 62;

/// The greatest scale of a row.
const MOST_SCALE: u64 = 1 << 40;

/// The most steps that are made on whole numbers.
pub const STEPS: u32 = 1_000_000;

/// Which run comes to its end.
#[derive(Clone, Copy)]
pub enum Way {
    /// The one within a limit for all rows.
    Limited,
    /// The one that is judged row by row.
    Judged,
}

/// The rows of a system in whole numbers, and what a run on them needs to know beforehand.
pub struct Rows {
    pub width: usize,
    /// What each row was multiplied by.
    pub scales: Vec<i64>,
    /// Row by row, a number for each unknown.
    pub a: Vec<i64>,
    pub b: Vec<i64>,
    /// The second part of each bound.
    pub steps: Vec<i64>,
    /// What no coefficient of an unknown may exceed in size, where there is a limit for all rows.
    most: Option<i64>,
}

/// A run: the coefficients of the unknowns over one denominator, a column for each nonbasic variable.
pub struct Run<'a> {
    rows: &'a Rows,
    /// Unknown by unknown, a number for each column.
    v: Vec<i64>,
    den: i64,
    /// The column of each variable, by its number, where it isn't basic.
    columns: Vec<Option<usize>>,
    /// The values of the unknowns times the denominator, in both parts.
    first: Vec<i64>,
    second: Vec<i64>,
    sums: Vec<(i128, i128)>,
    /// The row that leaves.
    row: Vec<i64>,
    /// The run that is made where this one gives up.
    judged: Judged<'a>,
}

/// What one turn finds.
pub enum Found {
    Point,
    Refuted(usize),
    Next,
}

fn small(z: i128) -> Option<i64> {
    (z.unsigned_abs() <= TOP).then_some(z as i64)
}

fn size(z: i64) -> u128 {
    z.unsigned_abs() as u128
}

fn product(x: i64, y: i64) -> i128 {
    x as i128 * y as i128
}

fn dot(x: &[i64], y: &[i64]) -> i128 {
    x.iter().zip(y).map(|(x, y)| product(*x, *y)).sum()
}

fn greatest(list: &[i64]) -> u128 {
    list.iter().map(|z| size(*z)).max().unwrap_or(0)
}

/// The least number that makes the row whole, if it is small.
fn scale<'a>(numbers: impl Iterator<Item = &'a Frac>) -> Option<i64> {
    let mut scale: u64 = 1;
    for x in numbers.filter(|x| x.den != 1) {
        let den = u64::try_from(x.den).ok().filter(|den| *den <= MOST_SCALE)?;
        if scale % den != 0 {
            let more = den / divisor(den as u128, scale as u128) as u64;
            scale = scale.checked_mul(more).filter(|scale| *scale <= MOST_SCALE)?;
        }
    }
    Some(scale as i64)
}

fn scaled(x: &Frac, scale: i64) -> Option<i64> {
    let factor = if x.den == 1 { scale } else { scale / x.den as i64 };
    small(product(small(x.num)?, factor))
}

/// What the numbers of v may have, if there is room for any.
fn limit(width: usize, n: usize, entry: u128, side: u128, scale: u128) -> Option<i64> {
    if n as u128 * side > TOP {
        return None;
    }
    let most = TOP / ((width as u128 * entry).max(1) * scale);
    (most > 0).then_some(most as i64)
}

/// The quotient, if it is whole and no greater in size than that.
fn quotient(z: i128, by: i64, most: u128) -> Option<i64> {
    // a division of 64 bits takes a fraction of the time
    let quotient = match i64::try_from(z) {
        Ok(z) => (z / by) as i128,
        Err(_) => z / by as i128,
    };
    (quotient.unsigned_abs() <= most && quotient * by as i128 == z).then_some(quotient as i64)
}

/// Moves one part of the values with a pivot, where the side with this line and bound leaves, if all numbers are whole and small. The column
/// is that of the numbers after the pivot.
fn follow(part: &mut [i64], line: &[i64], bound: i64, column: impl Iterator<Item = i64>, den: i64, size: i64) -> Option<()> {
    if bound == 0 && part.iter().all(|z| *z == 0) {
        return Some(());
    }
    let excess = small(dot(line, part) - product(bound, den))?;
    for (value, factor) in part.iter_mut().zip(column) {
        *value = quotient(product(*value, size) - product(factor, excess), den, TOP)?;
    }
    Some(())
}

impl Rows {
    /// The rows of the system, if they can be had in whole numbers that leave room for a run.
    pub fn read(system: &System) -> Option<Rows> {
        let (width, height) = (system.width, system.rows.len());
        let (mut scales, mut a, mut b) = (Vec::with_capacity(height), Vec::with_capacity(width * height), Vec::with_capacity(height));
        for row in &system.rows {
            let scale = scale(row.a.iter().chain([&row.b]))?;
            for x in &row.a {
                a.push(scaled(x, scale)?);
            }
            b.push(scaled(&row.b, scale)?);
            scales.push(scale);
        }
        if width as u128 * greatest(&a) > TOP {
            return None;
        }
        let most = limit(width, width + height, greatest(&a), greatest(&b).max(1), greatest(&scales).max(1));
        let steps = system.rows.iter().zip(&scales).map(|(row, scale)| if row.strict { -scale } else { 0 }).collect();
        Some(Rows { width, scales, a, b, steps, most })
    }

    pub fn height(&self) -> usize {
        self.b.len()
    }

    pub fn line(&self, i: usize) -> &[i64] {
        &self.a[i * self.width..(i + 1) * self.width]
    }

    /// What the variable y was multiplied by.
    pub fn scale(&self, y: usize) -> u128 {
        if y < self.width { 1 } else { size(self.scales[y - self.width]) }
    }
}

impl<'a> Run<'a> {
    pub fn new(rows: &'a Rows) -> Run<'a> {
        let width = rows.width;
        Run {
            rows,
            v: vec![0; width * width],
            den: 1,
            columns: vec![None; width + rows.height()],
            first: vec![0; width],
            second: vec![0; width],
            sums: vec![(0, 0); width],
            row: vec![0; width],
            judged: Judged::new(rows),
        }
    }

    /// Sets the run to the opening.
    fn open(&mut self) {
        let width = self.rows.width;
        self.v.fill(0);
        self.v.iter_mut().step_by(width + 1).for_each(|entry| *entry = 1);
        self.den = 1;
        self.columns.iter_mut().enumerate().for_each(|(y, column)| *column = (y < width).then_some(y));
        self.first.fill(0);
        self.second.fill(0);
    }

    /// Forms the values of the unknowns, if they are small. The sums on the way need not be.
    fn stand(&mut self) -> Option<()> {
        let (rows, width) = (self.rows, self.rows.width);
        self.sums.fill((0, 0));
        for (i, column) in self.columns[width..].iter().enumerate() {
            let Some(c) = *column else { continue };
            for (sum, line) in self.sums.iter_mut().zip(self.v.chunks_exact(width)) {
                sum.0 = sum.0.checked_add(product(line[c], rows.b[i]))?;
                sum.1 = sum.1.checked_add(product(line[c], rows.steps[i]))?;
            }
        }
        for (j, (first, second)) in self.sums.iter().enumerate() {
            self.first[j] = small(*first)?;
            self.second[j] = small(*second)?;
        }
        Some(())
    }

    fn is_out(&self, i: usize) -> bool {
        let (line, bound) = (self.rows.line(i), product(self.rows.b[i], self.den));
        let value = dot(line, &self.first);
        value > bound || value == bound && dot(line, &self.second) > product(self.rows.steps[i], self.den)
    }

    /// The least of the basic sides above their bounds.
    fn leaving(&self) -> Option<usize> {
        let width = self.rows.width;
        (0..self.rows.height()).find(|i| self.columns[width + i].is_none() && self.is_out(*i))
    }

    /// The numbers of the unknowns in a column.
    fn column(&self, c: usize) -> impl Iterator<Item = i64> {
        self.v.chunks_exact(self.rows.width).map(move |line| line[c])
    }

    /// The number of side i in a column.
    fn entry(&self, i: usize, c: usize) -> i128 {
        self.rows.line(i).iter().zip(self.column(c)).map(|(a, v)| product(*a, v)).sum()
    }

    /// Forms the row of side i, if its numbers are small.
    fn form_row(&mut self, i: usize) -> Option<()> {
        for c in 0..self.row.len() {
            self.row[c] = small(self.entry(i, c))?;
        }
        Some(())
    }

    /// The variable that enters, and its column.
    fn entering(&self) -> Option<(usize, usize)> {
        let width = self.rows.width;
        let may_enter = |y: usize, c: usize| self.row[c] > 0 || self.row[c] < 0 && y < width;
        self.columns.iter().enumerate().find_map(|(y, column)| column.filter(|c| may_enter(y, *c)).map(|c| (y, c)))
    }

    /// The pivot on the row and the column, if all numbers stay whole and within the limit.
    fn pivot(&mut self, e: usize, most: i64) -> Option<()> {
        let row = &self.row;
        let pivot = row[e].abs();
        for line in self.v.chunks_exact_mut(row.len()) {
            let factor = if row[e] < 0 { -line[e] } else { line[e] };
            for (c, (entry, x)) in line.iter_mut().zip(row).enumerate() {
                if c == e {
                    *entry = factor;
                    continue;
                }
                *entry = quotient(product(*entry, pivot) - product(factor, *x), self.den, size(most))?;
            }
        }
        self.den = pivot;
        Some(())
    }

    /// Moves the values of the unknowns with the pivot by which side i has left, or forms them anew where a number isn't whole and small.
    fn move_values(&mut self, i: usize, e: usize, den: i64) -> Option<()> {
        let Run { rows, v, first, second, .. } = self;
        let column = || v.chunks_exact(rows.width).map(|line| line[e]);
        let moved = follow(first, rows.line(i), rows.b[i], column(), den, self.den)
            .and_then(|()| follow(second, rows.line(i), rows.steps[i], column(), den, self.den));
        moved.or_else(|| self.stand())
    }

    /// Where side i leaves and the variable y enters.
    fn exchange(&mut self, i: usize, y: usize, c: usize) {
        self.columns[self.rows.width + i] = Some(c);
        self.columns[y] = None;
    }

    fn limited_step(&mut self, most: i64) -> Option<Found> {
        let Some(i) = self.leaving() else {
            return Some(Found::Point);
        };
        self.form_row(i)?;
        let Some((y, c)) = self.entering() else {
            return Some(Found::Refuted(i));
        };
        let den = self.den;
        self.pivot(c, most)?;
        self.exchange(i, y, c);
        self.move_values(i, c, den)?;
        Some(Found::Next)
    }

    fn point(&self) -> Answer {
        let value = |z: &i64| Fast::new(*z as i128, self.den as i128);
        Answer::Point(self.first.iter().zip(&self.second).map(|(q, r)| (value(q), value(r))).collect())
    }

    fn multipliers(&self, l: usize) -> Answer {
        let den = product(self.den, self.rows.scales[l]);
        let multiplier = |i: usize| match self.columns[self.rows.width + i] {
            None if i == l => ONE,
            None => ZERO,
            Some(c) => Fast::new(-product(self.row[c], self.rows.scales[i]), den),
        };
        Answer::Refuted((0..self.rows.height()).map(multiplier).collect())
    }

    /// What the run from the opening ends with, and after how many pivots.
    fn limited_end(&mut self, most: i64) -> Option<(Answer, u32)> {
        self.open();
        for count in 0..STEPS {
            match self.limited_step(most)? {
                Found::Next => {}
                Found::Point => return Some((self.point(), count)),
                Found::Refuted(l) => return Some((self.multipliers(l), count)),
            }
        }
        None
    }

    /// What the first run that comes to its end ends with, after how many pivots, and which one it is.
    fn first_end(&mut self) -> Option<(Answer, u32, Way)> {
        if let Some((answer, count)) = self.rows.most.and_then(|most| self.limited_end(most)) {
            return Some((answer, count, Way::Limited));
        }
        let (answer, count) = self.judged.end()?;
        Some((answer, count, Way::Judged))
    }

    /// What the system is found to have, and by which run, if one comes to its end. It can be called again.
    pub fn end(&mut self) -> Option<(Answer, Way)> {
        let (answer, _, way) = self.first_end()?;
        Some((answer, way))
    }
}

/// How many pivots a run takes on the first so many rows of the system: in whole numbers, and by fractions where both runs give up.
pub fn pivots(system: &System, count: usize) -> u64 {
    let first = System { width: system.width, rows: system.rows[..count].to_vec() };
    let whole = Rows::read(&first).and_then(|rows| Run::new(&rows).first_end());
    whole.map_or_else(|| plain::decide(&first).1, |(_, count, _)| count as u64)
}

/// What the system is found to have, and by which run in whole numbers, if one comes to its end.
pub fn decide(system: &System) -> Option<(Answer, Way)> {
    Run::new(&Rows::read(system)?).end()
}
