// The run in whole numbers that is judged row by row, in 128 bits: an operation that doesn't fit ends it.
use crate::fractions::{Fast, Frac, Rules, divisor};
use crate::kernel::{Found, Rows, STEPS};
use crate::plain::{Answer, ONE, ZERO};

/// What no product may exceed that is formed at a position.
const ROOM: u128 = 1 << 125;

/// A run: the coefficients of the unknowns over one denominator, a column for each nonbasic variable.
pub struct Judged<'a> {
    rows: &'a Rows,
    /// Unknown by unknown, a number for each column.
    v: Vec<i128>,
    den: i128,
    /// The column of each variable, by its number, where it isn't basic.
    columns: Vec<Option<usize>>,
    /// The values of the unknowns times the denominator, in both parts.
    first: Vec<i128>,
    second: Vec<i128>,
    /// The row that leaves, over what divides it and the denominator.
    row: Vec<i128>,
    divisor: i128,
}

/// What the numbers of a position are multiplied by, at most: those in one column by a top, all others and the denominator by a size.
#[derive(Clone, Copy, Default)]
struct Factors {
    column: usize,
    top: u128,
    size: u128,
}

/// The product of two numbers, of which most fit 64 bits.
fn product(x: i128, y: i128) -> Option<i128> {
    match (i64::try_from(x), i64::try_from(y)) {
        (Ok(x), Ok(y)) => Some(x as i128 * y as i128),
        _ => x.checked_mul(y),
    }
}

fn dot(x: &[i64], y: impl Iterator<Item = i128>) -> Option<i128> {
    x.iter().zip(y).try_fold(0, |sum: i128, (x, y)| sum.checked_add(product(*x as i128, y)?))
}

/// What divides both.
fn shared_with(shared: u128, z: i128) -> u128 {
    let z = z.unsigned_abs();
    if shared == 1 || z % shared == 0 { shared } else { divisor(z, shared) }
}

/// The quotient by a number that divides the first.
fn quotient(z: i128, by: i128) -> i128 {
    // a division of 64 bits takes a fraction of the time
    match (i64::try_from(z), i64::try_from(by)) {
        (Ok(z), Ok(by)) => (z / by) as i128,
        _ => z / by,
    }
}

impl<'a> Judged<'a> {
    pub fn new(rows: &'a Rows) -> Judged<'a> {
        let width = rows.width;
        Judged {
            rows,
            v: vec![0; width * width],
            den: 1,
            columns: vec![None; width + rows.height()],
            first: vec![0; width],
            second: vec![0; width],
            row: vec![0; width],
            divisor: 1,
        }
    }

    /// Sets the run to the opening.
    fn open(&mut self) {
        let width = self.rows.width;
        self.v.fill(0);
        self.v.iter_mut().step_by(width + 1).for_each(|entry| *entry = 1);
        self.den = 1;
        self.columns.iter_mut().enumerate().for_each(|(y, column)| *column = (y < width).then_some(y));
        self.first.fill(0);
        self.second.fill(0);
    }

    /// Forms the values of the unknowns.
    fn stand(&mut self) -> Option<()> {
        let Judged { rows, v, columns, first, second, .. } = self;
        first.fill(0);
        second.fill(0);
        for (i, column) in columns[rows.width..].iter().enumerate() {
            let Some(c) = *column else { continue };
            for (j, line) in v.chunks_exact(rows.width).enumerate() {
                first[j] = first[j].checked_add(product(line[c], rows.b[i] as i128)?)?;
                second[j] = second[j].checked_add(product(line[c], rows.steps[i] as i128)?)?;
            }
        }
        Some(())
    }

    fn is_out(&self, i: usize) -> Option<bool> {
        let (line, bound) = (self.rows.line(i), product(self.rows.b[i] as i128, self.den)?);
        let value = dot(line, self.first.iter().copied())?;
        if value != bound {
            return Some(value > bound);
        }
        Some(dot(line, self.second.iter().copied())? > product(self.rows.steps[i] as i128, self.den)?)
    }

    /// The least of the basic sides above their bounds, if one is.
    fn leaving(&self) -> Option<Option<usize>> {
        for i in 0..self.rows.height() {
            if self.columns[self.rows.width + i].is_none() && self.is_out(i)? {
                return Some(Some(i));
            }
        }
        Some(None)
    }

    /// The numbers of the unknowns in a column.
    fn column(&self, c: usize) -> impl Iterator<Item = i128> {
        self.v.chunks_exact(self.rows.width).map(move |line| line[c])
    }

    /// The number of side i in a column.
    fn entry(&self, i: usize, c: usize) -> Option<i128> {
        dot(self.rows.line(i), self.column(c))
    }

    /// Forms the row of side i, over what divides it and the denominator.
    fn form_row(&mut self, i: usize) -> Option<()> {
        let mut shared = self.den.unsigned_abs();
        for c in 0..self.row.len() {
            self.row[c] = self.entry(i, c)?;
            shared = shared_with(shared, self.row[c]);
        }
        self.divisor = shared as i128;
        if shared != 1 {
            self.row.iter_mut().for_each(|x| *x = quotient(*x, shared as i128));
        }
        Some(())
    }

    /// The variable that enters, and its column.
    fn entering(&self) -> Option<(usize, usize)> {
        let width = self.rows.width;
        let may_enter = |y: usize, c: usize| self.row[c] > 0 || self.row[c] < 0 && y < width;
        self.columns.iter().enumerate().find_map(|(y, column)| column.filter(|c| may_enter(y, *c)).map(|c| (y, c)))
    }

    /// What the numbers of the position are multiplied by where side i leaves and the column e is entered.
    fn factors(&self, i: usize, e: usize) -> Option<Factors> {
        let mut by = Factors { column: e, top: self.rows.scale(self.rows.width + i), size: 0 };
        for (y, column) in self.columns.iter().enumerate() {
            let Some(c) = *column else { continue };
            let product = self.row[c].unsigned_abs().checked_mul(self.rows.scale(y))?;
            if c == e { by.size = product } else { by.top = by.top.max(product) }
        }
        Some(by)
    }

    /// What a number in the column of y may have, so that it leaves room for products with numbers of such a size.
    fn room(&self, factor: u128, y: usize) -> u128 {
        let rows = self.rows;
        let n = (rows.width + rows.height()) as u128;
        let scaled = ROOM / factor.max(n) / rows.scale(y);
        if y < rows.width { scaled } else { scaled.min(ROOM / n / (rows.b[y - rows.width].unsigned_abs() as u128).max(1)) }
    }

    /// If no number of a row in the column is above this.
    fn is_within(&self, c: usize, most: u128, norm: u128) -> Option<()> {
        let top = self.column(c).map(i128::unsigned_abs).max().unwrap_or(0);
        if top > most / norm {
            let below = |z: i128| (z.unsigned_abs() <= most).then_some(());
            self.column(c).try_for_each(below)?;
            (0..self.rows.height()).try_for_each(|i| below(self.entry(i, c)?))?;
        }
        Some(())
    }

    /// If the numbers of all rows, and the denominator, leave room for products with numbers of such sizes.
    fn judge(&self, by: Factors) -> Option<()> {
        let greatest = self.rows.a.iter().map(|z| z.unsigned_abs() as u128).max().unwrap_or(0);
        let norm = (self.rows.width as u128 * greatest).max(1);
        for (y, column) in self.columns.iter().enumerate() {
            if self.den.unsigned_abs().checked_mul(self.rows.scale(y))? > ROOM / by.size.max(1) {
                return None;
            }
            if let Some(c) = *column {
                self.is_within(c, self.room(if c == by.column { by.top } else { by.size }, y), norm)?;
            }
        }
        Some(())
    }

    /// The number in the column of the row of the variable x.
    fn cell(&self, x: usize, c: usize) -> Option<i128> {
        let width = self.rows.width;
        if x < width { Some(self.v[x * width + c]) } else { self.entry(x - width, c) }
    }

    /// The nonbasic variables, and the column of each.
    fn free(&self) -> impl Iterator<Item = (usize, usize)> {
        self.columns.iter().enumerate().filter_map(|(y, column)| column.map(|c| (y, c)))
    }

    /// The coefficient of y in the row of x that this number is, over a denominator and both scales.
    fn coefficient(&self, z: i128, den: i128, x: usize, y: usize) -> Option<Frac> {
        let scale = |x: usize| self.rows.scale(x) as i128;
        Some(Fast::new(product(z, scale(y))?, product(den, scale(x))?))
    }

    /// If the sizes of the numbers in the row of x show that no operation on it is wide.
    fn is_row_below(&self, x: usize, by: Factors) -> Option<()> {
        let below = |size: u128, scale: u128, factor: u128| (size.checked_mul(scale)?.checked_mul(factor)? <= ROOM).then_some(());
        below(self.den.unsigned_abs(), self.rows.scale(x), by.size)?;
        self.free().try_for_each(|(y, c)| {
            let factor = if c == by.column { by.top } else { by.size };
            below(self.cell(x, c)?.unsigned_abs(), self.rows.scale(y), factor)
        })
    }

    /// If the stated operations on the row of x fit, where the row of l leaves, over its pivot upside down, and e enters.
    fn is_row_stated(&self, x: usize, l: usize, e: usize, inverse: &Frac, by: Factors) -> Option<()> {
        let factor = self.coefficient(self.cell(x, by.column)?, self.den, x, e)?;
        Fast::mul(&factor, inverse).ok()?;
        self.free().filter(|(y, _)| *y != e).try_for_each(|(y, c)| {
            let old = self.coefficient(self.cell(x, c)?, self.den, x, y)?;
            let number = self.coefficient(-self.row[c], self.den / self.divisor, l, y)?;
            let change = Fast::mul(&factor, &Fast::mul(&number, inverse).ok()?).ok()?;
            Fast::add(&old, &change).ok().map(|_| ())
        })
    }

    /// If each row shows by itself that no operation is wide where l leaves and e enters.
    fn judge_rows(&self, l: usize, e: usize, by: Factors) -> Option<()> {
        self.judge(Factors::default())?;
        let pivot = self.coefficient(self.row[by.column], self.den / self.divisor, l, e)?;
        let inverse = Frac { num: pivot.den * pivot.num.signum(), den: pivot.num.abs() };
        let mut basic = self.columns.iter().enumerate().filter(|(_, column)| column.is_none());
        basic.try_for_each(|(x, _)| self.is_row_below(x, by).or_else(|| self.is_row_stated(x, l, e, &inverse, by)))
    }

    /// The pivot on the row and the column in lowest terms.
    fn reduce(&mut self, e: usize) -> Option<()> {
        let Judged { v, row, .. } = self;
        let (rest, pivot) = (self.den / self.divisor, row[e].abs());
        let over = product(pivot, self.den)?;
        let mut shared = over.unsigned_abs();
        for line in v.chunks_exact_mut(row.len()) {
            let factor = if row[e] < 0 { -line[e] } else { line[e] };
            for (c, (entry, x)) in line.iter_mut().zip(row.iter()).enumerate() {
                *entry = if c == e { product(factor, rest)? } else { product(*entry, pivot)?.checked_sub(product(factor, *x)?)? };
                shared = shared_with(shared, *entry);
            }
        }
        let by = i128::try_from(shared).ok()?;
        self.den = quotient(over, by);
        if by != 1 {
            v.iter_mut().for_each(|entry| *entry = quotient(*entry, by));
        }
        Some(())
    }

    fn step(&mut self) -> Option<Found> {
        let Some(i) = self.leaving()? else {
            return self.judge(Factors::default()).map(|()| Found::Point);
        };
        self.form_row(i)?;
        let Some((y, c)) = self.entering() else {
            return self.judge(Factors::default()).map(|()| Found::Refuted(i));
        };
        let by = self.factors(i, c)?;
        self.judge(by).or_else(|| self.judge_rows(self.rows.width + i, y, by))?;
        self.reduce(c)?;
        self.columns[self.rows.width + i] = Some(c);
        self.columns[y] = None;
        self.stand()?;
        Some(Found::Next)
    }

    fn point(&self) -> Answer {
        let value = |z: &i128| Fast::new(*z, self.den);
        Answer::Point(self.first.iter().zip(&self.second).map(|(q, r)| (value(q), value(r))).collect())
    }

    fn multipliers(&self, l: usize) -> Option<Answer> {
        let den = product(self.den / self.divisor, self.rows.scales[l] as i128)?;
        let multiplier = |i: usize| match self.columns[self.rows.width + i] {
            None if i == l => Some(ONE),
            None => Some(ZERO),
            Some(c) => Some(Fast::new(-product(self.row[c], self.rows.scales[i] as i128)?, den)),
        };
        (0..self.rows.height()).map(multiplier).collect::<Option<_>>().map(Answer::Refuted)
    }

    /// What the run from the opening ends with, and after how many pivots. It can be called again.
    pub fn end(&mut self) -> Option<(Answer, u32)> {
        self.open();
        for count in 0..STEPS {
            match self.step()? {
                Found::Next => {}
                Found::Point => return Some((self.point(), count)),
                Found::Refuted(l) => return self.multipliers(l).map(|answer| (answer, count)),
            }
        }
        None
    }
}
