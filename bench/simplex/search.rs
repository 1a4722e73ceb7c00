// All systems of rows that are decided on the way from a program to its controller, one after another.
use crate::fractions::{Fast, Frac, Rules, Wide, euclid};
use crate::plain::{Row, System};
use crate::plants::{Matrix, Program, ZERO, negative};
use std::collections::HashSet;

/// What a system is decided for.
#[derive(Clone, Copy)]
pub enum Kind {
    /// Whether a state reaches a set.
    Reach,
    /// Whether the region of a set's law has a point.
    Region,
    /// Whether a law meets a cell.
    Meet,
    /// Whether a row of a law holds in a cell.
    Hold,
    /// Whether a state of a cell is admissible.
    Joint,
}

/// The first rows of a system, whose run is kept.
#[derive(Clone, Copy)]
pub struct Kept {
    /// With how many rows the run begins, on which it goes by one row after another.
    pub begun: usize,
    /// How many rows are behind it when the system is to be decided.
    pub rows: usize,
}

/// A system that is to be decided, and the run from which the compiler goes on, where there is one.
pub struct Asked {
    pub system: System,
    pub kind: Kind,
    pub kept: Option<Kept>,
}

/// Answers whether a system has a point, or nothing where the search is to end.
pub type Judge<'a> = dyn FnMut(&Asked) -> Option<bool> + 'a;

/// A search that ended early: by the judge, or by a number that is too wide.
pub struct Ended;

impl From<Wide> for Ended {
    fn from(_: Wide) -> Ended {
        Ended
    }
}

/// A row in whole numbers, `a t <= b`.
#[derive(Clone)]
struct Whole {
    a: Vec<i128>,
    b: i128,
}

fn whole(z: i128) -> Frac {
    Frac { num: z, den: 1 }
}

impl Whole {
    fn row(&self) -> Row {
        Row { a: self.a.iter().map(|z| whole(*z)).collect(), b: whole(self.b), strict: false }
    }

    /// The row of the points where this one fails.
    fn broken(&self) -> Row {
        Row { a: self.a.iter().map(|z| whole(-z)).collect(), b: whole(-self.b), strict: true }
    }

    /// The row `a t <= b` without denominators and without a common divisor.
    fn primitive(a: &[Frac], b: &Frac) -> Result<Whole, Wide> {
        let numbers = || a.iter().chain([b]);
        let all = numbers().fold(Some(1i128), |all, x| {
            let all = all?;
            (all / euclid(all as u128, x.den as u128) as i128).checked_mul(x.den)
        });
        let all = all.ok_or(Wide)?;
        let list = numbers().map(|x| x.num.checked_mul(all / x.den).ok_or(Wide)).collect::<Result<Vec<_>, Wide>>()?;
        let shared = (list.iter().fold(0, |g, z| euclid(g, z.unsigned_abs())) as i128).max(1);
        Ok(Whole { a: list[..a.len()].iter().map(|z| z / shared).collect(), b: list[a.len()] / shared })
    }
}

// ---- the law of a set
/// Brings a row with an entry in the column to this place, divides it by that and takes it from the others; whether there is one.
fn clear(m: &mut Matrix, from: usize, column: usize) -> Result<bool, Wide> {
    let Some(found) = (from..m.len()).find(|i| m[*i][column].num != 0) else {
        return Ok(false);
    };
    m.swap(from, found);
    let pivot = m[from][column];
    let inverse = Frac { num: pivot.den * pivot.num.signum(), den: pivot.num.abs() };
    let own = m[from].iter().map(|x| Fast::mul(x, &inverse)).collect::<Result<Vec<_>, Wide>>()?;
    for (_, row) in m.iter_mut().enumerate().filter(|(i, row)| *i != from && row[column].num != 0) {
        let factor = negative(&row[column]);
        for (entry, x) in row.iter_mut().zip(&own).filter(|(_, x)| x.num != 0) {
            *entry = Fast::add(entry, &Fast::mul(&factor, x)?)?;
        }
    }
    m[from] = own;
    Ok(true)
}

/// The unknowns and the multipliers of a set as forms in c, row by row, if its rows are independent.
fn law(program: &Program, set: &[usize]) -> Result<Option<Matrix>, Wide> {
    let size = program.h.len() + set.len();
    let mut m: Matrix = program
        .h
        .iter()
        .zip(&program.f)
        .enumerate()
        .map(|(i, (h, f))| h.iter().copied().chain(set.iter().map(|r| program.g[*r][i])).chain(f.iter().map(negative)).collect())
        .collect();
    m.extend(set.iter().map(|r| -> Vec<Frac> {
        program.g[*r].iter().copied().chain(set.iter().map(|_| ZERO)).chain(program.w[*r].iter().copied()).collect()
    }));
    for column in 0..size {
        if !clear(&mut m, column, column)? {
            return Ok(None);
        }
    }
    Ok(Some(m.iter().map(|row| row[size..].to_vec()).collect()))
}

/// The rows that bound the region of a law.
fn border(program: &Program, set: &[usize], law: &Matrix) -> Result<Vec<Whole>, Wide> {
    let unknowns = program.h.len();
    let moves = law[..unknowns].to_vec();
    let reached = crate::plants::product(&program.g, &moves)?;
    let mut rows = Vec::with_capacity(program.g.len());
    for (i, (reached, w)) in reached.iter().zip(&program.w).enumerate() {
        let form = match set.iter().position(|r| *r == i) {
            Some(k) => law[unknowns + k].iter().map(negative).collect(),
            None => reached.iter().zip(w).map(|(x, w)| Fast::add(x, &negative(w))).collect::<Result<Vec<_>, Wide>>()?,
        };
        rows.push(Whole::primitive(&form[1..], &negative(&form[0]))?);
    }
    Ok(rows)
}

// ---- the systems
impl Program {
    /// The rows of the box in so many unknowns.
    fn boxed(&self, width: usize) -> System {
        let axis = |i: usize, z: i128, b: i128| Row {
            a: (0..width).map(|j| whole(if i == j { z } else { 0 })).collect(),
            b: whole(b),
            strict: false,
        };
        System { width, rows: self.counts.iter().enumerate().flat_map(|(i, count)| [axis(i, -1, 0), axis(i, 1, *count)]).collect() }
    }

    fn width(&self) -> usize {
        self.counts.len() + self.h.len()
    }

    fn joint_row(&self, i: usize) -> Row {
        Row { a: self.w[i][1..].iter().map(negative).chain(self.g[i].iter().copied()).collect(), b: self.w[i][0], strict: false }
    }

    fn turned_row(&self, i: usize) -> Row {
        let row = self.joint_row(i);
        Row { a: row.a.iter().map(negative).collect(), b: negative(&row.b), strict: false }
    }

    /// The system of a set goes on from that of the set without its last member, by one row.
    fn reach(&self, set: &[usize]) -> Asked {
        let mut system = self.boxed(self.width());
        system.rows.extend((0..self.g.len()).map(|i| self.joint_row(i)));
        let begun = system.rows.len();
        system.rows.extend(set.iter().map(|i| self.turned_row(*i)));
        let kept = (!set.is_empty()).then(|| Kept { begun, rows: system.rows.len() - 1 });
        Asked { system, kind: Kind::Reach, kept }
    }

    /// The box, a cell and further rows, by which the run of the cell goes on.
    fn cut(&self, kind: Kind, cell: &[Row], more: impl IntoIterator<Item = Row>) -> Asked {
        let mut system = self.boxed(self.counts.len());
        let begun = system.rows.len();
        system.rows.extend(cell.iter().cloned());
        let kept = Some(Kept { begun, rows: system.rows.len() });
        system.rows.extend(more);
        Asked { system, kind, kept }
    }

    fn joint(&self, cell: &[Row]) -> Asked {
        let mut system = self.boxed(self.width());
        system.rows.extend(cell.iter().cloned().map(|mut row| {
            row.a.resize(self.width(), ZERO);
            row
        }));
        system.rows.extend((0..self.g.len()).map(|i| self.joint_row(i)));
        Asked { system, kind: Kind::Joint, kept: None }
    }
}

// ---- the active sets
/// The sets with one member more of which each one with one member fewer is given. The given ones stand in order.
fn next_level(grown: &[Vec<usize>], rows: usize) -> Vec<Vec<usize>> {
    let known: HashSet<&[usize]> = grown.iter().map(Vec::as_slice).collect();
    let is_known = |set: &[usize]| (0..set.len()).all(|k| known.contains([&set[..k], &set[k + 1..]].concat().as_slice()));
    let later = |set: &Vec<usize>| (set.last().map_or(0, |last| last + 1)..rows).map(|row| [&set[..], &[row]].concat()).collect::<Vec<_>>();
    grown.iter().flat_map(later).filter(|set| is_known(set)).collect()
}

/// Whether the set can grow by a row, and the rows of its law, if its region has a point.
fn examine(program: &Program, set: &[usize], judge: &mut Judge) -> Result<(bool, Option<Vec<Whole>>), Ended> {
    let Some(law) = law(program, set)? else {
        return Ok((false, None));
    };
    if !judge(&program.reach(set)).ok_or(Ended)? {
        return Ok((false, None));
    }
    let rows = border(program, set, &law)?;
    let has_region = judge(&program.cut(Kind::Region, &[], rows.iter().map(Whole::row))).ok_or(Ended)?;
    Ok((true, has_region.then_some(rows)))
}

/// The rows of all laws, in the order of their sets.
fn laws(program: &Program, judge: &mut Judge) -> Result<Vec<Vec<Whole>>, Ended> {
    let mut laws = Vec::new();
    let mut level = vec![Vec::new()];
    for size in 0..=program.h.len() {
        let mut grown = Vec::new();
        for set in level {
            let (grows, rows) = examine(program, &set, judge)?;
            laws.extend(rows);
            grown.extend(grows.then_some(set));
        }
        level = if size < program.h.len() { next_level(&grown, program.g.len()) } else { Vec::new() };
    }
    Ok(laws)
}

// ---- the tree
/// The row, and its law, by which a cell is split, if it is. The laws before the next one don't meet the cell.
fn split(program: &Program, laws: &[Vec<Whole>], cell: &[Row], next: usize, judge: &mut Judge) -> Result<Option<(usize, usize)>, Ended> {
    for (place, rows) in laws.iter().enumerate().skip(next) {
        if !judge(&program.cut(Kind::Meet, cell, rows.iter().map(Whole::row))).ok_or(Ended)? {
            continue;
        }
        for (i, row) in rows.iter().enumerate() {
            if judge(&program.cut(Kind::Hold, cell, [row.broken()])).ok_or(Ended)? {
                return Ok(Some((place, i)));
            }
        }
        return Ok(None);
    }
    judge(&program.joint(cell)).ok_or(Ended)?;
    Ok(None)
}

fn tree(program: &Program, laws: &[Vec<Whole>], judge: &mut Judge) -> Result<(), Ended> {
    let mut open: Vec<(Vec<Row>, usize)> = vec![(Vec::new(), 0)];
    while let Some((cell, next)) = open.pop() {
        if let Some((place, i)) = split(program, laws, &cell, next, judge)? {
            let row = &laws[place][i];
            open.push(([&cell[..], &[row.broken()]].concat(), place + 1));
            open.push(([&cell[..], &[row.row()]].concat(), place));
        }
    }
    Ok(())
}

/// Hands all systems to the judge: those of the active sets, level by level, and then those of the tree, node by node.
pub fn search(program: &Program, judge: &mut Judge) -> Result<(), Ended> {
    let laws = laws(program, judge)?;
    tree(program, &laws, judge)
}
