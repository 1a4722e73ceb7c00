// The stated run of the dual active-set method (Goldfarb and Idnani, 1983) in plain Rust, over plain fractions: what `solve` is measured
// beside. The word is `fast` or `plain`, for the fractions; the input is a program's numbers, the line `states` and lines of counts. Each line
// of counts gets a reply line as from `solve`; on standard error stands how many steps the runs had.
#[path = "../common/fractions.rs"]
mod fractions;

use fractions::{Fast, Frac, Plain, Rules, Wide};
use std::cmp::Ordering;
use std::collections::HashMap;
use std::fmt::Write;
use std::io::Write as _;

const ZERO: Frac = Frac { num: 0, den: 1 };
const ONE: Frac = Frac { num: 1, den: 1 };

fn negated(x: &Frac) -> Frac {
    Frac { num: -x.num, den: x.den }
}

fn quotient<R: Rules>(x: &Frac, y: &Frac) -> Result<Frac, Wide> {
    let turned = if y.num < 0 { Frac { num: -y.den, den: -y.num } } else { Frac { num: y.den, den: y.num } };
    R::mul(x, &turned)
}

fn dot<R: Rules>(xs: &[Frac], ys: &[Frac]) -> Result<Frac, Wide> {
    xs.iter().zip(ys).try_fold(ZERO, |sum, (x, y)| R::add(&sum, &R::mul(x, y)?))
}

// ---- the program
/// Rows of numbers, one behind another.
struct Table {
    entries: Vec<Frac>,
    width: usize,
}

impl Table {
    fn zero(rows: usize, width: usize) -> Self {
        Table { entries: vec![ZERO; rows * width], width }
    }

    fn row(&self, i: usize) -> &[Frac] {
        &self.entries[i * self.width..(i + 1) * self.width]
    }

    fn products<R: Rules>(&self, xs: &[Frac]) -> Result<Vec<Frac>, Wide> {
        self.entries.chunks_exact(self.width).map(|row| dot::<R>(row, xs)).collect()
    }
}

/// The least `z'h z / 2 + z'f c` of all z with `g z <= w c`, where c is 1 and then the counts. The moves are the first unknowns.
struct Program {
    moves: usize,
    h: Table,
    f: Table,
    g: Table,
    w: Table,
}

// ---- the run
/// The point; the rows, from 0, that hold with equality, with their multipliers; the row on its way to join them, and its multiplier.
struct Position {
    point: Vec<Frac>,
    set: Vec<usize>,
    multipliers: Vec<Frac>,
    row: usize,
    weight: Frac,
}

enum End {
    Best(Vec<Frac>),
    Refuted(Vec<Frac>),
}

enum Next {
    Goes(Position),
    Ends(End),
}

/// What ends a step: the rows are refuted, the member in this place leaves at this length, or the row joins at it.
enum Turn {
    Refuted,
    Drops(usize, Frac),
    Joins(Frac),
}

/// `[[h, g'], [g, 0]]` once the columns of h are eliminated, entry by entry where all numbers on the way to it fit. An entry in a column of h
/// is the factor that its row was cleared with.
struct Kept {
    entries: Vec<Option<Frac>>,
    width: usize,
}

impl Kept {
    fn of<R: Rules>(program: &Program) -> Option<Self> {
        let unknowns = program.h.width;
        let members: Vec<usize> = (0..program.g.entries.len() / unknowns).collect();
        let table = equations(program, &members);
        let width = unknowns + members.len();
        let mut entries: Vec<Option<Frac>> = (0..width).flat_map(|i| table.row(i)[..width].iter().map(|x| Some(*x))).collect();
        for c in 0..unknowns {
            let pivot = entries[c * width + c].filter(|x| x.num != 0)?;
            for j in c + 1..width {
                entries[c * width + j] = entries[c * width + j].and_then(|x| quotient::<R>(&x, &pivot).ok());
            }
            for i in (0..width).filter(|i| *i != c) {
                let factor = entries[i * width + c];
                if factor.is_some_and(|x| x.num == 0) {
                    continue;
                }
                for j in c + 1..width {
                    entries[i * width + j] = less_product::<R>(entries[i * width + j], factor, entries[c * width + j]);
                }
            }
        }
        Some(Kept { entries, width })
    }

    /// The rows and columns of a set's equations, and behind them the column of a row's negative; nothing where a number isn't kept.
    fn part(&self, unknowns: usize, set: &[usize], row: usize) -> Option<Table> {
        let places: Vec<usize> = (0..unknowns).chain(set.iter().map(|member| unknowns + member)).collect();
        let width = places.len() + 1;
        let mut table = Table::zero(places.len(), width);
        for (i, place) in places.iter().enumerate() {
            let kept = &self.entries[place * self.width..(place + 1) * self.width];
            for (j, column) in places.iter().enumerate() {
                table.entries[i * width + j] = kept[*column]?;
            }
            table.entries[i * width + width - 1] = negated(&kept[unknowns + row]?);
        }
        Some(table)
    }
}

/// `entry - factor * taken`, where all are known and it fits.
fn less_product<R: Rules>(entry: Option<Frac>, factor: Option<Frac>, taken: Option<Frac>) -> Option<Frac> {
    let (entry, factor, taken) = (entry?, factor?, taken?);
    if taken.num == 0 {
        return Some(entry);
    }
    R::add(&entry, &R::mul(&negated(&factor), &taken).ok()?).ok()
}

/// `[[h, g_S'], [g_S, 0]]`, and behind it a column for the right sides.
fn equations(program: &Program, set: &[usize]) -> Table {
    let unknowns = program.h.width;
    let size = unknowns + set.len();
    let mut table = Table::zero(size, size + 1);
    for i in 0..unknowns {
        table.entries[i * (size + 1)..][..unknowns].copy_from_slice(program.h.row(i));
    }
    for (k, member) in set.iter().enumerate() {
        for (j, x) in program.g.row(*member).iter().enumerate() {
            table.entries[(unknowns + k) * (size + 1) + j] = *x;
            table.entries[j * (size + 1) + unknowns + k] = *x;
        }
    }
    table
}

/// The one solution: Gauss-Jordan elimination from column `first` on, with the first pivot that isn't 0.
fn eliminate<R: Rules>(table: &mut Table, first: usize) -> Result<Vec<Frac>, Wide> {
    let width = table.width;
    let rows = width - 1;
    let entries = &mut table.entries;
    for c in first..rows {
        let pivot_row = (c..rows).find(|i| entries[i * width + c].num != 0).expect("independent rows");
        for j in c..width {
            entries.swap(c * width + j, pivot_row * width + j);
        }
        let pivot = entries[c * width + c];
        for j in c + 1..width {
            entries[c * width + j] = quotient::<R>(&entries[c * width + j], &pivot)?;
        }
        for i in (0..rows).filter(|i| *i != c) {
            let factor = negated(&entries[i * width + c]);
            if factor.num == 0 {
                continue;
            }
            for j in c + 1..width {
                if entries[c * width + j].num != 0 {
                    let taken = R::mul(&factor, &entries[c * width + j])?;
                    entries[i * width + j] = R::add(&entries[i * width + j], &taken)?;
                }
            }
        }
    }
    Ok((0..rows).map(|i| entries[i * width + rows]).collect())
}

/// What the states of a program share: the elimination of h, and the direction of each row and set that was found, by the set's bits; nothing
/// where it is too wide.
struct Shared {
    kept: Option<Kept>,
    directions: HashMap<(usize, u64), Option<Vec<Frac>>>,
}

impl Shared {
    fn of<R: Rules>(program: &Program) -> Self {
        Shared { kept: Kept::of::<R>(program), directions: HashMap::new() }
    }

    fn direction<R: Rules>(&mut self, program: &Program, position: &Position) -> Result<&[Frac], Wide> {
        let set = position.set.iter().fold(0, |bits, member| bits | 1 << member);
        let kept = self.kept.as_ref();
        let found = self.directions.entry((position.row, set)).or_insert_with(|| step_solution::<R>(program, kept, position).ok());
        found.as_deref().ok_or(Wide)
    }
}

/// The direction of a step: what is kept, where that is enough, is eliminated from its members' columns on.
fn step_solution<R: Rules>(program: &Program, kept: Option<&Kept>, position: &Position) -> Result<Vec<Frac>, Wide> {
    let unknowns = program.h.width;
    if let Some(mut table) = kept.and_then(|kept| kept.part(unknowns, &position.set, position.row)) {
        return eliminate::<R>(&mut table, unknowns);
    }
    let mut table = equations(program, &position.set);
    let width = table.width;
    for (i, x) in program.g.row(position.row).iter().enumerate() {
        table.entries[i * width + width - 1] = negated(x);
    }
    eliminate::<R>(&mut table, 0)
}

fn excess<R: Rules>(program: &Program, sides: &[Frac], point: &[Frac], i: usize) -> Result<Frac, Wide> {
    R::add(&dot::<R>(program.g.row(i), point)?, &negated(&sides[i]))
}

fn first_violated<R: Rules>(program: &Program, sides: &[Frac], point: &[Frac]) -> Result<Option<usize>, Wide> {
    for i in 0..sides.len() {
        if excess::<R>(program, sides, point, i)?.num > 0 {
            return Ok(Some(i));
        }
    }
    Ok(None)
}

fn continued(mut position: Position, first: Option<usize>) -> Next {
    let Some(row) = first else {
        return Next::Ends(End::Best(position.point));
    };
    position.row = row;
    position.weight = ZERO;
    Next::Goes(position)
}

/// Step 0: the cheapest point without rows.
fn open<R: Rules>(program: &Program, c: &[Frac], sides: &[Frac]) -> Result<Next, Wide> {
    let mut table = equations(program, &[]);
    let unknowns = program.h.width;
    for (i, cost) in program.f.products::<R>(c)?.iter().enumerate() {
        table.entries[i * (unknowns + 1) + unknowns] = negated(cost);
    }
    let point = eliminate::<R>(&mut table, 0)?;
    let first = first_violated::<R>(program, sides, &point)?;
    Ok(continued(Position { point, set: Vec::new(), multipliers: Vec::new(), row: 0, weight: ZERO }, first))
}

/// The place of the multiplier that is first 0 along e, on a tie the first, and the length at which it is.
fn shortest<R: Rules>(multipliers: &[Frac], e: &[Frac]) -> Result<Option<(usize, Frac)>, Wide> {
    let mut best: Option<(usize, Frac)> = None;
    for (k, fall) in e.iter().enumerate().filter(|(_, fall)| fall.num < 0) {
        let length = quotient::<R>(&multipliers[k], &negated(fall))?;
        if best.is_none_or(|(_, least)| R::cmp(&length, &least) == Ordering::Less) {
            best = Some((k, length));
        }
    }
    Ok(best)
}

fn turn_of<R: Rules>(program: &Program, sides: &[Frac], position: &Position, d: &[Frac], e: &[Frac]) -> Result<Turn, Wide> {
    let partial = shortest::<R>(&position.multipliers, e)?;
    if d.iter().all(|x| x.num == 0) {
        return Ok(partial.map_or(Turn::Refuted, |(place, length)| Turn::Drops(place, length)));
    }
    let above = excess::<R>(program, sides, &position.point, position.row)?;
    let slope = dot::<R>(program.g.row(position.row), d)?;
    let full = quotient::<R>(&above, &negated(&slope))?;
    Ok(match partial {
        Some((place, length)) if R::cmp(&length, &full) == Ordering::Less => Turn::Drops(place, length),
        _ => Turn::Joins(full),
    })
}

fn grow<R: Rules>(xs: &mut [Frac], s: &Frac, d: &[Frac]) -> Result<(), Wide> {
    for (x, y) in xs.iter_mut().zip(d) {
        *x = R::add(x, &R::mul(s, y)?)?;
    }
    Ok(())
}

fn moved<R: Rules>(position: &mut Position, s: &Frac, d: &[Frac], e: &[Frac]) -> Result<(), Wide> {
    grow::<R>(&mut position.point, s, d)?;
    grow::<R>(&mut position.multipliers, s, e)?;
    position.weight = R::add(&position.weight, s)?;
    Ok(())
}

fn row_multipliers(rows: usize, position: &Position, e: &[Frac]) -> Vec<Frac> {
    let mut all = vec![ZERO; rows];
    for (member, x) in position.set.iter().zip(e) {
        all[*member] = *x;
    }
    all[position.row] = ONE;
    all
}

fn advance<R: Rules>(program: &Program, shared: &mut Shared, sides: &[Frac], mut position: Position) -> Result<Next, Wide> {
    let (d, e) = shared.direction::<R>(program, &position)?.split_at(program.h.width);
    match turn_of::<R>(program, sides, &position, d, e)? {
        Turn::Refuted => Ok(Next::Ends(End::Refuted(row_multipliers(sides.len(), &position, e)))),
        Turn::Drops(place, length) => {
            moved::<R>(&mut position, &length, d, e)?;
            position.set.remove(place);
            position.multipliers.remove(place);
            Ok(Next::Goes(position))
        }
        Turn::Joins(length) => {
            moved::<R>(&mut position, &length, d, e)?;
            let first = first_violated::<R>(program, sides, &position.point)?;
            let place = position.set.partition_point(|member| *member < position.row);
            position.set.insert(place, position.row);
            position.multipliers.insert(place, position.weight);
            Ok(continued(position, first))
        }
    }
}

/// The answer at the counts, by what the states share. The steps are added to `steps`.
fn solve_at<R: Rules>(program: &Program, shared: &mut Shared, counts: &[u64], steps: &mut u64) -> Result<End, Wide> {
    let c: Vec<Frac> = std::iter::once(ONE).chain(counts.iter().map(|count| Frac { num: *count as i128, den: 1 })).collect();
    let sides = program.w.products::<R>(&c)?;
    let mut next = open::<R>(program, &c, &sides)?;
    loop {
        match next {
            Next::Ends(end) => return Ok(end),
            Next::Goes(position) => {
                *steps += 1;
                next = advance::<R>(program, shared, &sides, position)?;
            }
        }
    }
}

// ---- text
fn number(word: &str) -> Frac {
    let (num, den) = word.split_once('/').unwrap_or((word, "1"));
    Frac { num: num.parse().expect("a numerator"), den: den.parse().expect("a denominator") }
}

fn table<'a>(lines: &mut impl Iterator<Item = &'a str>, rows: usize, width: usize) -> Table {
    let entries: Vec<Frac> = lines.take(rows).flat_map(|line| line.split(' ').map(number)).collect();
    assert_eq!(entries.len(), rows * width, "rows of {width} numbers");
    Table { entries, width }
}

fn program<'a>(lines: &mut impl Iterator<Item = &'a str>) -> Program {
    let sizes: Vec<usize> = lines.next().expect("sizes").split(' ').map(|size| size.parse().expect("a size")).collect();
    let [moves, unknowns, rows, columns] = sizes[..] else { panic!("four sizes") };
    Program {
        moves,
        h: table(lines, unknowns, unknowns),
        f: table(lines, unknowns, columns),
        g: table(lines, rows, unknowns),
        w: table(lines, rows, columns),
    }
}

fn write_reply(reply: &mut String, moves: &[Frac]) {
    for (i, x) in moves.iter().enumerate() {
        let blank = if i == 0 { "" } else { " " };
        match x.den {
            1 => write!(reply, "{blank}{}", x.num),
            den => write!(reply, "{blank}{}/{den}", x.num),
        }
        .expect("room");
    }
}

/// The reply lines, and the steps of all runs.
fn replies<'a, R: Rules>(program: &Program, lines: impl Iterator<Item = &'a str>) -> (String, u64) {
    let (mut text, mut steps) = (String::new(), 0);
    let mut shared = Shared::of::<R>(program);
    for line in lines {
        let counts: Vec<u64> = line.split(' ').map(|count| count.parse().expect("a count")).collect();
        match solve_at::<R>(program, &mut shared, &counts, &mut steps) {
            Ok(End::Best(point)) => write_reply(&mut text, &point[..program.moves]),
            Ok(End::Refuted(multipliers)) => {
                assert_eq!(multipliers.len(), program.g.entries.len() / program.g.width);
                text.push_str("infeasible");
            }
            Err(Wide) => text.push_str("too wide"),
        }
        text.push('\n');
    }
    (text, steps)
}

fn main() {
    let word = std::env::args().nth(1).expect("a word");
    let input = std::io::read_to_string(std::io::stdin()).expect("the text of a program");
    let mut lines = input.lines();
    let program = program(&mut lines);
    assert_eq!(lines.next(), Some("states"));
    let (text, steps) = match word.as_str() {
        "fast" => replies::<Fast>(&program, lines),
        "plain" => replies::<Plain>(&program, lines),
        _ => panic!("fast or plain"),
    };
    std::io::stdout().write_all(text.as_bytes()).expect("a reader");
    eprintln!("{steps}");
}
