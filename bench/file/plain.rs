// The file of a controller in plain Rust: it is read by the rules of docs/file_formats.md, and written in version 3.
use crate::fractions::{Fast, Frac, Rules};
use std::collections::{HashMap, HashSet};
use std::io::Write;

// ---- controllers
/// A row `a·t <= b` on the counts t.
#[derive(Clone)]
pub struct Row {
    pub a: Vec<i128>,
    pub b: i128,
}

/// The positions of rows and their multipliers.
pub type Cert = Vec<(u64, Frac)>;

pub enum Node {
    Split(Row),
    Law { law: u32, certs: Vec<Cert> },
    NoMove { cert: Cert },
}

/// A law: its set, and the forms of its moves and multipliers, one behind the other.
pub struct Law {
    pub set: Vec<u32>,
    pub moves: Vec<Frac>,
    pub mults: Vec<Frac>,
}

pub struct Axis {
    pub low: Frac,
    pub step: Frac,
    pub count: u64,
}

pub struct Plant {
    pub n: usize,
    pub p: usize,
    pub steps: usize,
    pub matrices: [Vec<Frac>; 5],
    pub drift: Vec<Frac>,
    pub goal: Vec<Frac>,
    pub rows: Vec<Vec<Frac>>,
    pub last: Vec<Vec<Frac>>,
    pub grid: Vec<Axis>,
}

impl Plant {
    /// How many rows the program has.
    pub fn row_count(&self) -> usize {
        self.steps * self.rows.len() + self.last.len()
    }

    pub fn unknowns(&self) -> usize {
        self.p * self.steps
    }

    fn counts(&self) -> Vec<u64> {
        self.grid.iter().map(|axis| axis.count).collect()
    }
}

pub struct Controller {
    pub plant: Plant,
    pub laws: Vec<Law>,
    pub nodes: Vec<Node>,
}

// ---- what fails
#[derive(Clone, Copy, PartialEq, Debug)]
pub enum Kind {
    BadLine = 1,
    Truncated = 2,
    TailAfterEnd = 3,
    BadNode = 4,
    OverBound = 5,
}

/// The first line that fails, by its number from 1.
#[derive(Clone, Copy, PartialEq, Debug)]
pub struct Failure {
    pub kind: Kind,
    pub line: u64,
}

type Read<T> = Result<T, Failure>;

// ---- lines and words
struct Lines<'a> {
    rest: &'a [u8],
    next: u64,
}

/// A line and its number.
#[derive(Clone, Copy)]
struct Line<'a> {
    text: &'a [u8],
    number: u64,
}

impl<'a> Lines<'a> {
    fn take(&mut self) -> Read<Line<'a>> {
        let number = self.next;
        let Some(end) = self.rest.iter().position(|c| *c == b'\n') else {
            return Err(Failure { kind: Kind::Truncated, line: number });
        };
        let text = &self.rest[..end];
        self.rest = &self.rest[end + 1..];
        self.next += 1;
        Ok(Line { text, number })
    }
}

impl<'a> Line<'a> {
    fn fails(&self, kind: Kind) -> Failure {
        Failure { kind, line: self.number }
    }

    fn bad(&self) -> Failure {
        self.fails(Kind::BadLine)
    }

    /// The words behind the first one, if that is `name`.
    fn words(&self, name: &str) -> Option<impl Iterator<Item = &'a [u8]> + use<'a>> {
        let rest = self.text.strip_prefix(name.as_bytes())?;
        let words = match rest.split_first() {
            None => None,
            Some((b' ', words)) => Some(words),
            Some(_) => return None,
        };
        Some(words.into_iter().flat_map(|words| words.split(|c| *c == b' ')))
    }

    fn fractions(&self, name: &str, count: usize) -> Read<Vec<Frac>> {
        let mut read = Vec::with_capacity(count);
        for word in self.words(name).ok_or(self.bad())? {
            read.push(fraction(word).ok_or(self.bad())?);
        }
        if read.len() == count { Ok(read) } else { Err(self.bad()) }
    }

    fn integers(&self, name: &str) -> Read<Vec<i128>> {
        let mut read = Vec::new();
        for word in self.words(name).ok_or(self.bad())? {
            read.push(integer(word).ok_or(self.bad())?);
        }
        Ok(read)
    }

    /// The one number behind the first word.
    fn natural(&self, name: &str) -> Read<Natural> {
        let mut words = self.words(name).ok_or(self.bad())?;
        match (words.next().map(natural), words.next()) {
            (Some(number), None) => Ok(number),
            _ => Err(self.bad()),
        }
    }

    fn count(&self, name: &str, most: u64) -> Read<u64> {
        match self.natural(name)? {
            Natural::Small(count) if count <= most => Ok(count),
            _ => Err(self.bad()),
        }
    }

    fn is(&self, word: &str) -> Read<()> {
        if self.text == word.as_bytes() { Ok(()) } else { Err(self.bad()) }
    }
}

// ---- numbers
enum Natural {
    Small(u64),
    Large,
    Misspelled,
}

fn is_numeral(word: &[u8]) -> bool {
    !word.is_empty() && (word[0] != b'0' || word.len() == 1) && word.iter().all(u8::is_ascii_digit)
}

/// The number that digits stand for, if it is below 2^127.
fn value(digits: &[u8]) -> Option<u128> {
    if digits.len() <= 19 {
        return Some(digits.iter().fold(0u64, |value, c| value * 10 + u64::from(c - b'0')) as u128);
    }
    let mut value: u128 = 0;
    for c in digits {
        value = value.checked_mul(10)?.checked_add(u128::from(c - b'0'))?;
    }
    if value <= i128::MAX as u128 { Some(value) } else { None }
}

fn natural(word: &[u8]) -> Natural {
    if !is_numeral(word) {
        return Natural::Misspelled;
    }
    match value(word).map(u64::try_from) {
        Some(Ok(number)) => Natural::Small(number),
        _ => Natural::Large,
    }
}

fn size(word: &[u8]) -> Option<i128> {
    if is_numeral(word) { value(word).map(|n| n as i128) } else { None }
}

fn integer(word: &[u8]) -> Option<i128> {
    match word.strip_prefix(b"-") {
        Some(word) => size(word).filter(|n| *n != 0).map(|n| -n),
        None => size(word),
    }
}

fn fraction(word: &[u8]) -> Option<Frac> {
    let Some(slash) = word.iter().position(|c| *c == b'/') else {
        return integer(word).map(|num| Frac { num, den: 1 });
    };
    let read = Frac { num: integer(&word[..slash])?, den: size(&word[slash + 1..])? };
    if read.den > 1 && Fast::new(read.num, read.den) == read { Some(read) } else { None }
}

// ---- bounds
const GREATEST: u128 = i128::MAX as u128;

fn within(start: i128, slopes: impl Iterator<Item = (i128, u64)>) -> bool {
    let mut far = Some(start.unsigned_abs());
    for (slope, count) in slopes {
        let step = slope.unsigned_abs().checked_mul(u128::from(count));
        far = far.and_then(|far| far.checked_add(step?));
    }
    far.is_some_and(|far| far <= GREATEST)
}

/// The numerators over the least common denominator.
fn common(form: &[Frac]) -> Option<Vec<i128>> {
    let mut den: i128 = 1;
    for x in form.iter().filter(|x| x.den != 1) {
        den = den.checked_mul(Fast::new(x.den, den).num)?;
    }
    form.iter().map(|x| x.num.checked_mul(den / x.den)).collect()
}

fn form_fits(form: &[Frac], counts: &[u64]) -> bool {
    match common(form) {
        Some(k) => k[1..].iter().all(|k| *k != i128::MIN) && within(k[0], k[1..].iter().copied().zip(counts.iter().copied())),
        None => false,
    }
}

fn row_fits(row: &Row, counts: &[u64]) -> bool {
    within(row.b, row.a.iter().copied().zip(counts.iter().copied()))
}

/// Whether some weight isn't 0 and no number above 1 divides all of the row's.
fn is_plane(row: &Row) -> bool {
    let mut shared = row.b;
    for a in &row.a {
        shared = divisor(shared, *a);
    }
    row.a.iter().any(|a| *a != 0) && shared == 1
}

fn divisor(x: i128, y: i128) -> i128 {
    let (x, y) = (x.abs(), y.abs());
    if x == 0 || y == 0 { x + y } else { y / Fast::new(x, y).den }
}

// ---- the plant
const SHORT: u64 = 999_999_999_999_999_999;

fn read_version(lines: &mut Lines) -> Read<u64> {
    let line = lines.take()?;
    match line.natural("mpc")? {
        Natural::Small(version @ 1..=3) => Ok(version),
        _ => Err(line.bad()),
    }
}

fn read_sizes(lines: &mut Lines) -> Read<(usize, usize, usize)> {
    let line = lines.take()?;
    let sizes = line.integers("size")?;
    match sizes[..] {
        [n @ 1..=4, p @ 1..=3, steps @ 1..=6] if p * steps <= 6 => Ok((n as usize, p as usize, steps as usize)),
        _ => Err(line.bad()),
    }
}

fn read_matrix(lines: &mut Lines, name: &str, rows: usize, columns: usize) -> Read<Vec<Frac>> {
    lines.take()?.fractions(name, rows * columns)
}

fn read_weight(lines: &mut Lines, name: &str, size: usize) -> Read<Vec<Frac>> {
    let line = lines.take()?;
    let read = line.fractions(name, size * size)?;
    let mirrored = (0..size).all(|i| (0..i).all(|j| read[i * size + j] == read[j * size + i]));
    if mirrored { Ok(read) } else { Err(line.bad()) }
}

fn read_offsets(lines: &mut Lines, version: u64, n: usize, p: usize) -> Read<(Vec<Frac>, Vec<Frac>)> {
    const ZERO: Frac = Frac { num: 0, den: 1 };
    if version == 1 {
        return Ok((vec![ZERO; n], vec![ZERO; n + p]));
    }
    let drift = lines.take()?.fractions("drift", n)?;
    let line = lines.take()?;
    let goal = line.fractions("goal", n + p)?;
    let all_zero = drift.iter().chain(&goal).all(|x| *x == ZERO);
    if version == 2 && all_zero { Err(line.bad()) } else { Ok((drift, goal)) }
}

fn read_axis(lines: &mut Lines) -> Read<Axis> {
    let line = lines.take()?;
    let words: Vec<&[u8]> = line.words("grid").ok_or(line.bad())?.collect();
    let [low, step, count] = words[..] else {
        return Err(line.bad());
    };
    match (fraction(low), fraction(step), natural(count)) {
        (Some(low), Some(step), Natural::Small(count @ 0..=1_000_000)) if step.num > 0 => Ok(Axis { low, step, count }),
        _ => Err(line.bad()),
    }
}

fn read_plant(lines: &mut Lines, version: u64) -> Read<Plant> {
    let (n, p, steps) = read_sizes(lines)?;
    let dynamics = (read_matrix(lines, "A", n, n)?, read_matrix(lines, "B", n, p)?);
    let weights = (read_weight(lines, "Q", n)?, read_weight(lines, "R", p)?, read_weight(lines, "P", n)?);
    let matrices = [dynamics.0, dynamics.1, weights.0, weights.1, weights.2];
    let (drift, goal) = read_offsets(lines, version, n, p)?;
    let most = if version == 3 && p * steps <= 4 { 60 } else { 40 };
    let stage = lines.take()?.count("rows", most / steps as u64)?;
    let rows = (0..stage).map(|_| lines.take()?.fractions("row", n + p + 1)).collect::<Read<Vec<_>>>()?;
    let end = lines.take()?.count("terminal", most - steps as u64 * stage)?;
    let last = (0..end).map(|_| lines.take()?.fractions("last", n + 1)).collect::<Read<Vec<_>>>()?;
    let grid = (0..n).map(|_| read_axis(lines)).collect::<Read<Vec<_>>>()?;
    Ok(Plant { n, p, steps, matrices, drift, goal, rows, last, grid })
}

// ---- the laws
const MOST_LAWS: u64 = 4_598_479;

/// Numbers from 1 that rise, up to `most`.
fn rising(numbers: &[i128], most: usize) -> Option<Vec<u32>> {
    let mut last = 0;
    let mut read = Vec::with_capacity(numbers.len());
    for number in numbers {
        if *number <= last || *number > most as i128 {
            return None;
        }
        last = *number;
        read.push(last as u32);
    }
    Some(read)
}

fn read_set(lines: &mut Lines, plant: &Plant) -> Read<Vec<u32>> {
    let line = lines.take()?;
    let members = line.integers("law")?;
    if members.len() > plant.unknowns() {
        return Err(line.bad());
    }
    rising(&members, plant.row_count()).ok_or(line.bad())
}

fn read_written_law(lines: &mut Lines, plant: &Plant, counts: &[u64]) -> Read<Law> {
    let set = read_set(lines, plant)?;
    let mut law = Law { set, moves: Vec::new(), mults: Vec::new() };
    for i in 0..plant.unknowns() {
        let line = lines.take()?;
        let form = line.fractions("move", plant.n + 1)?;
        if i < plant.p && !form_fits(&form, counts) {
            return Err(line.fails(Kind::OverBound));
        }
        law.moves.extend(form);
    }
    for _ in 0..law.set.len() {
        law.mults.extend(lines.take()?.fractions("mult", plant.n + 1)?);
    }
    Ok(law)
}

fn read_forms(lines: &mut Lines, n: usize) -> Read<Vec<Vec<Frac>>> {
    let count = lines.take()?.count("forms", SHORT)?;
    let (mut forms, mut known) = (Vec::new(), HashSet::new());
    for _ in 0..count {
        let line = lines.take()?;
        let form = line.fractions("form", n + 1)?;
        if !known.insert(line.text) {
            return Err(line.bad());
        }
        forms.push(form);
    }
    Ok(forms)
}

/// The numbers of so many forms, each at most one above those used before it.
fn numbers(line: &Line, name: &str, count: usize, all: usize, used: &mut usize) -> Read<Vec<usize>> {
    let read = line.integers(name)?;
    if read.len() != count {
        return Err(line.bad());
    }
    let mut numbers = Vec::with_capacity(count);
    for number in read {
        let most = all.min(*used + 1);
        if number < 1 || number > most as i128 {
            return Err(line.bad());
        }
        *used = (*used).max(number as usize);
        numbers.push(number as usize);
    }
    Ok(numbers)
}

fn read_named_law(lines: &mut Lines, plant: &Plant, counts: &[u64], forms: &[Vec<Frac>], used: &mut usize) -> Read<Law> {
    let set = read_set(lines, plant)?;
    let line = lines.take()?;
    let moves = numbers(&line, "move", plant.unknowns(), forms.len(), used)?;
    if !moves[..plant.p].iter().all(|k| form_fits(&forms[k - 1], counts)) {
        return Err(line.fails(Kind::OverBound));
    }
    let mults = if set.is_empty() { Vec::new() } else { numbers(&lines.take()?, "mult", set.len(), forms.len(), used)? };
    let named = |numbers: &[usize]| numbers.iter().flat_map(|k| &forms[k - 1]).copied().collect();
    Ok(Law { set, moves: named(&moves), mults: named(&mults) })
}

// ---- the tree
fn read_row(line: &Line, name: &str, counts: &[u64]) -> Read<Row> {
    let mut a = line.integers(name)?;
    let Some(b) = a.pop().filter(|_| a.len() == counts.len()) else {
        return Err(line.bad());
    };
    let row = Row { a, b };
    if !is_plane(&row) {
        return Err(line.fails(Kind::BadNode));
    }
    if row_fits(&row, counts) { Ok(row) } else { Err(line.fails(Kind::OverBound)) }
}

fn read_planes(lines: &mut Lines, counts: &[u64], all_used: bool) -> Read<Vec<Row>> {
    let line = lines.take()?;
    let count = line.count("planes", SHORT)?;
    if !all_used {
        return Err(line.bad());
    }
    let (mut planes, mut known) = (Vec::new(), HashSet::new());
    for _ in 0..count {
        let line = lines.take()?;
        if !known.insert(line.text) {
            return Err(line.bad());
        }
        planes.push(read_row(&line, "plane", counts)?);
    }
    Ok(planes)
}

fn read_cert(lines: &mut Lines, rows: u64) -> Read<Cert> {
    let line = lines.take()?;
    let mut words = line.words("cert").ok_or(line.bad())?;
    let (mut cert, mut last) = (Vec::new(), 0);
    while let Some(word) = words.next() {
        let position = match size(word) {
            Some(position) if position > last && position <= i128::from(rows) => position,
            _ => return Err(line.bad()),
        };
        let multiplier = words.next().and_then(fraction).filter(|x| x.num != 0).ok_or(line.bad())?;
        cert.push((position as u64, multiplier));
        last = position;
    }
    Ok(cert)
}

fn read_leaf(lines: &mut Lines, line: &Line, plant: &Plant, laws: usize, depth: u64) -> Read<Node> {
    let (cell, rows) = (2 * plant.n as u64 + depth, plant.row_count() as u64);
    if line.text == b"none" {
        return Ok(Node::NoMove { cert: read_cert(lines, cell + rows)? });
    }
    match line.natural("leaf")? {
        Natural::Small(law) if law >= 1 && law <= laws as u64 => {
            let certs = (0..rows).map(|_| read_cert(lines, cell + 1)).collect::<Read<Vec<_>>>()?;
            Ok(Node::Law { law: law as u32, certs })
        }
        Natural::Misspelled => Err(line.bad()),
        _ => Err(line.fails(Kind::BadNode)),
    }
}

/// Reads the nodes, whose splits are read from their lines where there are such.
fn read_nodes(lines: &mut Lines, plant: &Plant, laws: usize, mut split: impl FnMut(&Line) -> Read<Row>) -> Read<Vec<Node>> {
    lines.take()?.is("tree")?;
    let (mut nodes, mut owed) = (Vec::new(), vec![0]);
    while let Some(depth) = owed.pop() {
        let line = lines.take()?;
        if line.words("split").is_some() {
            nodes.push(Node::Split(split(&line)?));
            owed.extend([depth + 1, depth + 1]);
        } else {
            nodes.push(read_leaf(lines, &line, plant, laws, depth)?);
        }
    }
    Ok(nodes)
}

/// The plane that the line of a split names, at most one above those used before it.
fn named_row(line: &Line, planes: &[Row], used: &mut usize) -> Read<Row> {
    match line.natural("split")? {
        Natural::Small(k) if k >= 1 && k <= planes.len().min(*used + 1) as u64 => {
            *used = (*used).max(k as usize);
            Ok(planes[k as usize - 1].clone())
        }
        Natural::Misspelled => Err(line.bad()),
        _ => Err(line.fails(Kind::BadNode)),
    }
}

// ---- the file
fn read_written(lines: &mut Lines, plant: Plant) -> Read<Controller> {
    let counts = plant.counts();
    let count = lines.take()?.count("laws", MOST_LAWS)?;
    let laws = (0..count).map(|_| read_written_law(lines, &plant, &counts)).collect::<Read<Vec<_>>>()?;
    let nodes = read_nodes(lines, &plant, laws.len(), |line| read_row(line, "split", &counts))?;
    lines.take()?.is("end")?;
    Ok(Controller { plant, laws, nodes })
}

fn read_named(lines: &mut Lines, plant: Plant) -> Read<Controller> {
    let counts = plant.counts();
    let forms = read_forms(lines, plant.n)?;
    let count = lines.take()?.count("laws", MOST_LAWS)?;
    let mut used = 0;
    let laws = (0..count).map(|_| read_named_law(lines, &plant, &counts, &forms, &mut used)).collect::<Read<Vec<_>>>()?;
    let planes = read_planes(lines, &counts, used == forms.len())?;
    let mut used = 0;
    let nodes = read_nodes(lines, &plant, laws.len(), |line| named_row(line, &planes, &mut used))?;
    let line = lines.take()?;
    line.is("end")?;
    if used == planes.len() { Ok(Controller { plant, laws, nodes }) } else { Err(line.bad()) }
}

pub fn read(text: &[u8]) -> Read<Controller> {
    let mut lines = Lines { rest: text, next: 1 };
    let version = read_version(&mut lines)?;
    let plant = read_plant(&mut lines, version)?;
    let controller = if version == 3 { read_named(&mut lines, plant)? } else { read_written(&mut lines, plant)? };
    if lines.rest.is_empty() {
        return Ok(controller);
    }
    Err(Failure { kind: Kind::TailAfterEnd, line: lines.next })
}

// ---- written
/// Appends a number behind a blank.
fn put<T: std::fmt::Display>(number: T, out: &mut Vec<u8>) {
    write!(out, " {number}").expect("memory");
}

pub fn put_fractions<'a>(fractions: impl IntoIterator<Item = &'a Frac>, out: &mut Vec<u8>) {
    for x in fractions {
        put(x.num, out);
        if x.den != 1 {
            write!(out, "/{}", x.den).expect("memory");
        }
    }
}

/// Appends a line of a first word and fractions.
pub fn put_line<'a>(name: &str, fractions: impl IntoIterator<Item = &'a Frac>, out: &mut Vec<u8>) {
    out.extend_from_slice(name.as_bytes());
    put_fractions(fractions, out);
    out.push(b'\n');
}

pub fn put_count(name: &str, count: usize, out: &mut Vec<u8>) {
    writeln!(out, "{name} {count}").expect("memory");
}

/// Appends a line of a first word and integers.
pub fn put_integers<T: std::fmt::Display>(name: &str, integers: impl IntoIterator<Item = T>, out: &mut Vec<u8>) {
    out.extend_from_slice(name.as_bytes());
    for integer in integers {
        put(integer, out);
    }
    out.push(b'\n');
}

pub fn put_plant(plant: &Plant, version: u64, out: &mut Vec<u8>) {
    put_count("mpc", version as usize, out);
    put_integers("size", [plant.n, plant.p, plant.steps], out);
    for (name, matrix) in ["A", "B", "Q", "R", "P"].into_iter().zip(&plant.matrices) {
        put_line(name, matrix, out);
    }
    if version != 1 {
        put_line("drift", &plant.drift, out);
        put_line("goal", &plant.goal, out);
    }
    put_count("rows", plant.rows.len(), out);
    plant.rows.iter().for_each(|row| put_line("row", row, out));
    put_count("terminal", plant.last.len(), out);
    plant.last.iter().for_each(|row| put_line("last", row, out));
    for axis in &plant.grid {
        out.extend_from_slice(b"grid");
        put_fractions([&axis.low, &axis.step], out);
        put(axis.count, out);
        out.push(b'\n');
    }
}

/// Lines, one behind the other, and their numbers.
#[derive(Default)]
struct Names {
    numbers: HashMap<Vec<u8>, usize>,
    text: Vec<u8>,
}

impl Names {
    fn number(&mut self, line: Vec<u8>) -> usize {
        let next = self.numbers.len() + 1;
        *self.numbers.entry(line).or_insert_with_key(|line| {
            self.text.extend_from_slice(line);
            next
        })
    }

    fn put(&self, name: &str, out: &mut Vec<u8>) {
        put_count(name, self.numbers.len(), out);
        out.extend_from_slice(&self.text);
    }
}

fn put_forms(name: &str, forms: &[Frac], n: usize, names: &mut Names, out: &mut Vec<u8>) {
    out.extend_from_slice(name.as_bytes());
    for form in forms.chunks(n + 1) {
        let mut line = Vec::new();
        put_line("form", form, &mut line);
        put(names.number(line), out);
    }
    out.push(b'\n');
}

fn put_laws(controller: &Controller, out: &mut Vec<u8>) {
    let (mut names, mut text, n) = (Names::default(), Vec::new(), controller.plant.n);
    for law in &controller.laws {
        put_integers("law", &law.set, &mut text);
        put_forms("move", &law.moves, n, &mut names, &mut text);
        if !law.set.is_empty() {
            put_forms("mult", &law.mults, n, &mut names, &mut text);
        }
    }
    names.put("forms", out);
    put_count("laws", controller.laws.len(), out);
    out.extend_from_slice(&text);
}

pub fn put_cert(cert: &Cert, out: &mut Vec<u8>) {
    out.extend_from_slice(b"cert");
    for (position, multiplier) in cert {
        put(position, out);
        put_fractions([multiplier], out);
    }
    out.push(b'\n');
}

/// Appends the lines of a node, whose split is written as it is said.
pub fn put_node(node: &Node, out: &mut Vec<u8>, mut split: impl FnMut(&Row, &mut Vec<u8>)) {
    match node {
        Node::Split(row) => split(row, out),
        Node::Law { law, certs } => {
            put_count("leaf", *law as usize, out);
            certs.iter().for_each(|cert| put_cert(cert, out));
        }
        Node::NoMove { cert } => {
            out.extend_from_slice(b"none\n");
            put_cert(cert, out);
        }
    }
}

fn put_tree(nodes: &[Node], out: &mut Vec<u8>) {
    let (mut names, mut text) = (Names::default(), Vec::new());
    for node in nodes {
        put_node(node, &mut text, |row, text| {
            let mut line = Vec::new();
            put_integers("plane", row.a.iter().chain([&row.b]), &mut line);
            put_count("split", names.number(line), text);
        });
    }
    names.put("planes", out);
    out.extend_from_slice(b"tree\n");
    out.extend_from_slice(&text);
}

/// The file in version 3.
pub fn write(controller: &Controller) -> Vec<u8> {
    let mut out = Vec::new();
    put_plant(&controller.plant, 3, &mut out);
    put_laws(controller, &mut out);
    put_tree(&controller.nodes, &mut out);
    out.extend_from_slice(b"end\n");
    out
}
