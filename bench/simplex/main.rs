// Compares the proved decisions of systems of rows with two plain Rust ones, runs in whole numbers like the proved ones and the run over
// fractions, and with stated results: equal answers first, then of how many systems the run in whole numbers stays within one limit for all
// rows, how many are judged row by row and how many fall back to fractions, then pivots a second, the proved run over fractions beside, and at
// last how many systems go on from a run that is kept, by the proved call. The words name files: systems with their results (.tsv), or plants,
// whose systems are those that are decided on the way to their controllers.
#[path = "../common/fractions.rs"]
#[allow(dead_code)]
mod fractions;
mod judged;
mod kernel;
#[path = "../common/parts.rs"]
mod parts;
mod plain;
mod plants;
mod search;
#[path = "../common/timing.rs"]
mod timing;

use fractions::{Frac, euclid};
use kernel::{Rows, Run, Way};
use parts::{Parts, frac, parts};
use plain::{Answer, Row, System, ZERO};
use plants::Plant;
use search::{Asked, search};
use timing::Timed;

// ---- the proved library
#[repr(C)]
#[derive(Clone, Copy)]
struct Side {
    bound: Parts,
    strict: bool,
}

#[repr(C)]
#[derive(Clone, Copy)]
struct Pair {
    first: Parts,
    second: Parts,
}

unsafe extern "C" {
    fn mpc_simplex_decide(
        width: u32,
        coefficients: *const Parts,
        coefficient_count: usize,
        sides: *const Side,
        side_count: usize,
        point: *mut Pair,
        point_len: usize,
        multipliers: *mut Parts,
        multiplier_count: usize,
    ) -> u32;
    fn mpc_simplex_go_on(
        width: u32,
        coefficients: *const Parts,
        coefficient_count: usize,
        sides: *const Side,
        side_count: usize,
        first: usize,
        kept: *mut usize,
    ) -> u32;
    fn mpc_simplex_repeat(
        width: u32,
        coefficients: *const Parts,
        coefficient_count: usize,
        sides: *const Side,
        side_count: usize,
        rounds: u32,
    ) -> u64;
}

struct Sent {
    width: u32,
    coefficients: Vec<Parts>,
    sides: Vec<Side>,
}

impl Sent {
    fn new(system: &System) -> Self {
        Sent {
            width: system.width as u32,
            coefficients: system.rows.iter().flat_map(|row| row.a.iter().map(parts)).collect(),
            sides: system.rows.iter().map(|row| Side { bound: parts(&row.b), strict: row.strict }).collect(),
        }
    }

    fn decide(&self) -> Option<Answer> {
        let zero = parts(&ZERO);
        let mut point = vec![Pair { first: zero, second: zero }; self.width as usize];
        let mut multipliers = vec![zero; self.sides.len()];
        let kind = unsafe {
            mpc_simplex_decide(
                self.width,
                self.coefficients.as_ptr(),
                self.coefficients.len(),
                self.sides.as_ptr(),
                self.sides.len(),
                point.as_mut_ptr(),
                point.len(),
                multipliers.as_mut_ptr(),
                multipliers.len(),
            )
        };
        match kind {
            0 => Some(Answer::Point(point.iter().map(|p| (frac(&p.first), frac(&p.second))).collect())),
            1 => Some(Answer::Refuted(multipliers.iter().map(frac).collect())),
            2 => Some(Answer::Wide),
            _ => None,
        }
    }

    /// Whether the system has a point, by the run of its first rows that goes on by the others, where each of these runs is kept.
    fn go_on(&self, first: usize) -> Option<bool> {
        let (coefficients, sides, mut kept) = (&self.coefficients, &self.sides, 0);
        let kind = unsafe {
            mpc_simplex_go_on(self.width, coefficients.as_ptr(), coefficients.len(), sides.as_ptr(), sides.len(), first, &mut kept)
        };
        match kind {
            0 | 1 => Some(kind == 0).filter(|_| kept == sides.len()),
            _ => None,
        }
    }

    fn repeat(&self, rounds: u32) -> u64 {
        let (coefficients, sides) = (&self.coefficients, &self.sides);
        unsafe { mpc_simplex_repeat(self.width, coefficients.as_ptr(), coefficients.len(), sides.as_ptr(), sides.len(), rounds) }
    }
}

// ---- the plain runs, repeated
fn mixed(digest: u64, x: &Frac) -> u64 {
    digest.rotate_left(1) ^ x.num.unsigned_abs() as u64
}

fn repeat(rounds: u32, mut decide: impl FnMut() -> Answer) -> u64 {
    let mut digest: u64 = 0;
    for _ in 0..rounds {
        digest = match decide() {
            Answer::Point(point) => point.iter().fold(digest, |d, p| mixed(mixed(d, &p.0), &p.1)),
            Answer::Refuted(multipliers) => multipliers.iter().fold(digest, mixed),
            Answer::Wide => digest.rotate_left(1),
        };
    }
    digest
}

fn by_fractions(system: &System) -> Answer {
    plain::decide(system).0
}

/// The answer that a run in whole numbers found, or that by fractions where both gave up.
fn answer_of(found: Option<(Answer, Way)>, system: &System) -> Answer {
    found.map_or_else(|| by_fractions(system), |(answer, _)| answer)
}

fn by_kernel(system: &System) -> Answer {
    answer_of(kernel::decide(system), system)
}

// ---- the file: a line of names, then for each system its width, its rows and its result, with tabs between
fn read_frac(text: &str) -> Frac {
    let (num, den) = text.split_once('/').unwrap_or((text, "1"));
    let (num, den): (i128, i128) = (num.parse().expect("a numerator"), den.parse().expect("a denominator"));
    let g = euclid(num.unsigned_abs(), den as u128) as i128;
    Frac { num: num / g, den: den / g }
}

fn read_row(text: &str, width: usize) -> Row {
    let words: Vec<&str> = text.split_whitespace().collect();
    assert_eq!(words.len(), width + 2, "the length of the row {text}");
    Row { a: words[..width].iter().map(|word| read_frac(word)).collect(), b: read_frac(words[width + 1]), strict: words[width] == "<" }
}

fn read_answer(text: &str) -> Answer {
    let mut words = text.split_whitespace();
    match words.next().expect("a result") {
        "point" => {
            Answer::Point(words.map(|word| word.split_once(',').expect("a pair")).map(|(q, r)| (read_frac(q), read_frac(r))).collect())
        }
        "refuted" => Answer::Refuted(words.map(read_frac).collect()),
        "wide" => Answer::Wide,
        word => panic!("the result {word}"),
    }
}

fn read_line(line: &str) -> (System, Answer) {
    let fields: Vec<&str> = line.split('\t').collect();
    let width = fields[0].parse().expect("a width");
    let rows = fields[1].split(';').filter(|row| !row.trim().is_empty()).map(|row| read_row(row, width)).collect();
    (System { width, rows }, read_answer(fields[2]))
}

/// The systems of a file with their results.
fn stated(text: &str) -> Group {
    let mut group = Group::default();
    for (system, stated) in text.lines().skip(1).map(read_line) {
        group.count(&system);
        group.add(system, Some(stated));
    }
    group
}

// ---- the systems of a plant
/// At most so many systems of a plant are found, and at most so many of them are measured.
const MOST_FOUND: usize = 40_000;
const MOST_KEPT: usize = 600;

/// Some of the systems that come one after another, each with the same chance, and the same ones in each run.
#[derive(Default)]
struct Sample {
    kept: Vec<System>,
    seen: usize,
    chance: u64,
}

impl Sample {
    fn take(&mut self, system: &System) {
        self.seen += 1;
        if self.kept.len() < MOST_KEPT {
            self.kept.push(system.clone());
            return;
        }
        // the congruence of Knuth's MMIX
        self.chance = self.chance.wrapping_mul(6364136223846793005).wrapping_add(1442695040888963407);
        if let Some(place) = self.kept.get_mut((self.chance >> 32) as usize % self.seen) {
            place.clone_from(system);
        }
    }
}

/// The first systems that are decided on the way to a plant's controller.
fn of_plant(text: &str) -> Group {
    let program = Plant::read(text).program().expect("a program whose numbers fit");
    let (mut group, mut sample) = (Group::default(), Sample::default());
    let ended = search(&program, &mut |asked| {
        if group.found == MOST_FOUND {
            return None;
        }
        sample.take(&asked.system);
        let has_point = match group.count(&asked.system) {
            Answer::Point(_) => true,
            Answer::Refuted(_) => false,
            Answer::Wide => return None,
        };
        group.different += usize::from(!group.kinds[asked.kind as usize].count(asked, has_point));
        Some(has_point)
    });
    group.ended = ended.is_err();
    sample.kept.into_iter().for_each(|system| group.add(system, None));
    group
}

// ---- groups of systems
fn is_whole(system: &System) -> bool {
    system.rows.iter().all(|row| row.a.iter().chain([&row.b]).all(|x| x.den == 1))
}

/// The system with one row more, in front, that holds everywhere and takes part in no step, but has a denominator that is too great for whole
/// numbers. So the proved run goes by fractions.
fn hindered(system: &System) -> System {
    let row = Row { a: vec![ZERO; system.width], b: Frac { num: 1, den: 1 << 126 }, strict: false };
    System { width: system.width, rows: std::iter::once(row).chain(system.rows.iter().cloned()).collect() }
}

/// A system as it is and as it goes by fractions, each as it is sent too, and its rows in whole numbers, where they can be had.
struct Measured {
    system: System,
    rows: Option<Rows>,
    sent: Sent,
    hindered: System,
    hindered_sent: Sent,
}

impl Measured {
    fn new(system: System) -> Self {
        let hindered = hindered(&system);
        Measured { sent: Sent::new(&system), rows: Rows::read(&system), system, hindered_sent: Sent::new(&hindered), hindered }
    }

    /// The plain runs in whole numbers again and again, on rows that were read and lists that were taken before.
    fn repeat_ready(&self, rounds: u32) -> u64 {
        let mut run = self.rows.as_ref().map(Run::new);
        repeat(rounds, || answer_of(run.as_mut().and_then(Run::end), &self.system))
    }
}

/// Systems that are measured together.
#[derive(Default)]
struct Class {
    systems: Vec<Measured>,
    pivots: u64,
    seconds: Seconds,
}

/// The systems of one kind.
#[derive(Default)]
struct Tally {
    found: usize,
    /// How many go on from a kept run, by the proved call, and how many could but aren't kept.
    kept: usize,
    lost: usize,
    /// The pivots of all runs from the opening on, and how many are left where a run goes on from a kept one.
    pivots: u64,
    left: u64,
}

/// The names of the kinds, in their order.
const KINDS: [&str; 5] = ["reach", "region", "meet", "hold", "joint"];

impl Tally {
    /// Counts a system; whether the run that goes on finds what is so.
    fn count(&mut self, asked: &Asked, has_point: bool) -> bool {
        let system = &asked.system;
        let pivots = |rows| kernel::pivots(system, rows);
        let all = pivots(system.rows.len());
        self.found += 1;
        self.pivots += all;
        let Some(kept) = asked.kept else {
            self.left += all;
            return true;
        };
        let Some(answer) = Sent::new(system).go_on(kept.begun) else {
            self.lost += 1;
            self.left += all;
            return true;
        };
        self.kept += 1;
        self.left += all.saturating_sub(pivots(kept.rows));
        answer == has_point
    }

    fn print(&self, name: &str) {
        let Tally { found, kept, lost, pivots, left } = self;
        println!("{name:16} {found:7} {pivots:7} | {kept:9} {lost:9} {:6} {left:9}", found - kept - lost);
    }
}

/// The systems of a file.
#[derive(Default)]
struct Group {
    found: usize,
    /// How many of those that were found have rows with fractions, and how many each class has.
    broken: usize,
    counts: [usize; 4],
    /// Whether more systems would have been found.
    ended: bool,
    different: usize,
    /// Those within one limit with whole rows, those within it with fractions in their rows, those that are judged, and those that fall back.
    classes: [Class; 4],
    /// Those that were found, kind by kind.
    kinds: [Tally; 5],
}

const NAMES: [&str; 4] = ["whole", "with fractions", "judged", "fall back"];

/// The place of a system's class.
fn class_of(system: &System, found: &Option<(Answer, Way)>) -> usize {
    match found {
        Some((_, Way::Limited)) => usize::from(!is_whole(system)),
        Some((_, Way::Judged)) => 2,
        None => 3,
    }
}

impl Group {
    /// Counts a system that was found, and answers it.
    fn count(&mut self, system: &System) -> Answer {
        let found = kernel::decide(system);
        self.found += 1;
        self.broken += usize::from(!is_whole(system));
        self.counts[class_of(system, &found)] += 1;
        answer_of(found, system)
    }

    /// Compares the answers on a system that is to be measured, and whether runs in whole numbers serve for it.
    fn add(&mut self, system: System, stated: Option<Answer>) {
        let (found, pivots) = plain::decide(&system);
        let whole = kernel::decide(&system);
        let class = class_of(&system, &whole);
        let measured = Measured::new(system);
        let agree = |other: Option<Answer>| other.is_none_or(|other| other == found);
        let serve = measured.sent.go_on(measured.system.rows.len()).is_some() == whole.is_some();
        let own = measured.sent.decide().as_ref() == Some(&found);
        self.different += usize::from(!own || !serve || !agree(stated) || !agree(whole.map(|(answer, _)| answer)));
        self.classes[class].pivots += pivots;
        self.classes[class].systems.push(measured);
    }

    fn print(&mut self, name: &str) {
        let share = |part: usize| 100.0 * part as f64 / self.found.max(1) as f64;
        let first = if self.ended { "the first " } else { "" };
        let (broken, [limited, limited_broken, judged, fallen]) = (share(self.broken), self.counts.map(share));
        println!("{name}: {first}{} systems, {broken:.1} % with fractions, {} different", self.found, self.different);
        println!("  {:.1} % within one limit, {judged:.1} % judged row by row, {fallen:.1} % fall back", limited + limited_broken);
        let (mut count, mut pivots, mut seconds) = (0, 0, Seconds::default());
        for (class, name) in self.classes.iter_mut().zip(NAMES).filter(|(class, _)| !class.systems.is_empty()) {
            class.measure(name);
            row(name, class.systems.len(), class.pivots, &class.seconds);
            (count, pivots) = (count + class.systems.len(), pivots + class.pivots);
            seconds.iter_mut().zip(&class.seconds).for_each(|(sum, more)| *sum += more);
        }
        row("all", count, pivots, &seconds);
        if self.kinds.iter().any(|kind| kind.found > 0) {
            println!("{:16} {:>7} {:>7} | {:>9} {:>9} {:>6} {:>9}", "", "systems", "pivots", "kept", "not kept", "afresh", "left");
            self.kinds.iter().zip(KINDS).filter(|(kind, _)| kind.found > 0).for_each(|(kind, name)| kind.print(name));
        }
    }
}

// ---- time
/// The seconds of one round: of the proved run, of the plain one in whole numbers, of that on rows that were read before, of the proved run
/// over fractions and of the plain one.
type Seconds = [f64; 5];

const GOES: usize = 11;
/// How long a go lasts at least, unless that takes more rounds than so many.
const GO_SECONDS: f64 = 0.02;
const MOST_ROUNDS: f64 = 50.0;

impl Class {
    fn measure(&mut self, name: &str) {
        let all = |step: &dyn Fn(&Measured) -> u64| self.systems.iter().fold(0u64, |digest, system| digest.rotate_left(1) ^ step(system));
        let mut proved = Timed::new(|n| all(&|s| s.sent.repeat(n)));
        let mut whole = Timed::new(|n| all(&|s| repeat(n, || by_kernel(&s.system))));
        let mut ready = Timed::new(|n| all(&|s| s.repeat_ready(n)));
        let mut proved_fractions = Timed::new(|n| all(&|s| s.hindered_sent.repeat(n)));
        let mut fractions = Timed::new(|n| all(&|s| repeat(n, || by_fractions(&s.hindered))));
        let rounds = (GO_SECONDS / whole.first()).clamp(1.0, MOST_ROUNDS) as u32;
        let few = rounds.div_ceil(5);
        for _ in 0..GOES {
            proved.go(rounds);
            whole.go(rounds);
            ready.go(rounds);
            proved_fractions.go(few);
            fractions.go(few);
        }
        assert_eq!([proved.digest; 2], [whole.digest, ready.digest], "the digests of {name}");
        assert_eq!(proved_fractions.digest, fractions.digest, "the digests over fractions of {name}");
        self.seconds = [proved.each(rounds), whole.each(rounds), ready.each(rounds), proved_fractions.each(few), fractions.each(few)];
    }
}

fn row(name: &str, count: usize, pivots: u64, seconds: &Seconds) {
    let [proved, whole, ready, by_fractions, fractions] = seconds.map(|s| pivots as f64 / s);
    let (more, times) = (seconds[0] / seconds[1], seconds[3] / seconds[0]);
    println!(
        "{name:16} {count:7} {pivots:7} | {proved:9.0} {whole:9.0} {more:6.2} {ready:9.0} | {by_fractions:9.0} {fractions:9.0} {times:6.1}"
    );
}

const HEAD: &str = "pivots a second
  in whole numbers: proved, in plain Rust, the factor of the time, and in plain Rust on rows that were read before
  over fractions: proved, in plain Rust, and how many times as long the proved run takes as in whole numbers
below, of all systems of a plant, kind by kind
  how many go on from a kept run, how many could but aren't kept, how many begin afresh, and how many pivots are left then";

/// The name of a file, or that of its folder where it is only `plant`.
fn name_of(path: &str) -> &str {
    let mut parts = path.rsplit('/');
    let file = parts.next().unwrap_or(path);
    let name = file.rsplit_once('.').map_or(file, |(name, _)| name);
    if name == "plant" { parts.next().unwrap_or(name) } else { name }
}

fn main() {
    println!("{HEAD}");
    print!("{:16} {:>7} {:>7} | {:>9} {:>9} {:>6} {:>9}", "", "systems", "pivots", "proved", "plain", "time x", "read");
    println!(" | {:>9} {:>9} {:>6}", "proved", "plain", "times");
    let mut different = 0;
    for path in std::env::args().skip(1) {
        let text = std::fs::read_to_string(&path).unwrap_or_else(|error| panic!("{path}: {error}"));
        let mut group = if path.ends_with(".tsv") { stated(&text) } else { of_plant(&text) };
        group.print(name_of(&path));
        different += group.different;
    }
    if different > 0 {
        std::process::exit(1);
    }
}
