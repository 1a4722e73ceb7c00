// Compares the proved fractions with two plain Rust ones on the same random values: equal results
// first, then nanoseconds an operation.
#[path = "../common/fractions.rs"]
mod fractions;
#[path = "../common/parts.rs"]
mod parts;
#[path = "../common/timing.rs"]
mod timing;

use fractions::{Fast, Frac, Plain, Rules, Wide, euclid, signed};
use parts::{Parts, frac, parts};
use timing::Timed;

unsafe extern "C" {
    fn mpc_frac_sum(left: &Parts, right: &Parts, out: &mut Parts) -> bool;
    fn mpc_frac_product(left: &Parts, right: &Parts, out: &mut Parts) -> bool;
    fn mpc_frac_order(left: &Parts, right: &Parts) -> i32;
    fn mpc_frac_repeat_sums(left: *const Parts, left_len: usize, right: *const Parts, right_len: usize, rounds: u32) -> u64;
    fn mpc_frac_repeat_products(left: *const Parts, left_len: usize, right: *const Parts, right_len: usize, rounds: u32) -> u64;
    fn mpc_frac_repeat_orders(left: *const Parts, left_len: usize, right: *const Parts, right_len: usize, rounds: u32) -> u64;
    fn mpc_frac_repeat_reads(parts: *const Parts, len: usize, rounds: u32) -> u64;
}

// ---- random fractions
struct Random(u64);

impl Random {
    fn next(&mut self) -> u64 {
        self.0 ^= self.0 << 13;
        self.0 ^= self.0 >> 7;
        self.0 ^= self.0 << 17;
        self.0
    }

    fn size(&mut self, bits: u32) -> u128 {
        let n = (self.next() as u128) << 64 | self.next() as u128;
        if bits == 0 { 0 } else { n >> (128 - bits) }
    }

    fn frac(&mut self, bits: u32, whole: bool) -> Frac {
        let size = self.size(bits);
        let den = if whole { 1 } else { self.size(bits).max(1) };
        let g = euclid(size, den);
        let num = signed(self.next() & 1 == 1, size / g);
        Frac { num, den: (den / g) as i128 }
    }

    /// A numerator over this denominator, in lowest terms.
    fn over(&mut self, bits: u32, den: u128) -> Frac {
        let size = loop {
            let size = self.size(bits);
            if euclid(size, den) == 1 {
                break size;
            }
        };
        Frac { num: signed(self.next() & 1 == 1, size), den: den as i128 }
    }

    /// Two numbers as they come, the second of them positive.
    fn pair(&mut self, bits: u32, whole: bool) -> Frac {
        let den = if whole { 1 } else { self.size(bits).max(1) };
        let size = self.size(bits);
        Frac { num: signed(self.next() & 1 == 1, size), den: den as i128 }
    }

    fn mixed(&mut self) -> Frac {
        let whole = self.next() % 8 == 0;
        match self.next() % 8 {
            0 => Frac { num: 0, den: 1 },
            1 => self.frac(4, whole),
            2 => self.frac(12, whole),
            3 => self.frac(32, whole),
            4 => self.frac(63, whole),
            5 => self.frac(64, whole),
            6 => self.frac(80, whole),
            _ => self.frac(127, whole),
        }
    }
}

fn compare(count: usize) {
    let mut random = Random(0x9E37_79B9_7F4A_7C15);
    let (mut wide, mut different) = (0, 0);
    for _ in 0..count {
        let (x, y) = (random.mixed(), random.mixed());
        let (sent_x, sent_y) = (parts(&x), parts(&y));
        let mut out = sent_x;
        let sum = unsafe { mpc_frac_sum(&sent_x, &sent_y, &mut out) }.then_some(out);
        let product = unsafe { mpc_frac_product(&sent_x, &sent_y, &mut out) }.then_some(out);
        let order = unsafe { mpc_frac_order(&sent_x, &sent_y) };
        let sums = [Plain::add(&x, &y), Fast::add(&x, &y)];
        let products = [Plain::mul(&x, &y), Fast::mul(&x, &y)];
        let orders = [Plain::cmp(&x, &y), Fast::cmp(&x, &y)];
        wide += sums[0].is_err() as usize + products[0].is_err() as usize;
        let same = sums.iter().all(|r| r.as_ref().ok().map(parts) == sum)
            && products.iter().all(|r| r.as_ref().ok().map(parts) == product)
            && orders.iter().all(|r| *r as i32 == order);
        if !same {
            different += 1;
            if different < 4 {
                println!("different at {x:?} and {y:?}");
            }
        }
    }
    println!("{count} pairs compared: {different} different, {wide} of {} results wide", 2 * count);
}

// ---- time
const COUNT: usize = 1024;

#[inline(always)]
fn low(r: Result<Frac, Wide>) -> u64 {
    r.map_or(0, |v| v.num.unsigned_abs() as u64)
}

#[inline(never)]
fn all<F: Fn(&Frac, &Frac) -> u64>(left: &[Frac], right: &[Frac], mut digest: u64, step: F) -> u64 {
    for (x, y) in left.iter().zip(right) {
        digest = digest.rotate_left(1) ^ step(x, y);
    }
    digest
}

fn repeat<F: Fn(&Frac, &Frac) -> u64 + Copy>(left: &[Frac], right: &[Frac], rounds: u32, step: F) -> u64 {
    let mut digest = 0;
    for _ in 0..rounds {
        digest = all(left, right, digest, step);
    }
    digest
}

fn row(name: &str, rounds: u32, proved: impl FnMut(u32) -> u64, fast: impl FnMut(u32) -> u64, plain: impl FnMut(u32) -> u64) {
    let (mut proved, mut fast, mut plain) = (Timed::new(proved), Timed::new(fast), Timed::new(plain));
    for _ in 0..25 {
        proved.go(rounds);
        fast.go(rounds);
        plain.go(rounds);
    }
    let same = if proved.digest == fast.digest && fast.digest == plain.digest { "" } else { "  DIGESTS DIFFER" };
    let [p, f, e] = [proved.each(rounds), fast.each(rounds), plain.each(rounds)].map(|seconds| seconds * 1e9 / COUNT as f64);
    println!("{name:22} proved {p:7.2} ns   fast Rust {f:7.2} ns (x {:.2})   plain Rust {e:7.2} ns (x {:.2}){same}", p / f, p / e);
}

/// Sums over one denominator that both have.
fn like_rows(random: &mut Random) {
    for (bits, rounds) in [(6, 100), (16, 100), (32, 60), (63, 40), (100, 10)] {
        let dens: Vec<u128> = (0..COUNT).map(|_| random.size(bits).max(2)).collect();
        let left: Vec<Frac> = dens.iter().map(|den| random.over(bits, *den)).collect();
        let right: Vec<Frac> = dens.iter().map(|den| random.over(bits, *den)).collect();
        let (l, r): (Vec<Parts>, Vec<Parts>) = (left.iter().map(parts).collect(), right.iter().map(parts).collect());
        row(
            &format!("add, alike, {bits} bits"),
            rounds,
            |n| unsafe { mpc_frac_repeat_sums(l.as_ptr(), COUNT, r.as_ptr(), COUNT, n) },
            |n| repeat(&left, &right, n, |x, y| low(Fast::add(x, y))),
            |n| repeat(&left, &right, n, |x, y| low(Plain::add(x, y))),
        );
    }
}

fn read_all<R: Rules>(sent: &[Parts], rounds: u32) -> u64 {
    let pass = |digest: u64| sent.iter().fold(digest, |digest, parts| {
        let pair = frac(parts);
        digest.rotate_left(1) ^ R::new(pair.num, pair.den).num.unsigned_abs() as u64
    });
    (0..rounds).fold(0, |digest, _| pass(digest))
}

/// Fractions made of their parts: whole numbers, parts in lowest terms, and parts as they come.
fn new_rows(random: &mut Random) {
    let classes: [(&str, u32, bool, bool, u32); 8] = [
        ("whole, 20 bits", 20, true, false, 200),
        ("lowest, 6 bits", 6, false, true, 100),
        ("lowest, 32 bits", 32, false, true, 60),
        ("6 bits", 6, false, false, 100),
        ("16 bits", 16, false, false, 100),
        ("32 bits", 32, false, false, 60),
        ("63 bits", 63, false, false, 40),
        ("100 bits", 100, false, false, 10),
    ];
    for (name, bits, whole, lowest, rounds) in classes {
        let pairs = (0..COUNT).map(|_| if lowest { random.frac(bits, whole) } else { random.pair(bits, whole) });
        let sent: Vec<Parts> = pairs.map(|pair| parts(&pair)).collect();
        row(
            &format!("new, {name}"),
            rounds,
            |n| unsafe { mpc_frac_repeat_reads(sent.as_ptr(), COUNT, n) },
            |n| read_all::<Fast>(&sent, n),
            |n| read_all::<Plain>(&sent, n),
        );
    }
}

fn main() {
    compare(1_000_000);
    let mut random = Random(88_172_645_463_325_252);
    let classes: [(&str, u32, bool, u32); 7] = [
        ("zero", 0, true, 200),
        ("whole, 20 bits", 20, true, 200),
        ("6 bits", 6, false, 100),
        ("16 bits", 16, false, 100),
        ("32 bits", 32, false, 60),
        ("63 bits", 63, false, 40),
        ("100 bits", 100, false, 10),
    ];
    for (name, bits, whole, rounds) in classes {
        let left: Vec<Frac> = (0..COUNT).map(|_| random.frac(bits, whole)).collect();
        let right: Vec<Frac> = (0..COUNT).map(|_| random.frac(bits, whole)).collect();
        let (l, r): (Vec<Parts>, Vec<Parts>) = (left.iter().map(parts).collect(), right.iter().map(parts).collect());
        row(
            &format!("add, {name}"),
            rounds,
            |n| unsafe { mpc_frac_repeat_sums(l.as_ptr(), COUNT, r.as_ptr(), COUNT, n) },
            |n| repeat(&left, &right, n, |x, y| low(Fast::add(x, y))),
            |n| repeat(&left, &right, n, |x, y| low(Plain::add(x, y))),
        );
        row(
            &format!("mul, {name}"),
            rounds,
            |n| unsafe { mpc_frac_repeat_products(l.as_ptr(), COUNT, r.as_ptr(), COUNT, n) },
            |n| repeat(&left, &right, n, |x, y| low(Fast::mul(x, y))),
            |n| repeat(&left, &right, n, |x, y| low(Plain::mul(x, y))),
        );
        row(
            &format!("cmp, {name}"),
            rounds,
            |n| unsafe { mpc_frac_repeat_orders(l.as_ptr(), COUNT, r.as_ptr(), COUNT, n) },
            |n| repeat(&left, &right, n, |x, y| (Fast::cmp(x, y) as i32).unsigned_abs() as u64),
            |n| repeat(&left, &right, n, |x, y| (Plain::cmp(x, y) as i32).unsigned_abs() as u64),
        );
    }
    like_rows(&mut random);
    new_rows(&mut random);
}
