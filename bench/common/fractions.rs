// Fractions in plain Rust, by the rules of the proved ones: one body by the schoolbook, one that is made for speed.
use std::cmp::Ordering;

#[derive(Clone, Copy, PartialEq, Debug)]
pub struct Frac {
    pub num: i128,
    pub den: i128,
}

#[derive(Clone, Copy, PartialEq, Debug)]
pub struct Wide;

pub trait Rules {
    /// The fraction of these parts in lowest terms, where the denominator is positive and both fit.
    #[allow(dead_code)]
    fn new(num: i128, den: i128) -> Frac;
    fn add(x: &Frac, y: &Frac) -> Result<Frac, Wide>;
    fn mul(x: &Frac, y: &Frac) -> Result<Frac, Wide>;
    fn cmp(x: &Frac, y: &Frac) -> Ordering;
}

fn fitting(n: Option<i128>) -> Result<i128, Wide> {
    match n {
        Some(n) if n != i128::MIN => Ok(n),
        _ => Err(Wide),
    }
}

/// Euclid's algorithm with `%`, all in 128 bits.
pub struct Plain;

pub fn euclid(mut a: u128, mut b: u128) -> u128 {
    while b != 0 {
        (a, b) = (b, a % b);
    }
    a
}

impl Rules for Plain {
    fn new(num: i128, den: i128) -> Frac {
        let g = euclid(num.unsigned_abs(), den as u128) as i128;
        Frac { num: num / g, den: den / g }
    }

    fn add(x: &Frac, y: &Frac) -> Result<Frac, Wide> {
        let g = euclid(x.den as u128, y.den as u128) as i128;
        let left = fitting(x.num.checked_mul(y.den / g))?;
        let right = fitting(y.num.checked_mul(x.den / g))?;
        let num = fitting(left.checked_add(right))?;
        let den = fitting(x.den.checked_mul(y.den / g))?;
        let h = euclid(num.unsigned_abs(), den as u128) as i128;
        Ok(Frac { num: num / h, den: den / h })
    }

    fn mul(x: &Frac, y: &Frac) -> Result<Frac, Wide> {
        let g = euclid(x.num.unsigned_abs(), y.den as u128) as i128;
        let h = euclid(y.num.unsigned_abs(), x.den as u128) as i128;
        let num = fitting((x.num / g).checked_mul(y.num / h))?;
        let den = fitting((x.den / h).checked_mul(y.den / g))?;
        Ok(Frac { num, den })
    }

    fn cmp(x: &Frac, y: &Frac) -> Ordering {
        // by continued fractions
        let (mut a, mut b, mut c, mut d) = (x.num, x.den, y.num, y.den);
        loop {
            let (p, q) = (a.div_euclid(b), c.div_euclid(d));
            if p != q {
                return p.cmp(&q);
            }
            let (r, s) = (a.rem_euclid(b), c.rem_euclid(d));
            if r == 0 || s == 0 {
                return r.cmp(&s);
            }
            (a, b, c, d) = (d, s, b, r);
        }
    }
}

/// Binary divisors, 64 bits where all fits, and no second reduction where the first suffices.
pub struct Fast;

fn odd(mut x: u64, mut y: u64) -> u64 {
    loop {
        let d = x.abs_diff(y);
        if d == 0 {
            return x;
        }
        y = x.min(y);
        x = d >> d.trailing_zeros();
    }
}

fn short_divisor(a: u64, b: u64) -> u64 {
    if a == 0 {
        return b;
    }
    if b == 0 {
        return a;
    }
    if a == 1 || b == 1 {
        return 1;
    }
    let (i, j) = (a.trailing_zeros(), b.trailing_zeros());
    odd(a >> i, b >> j) << i.min(j)
}

pub fn divisor(a: u128, b: u128) -> u128 {
    const SHORT: u128 = u64::MAX as u128;
    if a <= SHORT && b <= SHORT {
        return short_divisor(a as u64, b as u64) as u128;
    }
    let (large, small) = if a <= SHORT { (b, a) } else { (a, b) };
    if small == 0 {
        return large;
    }
    if small <= SHORT {
        return short_divisor(small as u64, (large % small) as u64) as u128;
    }
    let (i, j) = (a.trailing_zeros(), b.trailing_zeros());
    let (mut x, mut y) = (a >> i, b >> j);
    while x > SHORT || y > SHORT {
        let d = x.abs_diff(y);
        if d == 0 {
            return x << i.min(j);
        }
        y = x.min(y);
        x = d >> d.trailing_zeros();
    }
    (odd(x as u64, y as u64) as u128) << i.min(j)
}

fn short(x: &Frac) -> Option<(i64, u64)> {
    Some((i64::try_from(x.num).ok()?, i64::try_from(x.den).ok()? as u64))
}

fn part(n: u64, g: u64) -> u64 {
    if g == 1 { n } else { n / g }
}

fn wide_part(n: u128, g: u128) -> u128 {
    if g == 1 { n } else { n / g }
}

pub fn signed(negative: bool, size: u128) -> i128 {
    if negative { -(size as i128) } else { size as i128 }
}

fn small(n: Option<u128>) -> Result<u128, Wide> {
    match n {
        Some(n) if n <= i128::MAX as u128 => Ok(n),
        _ => Err(Wide),
    }
}

fn short_sum(a: i64, b: u64, c: i64, d: u64) -> Frac {
    let g = short_divisor(b, d);
    if g == 1 {
        return Frac { num: a as i128 * d as i128 + c as i128 * b as i128, den: b as i128 * d as i128 };
    }
    let q = d / g;
    let num = a as i128 * q as i128 + c as i128 * (b / g) as i128;
    let size = num.unsigned_abs();
    let rest = if size <= u64::MAX as u128 { size as u64 % g } else { (size % g as u128) as u64 };
    let h = short_divisor(rest, g);
    if h == 1 {
        return Frac { num, den: b as i128 * q as i128 };
    }
    let size = if size <= u64::MAX as u128 { (size as u64 / h) as u128 } else { size / h as u128 };
    Frac { num: signed(num < 0, size), den: (b / h) as i128 * q as i128 }
}

fn wide_sum(x: &Frac, y: &Frac) -> Result<Frac, Wide> {
    let (b, d) = (x.den as u128, y.den as u128);
    let g = divisor(b, d);
    let (p, q) = (wide_part(b, g), wide_part(d, g));
    let left = signed(x.num < 0, small(x.num.unsigned_abs().checked_mul(q))?);
    let right = signed(y.num < 0, small(y.num.unsigned_abs().checked_mul(p))?);
    let num = fitting(left.checked_add(right))?;
    let den = small(b.checked_mul(q))?;
    let h = divisor(num.unsigned_abs(), g);
    if h == 1 {
        return Ok(Frac { num, den: den as i128 });
    }
    Ok(Frac { num: signed(num < 0, num.unsigned_abs() / h), den: (den / h) as i128 })
}

fn quotient(n: u128, g: u128) -> u128 {
    match (u64::try_from(n), u64::try_from(g)) {
        (Ok(n), Ok(g)) => (n / g) as u128,
        _ => n / g,
    }
}

impl Rules for Fast {
    fn new(num: i128, den: i128) -> Frac {
        let g = divisor(num.unsigned_abs(), den as u128);
        if g == 1 {
            return Frac { num, den };
        }
        Frac { num: signed(num < 0, quotient(num.unsigned_abs(), g)), den: quotient(den as u128, g) as i128 }
    }

    fn add(x: &Frac, y: &Frac) -> Result<Frac, Wide> {
        match (short(x), short(y)) {
            (Some((a, b)), Some((c, d))) => Ok(short_sum(a, b, c, d)),
            _ => wide_sum(x, y),
        }
    }

    fn mul(x: &Frac, y: &Frac) -> Result<Frac, Wide> {
        let negative = (x.num < 0) != (y.num < 0);
        if let (Some((a, b)), Some((c, d))) = (short(x), short(y)) {
            let (g, h) = (short_divisor(a.unsigned_abs(), d), short_divisor(c.unsigned_abs(), b));
            let size = part(a.unsigned_abs(), g) as u128 * part(c.unsigned_abs(), h) as u128;
            return Ok(Frac { num: signed(negative, size), den: part(b, h) as i128 * part(d, g) as i128 });
        }
        let (a, c) = (x.num.unsigned_abs(), y.num.unsigned_abs());
        let (b, d) = (x.den as u128, y.den as u128);
        let (g, h) = (divisor(a, d), divisor(c, b));
        let size = small(wide_part(a, g).checked_mul(wide_part(c, h)))?;
        let den = small(wide_part(b, h).checked_mul(wide_part(d, g)))?;
        Ok(Frac { num: signed(negative, size), den: den as i128 })
    }

    fn cmp(x: &Frac, y: &Frac) -> Ordering {
        if let (Some((a, b)), Some((c, d))) = (short(x), short(y)) {
            return (a as i128 * d as i128).cmp(&(c as i128 * b as i128));
        }
        Plain::cmp(x, y)
    }
}
