//! Numbers modulo a prime p of at most 251, and rows of sixteen of them.

use std::sync::LazyLock;

/// Sixteen numbers modulo p. Places that are not used hold any.
pub type Row = [u16; 16];

/// Sixteen rows.
pub type Square = [Row; 16];

/// How numbers are taken modulo p. A number below 65,536 holds the sum of a residue and a product of two.
pub trait Reduction: Copy {
    fn new(p: u16) -> Self;

    /// t modulo p.
    fn reduce(self, t: u16) -> u16;

    /// The sum of multiples of rows, each a number and a row.
    fn sum_of_multiples<'a>(self, multiples: impl Iterator<Item = (u16, &'a Row)>) -> Row;
}

/// By division.
#[derive(Clone, Copy)]
pub struct Plain {
    p: u16,
}

impl Reduction for Plain {
    fn new(p: u16) -> Plain {
        Plain { p }
    }

    fn reduce(self, t: u16) -> u16 {
        t % self.p
    }

    /// Divided once, at the end.
    fn sum_of_multiples<'a>(self, multiples: impl Iterator<Item = (u16, &'a Row)>) -> Row {
        let mut sums = [0; 16];
        for (c, row) in multiples {
            for (sum, &number) in sums.iter_mut().zip(row) {
                *sum += u32::from(c * number);
            }
        }
        sums.map(|sum| (sum % u32::from(self.p)) as u16)
    }
}

/// With the reciprocal 65536 / p, as the library does: the quotient is right or 1 too small, and loops over rows can be
/// vectorised.
#[derive(Clone, Copy)]
pub struct Tuned {
    p: u16,
    reciprocal: u16,
}

impl Reduction for Tuned {
    fn new(p: u16) -> Tuned {
        Tuned { p, reciprocal: (65_536 / u32::from(p)) as u16 }
    }

    fn reduce(self, t: u16) -> u16 {
        let quotient = ((u32::from(t) * u32::from(self.reciprocal)) >> 16) as u16;
        let rest = t - quotient * self.p;
        if rest >= self.p {
            rest - self.p
        } else {
            rest
        }
    }

    /// Reduced at each step, so in sixteen bits: that is faster here than the library's longer sums.
    fn sum_of_multiples<'a>(self, multiples: impl Iterator<Item = (u16, &'a Row)>) -> Row {
        multiples.fold([0; 16], |sum, (c, row)| joined(&sum, row, |sum, number| self.reduce(sum + c * number)))
    }
}

/// The field of p elements.
#[derive(Clone, Copy)]
pub struct Field<R> {
    pub p: u16,
    reduction: R,
}

impl<R: Reduction> Field<R> {
    pub fn new(p: u16) -> Field<R> {
        Field { p, reduction: R::new(p) }
    }

    /// a b.
    pub fn product(&self, a: u16, b: u16) -> u16 {
        self.reduction.reduce(a * b)
    }

    /// a - c b.
    pub fn subtract_product(&self, a: u16, c: u16, b: u16) -> u16 {
        self.reduction.reduce(a + (self.p - c) * b)
    }

    /// - a / b.
    pub fn negative_quotient(&self, inverses: &Inverses, a: u16, b: u16) -> u16 {
        self.product(self.p - a, inverses[usize::from(b)])
    }

    /// a + b.
    pub fn sum(&self, a: u16, b: u16) -> u16 {
        if a + b >= self.p {
            a + b - self.p
        } else {
            a + b
        }
    }

    /// a - b.
    pub fn difference(&self, a: u16, b: u16) -> u16 {
        if a >= b {
            a - b
        } else {
            a + self.p - b
        }
    }

    /// The inverses. That of p - a is p less that of a.
    pub fn inverses(&self) -> Inverses {
        let p = self.p;
        let mut table = [0; 251];
        table[1] = 1;
        table[usize::from(p - 1)] = p - 1;
        for a in (2..).take_while(|a| 2 * a < p) {
            // a (p / a) + p % a = p, so the inverse of a is that of p % a times -(p / a)
            let inverse = self.product(p - p / a, table[usize::from(p % a)]);
            table[usize::from(a)] = inverse;
            table[usize::from(p - a)] = p - inverse;
        }
        table
    }

    /// a - c b.
    pub fn subtract_multiple(&self, a: &Row, c: u16, b: &Row) -> Row {
        let c = self.p - c;
        joined(a, b, |a, b| self.reduction.reduce(a + c * b))
    }

    /// a b, place by place.
    pub fn multiply(&self, a: &Row, b: &Row) -> Row {
        joined(a, b, |a, b| self.product(a, b))
    }

    /// c (a - b).
    pub fn scale_difference(&self, c: u16, a: &Row, b: &Row) -> Row {
        joined(a, b, |a, b| self.product(c, self.difference(a, b)))
    }

    /// a - b.
    pub fn subtract(&self, a: &Row, b: &Row) -> Row {
        joined(a, b, |a, b| self.difference(a, b))
    }

    /// a + b.
    pub fn add(&self, a: &Row, b: &Row) -> Row {
        joined(a, b, |a, b| self.sum(a, b))
    }

    /// The step of an interpolation by values: a + c b in the place of a, and b w in that of b.
    pub fn advance(&self, a: &mut Row, c: u16, b: &mut Row, w: &Row) {
        for ((a, b), &w) in a.iter_mut().zip(b).zip(w) {
            *a = self.reduction.reduce(*a + c * *b);
            *b = self.product(*b, w);
        }
    }

    /// The sum of multiples of rows, each a number and a row.
    pub fn sum_of_multiples<'a>(&self, multiples: impl Iterator<Item = (u16, &'a Row)>) -> Row {
        self.reduction.sum_of_multiples(multiples)
    }
}

/// The inverses modulo p by the number; 0 has none.
pub type Inverses = [u16; 251];

/// Those modulo 251, the usual prime.
pub static INVERSES_251: LazyLock<Inverses> = LazyLock::new(|| Field::<Plain>::new(251).inverses());

/// A function of two rows, place by place. (`array::from_fn` would be shorter, but is not always vectorised.)
#[inline]
pub fn joined(a: &Row, b: &Row, f: impl Fn(u16, u16) -> u16) -> Row {
    let mut row = *a;
    for (a, &b) in row.iter_mut().zip(b) {
        *a = f(*a, b);
    }
    row
}
