//! Incremental rational interpolation by values (Welch and Berlekamp, in Koetter's form): cells enter one by one, and
//! nothing is computed again.

use super::field::{Reduction, Row};
use super::newton::Newton;
use super::strip::Strip;

/// Two polynomials Q and E by values: `e` has E at the points, `d` has Q - y E, y being the symbols.
pub struct Pair {
    pub d: Row,
    pub e: Row,
}

/// The first pair, of degree a, and the second, of degree b; a + b cells have entered.
pub struct Pairs {
    first: Pair,
    pub second: Pair,
    pub a: usize,
    pub b: usize,
}

impl Pairs {
    /// The cells that Newton's form goes through have entered: E1 = 0 and E2 = 1.
    pub fn new(newton: Newton, degree: usize) -> Pairs {
        Pairs {
            first: Pair { d: newton.product, e: [0; 16] },
            second: Pair { d: newton.rest, e: [1; 16] },
            a: degree + 1,
            b: 0,
        }
    }

    /// A cell enters. The pair of the lower degree is used, the second pair's counting the strip's degree more: where it
    /// is 0 at the cell, the other is multiplied by X - x; else the other is freed of its value there by a multiple of it,
    /// and it is multiplied by X - x.
    pub fn enter<R: Reduction>(&mut self, strip: &Strip<R>, cell: usize) {
        let Strip { field, inverses, points, degree, .. } = *strip;
        let factors = field.subtract(points, &[points[cell]; 16]);
        let first_is_used = self.a <= self.b + degree;
        let (used, other) = match first_is_used {
            true => (&mut self.first, &mut self.second),
            false => (&mut self.second, &mut self.first),
        };
        let used_grows = used.d[cell] != 0;
        if used_grows {
            let ratio = field.negative_quotient(inverses, other.d[cell], used.d[cell]);
            field.advance(&mut other.d, ratio, &mut used.d, &factors);
            field.advance(&mut other.e, ratio, &mut used.e, &factors);
        } else {
            other.d = field.multiply(&other.d, &factors);
            other.e = field.multiply(&other.e, &factors);
        }
        match first_is_used == used_grows {
            true => self.a += 1,
            false => self.b += 1,
        }
    }
}
