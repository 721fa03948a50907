//! The polynomial through some cells of a strip, by Newton's form.

use super::field::{Reduction, Row};
use super::strip::Strip;

/// A sum of multiples, the slopes, of the products of X - z over the nodes z before.
pub struct Newton {
    /// its values less the symbols
    pub rest: Row,
    /// the values of the product over all nodes
    pub product: Row,
    slopes: Row,
    nodes: Row,
}

impl Newton {
    /// The polynomial of the strip's degree through the first of these cells.
    pub fn through<R: Reduction>(strip: &Strip<R>, symbols: &Row, cells: impl Iterator<Item = usize>) -> Newton {
        let Strip { field, inverses, points, degree, .. } = *strip;
        let mut rest = field.subtract(&[0; 16], symbols);
        let mut product = [1; 16];
        let mut slopes = [0; 16];
        let mut nodes = [0; 16];
        for ((slope, node), cell) in slopes.iter_mut().zip(&mut nodes).zip(cells.take(degree + 1)) {
            *slope = field.negative_quotient(inverses, rest[cell], product[cell]);
            *node = points[cell];
            field.advance(&mut rest, *slope, &mut product, &field.subtract(points, &[*node; 16]));
        }
        Newton { rest, product, slopes, nodes }
    }

    /// Its coefficients, by Horner's rule: the last slope times X less the last node, plus the slope before, and so on.
    pub fn coefficients<R: Reduction>(&self, strip: &Strip<R>) -> Row {
        let mut coefficients = [0; 16];
        for i in (0..=strip.degree).rev() {
            coefficients[i] = self.slopes[i];
            for j in i..strip.degree {
                coefficients[j] = strip.field.subtract_product(coefficients[j], self.nodes[i], coefficients[j + 1]);
            }
        }
        coefficients
    }
}
