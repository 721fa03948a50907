//! The 40 bytes of a plan, and the 24 of a plan of the old form.

/// The length of a plan.
pub const PLAN: usize = 40;

/// The length of a plan of the old form.
pub const OLD_PLAN: usize = 24;

/// The first season whose doubts are in 250ths; those of earlier ones are in 100ths.
pub const FINER: u16 = 30;

/// A sound plan, taken apart.
#[derive(Clone, Debug, PartialEq, Eq)]
pub struct Plan {
    pub season: u16,
    pub p: u32,
    pub degree: usize,
    pub row_points: Vec<u32>,
    pub column_points: Vec<u32>,
}

impl Plan {
    /// The plan, or the first of refusals 1 2 3 13 4 5 that applies.
    pub fn parse(bytes: &[u8]) -> Result<Plan, u32> {
        if bytes.len() != PLAN || bytes[38..] != [0, 0] {
            return Err(1);
        }
        let [p, rows, columns, d] = [bytes[2], bytes[3], bytes[4], bytes[5]];
        if p > 251 || !is_prime(p) {
            return Err(2);
        }
        let is_side = |n: u8| (1..=16).contains(&n) && n <= p;
        if !is_side(rows) {
            return Err(3);
        }
        if !is_side(columns) {
            return Err(13);
        }
        if d >= rows || d >= columns {
            return Err(4);
        }
        Ok(Plan {
            season: u16::from_be_bytes([bytes[0], bytes[1]]),
            p: p.into(),
            degree: d.into(),
            row_points: points(p, rows, &bytes[6..22])?,
            column_points: points(p, columns, &bytes[22..38])?,
        })
    }

    /// The 40 bytes of the plan.
    pub fn bytes(&self) -> [u8; PLAN] {
        let mut bytes = [0; PLAN];
        bytes[..2].copy_from_slice(&self.season.to_be_bytes());
        let fields = [self.p as usize, self.rows(), self.columns(), self.degree];
        bytes[2..6].copy_from_slice(&fields.map(|field| field as u8));
        for (place, points) in [(6, &self.row_points), (22, &self.column_points)] {
            for (byte, &point) in bytes[place..].iter_mut().zip(points) {
                *byte = point as u8;
            }
        }
        bytes
    }

    /// The doubt of a cell that says nothing, as the season's cameras report it.
    pub fn full_doubt(&self) -> u32 {
        match self.season {
            FINER.. => 250,
            _ => 100,
        }
    }

    pub fn rows(&self) -> usize {
        self.row_points.len()
    }

    pub fn columns(&self) -> usize {
        self.column_points.len()
    }

    /// The smaller side and the larger.
    pub fn sides(&self) -> [usize; 2] {
        let (rows, columns) = (self.rows(), self.columns());
        [rows.min(columns), rows.max(columns)]
    }

    /// The plan with rows and columns exchanged.
    pub fn swapped(&self) -> Plan {
        Plan { row_points: self.column_points.clone(), column_points: self.row_points.clone(), ..self.clone() }
    }
}

/// One set of points, or refusal 5.
fn points(p: u8, number: u8, bytes: &[u8]) -> Result<Vec<u32>, u32> {
    let (used, unused) = bytes.split_at(number.into());
    let rising = used.windows(2).all(|pair| pair[0] < pair[1]);
    if !rising || used.iter().any(|&x| x >= p) || unused.iter().any(|&x| x != 0) {
        return Err(5);
    }
    Ok(used.iter().map(|&x| x.into()).collect())
}

/// The plan that a plan of the old form becomes: each of its 40 bytes is one of the 24, or 0.
pub fn widened(old: &[u8]) -> [u8; PLAN] {
    let (season, p, n, d, points) = (&old[..2], old[2], old[3], old[4], &old[5..21]);
    let wide = [season, &[p, n, n, d], points, points, &[0, 0]].concat();
    wide.try_into().expect("40 bytes")
}

/// A number from 2 that is no product of two smaller ones.
pub fn is_prime(p: u8) -> bool {
    p >= 2 && !(2..p).any(|a| p.is_multiple_of(a))
}

#[cfg(test)]
mod tests {
    use super::*;

    #[test]
    fn there_are_54_primes_to_251() {
        assert_eq!((0..=251).filter(|&p| is_prime(p)).count(), 54);
    }

    #[test]
    fn a_plan_is_its_bytes_taken_apart() {
        let plan = Plan { season: 300, p: 13, degree: 1, row_points: vec![0, 5, 12], column_points: vec![3, 4] };
        let mut bytes = [0; PLAN];
        bytes[..9].copy_from_slice(&[1, 44, 13, 3, 2, 1, 0, 5, 12]);
        bytes[22..24].copy_from_slice(&[3, 4]);
        assert_eq!(plan.bytes(), bytes);
        assert_eq!(Plan::parse(&bytes), Ok(plan));
    }

    #[test]
    fn the_full_doubt_goes_by_both_bytes_of_the_season() {
        let full_doubt = |high: u8, low: u8| {
            let mut bytes = [0; PLAN];
            bytes[..6].copy_from_slice(&[high, low, 2, 1, 1, 0]);
            Plan::parse(&bytes).map(|plan| plan.full_doubt())
        };
        assert!((0..30).all(|low| full_doubt(0, low) == Ok(100)));
        assert!((30..=255).all(|low| full_doubt(0, low) == Ok(250)));
        assert!((1..=255).all(|high| [0, 12, 29, 30, 255].map(|low| full_doubt(high, low)) == [Ok(250); 5]));
    }

    #[test]
    fn n_and_the_points_are_given_twice() {
        let old: Vec<u8> = (100..124).collect();
        let wide = widened(&old);
        assert_eq!(wide[..6], [100, 101, 102, 103, 103, 104]);
        assert_eq!(wide[6..22], old[5..21]);
        assert_eq!(wide[22..38], old[5..21]);
        assert_eq!(wide[38..], [0, 0]);
    }
}
