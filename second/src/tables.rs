//! The powers and logarithms of a in tables, for the decoder, which multiplies often.

use crate::field::{Element, Field};

/// The powers stand twice over, so that a product needs no remainder.
pub struct Tables {
    n: usize,
    powers: Vec<Element>,
    logs: Vec<usize>,
}

impl Tables {
    pub fn new(field: &Field) -> Tables {
        let a = field.power_of_a(1);
        let next = |x: &Element| Some(field.product(*x, a));
        let powers: Vec<Element> = std::iter::successors(Some(1), next)
            .take(2 * field.n())
            .collect();
        let n = field.n();
        let mut logs = vec![0; n + 1];
        for (e, x) in powers[..n].iter().enumerate() {
            logs[*x as usize] = e;
        }
        Tables { n, powers, logs }
    }

    /// a^e, for e below 2n.
    pub fn power_of_a(&self, e: usize) -> Element {
        self.powers[e]
    }

    /// The exponent below n of the same power, for e below 2n.
    pub fn reduced(&self, e: usize) -> usize {
        if e < self.n {
            e
        } else {
            e - self.n
        }
    }

    /// The place i with a^i = x, if x is not 0.
    pub fn log(&self, x: Element) -> Option<usize> {
        (x != 0).then(|| self.logs[x as usize])
    }

    pub fn product(&self, x: Element, y: Element) -> Element {
        if x == 0 || y == 0 {
            return 0;
        }
        self.power_of_a(self.logs[x as usize] + self.logs[y as usize])
    }

    /// x through y, for y not 0.
    pub fn quotient(&self, x: Element, y: Element) -> Element {
        let inverse = self.power_of_a(self.n - self.logs[y as usize]);
        self.product(x, inverse)
    }
}

#[cfg(test)]
mod tests {
    use super::Tables;
    use crate::field::Field;

    fn agree_on_every_pair(m: u32) {
        let field = Field::new(m);
        let tables = Tables::new(&field);
        let pairs = (0..1 << m).flat_map(|x| (0..1 << m).map(move |y| (x, y)));
        for (x, y) in pairs {
            assert_eq!(tables.product(x, y), field.product(x, y));
        }
    }

    #[test]
    fn tables_multiply_as_the_field_does() {
        (3..=10).for_each(agree_on_every_pair);
    }
}
