//! The fields of 2^m elements. An element is a number below 2^m, bit i the coefficient of a^i; no tables.

pub type Element = u32;

/// The field polynomials of m = 3 to 10, bit i the coefficient of x^i.
const FIELD_POLYNOMIALS: [u32; 8] = [11, 19, 37, 67, 131, 285, 529, 1033];

pub struct Field {
    m: u32,
    polynomial: u32,
}

impl Field {
    /// The field of 2^m elements, for m from 3 to 10.
    pub fn new(m: u32) -> Field {
        let polynomial = FIELD_POLYNOMIALS[m as usize - 3];
        Field { m, polynomial }
    }

    /// The number of nonzero elements, which is the order of a.
    pub fn n(&self) -> usize {
        (1 << self.m) - 1
    }

    fn times_a(&self, x: Element) -> Element {
        let shifted = x << 1;
        if shifted >> self.m == 1 {
            shifted ^ self.polynomial
        } else {
            shifted
        }
    }

    /// Shift and add, from the highest coefficient of y down.
    pub fn product(&self, x: Element, y: Element) -> Element {
        let mut so_far = 0;
        for i in (0..self.m).rev() {
            so_far = self.times_a(so_far);
            if (y >> i) & 1 == 1 {
                so_far ^= x;
            }
        }
        so_far
    }

    /// a^e, by e steps.
    pub fn power_of_a(&self, e: usize) -> Element {
        (0..e % self.n()).fold(1, |x, _| self.times_a(x))
    }

    /// The value at x of a polynomial over bits, place i the coefficient of x^i.
    pub fn value(&self, polynomial: &[u8], x: Element) -> Element {
        let step = |so_far, bit: &u8| self.product(so_far, x) ^ Element::from(*bit);
        polynomial.iter().rev().fold(0, step)
    }
}
