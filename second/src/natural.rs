//! Natural numbers of any size, as far as counting words needs them: the least significant 32 bits come first, and the last place is not 0.

use std::cmp::Ordering;

#[derive(Clone, Debug, PartialEq, Eq)]
pub struct Natural(Vec<u32>);

impl Natural {
    pub fn of(number: u32) -> Natural {
        Natural(vec![number]).trimmed()
    }

    pub fn power_of_two(exponent: u32) -> Natural {
        Natural::of(1).doubled(exponent)
    }

    fn trimmed(mut self) -> Natural {
        while self.0.last() == Some(&0) {
            self.0.pop();
        }
        self
    }

    fn place(&self, i: usize) -> u64 {
        u64::from(self.0.get(i).copied().unwrap_or(0))
    }

    pub fn plus(&self, other: &Natural) -> Natural {
        let mut carry = 0;
        let mut places = Vec::new();
        for i in 0..=self.0.len().max(other.0.len()) {
            carry += self.place(i) + other.place(i);
            places.push(carry as u32);
            carry >>= 32;
        }
        Natural(places).trimmed()
    }

    /// The difference from a number that is not greater.
    fn minus(&self, other: &Natural) -> Natural {
        assert!(other.order(self) != Ordering::Greater, "nothing below 0");
        let mut borrow = 0;
        let mut places = Vec::new();
        for i in 0..self.0.len() {
            let taken = other.place(i) + borrow;
            borrow = u64::from(self.place(i) < taken);
            places.push((self.place(i) + (borrow << 32) - taken) as u32);
        }
        Natural(places).trimmed()
    }

    pub fn times(&self, factor: u32) -> Natural {
        let mut carry = 0;
        let mut places = Vec::new();
        for i in 0..=self.0.len() {
            carry += self.place(i) * u64::from(factor);
            places.push(carry as u32);
            carry >>= 32;
        }
        Natural(places).trimmed()
    }

    pub fn doubled(&self, times: u32) -> Natural {
        (0..times).fold(self.clone(), |number, _| number.times(2))
    }

    /// The quotient by a small number that is not 0, rounded down, and the remainder.
    pub fn over_small(&self, divisor: u32) -> (Natural, u32) {
        let mut rest = 0;
        let mut places = vec![0; self.0.len()];
        for i in (0..self.0.len()).rev() {
            rest = rest << 32 | self.place(i);
            places[i] = (rest / u64::from(divisor)) as u32;
            rest %= u64::from(divisor);
        }
        (Natural(places).trimmed(), rest as u32)
    }

    /// The quotient by a number that is not 0, rounded down, bit by bit from the top.
    pub fn over(&self, divisor: &Natural) -> Natural {
        let mut quotient = Natural::of(0);
        let mut rest = Natural::of(0);
        for i in (0..32 * self.0.len()).rev() {
            let bit = (self.0[i / 32] >> (i % 32)) & 1;
            rest = rest.times(2).plus(&Natural::of(bit));
            let fits = divisor.order(&rest) != Ordering::Greater;
            quotient = quotient.times(2).plus(&Natural::of(u32::from(fits)));
            if fits {
                rest = rest.minus(divisor);
            }
        }
        quotient
    }

    pub fn order(&self, other: &Natural) -> Ordering {
        let by_length = self.0.len().cmp(&other.0.len());
        by_length.then_with(|| self.0.iter().rev().cmp(other.0.iter().rev()))
    }

    /// All its decimal digits.
    pub fn decimal(&self) -> String {
        let mut digits = Vec::new();
        let mut rest = self.clone();
        while !rest.0.is_empty() || digits.is_empty() {
            let (quotient, digit) = rest.over_small(10);
            digits.push(char::from(b'0' + digit as u8));
            rest = quotient;
        }
        digits.iter().rev().collect()
    }
}

#[cfg(test)]
mod tests {
    use super::Natural;

    #[test]
    fn powers_of_two_have_their_known_digits() {
        assert_eq!(Natural::of(0).decimal(), "0");
        assert_eq!(Natural::power_of_two(64).decimal(), "18446744073709551616");
        let digits = "340282366920938463463374607431768211456";
        assert_eq!(Natural::power_of_two(128).decimal(), digits);
    }

    #[test]
    fn a_quotient_is_rounded_down() {
        let divisor = Natural::of(1_000_003).times(4_000_000_007);
        let multiple = divisor.times(77).plus(&Natural::of(5));
        assert_eq!(multiple.over(&divisor), Natural::of(77));
        let one_less = divisor.times(77).minus(&Natural::of(1));
        assert_eq!(one_less.over(&divisor), Natural::of(76));
    }

    #[test]
    fn sums_and_differences_carry() {
        let power = Natural::power_of_two(96);
        let one_less = power.minus(&Natural::of(1));
        assert_eq!(one_less.decimal(), "79228162514264337593543950335");
        assert_eq!(one_less.plus(&Natural::of(1)), power);
    }
}
