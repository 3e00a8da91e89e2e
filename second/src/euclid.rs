//! Decoding by Euclid's algorithm on the sums, a search for the locator's roots, and a check of what was found.

use crate::codes::Code;
use crate::field::Element;
use crate::tables::Tables;

pub struct Decoder<'a> {
    code: &'a Code,
    pub tables: Tables,
}

/// Polynomials over the field: place i is the coefficient of x^i, the last place is not 0, and the zero polynomial has no places.
type Polynomial = Vec<Element>;

fn trimmed(mut p: Polynomial) -> Polynomial {
    while p.last() == Some(&0) {
        p.pop();
    }
    p
}

impl<'a> Decoder<'a> {
    pub fn new(code: &'a Code) -> Decoder<'a> {
        let tables = Tables::new(&code.field);
        Decoder { code, tables }
    }

    /// The wrong places, ascending, if a code word is within t.
    pub fn wrong_places(&self, received: &[u8]) -> Option<Vec<usize>> {
        let places = self.candidates(&self.sums(received))?;
        let mended = flipped(received, &places);
        let is_code_word = self.sums(&mended).iter().all(|s| *s == 0);
        is_code_word.then_some(places)
    }

    /// The at most t places whose odd sums are the given t ones, ascending, if there are such.
    pub fn places_of_sums(&self, odd: &[Element]) -> Option<Vec<usize>> {
        let sums = self.with_even_sums(|i| odd[i]);
        let places = self.candidates(&sums)?;
        let ones = flipped(&vec![0; self.code.n], &places);
        (self.sums(&ones) == sums).then_some(places)
    }

    /// The roots of the locator of these sums, where it has as many as its degree and at most t.
    fn candidates(&self, sums: &[Element]) -> Option<Vec<usize>> {
        let locator = self.locator(sums);
        let places = self.places(&locator);
        let all_roots = locator.len() == places.len() + 1 && places.len() <= self.code.t;
        all_roots.then_some(places)
    }

    /// S_1 to S_2t: the odd ones from the places that hold 1, the even ones by squaring.
    fn sums(&self, word: &[u8]) -> Vec<Element> {
        let n = self.code.n;
        let ones = (0..n).filter(|i| word[*i] == 1);
        let mut odd_sums = Walk::new(&self.tables, ones.map(|i| (i, 2 * i % n)));
        self.with_even_sums(|_| odd_sums.next_sum())
    }

    /// S_1 to S_2t, where the i-th odd one, S_(2i+1), is asked for in order.
    fn with_even_sums(&self, mut odd: impl FnMut(usize) -> Element) -> Vec<Element> {
        let mut sums = vec![0; 2 * self.code.t];
        for j in 1..=sums.len() {
            sums[j - 1] = if j % 2 == 1 {
                odd(j / 2)
            } else {
                let root = sums[j / 2 - 1];
                self.tables.product(root, root)
            };
        }
        sums
    }

    /// Euclid's algorithm on x^2t and the polynomial of the sums, until the rest has degree below t; the factor of the sums is the locator, up to a number.
    fn locator(&self, sums: &[Element]) -> Polynomial {
        let t = self.code.t;
        let mut before = vec![0; 2 * t];
        before.push(1);
        let mut rest = trimmed(sums.to_vec());
        let (mut factor_before, mut factor) = (vec![], vec![1]);
        while rest.len() > t {
            let (quotient, next) = self.divide(&before, &rest);
            before = rest;
            rest = next;
            let next_factor = self.sum_with_product(&factor_before, &quotient, &factor);
            factor_before = factor;
            factor = next_factor;
        }
        factor
    }

    /// Long division by a polynomial that is not zero: the quotient and the remainder.
    fn divide(&self, p: &[Element], divisor: &[Element]) -> (Polynomial, Polynomial) {
        let degree = divisor.len() - 1;
        let mut rest = p.to_vec();
        let mut quotient = vec![0; p.len().saturating_sub(degree)];
        for i in (0..quotient.len()).rev() {
            quotient[i] = self.tables.quotient(rest[i + degree], divisor[degree]);
            self.add_multiple(&mut rest[i..], divisor, quotient[i]);
        }
        (trimmed(quotient), trimmed(rest))
    }

    fn add_multiple(&self, to: &mut [Element], p: &[Element], c: Element) {
        for (x, y) in to.iter_mut().zip(p) {
            *x ^= self.tables.product(*y, c);
        }
    }

    /// p + q * r.
    fn sum_with_product(&self, p: &[Element], q: &[Element], r: &[Element]) -> Polynomial {
        let mut result = p.to_vec();
        result.resize(p.len().max(q.len() + r.len()), 0);
        for (i, c) in q.iter().enumerate() {
            self.add_multiple(&mut result[i..], r, *c);
        }
        trimmed(result)
    }

    /// The places i for which a^-i is a root.
    fn places(&self, locator: &[Element]) -> Vec<usize> {
        let n = self.code.n;
        let term = |(d, c): (usize, &Element)| self.tables.log(*c).map(|e| (e, (n - d) % n));
        let terms = locator.iter().enumerate().filter_map(term);
        let mut values = Walk::new(&self.tables, terms);
        (0..n).filter(|_| values.next_sum() == 0).collect()
    }
}

/// A sum of powers of a in which each exponent, below n, grows by its own step, below n, from one sum to the next.
struct Walk<'a> {
    tables: &'a Tables,
    exponents: Vec<usize>,
    steps: Vec<usize>,
}

impl<'a> Walk<'a> {
    fn new(tables: &'a Tables, terms: impl Iterator<Item = (usize, usize)>) -> Walk<'a> {
        let (exponents, steps) = terms.unzip();
        Walk {
            tables,
            exponents,
            steps,
        }
    }

    fn next_sum(&mut self) -> Element {
        let mut sum = 0;
        for (exponent, step) in self.exponents.iter_mut().zip(&self.steps) {
            sum ^= self.tables.power_of_a(*exponent);
            *exponent = self.tables.reduced(*exponent + step);
        }
        sum
    }
}

/// The word with these places turned over.
pub fn flipped(word: &[u8], places: &[usize]) -> Vec<u8> {
    let mut result = word.to_vec();
    for place in places {
        result[*place] ^= 1;
    }
    result
}

#[cfg(test)]
mod tests {
    use super::{flipped, Decoder};
    use crate::codes::listed;

    /// The examples checked by hand: the wrong places of the word that holds 1 at these places.
    fn wrong_places(m: u64, t: u64, ones: &[usize]) -> Option<Vec<usize>> {
        let code = listed(m, t).expect("a listed code");
        let received = flipped(&vec![0; code.n], ones);
        Decoder::new(&code).wrong_places(&received)
    }

    fn sums(m: u64, t: u64, ones: &[usize]) -> Vec<u32> {
        let code = listed(m, t).expect("a listed code");
        let received = flipped(&vec![0; code.n], ones);
        Decoder::new(&code).sums(&received)
    }

    #[test]
    fn decoding_gives_the_lists_checked_by_hand() {
        let three_flipped = [1, 2, 6, 10, 12];
        assert_eq!(wrong_places(4, 3, &three_flipped), Some(vec![0, 9, 14]));
        assert_eq!(wrong_places(4, 3, &[0, 1, 2, 3]), None);
        assert_eq!(wrong_places(4, 3, &[0, 1, 2, 4]), Some(vec![5, 8, 10]));
        assert_eq!(wrong_places(4, 1, &[0, 1]), Some(vec![4]));
        assert_eq!(wrong_places(3, 1, &[0, 1]), Some(vec![3]));
        assert_eq!(wrong_places(4, 2, &[0, 4, 6]), Some(vec![7, 8]));
    }

    #[test]
    fn the_sums_are_those_checked_by_hand() {
        let odd = |sums: Vec<u32>| sums.into_iter().step_by(2).collect::<Vec<u32>>();
        assert_eq!(odd(sums(4, 3, &[0, 1, 2, 3])), [15, 15, 1]);
        assert_eq!(odd(sums(4, 2, &[3])), [8, 10]);
    }
}
