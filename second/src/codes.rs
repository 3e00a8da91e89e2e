//! The listed codes by their rule, their minimal polynomials and their generators by definition.

use crate::field::{Element, Field};
use crate::polynomials::{least_common_multiple, Polynomial};
use std::collections::BTreeSet;

pub struct Code {
    pub field: Field,
    pub t: usize,
    pub n: usize,
    pub k: usize,
}

pub fn is_field_size(m: u64) -> bool {
    (3..=10).contains(&m)
}

/// The residues i * 2^j mod n, for one i and every j.
fn residues_of(i: usize, n: usize) -> BTreeSet<usize> {
    let mut residues = BTreeSet::new();
    let mut residue = i % n;
    while residues.insert(residue) {
        residue = residue * 2 % n;
    }
    residues
}

/// The code of (m, t) where t is listed for m.
pub fn listed(m: u64, t: u64) -> Option<Code> {
    if !is_field_size(m) || t == 0 {
        return None;
    }
    let field = Field::new(m as u32);
    let n = field.n();
    // From i = n on every residue is met and k is 0.
    let t = usize::try_from(t).ok().filter(|t| *t < n)?;
    let residues: BTreeSet<usize> = (1..=2 * t).flat_map(|i| residues_of(i, n)).collect();
    let k = n - residues.len();
    let is_listed = !residues.contains(&((2 * t + 1) % n)) && k >= 2;
    is_listed.then_some(Code { field, t, n, k })
}

/// The product over the conjugates c of a^i of (x - c).
fn minimal_polynomial(field: &Field, i: usize) -> Polynomial {
    let mut result: Vec<Element> = vec![1];
    for e in residues_of(i, field.n()) {
        result = times_root(field, &result, field.power_of_a(e));
    }
    assert!(result.iter().all(|c| *c <= 1), "its coefficients are bits");
    result.iter().map(|c| *c as u8).collect()
}

/// A polynomial over the field, times (x - root); minus is plus here.
fn times_root(field: &Field, p: &[Element], root: Element) -> Vec<Element> {
    let mut result = vec![0; p.len() + 1];
    for (i, c) in p.iter().enumerate() {
        result[i + 1] ^= c;
        result[i] ^= field.product(*c, root);
    }
    result
}

impl Code {
    /// The least common multiple of the minimal polynomials of a, a^3, up to a^(2t-1).
    pub fn generator(&self) -> Polynomial {
        let mut result = vec![1];
        for i in (1..2 * self.t).step_by(2) {
            result = least_common_multiple(&result, &minimal_polynomial(&self.field, i));
        }
        assert_eq!(result.len(), self.n - self.k + 1, "its degree is n - k");
        result
    }
}

#[cfg(test)]
mod tests {
    use super::listed;

    #[test]
    fn as_many_codes_are_listed_as_the_rule_says() {
        let count = |m| (0..=600).filter(|t| listed(m, *t).is_some()).count();
        let counts: Vec<usize> = (3..=10).map(count).collect();
        assert_eq!(counts, [1, 3, 5, 11, 17, 33, 57, 105]);
    }
}
