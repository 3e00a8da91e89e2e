//! Polynomials over bits: place i is the coefficient of x^i, the last place is 1, and the zero polynomial has no places.

pub type Polynomial = Vec<u8>;

fn trimmed(mut p: Polynomial) -> Polynomial {
    while p.last() == Some(&0) {
        p.pop();
    }
    p
}

pub fn product(p: &[u8], q: &[u8]) -> Polynomial {
    let mut result = vec![0; p.len() + q.len()];
    for (i, _) in p.iter().enumerate().filter(|(_, bit)| **bit == 1) {
        for (j, bit) in q.iter().enumerate() {
            result[i + j] ^= bit;
        }
    }
    trimmed(result)
}

/// Long division by a polynomial that is not zero: the quotient and the remainder.
pub fn divide(p: &[u8], divisor: &[u8]) -> (Polynomial, Polynomial) {
    let degree = divisor.len() - 1;
    let mut rest = p.to_vec();
    let mut quotient = vec![0; p.len().saturating_sub(degree)];
    for i in (0..quotient.len()).rev() {
        if rest[i + degree] == 1 {
            quotient[i] = 1;
            for (j, bit) in divisor.iter().enumerate() {
                rest[i + j] ^= bit;
            }
        }
    }
    (trimmed(quotient), trimmed(rest))
}

fn greatest_common_divisor(p: &[u8], q: &[u8]) -> Polynomial {
    let (mut p, mut q) = (p.to_vec(), q.to_vec());
    while !q.is_empty() {
        let (_, rest) = divide(&p, &q);
        p = q;
        q = rest;
    }
    p
}

pub fn least_common_multiple(p: &[u8], q: &[u8]) -> Polynomial {
    let common = greatest_common_divisor(p, q);
    let (cofactor, rest) = divide(q, &common);
    assert!(rest.is_empty(), "a common divisor divides");
    product(p, &cofactor)
}
