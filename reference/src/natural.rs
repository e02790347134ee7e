//! Natural numbers of any size: digits of 64 bits, lowest first, none of them a zero on top.

use std::cmp::Ordering;

#[derive(Clone, Debug, PartialEq, Eq)]
pub struct Natural(Vec<u64>);

impl From<u128> for Natural {
    fn from(n: u128) -> Natural {
        Natural(vec![n as u64, (n >> 64) as u64]).trimmed()
    }
}

impl Natural {
    fn trimmed(mut self) -> Natural {
        while self.0.last() == Some(&0) {
            self.0.pop();
        }
        self
    }

    /// The number itself, where it is below 2^64.
    pub fn small(&self) -> Option<u64> {
        (self.0.len() <= 1).then(|| self.digit(0))
    }

    pub fn plus(&self, other: &Natural) -> Natural {
        let length = self.0.len().max(other.0.len());
        let mut sum = Vec::with_capacity(length + 1);
        let mut carry = 0;
        for i in 0..length {
            carry += u128::from(self.digit(i)) + u128::from(other.digit(i));
            sum.push(carry as u64);
            carry >>= 64;
        }
        sum.push(carry as u64);
        Natural(sum).trimmed()
    }

    /// The difference, or nothing where it is below 0.
    pub fn minus(&self, other: &Natural) -> Option<Natural> {
        if self < other {
            return None;
        }
        let mut difference = self.0.clone();
        let mut borrow = 0;
        for (i, digit) in difference.iter_mut().enumerate() {
            let rest = (1 << 64) + u128::from(*digit) - u128::from(other.digit(i)) - borrow;
            *digit = rest as u64;
            borrow = 1 - (rest >> 64);
        }
        Some(Natural(difference).trimmed())
    }

    pub fn times(&self, other: &Natural) -> Natural {
        let mut product = vec![0; self.0.len() + other.0.len()];
        for (i, digit) in self.0.iter().enumerate() {
            let mut carry = 0;
            for (place, factor) in product[i..].iter_mut().zip(&other.0) {
                carry += u128::from(*digit) * u128::from(*factor) + u128::from(*place);
                *place = carry as u64;
                carry >>= 64;
            }
            product[i + other.0.len()] = carry as u64;
        }
        Natural(product).trimmed()
    }

    /// The quotient, and whether a rest is left.
    pub fn divided(&self, divisor: u64) -> (Natural, bool) {
        let mut quotient = self.0.clone();
        let mut rest = 0;
        for digit in quotient.iter_mut().rev() {
            rest = rest << 64 | u128::from(*digit);
            *digit = (rest / u128::from(divisor)) as u64;
            rest %= u128::from(divisor);
        }
        (Natural(quotient).trimmed(), rest != 0)
    }

    /// Times 2^(64·digits).
    pub fn raised(&self, digits: usize) -> Natural {
        Natural([vec![0; digits], self.0.clone()].concat()).trimmed()
    }

    /// The quotient by 2^(64·digits), and whether a rest is left.
    pub fn lowered(&self, digits: usize) -> (Natural, bool) {
        let (rest, quotient) = self.0.split_at(digits.min(self.0.len()));
        (Natural(quotient.to_vec()), rest.iter().any(|digit| *digit != 0))
    }

    fn digit(&self, i: usize) -> u64 {
        self.0.get(i).copied().unwrap_or(0)
    }
}

impl Ord for Natural {
    fn cmp(&self, other: &Natural) -> Ordering {
        let lengths = self.0.len().cmp(&other.0.len());
        lengths.then_with(|| self.0.iter().rev().cmp(other.0.iter().rev()))
    }
}

impl PartialOrd for Natural {
    fn partial_cmp(&self, other: &Natural) -> Option<Ordering> {
        Some(self.cmp(other))
    }
}

#[cfg(test)]
mod tests {
    use super::Natural;

    /// Numbers of one, two and three digits, with zeros and ones in them.
    fn samples() -> Vec<Natural> {
        let ends = [0, 1, 2, u64::MAX as u128, 1 << 64, u128::MAX - 1, u128::MAX];
        let high = ends.map(|n| Natural::from(n).raised(1));
        ends.map(Natural::from).into_iter().chain(high).collect()
    }

    #[test]
    fn a_difference_undoes_a_sum_and_products_spread() {
        for a in samples() {
            for b in samples() {
                assert_eq!(a.plus(&b).minus(&b).as_ref(), Some(&a));
                assert_eq!(a.minus(&b).is_none(), a < b);
                for c in samples() {
                    assert_eq!(a.plus(&b).times(&c), a.times(&c).plus(&b.times(&c)));
                }
            }
        }
    }

    #[test]
    fn a_quotient_times_its_divisor_is_the_number() {
        for a in samples() {
            for divisor in [1, 2, 3, 10, 1 << 32, u64::MAX] {
                let (quotient, rest) = a.divided(divisor);
                let product = quotient.times(&u128::from(divisor).into());
                assert!(product <= a && (product == a) != rest);
                assert!(product.plus(&u128::from(divisor).into()) > a);
            }
            assert_eq!(a.raised(2).lowered(2), (a, false));
        }
    }
}
