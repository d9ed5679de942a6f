//! A digest of a list of numbers, which stands in one line for all of them: a number that has
//! them, each one more, as its digits to the base 48271, modulo 2^31 - 1. Its first digit is 1.

pub struct Digest(u64);

impl Digest {
    pub fn new() -> Digest {
        Digest(1)
    }

    pub fn take(&mut self, numbers: impl IntoIterator<Item = u32>) {
        for number in numbers {
            self.0 = (48_271 * self.0 + u64::from(number) + 1) % 2_147_483_647;
        }
    }

    pub fn value(&self) -> u64 {
        self.0
    }
}

#[cfg(test)]
mod tests {
    use super::*;

    fn digest(numbers: &[u32]) -> u64 {
        let mut digest = Digest::new();
        digest.take(numbers.iter().copied());
        digest.value()
    }

    #[test]
    fn each_number_is_a_digit() {
        assert_eq!(digest(&[]), 1);
        assert_eq!(digest(&[0]), 48_272);
        assert_eq!(digest(&[5]), 48_277);
        assert_eq!(digest(&[5, 7]), (48_277 * 48_271 + 8) % 2_147_483_647);
    }

    #[test]
    fn order_and_length_count() {
        assert_ne!(digest(&[1, 0]), digest(&[0, 1]));
        assert_ne!(digest(&[0, 0]), digest(&[0]));
    }
}
