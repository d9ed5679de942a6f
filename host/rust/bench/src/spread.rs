//! Medians and quartiles over the batches.

/// The median, and the quartiles around it.
#[derive(Clone, Copy)]
pub struct Spread {
    pub low: f64,
    pub median: f64,
    pub high: f64,
}

pub fn spread(mut values: Vec<f64>) -> Spread {
    values.sort_by(f64::total_cmp);
    let at = |quarter: usize| values[(values.len() - 1) * quarter / 4];
    Spread {
        low: at(1),
        median: at(2),
        high: at(3),
    }
}

/// The median of each copy alone, of values that are named by their copy.
pub fn by_copy<const N: usize>(values: &[(usize, f64)]) -> [f64; N] {
    std::array::from_fn(|copy| {
        let its = values.iter().filter(|value| value.0 == copy);
        spread(its.map(|value| value.1).collect()).median
    })
}

/// The lowest and the highest.
pub fn ends(values: impl IntoIterator<Item = f64>) -> (f64, f64) {
    values
        .into_iter()
        .fold((f64::MAX, 0.0), |(low, high), value| {
            (low.min(value), high.max(value))
        })
}

#[cfg(test)]
mod tests {
    use super::*;

    #[test]
    fn quartiles_of_unsorted_values() {
        let Spread { low, median, high } = spread(vec![5.0, 1.0, 4.0, 2.0, 3.0]);
        assert_eq!([low, median, high], [2.0, 3.0, 4.0]);
    }

    #[test]
    fn medians_by_copy() {
        let values = [(0, 1.0), (3, 4.5), (1, 2.0), (2, 3.0), (3, 4.0), (3, 3.5)];
        let copies: [f64; 4] = by_copy(&values);
        assert_eq!(copies, [1.0, 2.0, 3.0, 4.0]);
        assert_eq!(ends(copies), (1.0, 4.0));
    }
}
