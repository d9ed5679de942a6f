//! The array of every admitted code: which pairs are admitted, and that the order of places
//! is document 01's. Components are taken from the numbers here, by division.

use super::{codes, layout};
use second::Code;

/// The b quaternary components of an element.
fn quaternary(code: &Code, number: u32) -> Vec<u32> {
    let (a, b) = (2 * code.r() - code.t(), code.t() - code.r());
    (0..b).map(|i| (number >> a) / 4u32.pow(i) % 4).collect()
}

fn has_order_4(code: &Code, number: u32) -> bool {
    quaternary(code, number).iter().any(|q| q % 2 == 1)
}

fn negative(code: &Code, number: u32) -> u32 {
    let a = 2 * code.r() - code.t();
    let binary = number % (1 << a);
    let negated = quaternary(code, number).into_iter().map(|q| (4 - q) % 4);
    let rest = negated.rev().fold(0, |rest, q| 4 * rest + q);
    binary + (rest << a)
}

fn is_rising(numbers: &[u32]) -> bool {
    numbers.windows(2).all(|two| two[0] < two[1])
}

#[test]
fn the_admitted_pairs() {
    let least_r = [1, 2, 2, 3, 3, 4, 4, 5, 5, 6, 6];
    let mut pairs = Vec::new();
    for (t, least) in (2..=12).zip(least_r) {
        pairs.extend((least..=t).map(|r| (t, r)));
    }
    assert_eq!(pairs.len(), 47);
    let opened: Vec<(u32, u32)> = codes().iter().map(|code| (code.t(), code.r())).collect();
    assert_eq!(opened, pairs);
}

/// The rows that the paper prints, t = 2 to 6: a type is so many binary places and so many pairs.
#[test]
fn the_types_of_the_paper() {
    let printed = [
        vec![(1, 1), (3, 0)],
        vec![(3, 2), (7, 0)],
        vec![(3, 6), (7, 4), (15, 0)],
        vec![(7, 12), (15, 8), (31, 0)],
        vec![(7, 28), (15, 24), (31, 16), (63, 0)],
    ];
    for (t, types) in (2..).zip(printed) {
        let mut row = codes();
        row.retain(|code| code.t() == t);
        let opened: Vec<(usize, usize)> = row.iter().map(binary_and_pairs).collect();
        assert_eq!(opened, types, "t = {t}");
    }
}

fn binary_and_pairs(code: &Code) -> (usize, usize) {
    let places = 1..=code.length() as u32;
    let binary = places.filter(|&place| code.is_binary(place)).count();
    (binary, (code.length() - binary) / 2)
}

#[test]
fn every_nonzero_element_stands_once() {
    for code in codes() {
        let mut sorted = layout(&code);
        sorted.sort_unstable();
        let nonzero: Vec<u32> = (1..1 << code.t()).collect();
        assert_eq!(sorted, nonzero, "({}, {})", code.t(), code.r());
    }
}

#[test]
fn the_four_parts() {
    for code in codes() {
        let (t, r) = (code.t(), code.r());
        let (a, b) = (2 * r - t, t - r);
        let array = layout(&code);
        let (message, check) = array.split_at(code.message_length());
        let (part_1, part_2) = message.split_at((1 << r) - 1 - a as usize);
        let (part_3, part_4) = check.split_at(a as usize);

        assert!(part_1.iter().all(|&x| !has_order_4(&code, x)), "({t}, {r})");
        assert!(is_rising(part_1), "({t}, {r})");

        let second_places: Vec<u32> = part_2.chunks(2).map(|pair| pair[1]).collect();
        assert!(is_rising(&second_places), "({t}, {r})");
        for pair in part_2.chunks(2) {
            let odd = quaternary(&code, pair[1]).into_iter().find(|q| q % 2 == 1);
            assert_eq!(odd, Some(1), "({t}, {r})");
            assert_eq!(pair[0], negative(&code, pair[1]), "({t}, {r})");
        }

        let binary_units: Vec<u32> = (0..a).map(|i| 1 << i).collect();
        assert_eq!(part_3, binary_units, "({t}, {r})");
        let units = (0..b).map(|i| (1 << a) * 4u32.pow(i));
        let pairs: Vec<u32> = units.flat_map(|z| [3 * z, z]).collect();
        assert_eq!(part_4, pairs, "({t}, {r})");
    }
}

#[test]
fn a_unit_vector_has_the_element_of_its_place() {
    for code in codes() {
        for (index, number) in layout(&code).into_iter().enumerate() {
            let mut unit = vec![0; code.length()];
            unit[index] = 1;
            assert_eq!(
                code.syndrome(&unit),
                Ok(number),
                "({}, {})",
                code.t(),
                code.r()
            );
        }
    }
}
