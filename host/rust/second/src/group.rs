//! The group of syndromes: a components modulo 2, then b components modulo 4.
//!
//! An element is its list of components, and sums are made component by component.
//! Assumes a + b <= 12, as in every admitted code (a + b = r).

/// The components of an element; those after the first a + b are unused and 0.
pub type Element = [u8; 12];

pub const ZERO: Element = [0; 12];

#[derive(Clone, Debug)]
pub struct Group {
    binary: usize,
    quaternary: usize,
}

/// The row of t in the paper's table of parameters: a and b of each group of 2^t elements, so that
/// t = a + 2b and r = a + b. At t = 2 the types are (1, 1, 0) and (3, 0, 0); the first has r = 1,
/// which the row's column of r leaves out by a slip. The rows in use are 2 to 12.
fn row(t: u32) -> impl Iterator<Item = (u32, u32)> {
    let groups = if (2..=12).contains(&t) { t / 2 + 1 } else { 0 };
    (0..groups).map(move |b| (t - 2 * b, b))
}

/// The group of the code with t and r, none where they are not admitted.
pub fn of_code(t: u32, r: u32) -> Option<Group> {
    let (a, b) = row(t).find(|(a, b)| a + b == r)?;
    Some(Group::new(a as usize, b as usize))
}

/// The smallest r in the row of t, none where there is no such row.
pub fn smallest_r(t: u32) -> Option<u32> {
    row(t).map(|(a, b)| a + b).min()
}

impl Group {
    pub fn new(binary: usize, quaternary: usize) -> Group {
        assert!(binary + quaternary <= ZERO.len());
        Group { binary, quaternary }
    }

    fn components(&self) -> usize {
        self.binary + self.quaternary
    }

    fn modulus(&self, component: usize) -> u8 {
        if component < self.binary {
            2
        } else {
            4
        }
    }

    /// The sum of coefficient times element over all terms. Totals are reduced once, at the
    /// end: a word has at most 4,095 digits, each term at most 3 * 3.
    pub fn sum(&self, terms: impl Iterator<Item = (u8, Element)>) -> Element {
        let mut totals = [0u32; ZERO.len()];
        for (coefficient, element) in terms {
            for (total, component) in totals.iter_mut().zip(element) {
                *total += u32::from(coefficient) * u32::from(component);
            }
        }
        std::array::from_fn(|i| (totals[i] % u32::from(self.modulus(i))) as u8)
    }

    /// VI-A, step 2: 1's become 3's and 3's become 1's in the quaternary part.
    pub fn negate(&self, element: &Element) -> Element {
        let mut negated = *element;
        for component in &mut negated[self.binary..] {
            *component = match *component {
                1 => 3,
                3 => 1,
                same => same,
            };
        }
        negated
    }

    /// Order 2: not zero, and its double is. Every other element but zero has order 4.
    pub fn has_order_2(&self, element: &Element) -> bool {
        *element != ZERO && self.sum([(2, *element)].into_iter()) == ZERO
    }

    /// Of z and -z, both of order 4, z is the one whose first odd quaternary component is 1.
    pub fn leads_its_pair(&self, element: &Element) -> bool {
        let quaternary = &element[self.binary..];
        quaternary.iter().find(|&&component| component % 2 == 1) == Some(&1)
    }

    /// The units of the binary components, component 1 first.
    pub fn binary_units(&self) -> Vec<Element> {
        (0..self.binary).map(unit).collect()
    }

    /// The units of the quaternary components, component 1 first.
    pub fn quaternary_units(&self) -> Vec<Element> {
        (self.binary..self.components()).map(unit).collect()
    }

    /// The element's number: each component counts as many as the moduli before it make.
    pub fn number(&self, element: &Element) -> u32 {
        let mut weight = 1;
        let mut number = 0;
        for (i, &component) in element[..self.components()].iter().enumerate() {
            number += weight * u32::from(component);
            weight *= u32::from(self.modulus(i));
        }
        number
    }

    /// All elements, zero first, by rising number.
    pub fn elements(&self) -> Vec<Element> {
        let mut all = vec![ZERO];
        for component in 0..self.components() {
            let before = all.clone();
            for value in 1..self.modulus(component) {
                all.extend(before.iter().map(|element| {
                    let mut next = *element;
                    next[component] = value;
                    next
                }));
            }
        }
        all
    }
}

fn unit(component: usize) -> Element {
    let mut element = ZERO;
    element[component] = 1;
    element
}
