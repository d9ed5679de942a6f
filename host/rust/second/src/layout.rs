//! The paper's static array: the images of the unit vectors e1, .., en.
//!
//! Section VI leaves the order within the first two of its four parts open. Here it is that
//! of document 01 ("The layout of places").

use crate::group::{Element, Group};

/// The array in the order of places; index 0 is place 1.
pub fn images(group: &Group) -> Vec<Element> {
    let binary_units = group.binary_units();
    let quaternary_units = group.quaternary_units();
    let elements = group.elements();

    let order_2 = elements
        .iter()
        .filter(|&x| group.has_order_2(x) && !binary_units.contains(x));
    // Only elements of order 4 have an odd quaternary component, so only they lead a pair.
    let order_4 = elements
        .iter()
        .filter(|&z| group.leads_its_pair(z) && !quaternary_units.contains(z));
    let pair = |z: &Element| [group.negate(z), *z];

    let mut images: Vec<Element> = order_2.copied().collect();
    images.extend(order_4.flat_map(pair));
    images.extend(&binary_units);
    images.extend(quaternary_units.iter().flat_map(pair));
    images
}
