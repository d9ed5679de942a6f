//! A buffer between guard bytes. The pointer handed out covers the guard bytes too: a call that
//! writes beside its buffer changes bytes that are ours, and is seen.

/// Guard bytes on either side.
pub const GUARD: usize = 32;

#[derive(Clone)]
pub struct Guarded {
    /// Guard bytes, the buffer, guard bytes.
    area: Vec<u8>,
    length: usize,
    is_null: bool,
}

/// The first byte that is not as it was. The offset is from the start of the buffer: below 0 it
/// is a guard byte before it, from the length on one after it.
#[derive(Debug, Clone, Copy, PartialEq, Eq)]
pub struct Change {
    pub offset: isize,
    pub before: u8,
    pub after: u8,
}

impl Guarded {
    /// An output of this length, filled like its guard bytes; `None` is NULL.
    pub fn filled(length: Option<usize>, fill: &[u8; 8]) -> Guarded {
        let size = length.unwrap_or(0);
        Guarded {
            area: fill
                .iter()
                .copied()
                .cycle()
                .take(size + 2 * GUARD)
                .collect(),
            length: size,
            is_null: length.is_none(),
        }
    }

    /// An input with these bytes; `None` is NULL.
    pub fn holding(bytes: Option<&[u8]>, fill: &[u8; 8]) -> Guarded {
        let mut buffer = Guarded::filled(bytes.map(<[u8]>::len), fill);
        let length = buffer.length;
        buffer.area[GUARD..GUARD + length].copy_from_slice(bytes.unwrap_or_default());
        buffer
    }

    pub fn length(&self) -> usize {
        self.length
    }

    pub fn pointer(&mut self) -> *mut u8 {
        if self.is_null {
            return std::ptr::null_mut();
        }
        self.area.as_mut_ptr().wrapping_add(GUARD)
    }

    pub fn bytes(&self) -> &[u8] {
        &self.area[GUARD..GUARD + self.length]
    }

    /// The first change since `fresh`, guard bytes included, but for the first `written` bytes
    /// of the buffer.
    pub fn change(&self, fresh: &Guarded, written: usize) -> Option<Change> {
        let end = GUARD + written;
        let before = difference(&fresh.area[..GUARD], &self.area[..GUARD], -(GUARD as isize));
        before.or_else(|| difference(&fresh.area[end..], &self.area[end..], written as isize))
    }
}

/// The first byte in which two equally long slices differ.
pub fn difference(before: &[u8], after: &[u8], offset: isize) -> Option<Change> {
    if before == after {
        return None;
    }
    let index = before.iter().zip(after).position(|(b, a)| b != a)?;
    Some(Change {
        offset: offset + index as isize,
        before: before[index],
        after: after[index],
    })
}
