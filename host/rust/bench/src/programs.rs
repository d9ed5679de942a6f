//! The three programs behind one trait, so that all are timed by the same loop.

use crate::copies::Calls;
use second::{signed, Code};
use std::ffi::c_void;

/// The four calls with t and r settled; answers as in z2z4.h.
pub trait Program {
    fn encode(&self, message: &[u8], out: &mut [u8]) -> i32;
    fn correct(&self, word: &[u8], out: &mut [u8]) -> i32;
    fn combine(&self, first: &[u8], second: &[u8], out: &mut [u8]) -> i32;
    fn third_place(&self, i: u32, j: u32) -> i32;
}

/// A copy of the C library, which keeps nothing between calls.
pub struct Library {
    pub t: u32,
    pub r: u32,
    pub calls: Calls,
}

// Every pointer is to as many bytes as its length says, and borrowing keeps `out` apart.
impl Program for Library {
    fn encode(&self, message: &[u8], out: &mut [u8]) -> i32 {
        let (from, to) = (message.as_ptr(), out.as_mut_ptr());
        unsafe { (self.calls.encode)(self.t, self.r, from, message.len(), to, out.len()) }
    }

    fn correct(&self, word: &[u8], out: &mut [u8]) -> i32 {
        let (from, to) = (word.as_ptr(), out.as_mut_ptr());
        unsafe { (self.calls.correct)(self.t, self.r, from, word.len(), to, out.len()) }
    }

    fn combine(&self, first: &[u8], second: &[u8], out: &mut [u8]) -> i32 {
        let (x, y, to) = (first.as_ptr(), second.as_ptr(), out.as_mut_ptr());
        let combine = self.calls.combine;
        unsafe {
            combine(
                self.t,
                self.r,
                x,
                first.len(),
                y,
                second.len(),
                to,
                out.len(),
            )
        }
    }

    fn third_place(&self, i: u32, j: u32) -> i32 {
        unsafe { (self.calls.third_place)(self.t, self.r, i, j) }
    }
}

/// The second program, opened.
impl Program for Code {
    fn encode(&self, message: &[u8], out: &mut [u8]) -> i32 {
        signed(Code::encode(self, message, out).map(|()| 0))
    }

    fn correct(&self, word: &[u8], out: &mut [u8]) -> i32 {
        signed(Code::correct(self, word, out))
    }

    fn combine(&self, first: &[u8], second: &[u8], out: &mut [u8]) -> i32 {
        signed(Code::combine(self, first, second, out).map(|()| 0))
    }

    fn third_place(&self, i: u32, j: u32) -> i32 {
        signed(Code::third_place(self, i, j))
    }
}

/// What table.h declares.
mod c {
    use std::ffi::c_void;

    extern "C" {
        pub fn table_prepare(t: u32, r: u32) -> *mut c_void;
        pub fn table_encode(
            table: *const c_void,
            message: *const u8,
            message_len: usize,
            out: *mut u8,
            out_len: usize,
        ) -> i32;
        pub fn table_correct(
            table: *const c_void,
            word: *const u8,
            word_len: usize,
            out: *mut u8,
            out_len: usize,
        ) -> i32;
        pub fn table_combine(
            table: *const c_void,
            first: *const u8,
            first_len: usize,
            second: *const u8,
            second_len: usize,
            out: *mut u8,
            out_len: usize,
        ) -> i32;
        pub fn table_third_place(table: *const c_void, i: u32, j: u32) -> i32;
        pub fn free(memory: *mut c_void);
    }
}

/// The program by tables, prepared. NULL where t and r are not admitted, which it refuses.
pub struct Table(*mut c_void);

impl Table {
    pub fn prepare(t: u32, r: u32) -> Table {
        Table(unsafe { c::table_prepare(t, r) })
    }

    /// Where each call begins, in the order of the trait.
    pub fn addresses() -> [usize; 4] {
        [
            c::table_encode as *const () as usize,
            c::table_correct as *const () as usize,
            c::table_combine as *const () as usize,
            c::table_third_place as *const () as usize,
        ]
    }
}

impl Drop for Table {
    fn drop(&mut self) {
        unsafe { c::free(self.0) }
    }
}

// As in the library's.
impl Program for Table {
    fn encode(&self, message: &[u8], out: &mut [u8]) -> i32 {
        let (from, to) = (message.as_ptr(), out.as_mut_ptr());
        unsafe { c::table_encode(self.0, from, message.len(), to, out.len()) }
    }

    fn correct(&self, word: &[u8], out: &mut [u8]) -> i32 {
        let (from, to) = (word.as_ptr(), out.as_mut_ptr());
        unsafe { c::table_correct(self.0, from, word.len(), to, out.len()) }
    }

    fn combine(&self, first: &[u8], second: &[u8], out: &mut [u8]) -> i32 {
        let (x, y, to) = (first.as_ptr(), second.as_ptr(), out.as_mut_ptr());
        unsafe { c::table_combine(self.0, x, first.len(), y, second.len(), to, out.len()) }
    }

    fn third_place(&self, i: u32, j: u32) -> i32 {
        unsafe { c::table_third_place(self.0, i, j) }
    }
}
