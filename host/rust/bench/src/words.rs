//! Words to time calls with.

use second::Code;

/// Different inputs for each thing that is timed, so that the processor cannot learn one by heart.
pub const SAMPLES: usize = 64;

pub fn codeword(code: &Code, message: &[u8]) -> Vec<u8> {
    let mut word = vec![0; code.length()];
    code.encode(message, &mut word).expect("a fit message");
    word
}
