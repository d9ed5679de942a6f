//! Makes the cases. A case is settled by the seed and its number alone: the number gives the
//! code, the call and the kind (`plan`), and starts the generator that draws the rest.

use crate::draw::Draw;
use crate::kind::{Call, Kind};
use crate::plan::Plan;
use second::Code;
use std::fmt;

/// One call with all that it is given. `None` stands for NULL with length 0.
#[derive(Debug, Clone)]
pub struct Case {
    pub seed: u64,
    pub number: u64,
    pub call: Call,
    pub kind: Kind,
    pub t: u32,
    pub r: u32,
    /// n of the code that the case is made for, and of t and r where they are admitted.
    pub length: usize,
    pub inputs: Vec<Option<Vec<u8>>>,
    pub out: Option<usize>,
    pub places: [u32; 2],
    /// The bytes that surround the buffers and fill the output, over and over.
    pub fill: [u8; 8],
}

impl Case {
    pub fn make(plan: &Plan, seed: u64, number: u64) -> Case {
        let (code, cell) = plan.turn(number);
        let (code, (call, kind)) = (&plan.codes[code], plan.cells[cell]);
        let mut draw = Draw::of_case(seed, number);
        let n = code.length();
        let lengths = match call {
            Call::Encode => vec![code.message_length()],
            Call::Correct => vec![n],
            Call::Combine => vec![n; 2],
            Call::ThirdPlace => vec![],
        };
        let words = lengths.into_iter().map(|length| Some(draw.word(length)));
        let mut case = Case {
            seed,
            number,
            call,
            kind,
            t: code.t(),
            r: code.r(),
            length: n,
            inputs: words.collect(),
            out: Some(n),
            places: two_places(&mut draw, n),
            fill: draw.bits().to_le_bytes(),
        };
        case.shape(kind, plan, code, &mut draw);
        case
    }

    /// Gives a fit case with random words its kind.
    fn shape(&mut self, kind: Kind, plan: &Plan, code: &Code, draw: &mut Draw) {
        match kind {
            Kind::Random | Kind::Inside => {}
            Kind::Sparse => self.each(|word| set_few(word, draw)),
            Kind::Codeword => self.each(|word| encode(word, code)),
            Kind::OneFlip => self.each(|word| flip(word, code, 1, draw)),
            Kind::TwoFlips => self.each(|word| flip(word, code, 2, draw)),
            Kind::ShortOutput => self.out = Some(less(self.length, draw)),
            Kind::NullOutput => self.out = None,
            Kind::LongerOutput => self.out = Some(self.length + more(draw)),
            Kind::Neighbours => self.places = neighbours(draw, self.length),
            Kind::Outside => outside(&mut self.places, self.length, draw),
            Kind::Equal => self.places[1] = self.places[0],
            Kind::NotAdmitted => (self.t, self.r) = not_admitted(plan, code, draw),
            Kind::ZeroR => self.r = 0,
            Kind::SeveralFaults => self.several_faults(plan, code, draw),
            Kind::BadByte | Kind::BadBytes => self.some(draw, |word, draw| {
                let most = if kind == Kind::BadByte { 1 } else { 9 };
                spoil(word, 1 + draw.below(most), draw);
            }),
            Kind::Shorter | Kind::Longer | Kind::Empty | Kind::Null => {
                self.some(draw, |word, draw| resize(word, kind, draw));
            }
        }
    }

    fn each(&mut self, mut change: impl FnMut(&mut Vec<u8>)) {
        self.inputs.iter_mut().flatten().for_each(&mut change);
    }

    /// Changes one input, or several: with two, each of the three choices is as likely.
    fn some(&mut self, draw: &mut Draw, change: impl Fn(&mut Option<Vec<u8>>, &mut Draw)) {
        let chosen = 1 + draw.below((1 << self.inputs.len()) - 1);
        for (i, input) in self.inputs.iter_mut().enumerate() {
            if chosen >> i & 1 == 1 {
                change(input, draw);
            }
        }
    }

    /// Faults of two groups or more, one of each: two of one group could undo each other.
    fn several_faults(&mut self, plan: &Plan, code: &Code, draw: &mut Draw) {
        let groups = match self.call {
            Call::ThirdPlace => &FAULTS_OF_PLACES[..],
            _ => &FAULTS_OF_WORDS[..],
        };
        let mut chosen = 0_usize;
        while chosen.count_ones() < 2 {
            chosen = draw.below(1 << groups.len());
        }
        for (i, group) in groups.iter().enumerate() {
            if chosen >> i & 1 == 1 {
                self.shape(draw.one_of(group), plan, code, draw);
            }
        }
    }
}

/// Bytes are spoiled before lengths change, while there is a byte.
const FAULTS_OF_WORDS: [&[Kind]; 4] = [
    &[Kind::BadByte, Kind::BadBytes],
    &[Kind::Shorter, Kind::Longer, Kind::Empty, Kind::Null],
    &[Kind::ShortOutput, Kind::NullOutput],
    &[Kind::NotAdmitted],
];
const FAULTS_OF_PLACES: [&[Kind]; 3] = [&[Kind::Outside], &[Kind::Equal], &[Kind::NotAdmitted]];

/// From 0 to length - 1; length - 1 half the time.
fn less(length: usize, draw: &mut Draw) -> usize {
    if draw.once_in(2) {
        length - 1
    } else {
        draw.below(length)
    }
}

/// How much longer: from 1 to 64; 1 half the time.
fn more(draw: &mut Draw) -> usize {
    65 - less(65, draw)
}

fn two_places(draw: &mut Draw, n: usize) -> [u32; 2] {
    let first = draw.below(n);
    let second = (first + 1 + draw.below(n - 1)) % n;
    [first as u32 + 1, second as u32 + 1]
}

/// The two places of a pair stand side by side; drawn freely they are seldom met.
fn neighbours(draw: &mut Draw, n: usize) -> [u32; 2] {
    let first = draw.below(n - 1) as u32 + 1;
    if draw.once_in(2) {
        [first, first + 1]
    } else {
        [first + 1, first]
    }
}

fn outside(places: &mut [u32; 2], n: usize, draw: &mut Draw) {
    let n = n as u32;
    let chosen = 1 + draw.below(3);
    for (i, place) in places.iter_mut().enumerate() {
        if chosen >> i & 1 == 1 {
            *place = draw.one_of(&[0, n + 1, n + *place, *place | 1 << 16, 1 << 31, u32::MAX]);
        }
    }
}

/// t and r that are not admitted: from 0 to 14, or huge, or with one bit set far above an
/// admitted number, as a call would show that looks at some of the bits only.
fn not_admitted(plan: &Plan, code: &Code, draw: &mut Draw) -> (u32, u32) {
    let mut parameter = |own: u32| match draw.below(8) {
        0 | 1 => own,
        2 => draw.one_of(&[15, 31, 32, 33, 63, 64, 1 << 31, u32::MAX - 1, u32::MAX]),
        3 => own | 1 << (4 + draw.below(28)),
        _ => draw.below(15) as u32,
    };
    loop {
        let (t, r) = (parameter(code.t()), parameter(code.r()));
        if !plan.admits(t, r) {
            return (t, r);
        }
    }
}

fn encode(word: &mut [u8], code: &Code) {
    let message = word[..code.message_length()].to_vec();
    code.encode(&message, word).expect("a fit message");
}

fn flip(word: &mut [u8], code: &Code, flips: usize, draw: &mut Draw) {
    encode(word, code);
    for place in &two_places(draw, word.len())[..flips] {
        word[*place as usize - 1] ^= 1;
    }
}

/// A word with at most three places set.
fn set_few(word: &mut [u8], draw: &mut Draw) {
    word.fill(0);
    for _ in 0..draw.below(4) {
        word[draw.below(word.len())] = 1;
    }
}

fn spoil(word: &mut Option<Vec<u8>>, bytes: usize, draw: &mut Draw) {
    for word in word.iter_mut() {
        for _ in 0..bytes {
            let any = 2 + draw.below(254) as u8;
            let index = draw.below(word.len());
            word[index] = draw.one_of(&[2, 3, 128, 129, 254, 255, any, any]);
        }
    }
}

fn resize(word: &mut Option<Vec<u8>>, kind: Kind, draw: &mut Draw) {
    let bytes = word.take().unwrap_or_default();
    let further = more(draw);
    *word = match kind {
        Kind::Shorter => Some(bytes[..less(bytes.len(), draw)].to_vec()),
        Kind::Longer => Some([bytes, draw.word(further)].concat()),
        Kind::Null => None,
        _ => Some(vec![]),
    };
}

/// Bytes 0 and 1 as digits, others in hexadecimal.
fn write_bytes(f: &mut fmt::Formatter, bytes: &[u8]) -> fmt::Result {
    bytes.iter().try_for_each(|&byte| match byte {
        0 | 1 => write!(f, "{byte}"),
        _ => write!(f, "[{byte:02x}]"),
    })
}

impl fmt::Display for Case {
    fn fmt(&self, f: &mut fmt::Formatter) -> fmt::Result {
        writeln!(
            f,
            "case {} of seed {}: {:?}",
            self.number, self.seed, self.kind
        )?;
        writeln!(f, "call {:?} t {} r {}", self.call, self.t, self.r)?;
        if self.call == Call::ThirdPlace {
            return writeln!(f, "places {} {}", self.places[0], self.places[1]);
        }
        for (i, input) in self.inputs.iter().enumerate() {
            let bytes = input.as_deref().unwrap_or_default();
            write!(f, "input {} of length {} ", i + 1, bytes.len())?;
            match input {
                Some(_) => write_bytes(f, bytes)?,
                None => write!(f, "NULL")?,
            }
            writeln!(f)?;
        }
        match self.out {
            Some(length) => writeln!(f, "output of length {length}, filled by {:02x?}", self.fill),
            None => writeln!(f, "output NULL"),
        }
    }
}
