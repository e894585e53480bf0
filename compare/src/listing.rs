//! A listing's words (SPECIFICATION, "The listing"): what they are made of, counts over them, their text.
//!
//! Example: the eight words of `a ##1 b` count 1 register and a deepest stack of 2, and read "seq 0 = a0 any", "match = r0 a1 any and".

pub const ATOM: u32 = 1;
pub const REGISTER: u32 = 2;
pub const ZERO: u32 = 3;
pub const ONE: u32 = 4;
pub const ANY: u32 = 5;
pub const NOT: u32 = 6;
pub const AND: u32 = 7;
pub const OR: u32 = 8;
pub const MATCH: u32 = 14;

/// The tags of the stores into registers, operations 9 to 13.
pub const TAGS: [&str; 5] = ["seq", "arm", "gto", "ncx", "crl"];

/// What each operation takes from the stack and leaves there, from operation 1 on.
const TAKES_AND_LEAVES: [(usize, usize); 14] =
    [(0, 1), (0, 1), (0, 1), (0, 1), (1, 1), (1, 1), (2, 1), (2, 1), (1, 0), (1, 0), (1, 0), (1, 0), (1, 0), (1, 0)];

/// The three counts of an answer.
#[derive(Clone, Copy, Debug, PartialEq)]
pub struct Counts {
    pub registers: usize,
    pub words: usize,
    pub deepest: usize,
}

/// Operation and argument as one word.
pub fn word(operation: u32, argument: u32) -> u32 {
    operation << 24 | argument
}

/// The operation of a word.
pub fn operation(word: u32) -> u32 {
    word >> 24
}

/// The argument of a word.
pub fn argument(word: u32) -> u32 {
    word & 0xff_ffff
}

/// Whether a word stores into a register.
pub fn stores(word: u32) -> bool {
    (9..=13).contains(&operation(word))
}

/// The counts of a listing, made from its words alone.
pub fn counts(words: &[u32]) -> Counts {
    let mut height = 0;
    let mut deepest = 0;
    for &word in words {
        let (takes, leaves) = TAKES_AND_LEAVES[operation(word) as usize - 1];
        height = height - takes + leaves;
        deepest = deepest.max(height);
    }
    Counts { registers: words.iter().filter(|w| stores(**w)).count(), words: words.len(), deepest }
}

/// Where the words that drive a register begin, and how many they are, its store included.
pub fn stretch(words: &[u32], register: u32) -> (usize, usize) {
    let mut start = 0;
    for (at, &word) in words.iter().enumerate() {
        if stores(word) {
            if argument(word) == register {
                return (start, at + 1 - start);
            }
            start = at + 1;
        }
    }
    (0, 0)
}

/// The text of an answer with its listing, as the listing program prints it.
pub fn text(words: &[u32]) -> String {
    let Counts { registers, words: count, deepest } = counts(words);
    let mut text = format!("ok {registers} {count} {deepest}\n");
    let mut tokens = String::new();
    for &word in words {
        let number = argument(word);
        match operation(word) {
            ATOM => tokens += &format!(" a{number}"),
            REGISTER => tokens += &format!(" r{number}"),
            ZERO => tokens += " 0",
            ONE => tokens += " 1",
            ANY => tokens += " any",
            NOT => tokens += " not",
            AND => tokens += " and",
            OR => tokens += " or",
            MATCH => text += &format!("match ={tokens}\n"),
            store => {
                text += &format!("{} {number} ={tokens}\n", TAGS[store as usize - 9]);
                tokens.clear();
            }
        }
    }
    text
}
