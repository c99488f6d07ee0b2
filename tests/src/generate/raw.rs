//! Records without their grammar, so that each part of one can be damaged.

use crate::codec::kind;

/// A record as heads, words and inner records, whatever they mean.
#[derive(Clone, Debug)]
pub struct Raw {
    pub kind: u16,
    pub words: Vec<u32>,
    pub children: Vec<Raw>,
    /// Bytes after the last child, counted in this length and in all around it.
    pub tail: Vec<u8>,
    /// What is added to the length written here, and only here.
    pub skew: i32,
}

/// How many words stand before a record's inner records (01, "Records"; 02, C-17).
fn words_before(kind: u16) -> usize {
    match kind {
        kind::BLOCK | kind::SUCC | kind::PRED | kind::TUPLE | kind::LET_ALL => 0,
        kind::PROGRAM_2 | kind::TERM_2 => 2,
        _ => 1,
    }
}

fn half(bytes: &[u8], at: usize) -> u16 {
    u16::from_le_bytes([bytes[at], bytes[at + 1]])
}

fn word(bytes: &[u8], at: usize) -> u32 {
    u32::from(half(bytes, at)) | u32::from(half(bytes, at + 2)) << 16
}

impl Raw {
    /// Takes a sound record apart.
    pub fn read(bytes: &[u8]) -> Raw {
        let kind = half(bytes, 2);
        let words: Vec<u32> = (0..words_before(kind))
            .map(|n| word(bytes, 4 + 4 * n))
            .collect();
        let mut at = 4 + 4 * words.len();
        let mut children = Vec::new();
        while at < bytes.len() {
            let end = at + usize::from(half(bytes, at));
            children.push(Raw::read(&bytes[at..end]));
            at = end;
        }
        Raw {
            kind,
            words,
            children,
            tail: Vec::new(),
            skew: 0,
        }
    }

    /// The bytes, each length field true but for its skew.
    pub fn write(&self) -> Vec<u8> {
        let mut out = Vec::new();
        self.write_to(&mut out);
        out
    }

    fn write_to(&self, out: &mut Vec<u8>) {
        let start = out.len();
        out.extend([0, 0]);
        out.extend(self.kind.to_le_bytes());
        for word in &self.words {
            out.extend(word.to_le_bytes());
        }
        for child in &self.children {
            child.write_to(out);
        }
        out.extend(&self.tail);
        let len = (out.len() - start) as i32 + self.skew;
        out[start..start + 2].copy_from_slice(&(len as u16).to_le_bytes());
    }

    /// This record and all within it.
    pub fn count(&self) -> usize {
        1 + self.children.iter().map(Raw::count).sum::<usize>()
    }

    /// The record with this number, heads counted in the order of their bytes from 0.
    pub fn node_mut(&mut self, number: usize) -> &mut Raw {
        let mut left = number;
        self.find(&mut left).expect("a number below the count")
    }

    fn find(&mut self, left: &mut usize) -> Option<&mut Raw> {
        if *left == 0 {
            return Some(self);
        }
        *left -= 1;
        self.children.iter_mut().find_map(|child| child.find(left))
    }

    /// The ceiling, where it is a header of edition 2.
    pub fn ceiling(&self) -> Option<u32> {
        match self.kind {
            kind::PROGRAM_2 | kind::TERM_2 => Some(self.words[1]),
            _ => None,
        }
    }

    /// Whether its word is a value, so that row 15 looks at it.
    pub fn holds_a_value(&self) -> bool {
        matches!(self.kind, kind::LITERAL | kind::NUMERAL)
    }

    /// Whether its word is a variable number, so that row 5 looks at it.
    pub fn names_a_variable(&self) -> bool {
        matches!(
            self.kind,
            kind::ASSIGNMENT
                | kind::LOOP
                | kind::VARIABLE
                | kind::PLUS_ONE
                | kind::MINUS_ONE
                | kind::TERM_VARIABLE
                | kind::LET_ONE
                | kind::REC
        )
    }
}
