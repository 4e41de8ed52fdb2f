//! Recordings of lasso words: refusals 20 and 23.

use crate::answer::Refusal;
use crate::limits;

const HEADER_BYTES: usize = 4;

/// A lasso word: after the last position comes the loop's start.
#[derive(Clone, Debug, PartialEq, Eq)]
pub struct Lasso {
    pub loop_start: usize,
    /// For each position, which signals are present.
    pub letters: Vec<Vec<bool>>,
}

impl Lasso {
    pub fn positions(&self) -> usize {
        self.letters.len()
    }

    /// 01: 'After position N-1 comes L'.
    pub fn after(&self, position: usize) -> usize {
        if position + 1 < self.positions() {
            position + 1
        } else {
            self.loop_start
        }
    }

    /// The position that lies some steps later.
    pub fn later(&self, position: usize, steps: usize) -> usize {
        let reached = position + steps;
        if reached < self.positions() {
            return reached;
        }
        let round = self.positions() - self.loop_start;
        self.loop_start + (reached - self.loop_start) % round
    }

    /// A signal that the word does not speak of is absent. (After F-5 no recording that passes has one, F5.3.)
    pub fn present(&self, position: usize, signal: usize) -> bool {
        self.letters[position].get(signal) == Some(&true)
    }

    /// The recording's bytes, with K signals.
    pub fn bytes(&self, signals: usize) -> Vec<u8> {
        let positions = self.positions() as u32;
        let header = positions << 20 | (self.loop_start as u32) << 8 | signals as u32;
        let mut bytes = header.to_be_bytes().to_vec();
        let bits = self
            .letters
            .iter()
            .flat_map(|letter| (0..signals).map(|signal| letter.get(signal) == Some(&true)));
        bytes.extend(pack_bits(bits));
        bytes
    }
}

/// Bits, most significant first, zero bits to a full byte.
pub fn pack_bits(bits: impl IntoIterator<Item = bool>) -> Vec<u8> {
    let mut bytes = Vec::new();
    for (number, bit) in bits.into_iter().enumerate() {
        if number % 8 == 0 {
            bytes.push(0);
        }
        if bit {
            bytes[number / 8] |= 0x80 >> (number % 8);
        }
    }
    bytes
}

fn bit(bytes: &[u8], number: usize) -> bool {
    bytes[number / 8] & 0x80 >> (number % 8) != 0
}

/// 02, F-5: '23, K below the signal count, place 0', of a recording that 20 let pass (F5.1).
pub fn check_full(recording: &[u8], signal_count: usize) -> Result<(), Refusal> {
    if usize::from(recording[HEADER_BYTES - 1]) < signal_count {
        return Err(Refusal::new(23, 0));
    }
    Ok(())
}

/// Refusal 20 in the order of its places; otherwise the lasso.
pub fn parse(recording: &[u8], signal_count: usize) -> Result<Lasso, Refusal> {
    let length = recording.len();
    // 'the length if under 4 bytes'
    if length < HEADER_BYTES {
        return Err(Refusal::new(20, length));
    }
    let header = u32::from_be_bytes([recording[0], recording[1], recording[2], recording[3]]);
    let positions = (header >> 20) as usize;
    let loop_start = (header >> 8 & 0xfff) as usize;
    let signals = (header & 0xff) as usize;
    // '0 for the header'; R2: K above the signal count belongs to it.
    let sound = (1..=limits::POSITIONS).contains(&positions)
        && loop_start < positions
        && signals <= signal_count;
    if !sound {
        return Err(Refusal::new(20, 0));
    }
    // 'the length if wrong'
    let bits = positions * signals;
    if length != HEADER_BYTES + bits.div_ceil(8) {
        return Err(Refusal::new(20, length));
    }
    // 'last byte for spare bits'
    let body = &recording[HEADER_BYTES..];
    if (bits..body.len() * 8).any(|spare| bit(body, spare)) {
        return Err(Refusal::new(20, length - 1));
    }
    let letter = |position: usize| {
        (0..signals)
            .map(|signal| bit(body, position * signals + signal))
            .collect()
    };
    Ok(Lasso {
        loop_start,
        letters: (0..positions).map(letter).collect(),
    })
}
