//! Lasso words over the declared signals, each known by its name and its index in the bus: the order of their bits is that of a signal list.

use second::generate::prng::Prng;
use second::recording::Lasso;
use std::collections::BTreeMap;

/// A signal: its name's bytes, index and width.
type Signal = (Vec<u8>, u32, u32);

/// Where each declared signal is present.
#[derive(Debug)]
pub struct Word {
    positions: usize,
    loop_start: usize,
    present: BTreeMap<Signal, Vec<bool>>,
}

/// A word over the signals of a list, of few or many positions, in which signals are rare, as often as not, or frequent.
pub fn drawn(rng: &mut Prng, text: &[u8], list: &[u32]) -> Word {
    let most = match rng.below(60) {
        0 => 130,
        1..=5 => 40,
        _ => 9,
    };
    let positions = rng.between(1, most);
    let loop_start = rng.below(positions);
    let density = *rng.pick(&[0, 1, 4, 4, 4, 7, 8]);
    let mut column = |_: &u32| (0..positions).map(|_| rng.below(8) < density).collect();
    let present = list
        .iter()
        .map(|entry| (signal(text, *entry), column(entry)))
        .collect();
    Word {
        positions,
        loop_start,
        present,
    }
}

impl Word {
    /// The word with its signals in the order of a list; none unless the list has each signal just once.
    pub fn ordered_by(&self, text: &[u8], list: &[u32]) -> Option<Lasso> {
        let signals: Vec<Signal> = list.iter().map(|entry| signal(text, *entry)).collect();
        let columns: Vec<&Vec<bool>> = signals
            .iter()
            .map(|signal| self.present.get(signal))
            .collect::<Option<_>>()?;
        let once = signals.iter().collect::<std::collections::BTreeSet<_>>();
        if columns.len() != self.present.len() || once.len() != signals.len() {
            return None;
        }
        let letter = |position: usize| columns.iter().map(|column| column[position]).collect();
        Some(Lasso {
            loop_start: self.loop_start,
            letters: (0..self.positions).map(letter).collect(),
        })
    }
}

/// What an entry names: the run of name bytes at its offset, the index and the width.
fn signal(text: &[u8], entry: u32) -> Signal {
    let offset = (entry >> 16 & 0x7fff) as usize;
    let in_name = |byte: &&u8| byte.is_ascii_alphanumeric() || b"_'@".contains(byte);
    let name = text.get(offset..).unwrap_or_default();
    let name = name.iter().take_while(in_name).copied().collect();
    (name, entry >> 8 & 0xff, entry & 0xff)
}
