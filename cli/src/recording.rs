//! The recording format: 12 bits positions N, 12 loop start L, 8 signal count K, then N letters of K bits.

fn header(recording: &[u8]) -> u32 {
    match recording {
        [a, b, c, d, ..] => u32::from_be_bytes([*a, *b, *c, *d]),
        _ => 0,
    }
}

pub fn positions(recording: &[u8]) -> usize {
    (header(recording) >> 20) as usize
}

pub fn loop_start(recording: &[u8]) -> usize {
    (header(recording) >> 8 & 0xfff) as usize
}

pub fn signal_count(recording: &[u8]) -> usize {
    (header(recording) & 0xff) as usize
}

/// The position that comes after one.
pub fn after(recording: &[u8], position: usize) -> usize {
    let next = position + 1;
    if next < positions(recording) {
        next
    } else {
        loop_start(recording)
    }
}

/// The recording of letters that have `signals` bits each.
pub fn of_letters(letters: &[Vec<bool>], loop_start: usize, signals: usize) -> Vec<u8> {
    let header = (letters.len() as u32) << 20 | (loop_start as u32) << 8 | signals as u32;
    let mut recording = header.to_be_bytes().to_vec();
    let bits: Vec<bool> = letters.concat();
    for eight in bits.chunks(8) {
        let bit = |(number, &bit): (usize, &bool)| if bit { 0x80 >> number } else { 0 };
        recording.push(eight.iter().enumerate().map(bit).sum());
    }
    recording
}

#[cfg(test)]
mod tests {
    use super::*;

    #[test]
    fn document_01s_recording() {
        let letters = [vec![true, false], vec![false, true], vec![false, false]];
        let recording = of_letters(&letters, 1, 2);
        assert_eq!(recording, [0x00, 0x30, 0x01, 0x02, 0x90]);
        assert_eq!((positions(&recording), loop_start(&recording), signal_count(&recording)), (3, 1, 2));
    }
}
