//! Files that were not saved as UTF-8.

use encoding_rs::{Encoding, UTF_8, WINDOWS_1252};
use std::borrow::Cow;

/// The encoding that a byte order mark tells, or that many zero bytes do, if it is not UTF-8.
pub fn of_mark(bytes: &[u8]) -> Option<&'static Encoding> {
    if let Some((encoding, _)) = Encoding::for_bom(bytes) {
        return (encoding != UTF_8).then_some(encoding);
    }
    match bytes {
        [first, 0, second, 0, ..] if *first > 0 && *second > 0 => Some(encoding_rs::UTF_16LE),
        [0, first, 0, second, ..] if *first > 0 && *second > 0 => Some(encoding_rs::UTF_16BE),
        _ => None,
    }
}

/// A table's bytes as UTF-8, whatever program has saved it.
pub fn decoded(bytes: &[u8]) -> Cow<'_, [u8]> {
    let encoding = match of_mark(bytes) {
        Some(encoding) => encoding,
        None if std::str::from_utf8(bytes).is_ok() => return Cow::Borrowed(bytes),
        None => WINDOWS_1252,
    };
    let (text, _) = encoding.decode_with_bom_removal(bytes);
    Cow::Owned(text.into_owned().into_bytes())
}

/// The letter that a byte is in the encoding of older Windows programs.
pub fn letter(byte: u8) -> Option<char> {
    let bytes = [byte];
    let (text, _) = WINDOWS_1252.decode_without_bom_handling(&bytes);
    text.chars().next().filter(|c| c.is_alphabetic())
}

#[cfg(test)]
mod tests {
    use super::*;

    #[test]
    fn marks_and_letters() {
        assert_eq!(of_mark(b"\xff\xfeI\0"), Some(encoding_rs::UTF_16LE));
        assert_eq!(of_mark(b"I\0N\0"), Some(encoding_rs::UTF_16LE));
        assert_eq!(of_mark(b"\0I\0N"), Some(encoding_rs::UTF_16BE));
        assert_eq!((of_mark(b"\xef\xbb\xbfI"), of_mark(b"IN"), of_mark(b"")), (None, None, None));
        assert_eq!(&*decoded(b"\xff\xfea\0,\0"), b"a,");
        assert_eq!(&*decoded(b"\xd6l"), "Öl".as_bytes());
        assert_eq!((letter(0xe4), letter(0x80)), (Some('ä'), None));
    }
}
