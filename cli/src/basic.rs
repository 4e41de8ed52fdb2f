//! `--to basic`: the text that the library writes of an accepted one.

use crate::refusals;
use crate::signals;
use std::thread;
use tlsf::Written;

/// Room for every written text (docs/REFUSALS.md, 18).
const ROOM: usize = 600_000;
/// The text is read again: room for the deepest, many times over.
const STACK: usize = 64 << 20;

/// Why a written text is that of another form.
pub const AS_EXPANDED: &str = "--to basic writes the formula as expanded: it goes with no other form";

/// The bytes, or why there are none; `list` is the text's signal list.
pub fn text(text: &[u8], list: &[u32]) -> Result<Vec<u8>, String> {
    let (written, mut bytes) = thread::scope(|scope| {
        let writer = thread::Builder::new().stack_size(STACK).spawn_scoped(scope, || write(text));
        writer
            .map_err(|error| error.to_string())?
            .join()
            .map_err(|_| "the text could not be written".to_string())
    })?;
    match written {
        Written::Bytes(count) => {
            bytes.truncate(count);
            Ok(bytes)
        }
        Written::Refused { number, place } => Err(refused(text, list, number, place)),
    }
}

fn write(text: &[u8]) -> (Written, Vec<u8>) {
    let mut out = vec![0; ROOM];
    let written = tlsf::write_basic(text, &mut vec![0; tlsf::WORK_BYTES], &mut out);
    (written, out)
}

/// The place of 22 is a signal's number.
fn refused(text: &[u8], list: &[u32], number: u32, place: usize) -> String {
    let name = signals::of(text, list).get(place).map_or_else(String::new, |signal| signal.label());
    let rule = refusals::page_of(number).map_or("", |page| page.rule());
    format!("refused {number} at signal {place}, {name}: {rule} `vasculpi explain {number}` tells how to mend it")
}
