//! A bench's table: a header of signal names, then a line of 0 and 1 for every position; commas, semicolons or tabs between.

use crate::near;
use csv::{ReaderBuilder, StringRecord, Trim};

/// What is wrong with a table, and at which byte.
#[derive(Debug, PartialEq, Eq)]
pub struct Fault {
    pub place: usize,
    pub message: String,
}

/// The signals that a table has columns for.
pub struct Wanted<'a> {
    /// As the text spells them, bits of buses as `b[3]`.
    pub labels: &'a [String],
    /// As a line of LTL spells them, `b_3`.
    pub ltl_names: &'a [String],
    /// Columns of other names are left out.
    pub ignore_others: bool,
}

impl Wanted<'_> {
    /// The signal of a name: the text's spelling first.
    pub fn signal(&self, name: &str) -> Option<usize> {
        let of = |names: &[String]| names.iter().position(|known| known == name);
        of(self.labels).or_else(|| of(self.ltl_names))
    }
}

/// A table as it is written, with what parts its columns.
struct Table<'a> {
    text: &'a str,
    /// Where the text begins, after a byte order mark.
    start: usize,
    delimiter: u8,
}

/// A line of the table, and where it begins.
#[derive(Default)]
struct Record {
    place: usize,
    fields: StringRecord,
}

/// The letters of a table, signals in the order of the labels.
pub fn letters(bytes: &[u8], wanted: &Wanted) -> Result<Vec<Vec<bool>>, Fault> {
    let table = Table::of(bytes)?;
    if wanted.labels.is_empty() && !wanted.ignore_others {
        return empty_letters(&table);
    }
    let mut records = table.records()?.into_iter();
    let header = records.next().unwrap_or_default();
    let columns = columns(&table, &header, wanted)?;
    let rows: Vec<Record> = records.collect();
    if rows.is_empty() {
        return Err(fault(bytes.len(), "a line of 0 and 1 for position 0 is missing".to_string()));
    }
    check_length(&rows)?;
    let names = count(&header.fields);
    rows.iter().map(|row| letter(&table, row, &columns, names)).collect()
}

fn fault(place: usize, message: String) -> Fault {
    Fault { place, message }
}

/// Of a text without signals every line is empty; the last line feed ends one.
fn empty_letters(table: &Table) -> Result<Vec<Vec<bool>>, Fault> {
    let lines: Vec<&str> = table.text.lines().collect();
    if let Some(line) = lines.iter().find(|line| !line.trim().is_empty()) {
        let place = line.as_ptr() as usize - table.text.as_ptr() as usize;
        let message = format!("the text has no signal {:?}", line.trim());
        return Err(fault(table.start + place, message));
    }
    if lines.len() < 2 {
        return Err(fault(table.text.len(), "a line of 0 and 1 for position 0 is missing".to_string()));
    }
    Ok(vec![Vec::new(); lines.len() - 1])
}

impl<'a> Table<'a> {
    fn of(bytes: &'a [u8]) -> Result<Table<'a>, Fault> {
        let text = std::str::from_utf8(bytes).map_err(|error| fault(error.valid_up_to(), "a byte that is not UTF-8".to_string()))?;
        let marked = text.strip_prefix('\u{feff}').unwrap_or(text);
        let header = marked
            .lines()
            .find(|line| !line.trim().is_empty() && !line.starts_with('#'))
            .unwrap_or("");
        let number = |sign: char| header.matches(sign).count();
        let delimiter = match (number(','), number(';'), number('\t')) {
            (commas, semicolons, tabs) if tabs > commas && tabs > semicolons => b'\t',
            (commas, semicolons, _) if semicolons > commas => b';',
            _ => b',',
        };
        Ok(Table {
            text: marked,
            start: text.len() - marked.len(),
            delimiter,
        })
    }

    /// All lines but comments, and empty ones at the end.
    fn records(&self) -> Result<Vec<Record>, Fault> {
        let mut reader = ReaderBuilder::new()
            .delimiter(self.delimiter)
            .has_headers(false)
            .flexible(true)
            .comment(Some(b'#'))
            .trim(Trim::All)
            .from_reader(self.text.as_bytes());
        let mut records = Vec::new();
        for record in reader.records() {
            let fields = record.map_err(|error| fault(self.start, error.to_string()))?;
            let from = fields.position().map_or(0, |position| position.byte() as usize);
            let place = self.after_blanks(from, records.is_empty())?;
            records.push(Record { place, fields });
        }
        Ok(records)
    }

    /// Where a record begins that was looked for from here. An empty line between two positions may be one that was not recorded.
    fn after_blanks(&self, from: usize, is_first: bool) -> Result<usize, Fault> {
        // The reader takes `\r` for the end of a line.
        let rest = self.text.get(from..).unwrap_or_default();
        let mut at = from + usize::from(rest.starts_with('\n') && self.text[..from].ends_with('\r'));
        for line in self.text[at..].split_inclusive('\n') {
            let is_blank = line.trim().is_empty();
            if is_blank && !is_first {
                return Err(fault(self.start + at, "an empty line between two positions".to_string()));
            }
            if !is_blank && !line.starts_with('#') {
                break;
            }
            at += line.len();
        }
        Ok(at)
    }

    /// Where a field begins: after so many delimiters that stand in no quotes.
    fn field_place(&self, record: &Record, field: usize) -> usize {
        let from = record.place;
        let mut left = field;
        let mut quoted = false;
        let mut at = from;
        for (number, byte) in self.text.as_bytes().iter().enumerate().skip(from) {
            at = number;
            match byte {
                _ if left == 0 && *byte != b' ' => break,
                b'"' => quoted = !quoted,
                b'\n' if !quoted => break,
                byte if *byte == self.delimiter && !quoted => left -= 1,
                _ => {}
            }
        }
        self.start + at
    }
}

/// Without quotes that stand after a blank.
fn unquoted(field: &str) -> &str {
    field
        .strip_prefix('"')
        .and_then(|rest| rest.strip_suffix('"'))
        .map_or(field, str::trim)
}

/// How many columns a header has: a delimiter at the end of the line begins none.
fn count(header: &StringRecord) -> usize {
    let trailing = header.len() > 1 && header.get(header.len() - 1) == Some("");
    header.len() - usize::from(trailing)
}

fn check_length(rows: &[Record]) -> Result<(), Fault> {
    match rows.get(tlsf::MOST_POSITIONS) {
        Some(row) => Err(fault(
            row.place,
            format!("a recording has at most {} positions", tlsf::MOST_POSITIONS),
        )),
        None => Ok(()),
    }
}

/// For each signal the field that has it.
fn columns(table: &Table, header: &Record, wanted: &Wanted) -> Result<Vec<usize>, Fault> {
    let mut columns: Vec<Option<usize>> = vec![None; wanted.labels.len()];
    for (field, name) in header.fields.iter().map(unquoted).enumerate().take(count(&header.fields)) {
        match wanted.signal(name) {
            None if wanted.ignore_others => {}
            None => return Err(fault(table.field_place(header, field), unknown(name, wanted))),
            Some(signal) if columns[signal].is_some() => {
                let message = format!("two columns are for {}", wanted.labels[signal]);
                return Err(fault(table.field_place(header, field), message));
            }
            Some(signal) => columns[signal] = Some(field),
        }
    }
    let missing: Vec<&str> = wanted
        .labels
        .iter()
        .zip(&columns)
        .filter(|(_, column)| column.is_none())
        .map(|(label, _)| label.as_str())
        .collect();
    if !missing.is_empty() {
        let line = table.text[header.place.min(table.text.len())..].lines().next().unwrap_or("");
        return Err(fault(table.start + header.place + line.trim_end().len(), absent(&missing)));
    }
    Ok(columns.into_iter().flatten().collect())
}

fn absent(missing: &[&str]) -> String {
    match missing {
        [one] => format!("the column {one} is missing"),
        several => format!("{} columns are missing: {}", several.len(), several.join(", ")),
    }
}

fn unknown(name: &str, wanted: &Wanted) -> String {
    let bits: Vec<&String> = wanted
        .labels
        .iter()
        .filter(|label| label.contains('[') && label.split('[').next() == Some(name))
        .collect();
    let others = "--ignore-other-columns leaves out columns that are no signals";
    match (bits.first(), bits.last()) {
        (Some(first), Some(last)) => format!("{name} is a bus: its bits have columns of their own, {first} to {last}"),
        _ if name.is_empty() => "a column without a name".to_string(),
        _ => match near::nearest(name, wanted.labels.iter().map(String::as_str)) {
            Some(near) => format!("the text has no signal {name:?}: did you mean {near}? ({others})"),
            None => format!("the text has no signal {name:?} ({others})"),
        },
    }
}

fn letter(table: &Table, row: &Record, columns: &[usize], names: usize) -> Result<Vec<bool>, Fault> {
    let fields = &row.fields;
    let trailing = fields.len() == names + 1 && fields.get(names) == Some("");
    if fields.len() != names && !trailing {
        let values = if fields.len() == 1 { "value" } else { "values" };
        let message = format!("{} {values} where the header has {names} names", fields.len());
        return Err(fault(table.start + row.place, message));
    }
    let bit = |&column: &usize| {
        let field = unquoted(fields.get(column).unwrap_or_default());
        self::bit(field).ok_or_else(|| fault(table.field_place(row, column), format!("{field:?} is neither 0 nor 1")))
    };
    columns.iter().map(bit).collect()
}

/// As benches write bits: also as a logical value, or as a number with a decimal point or comma.
fn bit(field: &str) -> Option<bool> {
    match field {
        "0" | "0.0" | "0,0" => Some(false),
        "1" | "1.0" | "1,0" => Some(true),
        _ if field.eq_ignore_ascii_case("false") => Some(false),
        _ if field.eq_ignore_ascii_case("true") => Some(true),
        _ => None,
    }
}

/// The table of rows of bits, one row for every signal.
pub fn of_rows(labels: &[String], rows: &[Vec<bool>], positions: usize) -> String {
    let mut table = labels.join(",");
    table.push('\n');
    for position in 0..positions {
        let bit = |row: &Vec<bool>| if row.get(position) == Some(&true) { "1" } else { "0" };
        table.push_str(&rows.iter().map(bit).collect::<Vec<&str>>().join(","));
        table.push('\n');
    }
    table
}

#[cfg(test)]
mod tests {
    use super::*;

    fn read(bytes: &[u8], ignore_others: bool) -> Result<Vec<Vec<bool>>, Fault> {
        let names = |names: [&str; 3]| names.map(str::to_string).to_vec();
        let wanted = Wanted {
            labels: &names(["r", "b[0]", "b[1]"]),
            ltl_names: &names(["r", "b_0", "b_1"]),
            ignore_others,
        };
        letters(bytes, &wanted)
    }

    #[test]
    fn as_benches_export_them() {
        let due = Ok(vec![vec![false, false, true], vec![true, true, false]]);
        let tables: [&[u8]; 7] = [
            b"\xef\xbb\xbfb[1], \"r\" ,b[0]\r\n1,0,0\r\n0,1,1\r\n\r\n",
            b"r;b[0];b[1]\n0;0;1\n1;1;0\n",
            b"r\tb[0]\tb[1]\r\n0\t0\t1\r\n1\t1\t0",
            b"r,b_0,b_1\nfalse,FALSE,true\nTrue,1.0,0.0\n",
            b"r;b_0;b_1;\n0,0;0,0;1,0;\n1,0;1,0;0,0;\n",
            b"# a bench\nr,b[0],b[1],\n# the run\n0,0,1,\n1,1,0,\n",
            b"\"r\",\"b[0]\",\"b[1]\"\n\"0\",0,\"1\"\n1,1,0\n",
        ];
        for table in tables {
            assert_eq!(read(table, false), due, "{}", String::from_utf8_lossy(table));
        }
        let timed = b"time;r;b[0];volts;b[1]\n0,001;0;0;3,3;1\n0,002;1;1;;0\n";
        assert_eq!(read(timed, true), due);
        assert!(read(timed, false).is_err_and(|fault| fault.place == 0 && fault.message.contains("--ignore-other-columns")));
    }

    #[test]
    fn faults_with_their_places() {
        let long = format!("r,b[0],b[1]\n{}", "0,0,0\n".repeat(2049));
        let cases: [(&[u8], usize, &str); 14] = [
            (b"r,q,b[0]\n", 2, "the text has no signal \"q\""),
            (b"r, b\n", 3, "b is a bus: its bits have columns of their own, b[0] to b[1]"),
            (b"r,,b[0]\n", 2, "a column without a name"),
            (b"r,b[0],r\n", 7, "two columns are for r"),
            (b"b[0],r,b_0\n", 7, "two columns are for b[0]"),
            (b"r,b[0]\n", 6, "the column b[1] is missing"),
            (b"r\n", 1, "2 columns are missing: b[0], b[1]"),
            (b"", 0, "3 columns are missing: r, b[0], b[1]"),
            (b"r,b[0],b[1]\n", 12, "a line of 0 and 1 for position 0 is missing"),
            (b"r,b[0],b[1]\n0,0,0\n\n0,0,0\n", 18, "an empty line between two positions"),
            (b"r,b[0],b[1]\n0\n", 12, "1 value where the header has 3 names"),
            (b"r,b[0],b[1]\n0,0,0\n0, 2,1\n", 21, "\"2\" is neither 0 nor 1"),
            (b"r,b[0],b[1]\n0,\xff", 14, "a byte that is not UTF-8"),
            (long.as_bytes(), 12 + 2048 * 6, "a recording has at most 2048 positions"),
        ];
        for (bytes, place, message) in cases {
            let fault = read(bytes, false).expect_err("a fault");
            assert!(fault.place == place && fault.message.starts_with(message), "{fault:?}");
        }
    }

    #[test]
    fn a_text_without_signals() {
        let wanted = Wanted {
            labels: &[],
            ltl_names: &[],
            ignore_others: false,
        };
        assert_eq!(letters(b"\n\n\n", &wanted), Ok(vec![Vec::new(), Vec::new()]));
        assert_eq!(of_rows(&[], &[], 2), "\n\n\n");
        assert_eq!(letters(b"\na\n", &wanted).map_err(|fault| fault.place), Err(1));
    }
}
