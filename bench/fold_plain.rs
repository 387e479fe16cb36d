//! The yardstick of `fold` in plain Rust, by the standard library alone: reads the table, checks each record, and writes for each D1
//! how many rows it has and the sum of their M. Fields in quotes are read, and the numbers checked, as `fold` does.

use std::collections::HashMap;
use std::error::Error;
use std::io::{BufWriter, Write};

/// The fields of the record that begins at `at`, and the place after it.
fn next_record(text: &[u8], mut at: usize, fields: &mut Vec<Vec<u8>>) -> usize {
    let mut count = 0;
    loop {
        if count == fields.len() {
            fields.push(Vec::new());
        }
        let field = &mut fields[count];
        field.clear();
        count += 1;
        if text.get(at) == Some(&b'"') {
            at += 1;
            while at < text.len() {
                if text[at] != b'"' {
                    field.push(text[at]);
                    at += 1;
                } else if text.get(at + 1) == Some(&b'"') {
                    field.push(b'"');
                    at += 2;
                } else {
                    at += 1;
                    break;
                }
            }
        }
        let rest = &text[at..];
        let end = rest.iter().position(|byte| matches!(byte, b',' | b'\n' | b'\r'));
        let end = end.unwrap_or(rest.len());
        field.extend_from_slice(&rest[..end]);
        at += end;
        if text.get(at) != Some(&b',') {
            break;
        }
        at += 1;
    }
    fields.truncate(count);
    while matches!(text.get(at), Some(b'\n' | b'\r')) {
        at += 1;
    }
    at
}

/// A field as it is printed: in quotes where it holds a comma, a quote or a line's end.
fn printed(field: &str) -> String {
    if field.contains([',', '"', '\n', '\r']) {
        format!("\"{}\"", field.replace('"', "\"\""))
    } else {
        field.to_string()
    }
}

fn main() -> Result<(), Box<dyn Error>> {
    let path = std::env::args().nth(1).ok_or("usage: fold_plain TABLE")?;
    let text = std::fs::read(path)?;
    let mut fields = Vec::new();
    let mut at = next_record(&text, 0, &mut fields);
    let mut places = [0; 3];
    for (place, name) in places.iter_mut().zip(["D1", "D2", "M"]) {
        let names = |field: &Vec<u8>| field.eq_ignore_ascii_case(name.as_bytes());
        *place = fields.iter().position(names).ok_or("a column is missing")?;
    }
    let width = fields.len();
    let mut groups: HashMap<String, (u64, i128)> = HashMap::new();
    while at < text.len() {
        at = next_record(&text, at, &mut fields);
        if fields.len() != width {
            return Err("a record has another number of fields".into());
        }
        let [first, second, number] = places.map(|place| &fields[place]);
        let (first, _) = (std::str::from_utf8(first)?, std::str::from_utf8(second)?);
        let number: i64 = std::str::from_utf8(number)?.parse()?;
        if !groups.contains_key(first) {
            groups.insert(first.to_string(), (0, 0));
        }
        if let Some(group) = groups.get_mut(first) {
            group.0 += 1;
            group.1 += i128::from(number);
        }
    }
    let mut lines: Vec<_> = groups.into_iter().collect();
    lines.sort_unstable();
    let mut out = BufWriter::new(std::io::stdout().lock());
    writeln!(out, "D1,COUNT(*),SUM(M)")?;
    for (first, (count, sum)) in lines {
        writeln!(out, "{},{count},{sum}", printed(&first))?;
    }
    out.flush()?;
    Ok(())
}
