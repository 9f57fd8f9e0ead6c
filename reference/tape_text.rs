//! Tapes as readable text.

use crate::tape::Record;

const RAW_BYTES_A_LINE: usize = 16;

/// The tape that a text describes.
pub fn encode(text: &str) -> Result<Vec<u8>, String> {
    let mut tape = Vec::new();
    for (at, line) in text.lines().enumerate() {
        let line = line.split('#').next().unwrap_or("");
        let words: Vec<&str> = line.split_whitespace().collect();
        let bytes = encode_line(&words).map_err(|fault| format!("line {}: {fault}", at + 1))?;
        tape.extend(bytes);
    }
    Ok(tape)
}

fn encode_line(words: &[&str]) -> Result<Vec<u8>, String> {
    let record = match *words {
        [] => return Ok(Vec::new()),
        ["raw", ref bytes @ ..] => return bytes.iter().map(|word| raw_byte(word)).collect(),
        ["find", seat, key] => Record::Find {
            seat: number(seat)?,
            key: number(key)?,
        },
        ["put", seat, key, value] => Record::Put {
            seat: number(seat)?,
            key: number(key)?,
            value: number(value)?,
        },
        ["steps", seat, count] => Record::Steps {
            seat: number(seat)?,
            count: number(count)?,
        },
        ["abandon", seat] => Record::Abandon {
            seat: number(seat)?,
        },
        [word, ..] => {
            return Err(format!(
                "no record `{word}` with {} fields",
                words.len() - 1
            ))
        }
    };
    Ok(record.to_bytes())
}

fn number<T: std::str::FromStr>(word: &str) -> Result<T, String> {
    word.parse()
        .map_err(|_| format!("`{word}` is no number for this field"))
}

fn raw_byte(word: &str) -> Result<u8, String> {
    let is_byte = word.len() == 2 && word.bytes().all(|digit| digit.is_ascii_hexdigit());
    let byte = if is_byte {
        u8::from_str_radix(word, 16).ok()
    } else {
        None
    };
    byte.ok_or_else(|| format!("`{word}` is no byte in two hexadecimal digits"))
}

/// The text of a tape. What follows a damaged record is raw.
pub fn decode(tape: &[u8]) -> String {
    let mut text = String::new();
    let mut left = tape;
    while let Ok(record) = Record::parse(left) {
        text.push_str(&decode_record(record));
        left = &left[record.size()..];
    }
    for bytes in left.chunks(RAW_BYTES_A_LINE) {
        let digits: String = bytes.iter().map(|byte| format!(" {byte:02x}")).collect();
        text.push_str(&format!("raw{digits}\n"));
    }
    text
}

fn decode_record(record: Record) -> String {
    match record {
        Record::Find { seat, key } => format!("find {seat} {key}\n"),
        Record::Put { seat, key, value } => format!("put {seat} {key} {value}\n"),
        Record::Steps { seat, count } => format!("steps {seat} {count}\n"),
        Record::Abandon { seat } => format!("abandon {seat}\n"),
    }
}

#[cfg(test)]
mod tests {
    use super::*;

    #[test]
    fn text_and_tape_are_the_same() {
        let text =
            "find 1 5\nput 0 5 18446744073709551615\nsteps 255 65535\nabandon 1\nraw 01 02 ff\n";
        let tape = encode(text).unwrap();
        assert_eq!(decode(&tape), text);
        assert_eq!(
            encode("\n# nothing\n abandon 3 # seat 3\n").unwrap(),
            [3, 0, 4, 0, 3]
        );
    }

    #[test]
    fn faults_are_told() {
        for text in [
            "find 1",
            "find 256 1",
            "steps 1 65536",
            "raw 1",
            "raw +1",
            "put 1 2 x",
            "walk 3",
        ] {
            assert!(encode(text).is_err(), "{text}");
        }
    }
}
