//! Lines in, lines out, and the words of a line: decimal numbers, bytes in hexadecimal, `l` or `b`.

use crate::Endian;
use std::io::{self, BufRead, BufWriter, Write};

/// A line that isn't understood gives a message.
pub(crate) type Understood<T> = std::result::Result<T, String>;

/// Answers each line of standard input with a line of standard output.
/// The first line that isn't understood ends this, and its number stands in the message.
pub(crate) fn answer_all(answer: fn(&[&[u8]], &mut Vec<u8>) -> Understood<()>) -> Understood<()> {
    let mut input = io::stdin().lock();
    let mut output = BufWriter::with_capacity(1 << 16, io::stdout().lock());
    let (mut line, mut text) = (Vec::new(), Vec::new());
    for number in 1u64.. {
        line.clear();
        if input.read_until(b'\n', &mut line).map_err(|e| e.to_string())? == 0 {
            break;
        }
        let words: Vec<&[u8]> = without_line_end(&line).split(|&byte| byte == b' ').collect();
        text.clear();
        let understood = answer(&words, &mut text).map_err(|e| format!("line {number}: {e}"));
        text.push(b'\n');
        match understood {
            Ok(()) => output.write_all(&text).map_err(|e| e.to_string())?,
            Err(message) => {
                let _ = output.flush();
                return Err(message);
            }
        }
    }
    output.flush().map_err(|e| e.to_string())
}

fn without_line_end(line: &[u8]) -> &[u8] {
    line.strip_suffix(b"\n").unwrap_or(line)
}

pub(crate) fn number(word: &[u8]) -> Understood<u64> {
    let text = std::str::from_utf8(word).unwrap_or("");
    if !text.bytes().all(|byte| byte.is_ascii_digit()) {
        return Err(format!("no decimal number: {text}"));
    }
    text.parse().map_err(|_| format!("no number of 64 bits: {text}"))
}

pub(crate) fn byte_order(word: &[u8]) -> Understood<Endian> {
    match word {
        b"l" => Ok(Endian::Little),
        b"b" => Ok(Endian::Big),
        _ => Err("the byte order is l or b".to_string()),
    }
}

/// Pairs of hexadecimal digits; `-` stands for no bytes.
pub(crate) fn bytes(word: &[u8]) -> Understood<Vec<u8>> {
    if word == b"-" {
        return Ok(Vec::new());
    }
    if word.is_empty() || word.len() % 2 != 0 {
        return Err("bytes are pairs of hexadecimal digits, or -".to_string());
    }
    word.chunks_exact(2).map(|pair| Ok(digit(pair[0])? << 4 | digit(pair[1])?)).collect()
}

fn digit(character: u8) -> Understood<u8> {
    match character {
        b'0'..=b'9' => Ok(character - b'0'),
        b'a'..=b'f' => Ok(character - b'a' + 10),
        b'A'..=b'F' => Ok(character - b'A' + 10),
        _ => Err("bytes are pairs of hexadecimal digits, or -".to_string()),
    }
}

/// Bytes as they are printed: hexadecimal, or `-` for none.
pub(crate) fn hexadecimal(bytes: &[u8]) -> String {
    if bytes.is_empty() {
        return "-".to_string();
    }
    bytes.iter().map(|byte| format!("{byte:02x}")).collect()
}

/// Appends a decimal number.
pub(crate) fn push_number(text: &mut Vec<u8>, mut number: u64) {
    let mut digits = [0u8; 20];
    let mut first = digits.len();
    loop {
        first -= 1;
        digits[first] = b'0' + (number % 10) as u8;
        number /= 10;
        if number == 0 {
            break;
        }
    }
    text.extend_from_slice(&digits[first..]);
}
