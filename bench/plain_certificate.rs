// A plain Rust reader and writer of certificates, for comparison: plain_certificate FILE. It knows the words of the lines and the limits of
// i128, but no other range, and proves nothing.
use std::fmt::Write;
use std::time::Instant;

struct Certificate<'a> {
    words: Vec<&'a str>,
    ends: Vec<usize>,
    numbers: Vec<i128>,
}

fn parse(text: &str) -> Option<Certificate<'_>> {
    let (mut words, mut ends, mut numbers) = (Vec::new(), Vec::new(), Vec::new());
    for line in text.lines() {
        let mut parts = line.split(' ');
        let word = parts.next()?;
        if !matches!(word, "fmmcert" | "node" | "at" | "m" | "u" | "v" | "w" | "x" | "l" | "t" | "end") {
            return None;
        }
        words.push(word);
        for part in parts {
            if part != "-" {
                numbers.push(part.parse().ok()?);
            }
        }
        ends.push(numbers.len());
    }
    Some(Certificate { words, ends, numbers })
}

fn print(certificate: &Certificate) -> String {
    let mut text = String::new();
    let mut start = 0;
    for (word, &end) in certificate.words.iter().zip(&certificate.ends) {
        text.push_str(word);
        for number in &certificate.numbers[start..end] {
            write!(text, " {number}").unwrap();
        }
        if start == end && matches!(*word, "m" | "l") {
            text.push_str(" -");
        }
        text.push('\n');
        start = end;
    }
    text
}

fn main() {
    let path = std::env::args().nth(1).expect("usage: plain_certificate FILE");
    let text = std::fs::read_to_string(path).unwrap();
    for _ in 0..5 {
        let start = Instant::now();
        let certificate = parse(&text).unwrap();
        let read = start.elapsed().as_micros();
        let start = Instant::now();
        let printed = print(&certificate);
        let written = start.elapsed().as_micros();
        assert_eq!(printed, text);
        println!(
            "write {} MB/s, read {} MB/s",
            text.len() as u128 / written,
            text.len() as u128 / read
        );
    }
}
