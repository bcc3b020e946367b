//! Answers of the reference beside those that are compared with it: lines of text, samples and forces.

use comparison::common::alike;

/// A float's 16 digits, or `nan`.
fn float_of(text: &str) -> Option<f64> {
    if text == "nan" {
        return Some(f64::NAN);
    }
    let digits = text.len() == 16 && text.bytes().all(|b| b.is_ascii_hexdigit());
    if digits {
        u64::from_str_radix(text, 16).ok().map(f64::from_bits)
    } else {
        None
    }
}

fn floats_alike(a: &str, b: &str) -> bool {
    matches!((float_of(a), float_of(b)), (Some(x), Some(y)) if alike(x, y))
}

/// One word beside the other: KEY:BITS by key and float, the word behind `peak` as a float, others as they stand.
fn words_alike(before: &str, a: &str, b: &str) -> bool {
    match (a.split_once(':'), b.split_once(':')) {
        (Some((key, x)), Some((other, y))) => key == other && floats_alike(x, y),
        _ if before == "peak" => floats_alike(a, b),
        _ => a == b,
    }
}

/// What stands before the free words of a refusal or a bad line.
pub fn numbered(line: &str) -> Option<&str> {
    if line.starts_with("refused ") || line.starts_with("bad line ") {
        line.split_once(": ").filter(|(_, words)| !words.is_empty()).map(|(head, _)| head)
    } else {
        None
    }
}

pub fn lines_alike(reference: &str, program: &str) -> bool {
    if let Some(head) = numbered(reference) {
        return numbered(program) == Some(head);
    }
    let [a, b]: [Vec<&str>; 2] = [reference, program].map(|line| line.split(' ').collect());
    a.len() == b.len() && (0..a.len()).all(|i| words_alike(if i == 0 { "" } else { a[i - 1] }, a[i], b[i]))
}

/// The refusal's number in an answer.
pub fn refusal_in(answer: &str) -> Option<u8> {
    answer.strip_prefix("refused ")?.split(':').next()?.parse().ok()
}

/// The first difference between floats and the reference's.
pub fn floats_differ(what: &str, reference: &[f64], given: &[f64]) -> Option<String> {
    if given.len() != reference.len() {
        return Some(format!("{what}: {} are given, and the reference has {}", given.len(), reference.len()));
    }
    let at = (0..given.len()).find(|i| !alike(given[*i], reference[*i]))?;
    let [a, b] = [reference[at], given[at]].map(|x| format!("{:016x} ({x:e})", x.to_bits()));
    Some(format!("{what} {at} of {}: the reference has {a}, and given is {b}", given.len()))
}
