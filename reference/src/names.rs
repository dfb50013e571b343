//! "Names": which bytes are a name, folding, and when one name is under another.

/// "A name is 1 to 253 bytes: labels [...] joined by single dots; [...] the last label is not all digits."
pub fn is_name(bytes: &[u8]) -> bool {
    let mut labels_from_the_last = bytes.rsplit(|&byte| byte == b'.');
    (1..=253).contains(&bytes.len())
        && labels_from_the_last.next().is_some_and(|last| is_label(last) && !all_digits(last))
        && labels_from_the_last.all(is_label)
}

/// "Labels of 1 to 63 from a-z, A-Z, 0-9 and hyphen [...]; no label begins or ends with a hyphen."
fn is_label(label: &[u8]) -> bool {
    (1..=63).contains(&label.len())
        && label.iter().all(|byte| matches!(byte, b'a'..=b'z' | b'A'..=b'Z' | b'0'..=b'9' | b'-'))
        && !label.starts_with(b"-")
        && !label.ends_with(b"-")
}

fn all_digits(label: &[u8]) -> bool {
    label.iter().all(u8::is_ascii_digit)
}

/// "Letters are folded to lower case before comparing, storing or sending."
pub fn folded(name: &[u8]) -> Vec<u8> {
    name.to_ascii_lowercase()
}

pub fn is_folded(name: &[u8]) -> bool {
    !name.iter().any(u8::is_ascii_uppercase)
}

/// "h is under t if they are equal or h ends with a dot followed by t", letters folded.
pub fn is_under(h: &[u8], t: &[u8]) -> bool {
    match h.len().checked_sub(t.len()).map(|before| h.split_at(before)) {
        Some((before, end)) => (before.is_empty() || before.ends_with(b".")) && end.eq_ignore_ascii_case(t),
        None => false,
    }
}

/// What the rules ask of a socket's host and of a cookie's domain: a name under the suffix.
pub fn is_name_under(bytes: &[u8], suffix: &[u8]) -> bool {
    is_name(bytes) && is_under(bytes, suffix)
}
