//! Names, and strings that are almost names.
use crate::random::Random;

const LABELS: [&str; 14] = ["a", "b", "c", "d", "www", "portal", "x-1", "0", "9a", "branch", "a--b", "z", "mail", "7"];

/// A label of exactly so many bytes; it begins with a letter.
pub fn label_of(r: &mut Random, n: usize) -> Vec<u8> {
    let inner = b"abcxyz0189-";
    (0..n).map(|i| if i == 0 || i == n - 1 { b"abcdxyz"[r.below(7)] } else { *r.pick(inner) }).collect()
}

pub fn label(r: &mut Random) -> Vec<u8> {
    match r.below(20) {
        0 => label_of(r, 63),
        1 => {
            let n = r.between(1, 63);
            label_of(r, n)
        }
        _ => r.pick(&LABELS).as_bytes().to_vec(),
    }
}

/// Some letters in capitals.
pub fn in_capitals(r: &mut Random, name: &mut [u8]) {
    for b in name.iter_mut() {
        if r.percent(30) {
            b.make_ascii_uppercase();
        }
    }
}

/// A label, a dot and what is there.
pub fn before(mut label: Vec<u8>, rest: &[u8]) -> Vec<u8> {
    label.push(b'.');
    label.extend(rest);
    label
}

/// A name under t, with as many labels more as come; now and then one of 252 to 255 bytes.
pub fn under(r: &mut Random, t: &[u8]) -> Vec<u8> {
    let mut name = t.to_vec();
    for _ in 0..r.below(4) {
        name = before(label(r), &name);
    }
    if r.percent(3) {
        let aim = r.between(252, 255);
        while name.len() + 1 < aim {
            let n = (aim - name.len() - 1).min(63);
            name = before(label_of(r, n), &name);
        }
    }
    if r.percent(30) {
        in_capitals(r, &mut name);
    }
    name
}

/// A name with something wrong, which may still be one.
pub fn spoiled(r: &mut Random, name: &[u8]) -> Vec<u8> {
    let mut s = name.to_vec();
    let at = r.below(s.len().max(1));
    match r.below(9) {
        0 => s.clear(),
        1 => s.insert(at.min(s.len()), b'.'),
        2 => s.insert(0, b'-'),
        3 => s.push(*r.pick(b".-_ \0")),
        4 if !s.is_empty() => s[at] = r.byte(),
        5 if !s.is_empty() => s[at] = *r.pick(b"@[`{/:-._A0Z9"),
        6 if !s.is_empty() => drop(s.remove(at)),
        7 => s.extend(b".12"),
        _ => s.insert(0, *r.pick(b"ab.")),
    }
    s
}
