//! Events that keep the table in mind, so that most are accepted, and damage to them.
use crate::names;
use crate::random::Random;
use crate::view::{self, Tab};

pub fn frame(party: u8, id: usize, tag: u8, payload: &[u8]) -> Vec<u8> {
    let mut f = vec![party];
    f.extend((id as u32).to_be_bytes());
    f.push(tag);
    f.extend((payload.len() as u32).to_be_bytes());
    f.extend(payload);
    f
}

/// A suffix to open: mostly a label and a listed name.
fn to_open(r: &mut Random, listed: &[Vec<u8>]) -> Vec<u8> {
    if listed.is_empty() {
        return b"a.com".to_vec();
    }
    let base = r.pick(listed).clone();
    let mut name = match r.below(30) {
        0 => base,
        1 => names::before(names::label(r), &names::before(names::label(r), &base)),
        2 => {
            let aim = r.between(63, 66).saturating_sub(base.len() + 1);
            names::before(names::label_of(r, aim.clamp(1, 64)), &base)
        }
        3 => names::spoiled(r, &base),
        4 => names::before(names::label(r), &base),
        _ => names::before(vec![b"abcdef"[r.below(6)]], &base),
    };
    if r.percent(25) {
        names::in_capitals(r, &mut name);
    }
    name
}

fn key(r: &mut Random) -> u8 {
    match r.below(20) {
        0..=6 => r.between(14, 23) as u8,
        7..=9 => 25,
        10 => r.byte(),
        11 => *r.pick(&[0, 7, 8, 9, 10, 11, 12, 13, 14, 23, 24, 25, 26, 31, 32, 126, 127]),
        _ => r.between(32, 126) as u8,
    }
}

fn from_seat(r: &mut Random, table: &[u8], listed: &[Vec<u8>], opens: usize) -> Vec<u8> {
    let seats = view::let_seats(table);
    let seat = if seats.is_empty() || r.percent(3) { r.below(10) } else { *r.pick(&seats) };
    match r.below(100) {
        n if n < opens => frame(1, seat, 3, &to_open(r, listed)),
        n if n % 7 == 0 => frame(1, seat, 2, &r.bytes(4)),
        _ => frame(1, seat, 1, &[key(r)]),
    }
}

fn url(r: &mut Random) -> Vec<u8> {
    let mut u = r.pick(&["http://", "https://", "https://", "Http://", "ftp://", "http:/"]).as_bytes().to_vec();
    let n = *r.pick(&[0, 1, 2, 20, 2040, 2041, 2042, 3000]);
    let n = if r.percent(70) { r.between(1, 60) } else { n };
    u.extend((0..n).map(|_| r.between(33, 126) as u8));
    if r.percent(5) {
        let at = r.below(u.len());
        u[at] = *r.pick(&[32, 33, 126, 127, 0, 255]);
    }
    u
}

/// A domain that the tab may mostly ask for: a name under its suffix.
fn domain(r: &mut Random, table: &[u8], tab: &Tab) -> Vec<u8> {
    let suffix = view::process(table, tab.row).map_or(b"a.com".to_vec(), |p| p.name);
    let name = names::under(r, &suffix);
    match r.below(24) {
        0 => names::spoiled(r, &name),
        1 => b"other.example".to_vec(),
        2 => [b"b", &suffix[..]].concat(),
        3 => suffix[suffix.len() / 2..].to_vec(),
        _ => name,
    }
}

fn store(r: &mut Random, table: &[u8], tab: &Tab) -> Vec<u8> {
    let domain = domain(r, table, tab);
    let cookie = if r.percent(4) { r.between(3800, 4096) } else { r.below(40) };
    let mut payload = vec![domain.len() as u8];
    payload.extend(domain);
    payload.extend(r.bytes(cookie));
    let most = if r.percent(95) { 4096 } else { 4097 };
    payload.truncate(most);
    payload
}

fn from_tab(r: &mut Random, table: &[u8], tab: &Tab) -> Vec<u8> {
    let (tag, payload) = match r.below(10) {
        0 | 1 => (1, r.bytes(12)),
        2 | 3 => {
            let port = if r.percent(10) { 0 } else { r.between(1, 65535) as u16 };
            (2, [&port.to_be_bytes()[..], &domain(r, table, tab)].concat())
        }
        4 | 5 => (3, url(r)),
        6 | 7 => (4, store(r, table, tab)),
        _ => (5, domain(r, table, tab)),
    };
    frame(2, tab.id(), tag, &payload)
}

/// A result or a document, mostly for a tab that waits for it; mostly something else where none does.
fn from_outside(r: &mut Random, table: &[u8], tabs: &[Tab]) -> Vec<u8> {
    let mark = *r.pick(&[1, 2]);
    let waiting: Vec<_> = tabs.iter().filter(|t| t.waiting & mark != 0).collect();
    if waiting.is_empty() && r.percent(85) {
        let tab = *r.pick(tabs);
        return from_tab(r, table, &tab);
    }
    let tab = if waiting.is_empty() || r.percent(8) { r.pick(tabs) } else { *r.pick(&waiting) };
    let body = if r.percent(3) { r.between(4080, 4093) } else { r.below(60) };
    let mut payload = (tab.id() as u32).to_be_bytes().to_vec();
    payload.extend(r.bytes(body));
    if mark == 2 {
        return frame(4, 0, 1, &payload);
    }
    let processes = view::processes(table);
    let own = view::process(table, tab.row).map_or(1, |p| p.number);
    let sender = if r.percent(8) && !processes.is_empty() { r.pick(&processes).number } else { own };
    frame(3, sender, 1, &payload)
}

/// One wrong thing about a frame's head, size, tag, payload or length.
pub fn damage(r: &mut Random, e: &mut Vec<u8>) {
    match r.below(9) {
        0 => e.truncate(r.below(e.len() + 1)),
        1 => e.push(r.byte()),
        2 => e[0] = r.below(7) as u8,
        3 => e[5] = r.below(8) as u8,
        4 => e[1 + r.below(4)] = r.byte(),
        5 => e[6 + r.below(4)] ^= 1 << r.below(8),
        6 => {
            let n = r.below(30);
            *e = frame(e[0], view::number(&e[1..5]), e[5], &r.bytes(n));
        }
        7 => e[4] = e[4].wrapping_add(1),
        _ => {
            let at = r.below(e.len());
            e[at] = r.byte();
        }
    }
}

/// The next event of a history; `opens` of a hundred of the seats' are opens.
pub fn next(r: &mut Random, table: &[u8], listed: &[Vec<u8>], opens: usize) -> Vec<u8> {
    let tabs = view::tabs(table);
    let mut event = match r.below(10) {
        _ if tabs.is_empty() => from_seat(r, table, listed, opens.max(60)),
        0..=3 => from_seat(r, table, listed, opens),
        4..=7 => {
            let tab = *r.pick(&tabs);
            from_tab(r, table, &tab)
        }
        _ => from_outside(r, table, &tabs),
    };
    if r.percent(6) {
        damage(r, &mut event);
    }
    event
}
