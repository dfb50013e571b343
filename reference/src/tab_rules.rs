//! "Rules of a step": what a live tab may ask. "Denied: one error action to the tab; nothing else changes."

use crate::action::Action;
use crate::frame::TabMessage;
use crate::names::{folded, is_name_under};
use crate::table::{Place, Table, COOKIE, DOCUMENT};

pub fn serve(table: &mut Table, place: Place, message: TabMessage) -> Vec<Action> {
    let allowed = match message {
        TabMessage::Display(numbers) => return display(table, place, numbers),
        TabMessage::Socket { port, host } => socket(table, place, port, host),
        TabMessage::Url(url) => fetch(table, place, url),
        TabMessage::Store { domain, cookie } => store(table, place, domain, cookie),
        TabMessage::Retrieve(domain) => retrieve(table, place, domain),
    };
    vec![allowed.unwrap_or(Action::Error { tab: table.tab_id(place) })]
}

/// "Display: paint if the tab is selected, otherwise no action."
fn display(table: &Table, place: Place, display: [u8; 12]) -> Vec<Action> {
    let selected = table.selected_tab(place.seat) == Some(place);
    selected.then_some(Action::Paint { seat: place.seat, display }).into_iter().collect()
}

/// "Socket: allowed if the port is not 0 and the host is a name under the suffix."
fn socket(table: &Table, place: Place, port: u16, host: &[u8]) -> Option<Action> {
    let allowed = port != 0 && is_name_under(host, table.process_of(place).name());
    allowed.then(|| Action::OpenSocket { tab: table.tab_id(place), port, host: folded(host) })
}

/// "Store, retrieve: the domain must be a name under the suffix."
fn store(table: &Table, place: Place, domain: &[u8], cookie: &[u8]) -> Option<Action> {
    let process = table.process_of(place);
    let allowed = is_name_under(domain, process.name());
    allowed.then(|| Action::Set { number: process.number, domain: folded(domain), cookie: cookie.to_vec() })
}

/// "Retrieve also needs no cookie waiting, and sets it."
fn retrieve(table: &mut Table, place: Place, domain: &[u8]) -> Option<Action> {
    let process = table.process_of(place);
    let action = Action::Get { number: process.number, tab: table.tab_id(place), domain: folded(domain) };
    let allowed = is_name_under(domain, process.name()) && !table.tab(place).waits_for(COOKIE);
    allowed.then(|| {
        table.tab_mut(place).waiting |= COOKIE;
        action
    })
}

/// "URL: [...] no document waiting; sets it."
fn fetch(table: &mut Table, place: Place, url: &[u8]) -> Option<Action> {
    let allowed = is_url(url) && !table.tab(place).waits_for(DOCUMENT);
    allowed.then(|| {
        table.tab_mut(place).waiting |= DOCUMENT;
        Action::Fetch { tab: table.tab_id(place), url: url.to_vec() }
    })
}

/// "8 to 2,048 bytes, all 33 to 126, beginning http:// or https:// with a byte after it."
fn is_url(url: &[u8]) -> bool {
    let after_scheme = url.strip_prefix(b"http://").or_else(|| url.strip_prefix(b"https://"));
    (8..=2_048).contains(&url.len())
        && url.iter().all(|byte| (33..=126).contains(byte))
        && after_scheme.is_some_and(|after| !after.is_empty())
}
