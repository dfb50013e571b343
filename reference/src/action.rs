//! "Frames": the actions, with party, id, tag and payload of each. "Payloads not named are empty."

/// One case for each line of the table of actions; `seat`, `tab` and `number` are ids.
pub enum Action {
    Bar { seat: u8, suffix: Vec<u8> },
    Paint { seat: u8, display: [u8; 12] },
    Go { tab: u32, suffix: Vec<u8> },
    Render { tab: u32 },
    Key { tab: u32, code: u8 },
    Mouse { tab: u32, position: [u8; 4] },
    Error { tab: u32 },
    Document { tab: u32, body: Vec<u8> },
    Cookie { tab: u32, cookie: Vec<u8> },
    Set { number: u32, domain: Vec<u8>, cookie: Vec<u8> },
    Get { number: u32, tab: u32, domain: Vec<u8> },
    Fetch { tab: u32, url: Vec<u8> },
    StartTab { tab: u32 },
    StopTab { tab: u32 },
    StartProcess { number: u32, owner: u8, suffix: Vec<u8> },
    StopProcess { number: u32 },
    OpenSocket { tab: u32, port: u16, host: Vec<u8> },
}

impl Action {
    /// "Party (1), id (4), tag (1), size (4), payload of that size."
    pub fn write(&self, frames: &mut Vec<u8>) {
        let (party, id, tag) = self.head();
        let payload = self.payload();
        frames.push(party);
        frames.extend(id.to_be_bytes());
        frames.push(tag);
        frames.extend((payload.len() as u32).to_be_bytes());
        frames.extend(payload);
    }

    /// Party, id and tag.
    fn head(&self) -> (u8, u32, u8) {
        match *self {
            Action::Bar { seat, .. } => (1, seat.into(), 1),
            Action::Paint { seat, .. } => (1, seat.into(), 2),
            Action::Go { tab, .. } => (2, tab, 1),
            Action::Render { tab } => (2, tab, 2),
            Action::Key { tab, .. } => (2, tab, 3),
            Action::Mouse { tab, .. } => (2, tab, 4),
            Action::Error { tab } => (2, tab, 5),
            Action::Document { tab, .. } => (2, tab, 6),
            Action::Cookie { tab, .. } => (2, tab, 7),
            Action::Set { number, .. } => (3, number, 1),
            Action::Get { number, .. } => (3, number, 2),
            Action::Fetch { tab, .. } => (4, tab, 1),
            Action::StartTab { tab } => (5, tab, 1),
            Action::StopTab { tab } => (5, tab, 2),
            Action::StartProcess { number, .. } => (5, number, 3),
            Action::StopProcess { number } => (5, number, 4),
            Action::OpenSocket { tab, .. } => (5, tab, 5),
        }
    }

    fn payload(&self) -> Vec<u8> {
        match self {
            Action::Bar { suffix, .. } | Action::Go { suffix, .. } => suffix.clone(),
            Action::Paint { display, .. } => display.to_vec(),
            Action::Key { code, .. } => vec![*code],
            Action::Mouse { position, .. } => position.to_vec(),
            Action::Document { body, .. } => body.clone(),
            Action::Cookie { cookie, .. } => cookie.clone(),
            Action::Set { domain, cookie, .. } => [&[domain.len() as u8], &domain[..], cookie].concat(),
            Action::Get { tab, domain, .. } => [&tab.to_be_bytes(), &domain[..]].concat(),
            Action::Fetch { url, .. } => url.clone(),
            Action::StartProcess { owner, suffix, .. } => [&[*owner], &suffix[..]].concat(),
            Action::OpenSocket { port, host, .. } => [&port.to_be_bytes(), &host[..]].concat(),
            Action::Render { .. }
            | Action::Error { .. }
            | Action::StartTab { .. }
            | Action::StopTab { .. }
            | Action::StopProcess { .. } => Vec::new(),
        }
    }
}
