//! "Frames": an event read from its bytes. "An event in memory is its sender together with that sender's own kind of
//! message." Whether the sender lives is not judged here.

pub enum Event<'e> {
    Seat(u32, SeatMessage<'e>),
    Tab(u32, TabMessage<'e>),
    Process(u32, ProcessMessage<'e>),
    Network(u32, NetworkMessage<'e>),
}

pub enum SeatMessage<'e> {
    Key(u8),
    /// x and y as they came
    Mouse([u8; 4]),
    Open(&'e [u8]),
}

pub enum TabMessage<'e> {
    /// memory id, x, y, w, h as they came
    Display([u8; 12]),
    Socket {
        port: u16,
        host: &'e [u8],
    },
    Url(&'e [u8]),
    Store {
        domain: &'e [u8],
        cookie: &'e [u8],
    },
    Retrieve(&'e [u8]),
}

pub enum ProcessMessage<'e> {
    Result { tab: u32, cookie: &'e [u8] },
}

pub enum NetworkMessage<'e> {
    Document { tab: u32, body: &'e [u8] },
}

impl<'e> Event<'e> {
    /// None where the number 3 is due: "frame below 10 bytes, size over 4,096 or not the bytes present, unknown party
    /// or tag, payload that does not fit its tag".
    pub fn read(event: &'e [u8]) -> Option<Event<'e>> {
        let (&[party, i1, i2, i3, i4, tag, s1, s2, s3, s4], payload) = event.split_first_chunk()?;
        let id = u32::from_be_bytes([i1, i2, i3, i4]);
        let size = u32::from_be_bytes([s1, s2, s3, s4]);
        if size > 4_096 || size as usize != payload.len() {
            return None;
        }
        match party {
            1 => Some(Event::Seat(id, SeatMessage::read(tag, payload)?)),
            2 => Some(Event::Tab(id, TabMessage::read(tag, payload)?)),
            3 => Some(Event::Process(id, ProcessMessage::read(tag, payload)?)),
            4 => Some(Event::Network(id, NetworkMessage::read(tag, payload)?)),
            _ => None,
        }
    }
}

impl<'e> SeatMessage<'e> {
    /// "1 key: 1 byte; 2 mouse: x, y (2 each); 3 open: suffix."
    fn read(tag: u8, payload: &'e [u8]) -> Option<SeatMessage<'e>> {
        match tag {
            1 => payload.try_into().ok().map(|[code]: [u8; 1]| SeatMessage::Key(code)),
            2 => payload.try_into().ok().map(SeatMessage::Mouse),
            3 => Some(SeatMessage::Open(payload)),
            _ => None,
        }
    }
}

impl<'e> TabMessage<'e> {
    /// "1 display: memory id (4), x, y, w, h (2 each); 2 socket: port (2), host; 3 URL; 4 store: length (1), domain of
    /// that length, cookie; 5 retrieve: domain."
    fn read(tag: u8, payload: &'e [u8]) -> Option<TabMessage<'e>> {
        match tag {
            1 => payload.try_into().ok().map(TabMessage::Display),
            2 => {
                let (port, host) = payload.split_first_chunk()?;
                Some(TabMessage::Socket { port: u16::from_be_bytes(*port), host })
            }
            3 => Some(TabMessage::Url(payload)),
            4 => {
                let (length, rest) = payload.split_first()?;
                let (domain, cookie) = rest.split_at_checked((*length).into())?;
                Some(TabMessage::Store { domain, cookie })
            }
            5 => Some(TabMessage::Retrieve(payload)),
            _ => None,
        }
    }
}

impl<'e> ProcessMessage<'e> {
    /// "1 result: tab id, cookie."
    fn read(tag: u8, payload: &'e [u8]) -> Option<ProcessMessage<'e>> {
        let (tab, cookie) = payload.split_first_chunk()?;
        (tag == 1).then_some(ProcessMessage::Result { tab: u32::from_be_bytes(*tab), cookie })
    }
}

impl<'e> NetworkMessage<'e> {
    /// "1 document: tab id, body."
    fn read(tag: u8, payload: &'e [u8]) -> Option<NetworkMessage<'e>> {
        let (tab, body) = payload.split_first_chunk()?;
        (tag == 1).then_some(NetworkMessage::Document { tab: u32::from_be_bytes(*tab), body })
    }
}
