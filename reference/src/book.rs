//! "Order book": reading one, which succeeds exactly when it is sound.

use crate::names::{is_folded, is_name};

/// "Separate 0 or 1": the byte is one of options, of which bit 0 says separate.
pub const MOST_OPTIONS: u8 = 1;

pub struct Order {
    pub seat: u8,
    pub tenant: u8,
    pub options: u8,
}

pub struct Book<'b> {
    pub orders: Vec<Order>,
    pub names: Vec<&'b [u8]>,
}

/// "The trailer, which is the last 8 bytes and points back."
struct Trailer {
    offset_of_orders: u16,
    number_of_orders: u8,
    zero: u8,
    offset_of_names: u16,
    number_of_names: u16,
}

impl<'b> Book<'b> {
    /// The book these bytes are, or None if they are unsound.
    pub fn read(bytes: &'b [u8]) -> Option<Book<'b>> {
        if !(8..=32_768).contains(&bytes.len()) {
            return None;
        }
        let (parts, trailer) = bytes.split_last_chunk::<8>()?;
        let trailer = Trailer::read(*trailer);
        if !trailer.is_sound() {
            return None;
        }
        let (orders, names) = parts.split_at_checked(trailer.offset_of_names.into())?;
        let book = Book { orders: read_orders(orders), names: read_names(names, trailer.number_of_names)? };
        (book.orders_are_sound() && book.names_are_sound()).then_some(book)
    }

    /// "Seats 1 to 8 strictly rising; tenants 1 to 99; separate 0 or 1."
    fn orders_are_sound(&self) -> bool {
        self.orders.iter().all(|order| (1..=8).contains(&order.seat))
            && self.orders.is_sorted_by(|one, next| one.seat < next.seat)
            && self.orders.iter().all(|order| (1..=99).contains(&order.tenant))
            && self.orders.iter().all(|order| order.options <= MOST_OPTIONS)
    }

    /// "Folded name of 1 to 62 [...]; names strictly rising in byte order (a name before its continuations)."
    fn names_are_sound(&self) -> bool {
        self.names.iter().all(|name| (1..=62).contains(&name.len()))
            && self.names.iter().all(|name| is_name(name) && is_folded(name))
            && self.names.is_sorted_by(|one, next| one < next)
    }
}

impl Trailer {
    fn read([o1, o2, number_of_orders, zero, n1, n2, c1, c2]: [u8; 8]) -> Trailer {
        Trailer {
            offset_of_orders: u16::from_be_bytes([o1, o2]),
            number_of_orders,
            zero,
            offset_of_names: u16::from_be_bytes([n1, n2]),
            number_of_names: u16::from_be_bytes([c1, c2]),
        }
    }

    /// "Offset of orders (2 bytes, 0) [...], zero (1)", and the names begin where the orders of 3 bytes end.
    fn is_sound(&self) -> bool {
        self.offset_of_orders == 0 && self.zero == 0 && self.offset_of_names == 3 * u16::from(self.number_of_orders)
    }
}

/// "Orders of 3 bytes (seat, tenant, separate)."
fn read_orders(bytes: &[u8]) -> Vec<Order> {
    let (orders, _) = bytes.as_chunks();
    orders.iter().map(|&[seat, tenant, options]| Order { seat, tenant, options }).collect()
}

/// "Listed names (length byte, folded name)", as many as the trailer says; "parts adjoin with no gap".
fn read_names(mut bytes: &[u8], number_of_names: u16) -> Option<Vec<&[u8]>> {
    let mut names = Vec::with_capacity(number_of_names.into());
    for _ in 0..number_of_names {
        let (length, rest) = bytes.split_first()?;
        let (name, rest) = rest.split_at_checked((*length).into())?;
        names.push(name);
        bytes = rest;
    }
    bytes.is_empty().then_some(names)
}
