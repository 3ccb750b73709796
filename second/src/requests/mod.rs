// The requests that go into the vectors: one module or two for each op, and what their lists share.
// Every list starts from a seed of its own, so that a new one changes no other.

mod convert;
mod decode;
mod encode;
mod end_to_end;
mod faults;
mod losses;
mod parts;
mod read_back;
mod sheets;
mod stream;
mod strip_parts;
mod strip_refusals;
mod strips;
mod unknowns;
mod views;

use crate::protocol::Request;
pub use parts::Code;

/// The ops that go into the vectors, in their order.
pub const OPS: [u16; 9] = [0, 1, 2, 3, 4, 5, 7, 8, 15];

/// Every request of the vectors, in its order.
pub fn all() -> Vec<Request> {
    OPS.into_iter().flat_map(of).collect()
}

/// Every request of one op, in its order.
pub fn of(op: u16) -> Vec<Request> {
    match op {
        0 => sheets::all(),
        1 => encode::all(),
        2 => decode::all(),
        3 => read_back::all(),
        4 => stream::all(),
        5 => convert::all(),
        7 => strips::all(),
        8 => views::all(),
        15 => end_to_end::all(),
        op => panic!("no op {op}"),
    }
}
