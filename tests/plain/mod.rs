//! Coloured nets with inhibitor arcs and their unfolding, in plain Rust: the nine calls and the program, written from
//! document 01's text alone. Nothing here is shared with the proved code; it is what that code is held to and timed against.
mod commands;
mod drawing;
mod expressions;
mod firing;
mod flat;
mod net;
mod unfolding;

#[allow(unused_imports)] // for users of the calls
pub use commands::{Reading, Refusal};
pub use drawing::{fire_orders, first_order};
pub use flat::{fire_images, first_row, flat_sizes};
pub use net::net_sizes;
pub use unfolding::{images, program, row_order, unfold};

/// The six bytes of an order.
pub type Order = [u8; 6];

/// What a search for the first that fires gives, and how many it tried.
#[derive(Clone, Copy, Debug, PartialEq, Eq)]
pub struct First<T> {
    pub found: Option<T>,
    pub tried: usize,
}
