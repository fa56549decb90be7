//! Plain Rust with every short cut that is known here: hulls before boxes, rules that an earlier one covers dropped, a
//! found point widening all ends, rows narrowed again only where one that can forbid them something has moved.

pub mod direct;
pub mod list;
mod settle;
