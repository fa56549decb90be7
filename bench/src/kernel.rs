//! The proved kernel, through its C interface (include/zivokkal.h, crates/capi/out/libcapi.a). A run of words goes
//! over as pointer and length; the wrappers take slices, so that a caller cannot hand over anything else.

/// A coordinate found: finding 0 and the value, -1 and none, otherwise the refusal.
#[repr(C)]
#[derive(Clone, Copy, Debug, PartialEq)]
pub struct Bound {
    pub finding: i64,
    pub value: i64,
}

/// Where a row stands in the table; length 0 where it is refused.
#[repr(C)]
#[derive(Clone, Copy, Debug, PartialEq)]
pub struct Span {
    pub start: i64,
    pub length: i64,
}

/// What one row bears to another: finding 0 and the relation's number, otherwise the refusal and 0.
#[repr(C)]
#[derive(Clone, Copy, Debug, PartialEq)]
pub struct Standing {
    pub finding: i64,
    pub relation: i64,
}

/// How much of a room is covered: finding 0, the cells and their thousandths, otherwise the refusal, 0 and 0.
#[repr(C)]
#[derive(Clone, Copy, Debug, PartialEq)]
pub struct Share {
    pub finding: i64,
    pub cells: i64,
    pub permille: i64,
}

mod c {
    use super::{Bound, Share, Span, Standing};

    // A run is its first word and its length: `block` and `b`, `table` and `t`.
    type Words = *const i64;

    unsafe extern "C" {
        pub fn zk_refusal(block: Words, b: usize, table: Words, t: usize) -> i64;
        pub fn zk_row_refusal(block: Words, b: usize, table: Words, t: usize, row: i64) -> i64;
        pub fn zk_point_allowed(
            block: Words,
            b: usize,
            table: Words,
            t: usize,
            row: i64,
            shape: i64,
            p0: i64,
            p1: i64,
            p2: i64,
            p3: i64,
        ) -> i64;
        pub fn zk_check_placement(block: Words, b: usize, table: Words, t: usize) -> i64;
        pub fn zk_least(block: Words, b: usize, table: Words, t: usize, row: i64, shape: i64, dim: i64) -> Bound;
        pub fn zk_greatest(block: Words, b: usize, table: Words, t: usize, row: i64, shape: i64, dim: i64) -> Bound;
        pub fn zk_narrow(block: Words, b: usize, table: *mut i64, t: usize, row: i64) -> i64;
        pub fn zk_settle(block: Words, b: usize, table: *mut i64, t: usize) -> i64;
        pub fn zk_row_span(block: Words, b: usize, table: Words, t: usize, row: i64) -> Span;
        pub fn zk_relation(block: Words, b: usize, table: Words, t: usize, row: i64, other: i64, dim: i64) -> Standing;
        pub fn zk_fill(block: Words, b: usize, table: Words, t: usize, rule: i64) -> Share;
        pub fn zk_first_layout(block: Words, b: usize, table: *mut i64, t: usize) -> i64;
    }
}

// Each call below is sound: the kernel reads and writes within the two lengths, whatever the words are, keeps no
// pointer, and asks nothing of its caller.

pub fn refusal(block: &[i64], table: &[i64]) -> i64 {
    unsafe { c::zk_refusal(block.as_ptr(), block.len(), table.as_ptr(), table.len()) }
}

pub fn row_refusal(block: &[i64], table: &[i64], row: i64) -> i64 {
    unsafe { c::zk_row_refusal(block.as_ptr(), block.len(), table.as_ptr(), table.len(), row) }
}

pub fn point_allowed(block: &[i64], table: &[i64], row: i64, shape: i64, p: &[i64; 4]) -> i64 {
    unsafe {
        c::zk_point_allowed(
            block.as_ptr(),
            block.len(),
            table.as_ptr(),
            table.len(),
            row,
            shape,
            p[0],
            p[1],
            p[2],
            p[3],
        )
    }
}

pub fn check_placement(block: &[i64], table: &[i64]) -> i64 {
    unsafe { c::zk_check_placement(block.as_ptr(), block.len(), table.as_ptr(), table.len()) }
}

pub fn least(block: &[i64], table: &[i64], row: i64, shape: i64, dimension: i64) -> Bound {
    unsafe { c::zk_least(block.as_ptr(), block.len(), table.as_ptr(), table.len(), row, shape, dimension) }
}

pub fn greatest(block: &[i64], table: &[i64], row: i64, shape: i64, dimension: i64) -> Bound {
    unsafe { c::zk_greatest(block.as_ptr(), block.len(), table.as_ptr(), table.len(), row, shape, dimension) }
}

pub fn narrow(block: &[i64], table: &mut [i64], row: i64) -> i64 {
    unsafe { c::zk_narrow(block.as_ptr(), block.len(), table.as_mut_ptr(), table.len(), row) }
}

pub fn settle(block: &[i64], table: &mut [i64]) -> i64 {
    unsafe { c::zk_settle(block.as_ptr(), block.len(), table.as_mut_ptr(), table.len()) }
}

pub fn row_span(block: &[i64], table: &[i64], row: i64) -> Span {
    unsafe { c::zk_row_span(block.as_ptr(), block.len(), table.as_ptr(), table.len(), row) }
}

pub fn relation(block: &[i64], table: &[i64], row: i64, other: i64, dimension: i64) -> Standing {
    unsafe { c::zk_relation(block.as_ptr(), block.len(), table.as_ptr(), table.len(), row, other, dimension) }
}

pub fn fill(block: &[i64], table: &[i64], rule: i64) -> Share {
    unsafe { c::zk_fill(block.as_ptr(), block.len(), table.as_ptr(), table.len(), rule) }
}

pub fn first_layout(block: &[i64], table: &mut [i64]) -> i64 {
    unsafe { c::zk_first_layout(block.as_ptr(), block.len(), table.as_mut_ptr(), table.len()) }
}
