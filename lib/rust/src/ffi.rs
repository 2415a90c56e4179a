//! What `dimacs.h` declares.

use crate::instances::{Max, Min, RawGraph};

pub const DONE: u32 = 0;
pub const REFUSED: u32 = 1;
pub const MISUSED: u32 = 2;
pub const DEVICE: u32 = 3;
pub const NO_MEMORY: u32 = 4;
pub const GAVE_UP: u32 = 5;
pub const RUN: u32 = 6;

/// Declares functions by the types of their arguments, of which some stand for several, as in [`call`].
macro_rules! functions {
    (@ $name:ident, ($($done:ty,)*)) => { extern "C" { pub fn $name($(_: $done),*) -> u32; } };
    (@ $name:ident, ($($done:ty,)*) [$item:ty] $(, $($rest:tt)*)?) => {
        functions!(@ $name, ($($done,)* *const $item, usize,) $($($rest)*)?);
    };
    (@ $name:ident, ($($done:ty,)*) {$item:ty} $(, $($rest:tt)*)?) => {
        functions!(@ $name, ($($done,)* *mut $item, usize, *mut usize,) $($($rest)*)?);
    };
    (@ $name:ident, ($($done:ty,)*) ($item:ty) $(, $($rest:tt)*)?) => {
        functions!(@ $name, ($($done,)* *mut $item, usize,) $($($rest)*)?);
    };
    (@ $name:ident, ($($done:ty,)*) $argument:ty $(, $($rest:tt)*)?) => {
        functions!(@ $name, ($($done,)* $argument,) $($($rest)*)?);
    };
    ($($name:ident($($arguments:tt)*);)*) => { $(functions!(@ $name, () $($arguments)*);)* };
}

functions! {
    dimacs_version();
    dimacs_proved();
    dimacs_version_text({u8});
    dimacs_judge(u32, [u8], [u8], [u8], {u8});
    dimacs_certify(u32, [u8], [u8], {u8}, {u8});
    dimacs_spread(u32, [u8], [u8], {u8}, {u8});
    dimacs_solve(u32, [u8], [u8], u64, {u8}, {u8}, {u8});
    dimacs_convert(u32, [u8], {u8});
    dimacs_show(u32, [u8], {u8});
    dimacs_request([u8], [u32], {u8});
    dimacs_command(u32, [u8], u32, [u8], [u8], [u8], {u8}, {u8}, {u8});
    dimacs_judge_max_arrays(*const Max, [i64], [u8], {u8});
    dimacs_judge_min_arrays(*const Min, [i64], [i64], {u8});
    dimacs_judge_infeasible_arrays(*const Min, [u8], {u8});
    dimacs_judge_paths_arrays(*const RawGraph, u32, [i64], [u32], {u8});
    dimacs_certify_max_arrays(*const Max, [i64], {u8}, {u8}, {i64});
    dimacs_certify_min_arrays(*const Min, [i64], {u8}, {i64}, {i64});
    dimacs_certify_infeasible_arrays(*const Min, {u8}, {u8}, {i64});
    dimacs_certify_paths_arrays(*const RawGraph, u32, [i64], {u8}, {u32});
    dimacs_solve_max_arrays(*const Max, u64, {u8}, {i64}, {u8});
    dimacs_solve_min_arrays(*const Min, u64, {u8}, {i64}, {i64}, {u8});
    dimacs_solve_paths_arrays(*const RawGraph, u32, {u8}, {i64}, {u32});
    dimacs_read_max([u8], {u8}, *mut u32, *mut u32, *mut u32, (u32), (u32), (i64), *mut usize);
    dimacs_read_min([u8], {u8}, *mut u32, (u32), (u32), (i64), (i64), (i64), *mut usize, {i64});
    dimacs_read_graph([u8], {u8}, *mut u32, (u32), (u32), (i64), *mut usize);
    dimacs_write_max(*const Max, {u8});
    dimacs_write_min(*const Min, {u8});
    dimacs_write_graph(*const RawGraph, {u8});
    dimacs_read_solution(u32, [u32], [u32], [u8], {u8}, *mut i64, {i64});
    dimacs_write_solution(i64, u32, [u32], [u32], [i64], {u8});
    dimacs_read_cut([u8], {u8}, {u8});
    dimacs_write_cut([u8], {u8});
    dimacs_read_potentials([u8], {u8}, {i64});
    dimacs_write_potentials([i64], {u8});
    dimacs_read_queries([u8], {u8}, *mut u32, (u32), (u32), *mut usize);
    dimacs_write_queries(u32, [u32], [u32], {u8});
    dimacs_read_distances([u8], u32, {u8}, {i64});
    dimacs_write_distances(u32, [i64], {u8});
    dimacs_read_labels([u8], u32, {u8}, *mut i64, {i64}, {u32});
    dimacs_write_labels(u32, [i64], [u32], {u8});
}

/// Makes a call, and again if a room was too small. Of its arguments these stand for several:
///
/// - `[slice]`: its address and its length;
/// - `{room}`: its address, its size, and the place for the number of items that are needed;
/// - `(room)`: the first two of these. It has to be large enough.
///
/// So each pointer has its own length: that of a slice which outlives the call, or of a room that is borrowed alone. The
/// call does no more than `dimacs.h` says, and that asks for no more of the caller.
macro_rules! call {
    (@ $function:path, ($($done:expr,)*) ($($room:ident)*)) => {
        loop {
            let status = unsafe { $function($($done),*) };
            if true $(&& $room.fits())* {
                break status;
            }
            $($room.grow()?;)*
        }
    };
    (@ $function:path, ($($done:expr,)*) ($($rooms:ident)*) [$slice:expr] $(, $($rest:tt)*)?) => {
        call!(@ $function, ($($done,)* $slice.as_ptr(), $slice.len(),) ($($rooms)*) $($($rest)*)?)
    };
    (@ $function:path, ($($done:expr,)*) ($($rooms:ident)*) {$room:ident} $(, $($rest:tt)*)?) => {
        call!(@ $function, ($($done,)* $room.at(), $room.room(), $room.needed(),) ($($rooms)* $room) $($($rest)*)?)
    };
    (@ $function:path, ($($done:expr,)*) ($($rooms:ident)*) ($room:expr) $(, $($rest:tt)*)?) => {
        call!(@ $function, ($($done,)* $room.at(), $room.room(),) ($($rooms)*) $($($rest)*)?)
    };
    (@ $function:path, ($($done:expr,)*) ($($rooms:ident)*) $argument:expr $(, $($rest:tt)*)?) => {
        call!(@ $function, ($($done,)* $argument,) ($($rooms)*) $($($rest)*)?)
    };
    ($function:path: $($arguments:tt)*) => { call!(@ $function, () () $($arguments)*) };
}
pub(crate) use call;

/// A bool is a byte that is 0 or 1.
pub fn bytes(marks: &[bool]) -> &[u8] {
    unsafe { std::slice::from_raw_parts(marks.as_ptr().cast(), marks.len()) }
}
