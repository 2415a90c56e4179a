//! Each allocation of the crate is refused in turn: a call returns that it is out of memory, and the process goes on.

use dimacs::arrays::{self, MaxInstance};
use dimacs::{reading, texts, Error};
use std::alloc::{GlobalAlloc, Layout, System};
use std::cell::Cell;
use std::fmt::Debug;
use std::ptr::null_mut;

thread_local! {
    /// How many allocations succeed until one is refused, if one is to be.
    static LEFT: Cell<Option<usize>> = const { Cell::new(None) };
}

struct Refusing;

fn is_refused() -> bool {
    LEFT.with(|it| {
        let left = it.get();
        it.set(left.and_then(|it| it.checked_sub(1)));
        left == Some(0)
    })
}

// Each call is handed on as it comes, or refused. What grows is allocated anew.
unsafe impl GlobalAlloc for Refusing {
    unsafe fn alloc(&self, layout: Layout) -> *mut u8 {
        if is_refused() {
            return null_mut();
        }
        unsafe { System.alloc(layout) }
    }

    unsafe fn dealloc(&self, at: *mut u8, layout: Layout) {
        unsafe { System.dealloc(at, layout) }
    }
}

#[global_allocator]
static ALLOCATOR: Refusing = Refusing;

/// Refuses each allocation of a call in turn, of which there has to be one.
fn refuse_each<T: Debug + PartialEq, F: Debug + PartialEq, S: Debug + PartialEq>(
    call: impl Fn() -> Result<T, Error<F, S>>,
) {
    let wanted = call();
    for count in 0.. {
        LEFT.with(|it| it.set(Some(count)));
        let found = call();
        let is_used = LEFT.with(|it| it.replace(None)).is_none();
        if !is_used {
            assert_eq!(found, wanted);
            assert!(count > 0, "{wanted:?} takes no memory");
            return;
        }
        assert_eq!(found, Err(Error::OutOfMemory), "allocation {count}");
    }
    unreachable!()
}

const PIPES: MaxInstance = MaxInstance { nodes: 3, source: 1, sink: 3, tails: &[1, 2], heads: &[2, 3], caps: &[5, 4] };

// These calls take memory in each way in which the crate does. What the library itself takes lib/test/refused.c refuses.
#[test]
fn calls_run_out_of_memory() {
    let (graph, queries, labels) = ("p sp 2 1\na 1 2 7\n", "p aux sp p2p 1\nq 1 2\n", "p dist 2 1\nt 1 1\nd 2 7 1\n");
    let pairs = reading::Queries::Pairs(vec![(1, 2)]);
    refuse_each(|| arrays::judge_max(&PIPES, &[4, 3], &[true, true, false]));
    refuse_each(|| arrays::certify_max(&PIPES, &[4, 4]));
    refuse_each(|| arrays::certify_max(&PIPES, &[3, 3]));
    refuse_each(|| texts::judge_paths(graph, queries, labels));
    refuse_each(|| texts::judge_paths(graph, queries, "t 1"));
    refuse_each(|| texts::request(&["show", "gr", "G"], &[]));
    refuse_each(|| texts::explain(&["show", "gr", "G"], graph, "", ""));
    refuse_each(|| reading::read_queries(queries));
    refuse_each(|| reading::write_queries(&pairs));
}
