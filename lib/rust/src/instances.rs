//! The kinds of instance: in slices, in vectors, and as C has them.

use crate::arrays::{test, Error};

/// The address of an array, and the number of its items.
#[repr(C)]
pub struct Array<T> {
    at: *const T,
    length: usize,
}

impl<T> Array<T> {
    fn of(items: &[T]) -> Array<T> {
        Array { at: items.as_ptr(), length: items.len() }
    }
}

/// The nodes of an instance of any kind, and the ends of its arcs: all that matters of it for a solution.
#[derive(Clone, Copy, Debug)]
pub struct Arcs<'a> {
    /// How many nodes there are.
    pub nodes: u32,
    /// By arc.
    pub tails: &'a [u32],
    /// By arc.
    pub heads: &'a [u32],
}

/// Declares kinds of instance, in slices, in vectors, and as `dimacs.h` has them. Each has nodes, tails and heads, then
/// other numbers, and other arrays by arc and by node.
macro_rules! instances {
    ($(
        $(#[$about:meta])* $slices:ident, $vectors:ident, $raw:ident {
            $($(#[$about_number:meta])* $number:ident)*;
            $($(#[$about_by_arc:meta])* $by_arc:ident)*;
            $($(#[$about_by_node:meta])* $by_node:ident)*
        }
    )*) => {$(
        $(#[$about])*
        #[derive(Clone, Copy, Debug)]
        pub struct $slices<'a> {
            /// How many nodes there are.
            pub nodes: u32,
            $($(#[$about_number])* pub $number: u32,)*
            /// By arc.
            pub tails: &'a [u32],
            /// By arc.
            pub heads: &'a [u32],
            $($(#[$about_by_arc])* pub $by_arc: &'a [i64],)*
            $($(#[$about_by_node])* pub $by_node: &'a [i64],)*
        }

        #[doc = concat!("A [`", stringify!($slices), "`] in vectors.")]
        #[derive(Clone, Debug, PartialEq, Eq)]
        pub struct $vectors {
            /// How many nodes there are.
            pub nodes: u32,
            $($(#[$about_number])* pub $number: u32,)*
            /// By arc.
            pub tails: Vec<u32>,
            /// By arc.
            pub heads: Vec<u32>,
            $($(#[$about_by_arc])* pub $by_arc: Vec<i64>,)*
            $($(#[$about_by_node])* pub $by_node: Vec<i64>,)*
        }

        #[repr(C)]
        pub struct $raw {
            nodes: u32,
            $($number: u32,)*
            tails: Array<u32>,
            heads: Array<u32>,
            $($by_arc: Array<i64>,)*
            $($by_node: Array<i64>,)*
        }

        impl $vectors {
            /// The same in slices of these vectors.
            pub fn instance(&self) -> $slices<'_> {
                let $vectors { nodes, $($number,)* tails, heads, $($by_arc,)* $($by_node,)* } = self;
                $slices { nodes: *nodes, $($number: *$number,)* tails, heads, $($by_arc,)* $($by_node,)* }
            }
        }

        impl $slices<'_> {
            pub(crate) fn raw(&self) -> Result<$raw, Error> {
                let (nodes, arcs) = (self.nodes, self.tails.len());
                test("heads", self.heads.len(), arcs)?;
                $(test(stringify!($by_arc), self.$by_arc.len(), arcs)?;)*
                $(test(stringify!($by_node), self.$by_node.len(), nodes as usize)?;)*
                let (tails, heads) = (Array::of(self.tails), Array::of(self.heads));
                $(let $by_arc = Array::of(self.$by_arc);)*
                $(let $by_node = Array::of(self.$by_node);)*
                Ok($raw { nodes, $($number: self.$number,)* tails, heads, $($by_arc,)* $($by_node,)* })
            }
        }

        impl<'a> From<$slices<'a>> for Arcs<'a> {
            fn from(it: $slices<'a>) -> Self {
                Arcs { nodes: it.nodes, tails: it.tails, heads: it.heads }
            }
        }
    )*};
}

instances! {
    /// A maximum flow instance: an arc goes from its tail to its head, and carries from 0 to its capacity.
    MaxInstance, MaxVectors, Max {
        /// Where flow comes from.
        source
        /// Where it goes to.
        sink;
        /// By arc, from 0 on.
        caps;
    }

    /// A minimum cost flow instance: an arc carries from its lower bound to its capacity, at a cost for each unit. A
    /// node's supply is its outflow minus its inflow. A demand is a negative supply.
    MinInstance, MinVectors, Min {
        ;
        /// By arc, from 0 to the capacity.
        lows
        /// By arc.
        caps
        /// By arc.
        costs;
        /// By node.
        supplies
    }

    /// A graph: an arc goes from its tail to its head, and has a weight, which may be negative.
    Graph, GraphVectors, RawGraph {
        ;
        /// By arc.
        weights;
    }
}
