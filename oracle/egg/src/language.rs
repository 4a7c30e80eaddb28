//! A language of nodes, and the macro that declares one.

use crate::{Id, RecExpr, Symbol};
use std::fmt;

pub trait Language: fmt::Debug + Clone + Eq + Ord + std::hash::Hash {
    fn children(&self) -> &[Id];
    fn children_mut(&mut self) -> &mut [Id];

    fn len(&self) -> usize {
        self.children().len()
    }

    fn is_empty(&self) -> bool {
        self.children().is_empty()
    }

    fn map_children<F: FnMut(Id) -> Id>(mut self, mut change: F) -> Self {
        for child in self.children_mut() {
            *child = change(*child);
        }
        self
    }
}

pub trait CostFunction<L: Language> {
    type Cost: PartialOrd + fmt::Debug + Clone;

    fn cost<C>(&mut self, node: &L, costs: C) -> Self::Cost
    where
        C: FnMut(Id) -> Self::Cost;

    /// The cost of the last node, each node's from its children's.
    fn cost_rec(&mut self, expr: &RecExpr<L>) -> Self::Cost {
        let mut costs: Vec<Self::Cost> = Vec::new();
        for node in expr.as_ref() {
            let cost = self.cost(node, |id| costs[usize::from(id)].clone());
            costs.push(cost);
        }
        costs.pop().expect("a list with a root")
    }
}

/// What a node holds beside its kind: children, or a datum.
pub trait Part {
    fn ids(&self) -> &[Id];
    fn ids_mut(&mut self) -> &mut [Id];
    fn shown(&self, operator: Option<&str>, to: &mut fmt::Formatter) -> fmt::Result;
}

impl<const N: usize> Part for [Id; N] {
    fn ids(&self) -> &[Id] {
        self
    }

    fn ids_mut(&mut self) -> &mut [Id] {
        self
    }

    fn shown(&self, operator: Option<&str>, to: &mut fmt::Formatter) -> fmt::Result {
        to.write_str(operator.unwrap_or(""))
    }
}

impl Part for Box<[Id]> {
    fn ids(&self) -> &[Id] {
        self
    }

    fn ids_mut(&mut self) -> &mut [Id] {
        self
    }

    fn shown(&self, operator: Option<&str>, to: &mut fmt::Formatter) -> fmt::Result {
        to.write_str(operator.unwrap_or(""))
    }
}

macro_rules! datum {
    ($($datum:ty),*) => { $(
        impl Part for $datum {
            fn ids(&self) -> &[Id] {
                &[]
            }

            fn ids_mut(&mut self) -> &mut [Id] {
                &mut []
            }

            fn shown(&self, _operator: Option<&str>, to: &mut fmt::Formatter) -> fmt::Result {
                write!(to, "{self}")
            }
        }
    )* };
}

datum!(bool, u64, Symbol);

/// Declares an enum of nodes. A variant is a word alone, a word over children, or a datum.
#[macro_export]
macro_rules! define_language {
    ($(#[$meta:meta])* $vis:vis enum $name:ident {
        $( $($operator:literal =)? $variant:ident $(($part:ty))? ),* $(,)?
    }) => {
        $(#[$meta])*
        #[derive(Debug, Clone, PartialEq, Eq, PartialOrd, Ord, Hash)]
        $vis enum $name {
            $( $variant $(($part))? ),*
        }

        impl $crate::Language for $name {
            fn children(&self) -> &[$crate::Id] {
                $( $crate::part_of!(self, $variant $(($part))?, part, return $crate::Part::ids(part)); )*
                &[]
            }

            fn children_mut(&mut self) -> &mut [$crate::Id] {
                $( $crate::part_of!(self, $variant $(($part))?, part, return $crate::Part::ids_mut(part)); )*
                &mut []
            }
        }

        impl std::fmt::Display for $name {
            fn fmt(&self, to: &mut std::fmt::Formatter) -> std::fmt::Result {
                $(
                    let operator: Option<&str> = [$($operator)?].into_iter().next();
                    $crate::part_of!(self, $variant $(($part))?, part, return $crate::Part::shown(part, operator, to));
                    if matches!(self, Self::$variant { .. }) {
                        return to.write_str(operator.unwrap_or(""));
                    }
                )*
                Ok(())
            }
        }
    };
}

/// Does something with a variant's part; nothing for a word alone.
#[doc(hidden)]
#[macro_export]
macro_rules! part_of {
    ($node:ident, $variant:ident, $name:ident, $does:expr) => {};
    ($node:ident, $variant:ident ($part:ty), $name:ident, $does:expr) => {
        if let Self::$variant($name) = $node {
            $does
        }
    };
}
