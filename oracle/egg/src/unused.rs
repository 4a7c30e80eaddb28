//! Names that the original's text needs and that no command of the oracle reaches.

use crate::{Id, Language, RecExpr};
use std::marker::PhantomData;
use std::ops::Index;

pub trait Analysis<L: Language> {
    type Data;
}

pub struct EClass<D> {
    pub data: D,
}

pub struct EGraph<L, N> {
    named: PhantomData<(L, N)>,
}

impl<L: Language, N: Analysis<L>> Index<Id> for EGraph<L, N> {
    type Output = EClass<N::Data>;

    fn index(&self, _id: Id) -> &Self::Output {
        unimplemented!("the stand-in has no e-graph")
    }
}

pub struct Explanation<L> {
    named: PhantomData<L>,
}

pub struct Runner<L, N> {
    named: PhantomData<(L, N)>,
}

impl<L: Language, N: Analysis<L>> Runner<L, N> {
    pub fn explain_equivalence(&mut self, _left: &RecExpr<L>, _right: &RecExpr<L>) -> Explanation<L> {
        unimplemented!("the stand-in explains nothing")
    }
}
