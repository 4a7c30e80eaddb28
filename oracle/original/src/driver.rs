//! The traits that lut.rs implements. Through `Canonical` and `EquivCheck` its private routines are reached.

use crate::check::Check;
use egg::{Analysis, CostFunction, Explanation, Id, Language, RecExpr, Runner, Symbol};
use std::collections::HashSet;

pub trait EquivCheck: Sized {
    fn check_expr(expr: &RecExpr<Self>, other: &RecExpr<Self>) -> Check;
}

pub trait Canonical: Sized {
    fn expr_is_canonical(expr: &RecExpr<Self>) -> bool;
    fn canonicalize_expr(expr: RecExpr<Self>) -> RecExpr<Self>;
    fn verify_expr(expr: &RecExpr<Self>) -> Result<(), String>;
}

pub trait Extractable: Language {
    fn depth_cost_fn() -> impl CostFunction<Self, Cost = i64>;
    fn cell_cost_with_reg_weight_fn(cut_size: usize, w: u64) -> impl CostFunction<Self>;
    fn exact_area_cost_fn() -> impl CostFunction<Self>;
    fn filter_cost_fn(set: HashSet<String>) -> impl CostFunction<Self>;
}

pub trait Explanable: Language {
    fn get_explanations<A: Analysis<Self>>(
        expr: &RecExpr<Self>,
        other: &RecExpr<Self>,
        runner: &mut Runner<Self, A>,
    ) -> Result<Vec<Explanation<Self>>, String>;
}

pub trait CircuitLang: Language {
    fn var(sym: Symbol) -> Self;
    fn bus(ids: impl Iterator<Item = Id>) -> Self;
    fn int(x: u64) -> Option<Self>;
    fn is_bus(&self) -> bool;
    fn is_lut(&self) -> bool;
    fn get_int(&self) -> Option<u64>;
    fn get_var(&self) -> Option<Symbol>;
}
