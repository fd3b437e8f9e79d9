//! Stand-in for the solver's public trait: the signatures that core.rs implements, no more.
use crate::clause::{lbool, Lit, Var};
use crate::theory::Theory;

pub trait SolverInterface {
    fn new_var(&mut self, upol: lbool, dvar: bool) -> Var;
    fn new_var_default(&mut self) -> Var;
    fn var_of_int(&mut self, v_idx: u32) -> Var;
    fn add_clause_reuse(&mut self, clause: &mut Vec<Lit>) -> bool;
    fn reset(&mut self);
    fn solve_limited_preserving_trail_th<Th: Theory>(&mut self, th: &mut Th, assumps: &[Lit]) -> lbool;
    fn pop_model<Th: Theory>(&mut self, th: &mut Th);
    fn raw_value_lit(&self, l: Lit) -> lbool;
    fn simplify_th<Th: Theory>(&mut self, th: &mut Th) -> bool;
    fn value_var(&self, v: Var) -> lbool;
    fn value_lit(&self, v: Lit) -> lbool;
    fn get_model(&self) -> &[lbool];
    fn is_ok(&self) -> bool;
    fn num_vars(&self) -> u32;
    fn num_clauses(&self) -> u64;
    fn num_conflicts(&self) -> u64;
    fn num_propagations(&self) -> u64;
    fn num_decisions(&self) -> u64;
    fn num_restarts(&self) -> u64;
    fn value_lvl_0(&self, lit: Lit) -> lbool;
    fn print_stats(&self);
    fn unsat_core(&self) -> &[Lit];
    fn unsat_core_contains_lit(&self, lit: Lit) -> bool;
    fn unsat_core_contains_var(&self, v: Var) -> bool;
    fn proved_at_lvl_0(&self) -> &[Lit];
}
