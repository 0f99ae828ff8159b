//! The declarations. A slice is passed as its address and its length, two arguments apart: a pair that did not fit into the
//! registers left would lie elsewhere.

use super::answers::{AtLeast, Checked, Converted, Evaluated, Single, Told, Why, LINE};
#[cfg(feature = "nodes")]
use crate::Node;

extern "C" {
    /// Its name has the layout's version: an archive of another layout has another one, and does not link.
    pub fn cablesalak_layout_2() -> u32;

    pub fn cablesalak_evaluate(
        vars: *const u8,
        vars_length: usize,
        lows: *const u16,
        lows_length: usize,
        highs: *const u16,
        highs_length: usize,
        heads: *const u16,
        heads_length: usize,
        links: *const u16,
        links_length: usize,
        count: usize,
        node: u16,
        word: u64,
    ) -> Evaluated;

    pub fn cablesalak_conjunction(
        vars: *mut u8,
        vars_length: usize,
        lows: *mut u16,
        lows_length: usize,
        highs: *mut u16,
        highs_length: usize,
        heads: *mut u16,
        heads_length: usize,
        links: *mut u16,
        links_length: usize,
        count: usize,
        f: u16,
        g: u16,
    ) -> Single;

    pub fn cablesalak_negation(
        vars: *mut u8,
        vars_length: usize,
        lows: *mut u16,
        lows_length: usize,
        highs: *mut u16,
        highs_length: usize,
        heads: *mut u16,
        heads_length: usize,
        links: *mut u16,
        links_length: usize,
        count: usize,
        f: u16,
    ) -> Single;

    pub fn cablesalak_cofactor(
        vars: *mut u8,
        vars_length: usize,
        lows: *mut u16,
        lows_length: usize,
        highs: *mut u16,
        highs_length: usize,
        heads: *mut u16,
        heads_length: usize,
        links: *mut u16,
        links_length: usize,
        count: usize,
        f: u16,
        g: u16,
    ) -> Single;

    pub fn cablesalak_cofactor_literals(
        vars: *mut u8,
        vars_length: usize,
        lows: *mut u16,
        lows_length: usize,
        highs: *mut u16,
        highs_length: usize,
        heads: *mut u16,
        heads_length: usize,
        links: *mut u16,
        links_length: usize,
        count: usize,
        f: u16,
        positive: u64,
        negative: u64,
    ) -> Single;

    pub fn cablesalak_at_least(
        vars: *mut u8,
        vars_length: usize,
        lows: *mut u16,
        lows_length: usize,
        highs: *mut u16,
        highs_length: usize,
        heads: *mut u16,
        heads_length: usize,
        links: *mut u16,
        links_length: usize,
        count: usize,
        set: u64,
        k: u8,
    ) -> AtLeast;

    pub fn cablesalak_check(
        vars: *mut u8,
        vars_length: usize,
        lows: *mut u16,
        lows_length: usize,
        highs: *mut u16,
        highs_length: usize,
        heads: *mut u16,
        heads_length: usize,
        links: *mut u16,
        links_length: usize,
        count: usize,
        members: *mut u16,
        members_length: usize,
        struck: *mut u8,
        struck_length: usize,
        scratch: *mut u16,
        scratch_length: usize,
        formula: *const u8,
        formula_length: usize,
        proof: *const u8,
        proof_length: usize,
    ) -> Checked;

    pub fn cablesalak_check_text(
        vars: *mut u8,
        vars_length: usize,
        lows: *mut u16,
        lows_length: usize,
        highs: *mut u16,
        highs_length: usize,
        heads: *mut u16,
        heads_length: usize,
        links: *mut u16,
        links_length: usize,
        count: usize,
        members: *mut u16,
        members_length: usize,
        struck: *mut u8,
        struck_length: usize,
        scratch: *mut u16,
        scratch_length: usize,
        formula: *const u8,
        formula_length: usize,
        proof: *const u8,
        proof_length: usize,
    ) -> Checked;

    pub fn cablesalak_check_in(
        vars: *mut u8,
        vars_length: usize,
        lows: *mut u16,
        lows_length: usize,
        highs: *mut u16,
        highs_length: usize,
        heads: *mut u16,
        heads_length: usize,
        links: *mut u16,
        links_length: usize,
        count: usize,
        members: *mut u16,
        members_length: usize,
        struck: *mut u8,
        struck_length: usize,
        scratch: *mut u16,
        scratch_length: usize,
        formula: *const u8,
        formula_length: usize,
        proof: *const u8,
        proof_length: usize,
        form: u8,
        consequence: bool,
    ) -> Checked;

    pub fn cablesalak_why(
        vars: *mut u8,
        vars_length: usize,
        lows: *mut u16,
        lows_length: usize,
        highs: *mut u16,
        highs_length: usize,
        heads: *mut u16,
        heads_length: usize,
        links: *mut u16,
        links_length: usize,
        count: usize,
        members: *mut u16,
        members_length: usize,
        struck: *mut u8,
        struck_length: usize,
        scratch: *mut u16,
        scratch_length: usize,
        fixed: *mut u64,
        fixed_length: usize,
        formula: *const u8,
        formula_length: usize,
        proof: *const u8,
        proof_length: usize,
        form: u8,
        consequence: bool,
    ) -> Why;

    pub fn cablesalak_to_binary(text: *const u8, text_length: usize, out: *mut u8, out_length: usize) -> Converted;

    pub fn cablesalak_to_text(binary: *const u8, binary_length: usize, out: *mut u8, out_length: usize) -> Converted;

    pub fn cablesalak_report(
        formula_read: bool,
        formula: *const u8,
        formula_length: usize,
        proof_read: bool,
        proof: *const u8,
        proof_length: usize,
        line: *mut [u8; LINE],
    ) -> Told;

    pub fn cablesalak_report_in(
        vars: *mut u8,
        vars_length: usize,
        lows: *mut u16,
        lows_length: usize,
        highs: *mut u16,
        highs_length: usize,
        heads: *mut u16,
        heads_length: usize,
        links: *mut u16,
        links_length: usize,
        members: *mut u16,
        members_length: usize,
        struck: *mut u8,
        struck_length: usize,
        scratch: *mut u16,
        scratch_length: usize,
        formula_read: bool,
        formula: *const u8,
        formula_length: usize,
        proof_read: bool,
        proof: *const u8,
        proof_length: usize,
        form: u8,
        consequence: bool,
        line: *mut [u8; LINE],
    ) -> Told;

    #[cfg(feature = "nodes")]
    pub fn cablesalak_evaluate_nodes(
        nodes: *const Node,
        nodes_length: usize,
        heads: *const u16,
        heads_length: usize,
        links: *const u16,
        links_length: usize,
        count: usize,
        node: u16,
        word: u64,
    ) -> Evaluated;

    #[cfg(feature = "nodes")]
    pub fn cablesalak_at_least_nodes(
        nodes: *mut Node,
        nodes_length: usize,
        heads: *mut u16,
        heads_length: usize,
        links: *mut u16,
        links_length: usize,
        count: usize,
        set: u64,
        k: u8,
    ) -> AtLeast;

    #[cfg(feature = "nodes")]
    pub fn cablesalak_check_nodes(
        nodes: *mut Node,
        nodes_length: usize,
        heads: *mut u16,
        heads_length: usize,
        links: *mut u16,
        links_length: usize,
        count: usize,
        members: *mut u16,
        members_length: usize,
        struck: *mut u8,
        struck_length: usize,
        scratch: *mut u16,
        scratch_length: usize,
        formula: *const u8,
        formula_length: usize,
        proof: *const u8,
        proof_length: usize,
    ) -> Checked;

    #[cfg(feature = "nodes")]
    pub fn cablesalak_check_nodes_in(
        nodes: *mut Node,
        nodes_length: usize,
        heads: *mut u16,
        heads_length: usize,
        links: *mut u16,
        links_length: usize,
        count: usize,
        members: *mut u16,
        members_length: usize,
        struck: *mut u8,
        struck_length: usize,
        scratch: *mut u16,
        scratch_length: usize,
        formula: *const u8,
        formula_length: usize,
        proof: *const u8,
        proof_length: usize,
        form: u8,
        consequence: bool,
    ) -> Checked;
}
