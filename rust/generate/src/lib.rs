//! Descriptions for comparisons: fixed ones, random well-formed ones, and
//! ones with single rules broken, at their limits, or changed at random.

mod allowed;
mod clear_tables;
mod code;
mod counts;
mod decodable;
pub mod example;
mod expressions;
mod instruction_set;
mod limits;
mod longest;
mod meeting;
mod mutate;
mod operators;
mod patterns;
mod planted;
mod ranges;
mod rng;
mod row_counts;
mod rules;
mod tables;
mod text_lengths;
mod tree;
mod tree_faults;
mod tree_shapes;
mod well_formed;
mod write;

pub use allowed::{Change, CHANGES};
pub use clear_tables::{
    deepest_full_table, deepest_table, format_table, largest_tree_table, nested_table, one_table,
    opcode_table, subset_table, table_with_tests, LEAST_TESTS,
};
pub use code::{address, alignment, code, context, input, Input, ALIGNMENTS, NO_ALIGNMENTS};
pub use counts::count_faults;
pub use decodable::{decodable, Leaning};
pub use expressions::{compute_some, some_expression};
pub use instruction_set::{
    instruction_set, instruction_starts, instruction_stream, nested_instruction_set,
};
pub use limits::{limits, Case};
pub use longest::{longest, longest_of_all};
pub use mutate::{
    change_bytes, change_counts, change_records, changed_tables, insert_or_remove, random_records,
};
pub use operators::{
    edge_values, expression_table, operators_on_addresses, operators_on_constants, EDGE_ADDRESSES,
    TABLE_EXPRESSIONS,
};
pub use planted::{planted, planted_stream};
pub use ranges::{all_fields, field_table, FIELD_INSTRUCTION, TABLE_FIELDS};
pub use rng::Rng;
pub use row_counts::with_rows;
pub use rules::{rules, Rule};
pub use tables::{meeting_tables, table_ranges};
pub use text_lengths::{with_text, LONGEST_TEXT};
pub use tree::{small_tree, tree, tree_bytes, tree_nodes, Node, NODE_LIMIT, NONE};
pub use tree_faults::{
    any_node, repeated, tree_count_faults, Records, TreeRule, TREE_RULES, WHOLE_TREE,
};
pub use tree_shapes::{
    all_bits, any_place, deep_tree, grow, largest_tree, prune, random_tree, replace, Shape,
};
pub use well_formed::{well_formed, Size};
pub use write::{bytes, counts, section_starts, LIMITS, RECORD_SIZES, SECTIONS};
