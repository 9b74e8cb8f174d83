//! Laws, which are proved and do nothing when they run.

use std::alloc::Global;

/// The laws of what reads a source.
fn of_reading() {
    literals::literals_are_longest();
    literals::literals_have_quotes();
    lexing::one_cut();
    lexing::deep_brackets_nest_deep();
    lexing::one_deep_bracket();
    tokens::trees_are_equal_by_text();
    written_types::types_are_equal_by_text();
    type_grammar::types_are_read();
    type_grammar::types_begin();
    type_grammar::one_type();
    type_grammar::bounds_are_read();
    type_grammar::one_bound();
    literal_values::texts_are_said();
    literal_values::values_are_equal();
    attributes::attributes_are_read();
    attributes::items_are_of_their_lists();
    syntax::one_reading();
    syntax::one_type_reading();
    syntax::one_deep_place();
    syntax::read_fields_are_named();
}

/// The laws of types, of schemas and of what they accept.
fn of_schemas() {
    scopes::names_repeat_or_not();
    open_types::closed_types_stay();
    open_types::same_types_are_equal();
    resolving::resolution_is_exact();
    resolving::resolved_are_over();
    type_tree::trees_are_equal_by_text();
    type_tree::formats_are_equal();
    acceptance::accepts_deeper();
    acceptance::components_alone();
    schema_core::forms_accept();
    schema_core::forms_refer();
    schema_core::documents_hold();
    schema_core::texts_are_one();
    schema_core::documents_are_one();
    schema_core::texts_read_back();
    schema_core::type_words_are_equal();
    component::references_are_leaves();
    shapes::shapes_deepen();
    shapes::variants_are_told();
    terms::terms_accept();
    terms::instance_terms_accept();
    terms::places_accept();
}

/// The laws of what is reported and configured, and of whole documents.
fn of_documents() {
    texts::spans_are_equal_by_ends();
    diag::suggestions_are_ordered();
    diag::kinds_and_rules_are_equal();
    diag::rules_have_own_names();
    configuration_json::configurations_are_one();
    serde_rules::lists_are_one();
    serde_rules::last_text_counts();
    serde_rules::rules_are_found_by_name();
    serde_rules::container_rules_are_one();
    serde_rules::rules_are_equal();
    serde_rules::representations_are_equal();
    inlining::orders_stand();
    compose::bounded_are_not_refused();
    compose::components_are_one();
    closing::components_describe();
    closing::components_lead();
    closing::schemas_describe();
    closing::places_describe();
    closing::references_accept();
    closing::places_agree();
    schema_gen::sound_is_not_refused();
    schema_gen::told_texts_are_one();
}

/// Each law returns.
pub(crate) fn called(alloc: Global) -> anyhow::Result<String> {
    of_reading();
    of_schemas();
    of_documents();
    Ok(String::from_str(alloc, "hold")?)
}
