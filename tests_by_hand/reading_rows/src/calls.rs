//! The calls by their names.

use crate::{attribute_lists, declared, literal_texts, readers, token_values, trees, types};
use anyhow::bail;
use rows::Row;
use serde_json::Value;
use std::alloc::Global;

/// What the call of the row answers.
pub(crate) fn told(alloc: Global, row: &Row) -> anyhow::Result<String> {
    let given = &row.given;
    match row.call.as_str() {
        "lex" => trees::lexed(alloc, given),
        "Cursor::token_tree" => trees::tree_at(alloc, given),
        "TokenTree::eq" => trees::compared(alloc, given),
        "TokenTree::copy" => trees::each_copied(alloc, given),
        "copy_trees" => trees::all_copied(alloc, given),
        "Token::copy" => trees::token_copied(alloc, given),
        "after_literal" => literal_texts::after_one(alloc, given),
        "after_hashes" => literal_texts::after_some_hashes(alloc, given),
        "split_first_char" => literal_texts::first_char(alloc, given),
        "literal_value" => token_values::value(alloc, given),
        "text_value" => token_values::text(alloc, given),
        call => match told_of_words(alloc, call, given)? {
            Some(told) => Ok(told),
            None => told_of_grammar(alloc, call, given),
        },
    }
}

/// What the call answers, if it is one that reads a single word.
fn told_of_words(alloc: Global, call: &str, given: &Value) -> anyhow::Result<Option<String>> {
    let told = match call {
        "word_of" => readers::words(alloc, given)?,
        "ident_of" => readers::ident(alloc, given)?,
        "lifetime_of" => readers::lifetime(alloc, given)?,
        "name_at" | "path_word_at" | "lifetime_at" | "literal_at" | "optional_lifetime" => {
            readers::token(alloc, call, given)?
        }
        "keyword_at" | "optional_keyword" => readers::keyword(alloc, call, given)?,
        "sign_at" | "optional_sign" => readers::sign(alloc, call, given)?,
        "group_at" => readers::group(alloc, given)?,
        "stop_at" => readers::stop(alloc, given)?,
        "start_of" => readers::start(alloc, given)?,
        "covering" => readers::covered(alloc, given)?,
        "Stop::inside" => readers::stop_inside(alloc, given)?,
        "after_comma" => readers::after_one_comma(alloc, given)?,
        _ => return Ok(None),
    };
    Ok(Some(told))
}

/// What the call answers that reads types, attributes or declarations.
fn told_of_grammar(alloc: Global, call: &str, given: &Value) -> anyhow::Result<String> {
    match call {
        "read_type" => types::read(alloc, given),
        "type_at" => types::type_in_front(alloc, given),
        "bound_at" => types::bound_in_front(alloc, given),
        "after_bounds" => types::behind_bounds(alloc, given),
        "parse_type" => types::parsed(alloc, given),
        "WrittenType::eq" => types::compared(alloc, given),
        "Ident::eq" => types::idents_compared(alloc, given),
        "Ident::copy" => types::ident_copied(alloc, given),
        "attributes_at" => attribute_lists::attributes(alloc, given),
        "Attribute::is" => attribute_lists::are_of_path(alloc, given),
        "is_inner_doc" => attribute_lists::are_inner_docs(alloc, given),
        "serde_items" => attribute_lists::items(alloc, given),
        "CommentAttributes::as_formatted_string" => attribute_lists::docs(alloc, given),
        "CommentAttributes::is_empty" => attribute_lists::has_no_docs(alloc, given),
        "parse_declarations" => declared::parsed(alloc, given),
        "Declarations::eq" => declared::compared(alloc, given),
        other => bail!("no call {other}"),
    }
}
