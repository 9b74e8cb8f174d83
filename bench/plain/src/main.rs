//! The components of plain structs and enums, as one would write it over `syn` and `serde_json` with nothing proved: what
//! bench/compare.sh and bench/sample.sh measure the proved program by. It reads structs with named fields, which may have one type
//! parameter, and enums with `#[serde(tag = "..")]` whose variants are units or have named fields. Their types are built-in types,
//! `Option`, `Vec`, `Box`, other structs and enums, and the parameter; in place of a parameter stands a built-in type.

use serde_json::{Map, Value, json};
use std::collections::{HashMap, HashSet};
use std::error::Error;
use std::io::{BufWriter, Read, Write, stdin, stdout};
use syn::{Data, DeriveInput, Fields, GenericArgument, Ident, Item, Lit, Meta, NestedMeta, PathArguments, PathSegment, Type};

/// A declaration, with a built-in type in place of its parameter, where it has one, and the name of its component.
struct Instance<'a> {
    name: String,
    item: &'a DeriveInput,
    argument: Option<(&'a Ident, &'a Ident)>,
}

/// The declarations by name, the names of the generic instances that are found, and the instances that wait for their components.
struct Found<'a> {
    declared: HashMap<String, &'a DeriveInput>,
    names: HashSet<String>,
    waiting: Vec<Instance<'a>>,
}

/// The schema of a built-in name.
fn built_in(name: &str) -> Option<Value> {
    Some(match name {
        "String" | "str" | "char" => json!({ "type": "string" }),
        "bool" => json!({ "type": "boolean" }),
        "i8" | "i16" | "i32" => json!({ "format": "int32", "type": "integer" }),
        "i64" => json!({ "format": "int64", "type": "integer" }),
        "u8" | "u16" | "u32" => json!({ "format": "int32", "minimum": 0, "type": "integer" }),
        "u64" => json!({ "format": "int64", "minimum": 0, "type": "integer" }),
        _ => return None,
    })
}

/// The schema, which takes null too.
fn nullable(mut schema: Value) -> Value {
    match schema.get_mut("type") {
        Some(word) => {
            *word = Value::from(vec![word.take(), "null".into()]);
            schema
        }
        None => Value::from_iter([("oneOf", vec![schema, json!({ "type": "null" })])]),
    }
}

/// The last name of the type's path.
fn last(ty: &Type) -> Result<&PathSegment, String> {
    match ty {
        Type::Path(path) => path.path.segments.last().ok_or_else(|| "an empty path".to_string()),
        _ => Err("a type that is no path".to_string()),
    }
}

/// The one type between the angle brackets.
fn argument(segment: &PathSegment) -> Result<&Type, String> {
    if let PathArguments::AngleBracketed(list) = &segment.arguments {
        if let Some(GenericArgument::Type(ty)) = list.args.first() {
            return Ok(ty);
        }
    }
    Err(format!("no argument of {}", segment.ident))
}

/// The type parameter, where there is one.
fn parameter(item: &DeriveInput) -> Result<Option<&Ident>, String> {
    let mut all = item.generics.type_params();
    let first = all.next();
    match all.next() {
        Some(_) => Err(format!("two parameters of {}", item.ident)),
        None => Ok(first.map(|it| &it.ident)),
    }
}

/// The text of `#[serde(tag = "..")]`.
fn tag(item: &DeriveInput) -> Result<String, String> {
    for attribute in item.attrs.iter().filter(|it| it.path.is_ident("serde")) {
        let Meta::List(list) = attribute.parse_meta().map_err(|it| it.to_string())? else { continue };
        for word in &list.nested {
            if let NestedMeta::Meta(Meta::NameValue(pair)) = word {
                if let (true, Lit::Str(text)) = (pair.path.is_ident("tag"), &pair.lit) {
                    return Ok(text.value());
                }
            }
        }
    }
    Err(format!("no tag of {}", item.ident))
}

impl<'a> Instance<'a> {
    /// The name, or the argument where it is the parameter.
    fn closed(&self, name: &'a Ident) -> &'a Ident {
        match self.argument {
            Some((parameter, argument)) if parameter == name => argument,
            _ => name,
        }
    }
}

impl<'a> Found<'a> {
    /// The name of the component that a type in the body of an instance refers to.
    fn component(&mut self, segment: &'a PathSegment, here: &Instance<'a>) -> Result<String, String> {
        let name = segment.ident.to_string();
        let Some(&item) = self.declared.get(&name) else {
            return Err(format!("unknown type {name}"));
        };
        let Some(parameter) = parameter(item)? else {
            return Ok(name);
        };
        let argument = here.closed(&last(argument(segment)?)?.ident);
        let name = format!("{name}_{argument}");
        if self.names.insert(name.clone()) {
            if built_in(&argument.to_string()).is_none() {
                return Err(format!("{argument} in place of a parameter"));
            }
            self.waiting.push(Instance { name: name.clone(), item, argument: Some((parameter, argument)) });
        }
        Ok(name)
    }
}

fn schema<'a>(ty: &'a Type, here: &Instance<'a>, found: &mut Found<'a>) -> Result<Value, String> {
    let segment = last(ty)?;
    let name = here.closed(&segment.ident).to_string();
    Ok(match name.as_str() {
        "Option" => nullable(schema(argument(segment)?, here, found)?),
        "Vec" => Value::from_iter([("items", schema(argument(segment)?, here, found)?), ("type", "array".into())]),
        "Box" => schema(argument(segment)?, here, found)?,
        _ => match built_in(&name) {
            Some(schema) => schema,
            None => json!({ "$ref": format!("#/components/schemas/{}", found.component(segment, here)?) }),
        },
    })
}

/// The object of the fields and, of a variant, of the tag.
fn object<'a>(fields: &'a Fields, tag: Option<(&str, &Ident)>, here: &Instance<'a>, found: &mut Found<'a>) -> Result<Value, String> {
    let (mut properties, mut required) = (Map::new(), Vec::new());
    for field in fields {
        let name = field.ident.as_ref().map(ToString::to_string).unwrap_or_default();
        if last(&field.ty)?.ident != "Option" {
            required.push(Value::from(name.clone()));
        }
        properties.insert(name, schema(&field.ty, here, found)?);
    }
    if let Some((tag, variant)) = tag {
        required.push(Value::from(tag));
        properties.insert(tag.to_string(), json!({ "enum": [variant.to_string()], "type": "string" }));
    }
    let mut object = Map::from_iter([("properties".to_string(), properties.into()), ("type".to_string(), "object".into())]);
    if !required.is_empty() {
        object.insert("required".to_string(), required.into());
    }
    Ok(object.into())
}

fn component<'a>(here: &Instance<'a>, found: &mut Found<'a>) -> Result<Value, String> {
    match &here.item.data {
        Data::Struct(it) if matches!(it.fields, Fields::Named(_)) => object(&it.fields, None, here, found),
        Data::Enum(it) if it.variants.iter().all(|variant| !matches!(variant.fields, Fields::Unnamed(_))) => {
            let tag = tag(here.item)?;
            let mut variants = Vec::new();
            for variant in &it.variants {
                variants.push(object(&variant.fields, Some((&tag, &variant.ident)), here, found)?);
            }
            Ok(Value::from_iter([("oneOf", variants)]))
        }
        _ => Err(format!("no named fields in {}", here.item.ident)),
    }
}

fn main() -> Result<(), Box<dyn Error>> {
    let mut source = String::new();
    stdin().read_to_string(&mut source)?;
    let items: Vec<DeriveInput> = (syn::parse_file(&source)?.items.into_iter())
        .filter_map(|it| match it {
            Item::Struct(it) => Some(it.into()),
            Item::Enum(it) => Some(it.into()),
            _ => None,
        })
        .collect();
    let declared = items.iter().map(|it| (it.ident.to_string(), it)).collect();
    let mut found = Found { declared, names: HashSet::new(), waiting: Vec::new() };
    for item in &items {
        if parameter(item)?.is_none() {
            found.waiting.push(Instance { name: item.ident.to_string(), item, argument: None });
        }
    }
    let mut schemas = Map::new();
    while let Some(instance) = found.waiting.pop() {
        let schema = component(&instance, &mut found)?;
        schemas.insert(instance.name, schema);
    }
    let mut out = BufWriter::new(stdout().lock());
    let document = Value::from_iter([("components", Value::from_iter([("schemas", schemas)]))]);
    serde_json::to_writer(&mut out, &document)?;
    writeln!(out)?;
    out.flush()?;
    Ok(())
}
