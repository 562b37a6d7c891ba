//! What is declared here is what the header declares.

extern crate std;

use super::*;
use std::collections::BTreeSet;
use std::format;
use std::string::String;
use std::vec::Vec;

const SOURCE: &str = include_str!("lib.rs");

/// The header, without its comments and each white space of one blank.
fn header() -> String {
    let text = std::fs::read_to_string(concat!(env!("CARGO_MANIFEST_DIR"), "/../../../bindings/c/ima_verify.h")).unwrap();
    let code = text.split("/*").map(|part| part.split_once("*/").map_or(part, |(_, code)| code));
    code.flat_map(str::split_whitespace).collect::<Vec<_>>().join(" ")
}

/// The type of C that is this type of Rust.
fn in_c(name: &str) -> &str {
    let types = "*const u8=const uint8_t *|*mut u8=uint8_t *|*mut u64=uint64_t *|*mut usize=size_t *|\
                 *mut ima_verify_info=struct ima_verify_info *|usize=size_t |bool=bool |i32=int32_t |u32=uint32_t |u64=uint64_t ";
    types.split('|').find_map(|pair| pair.strip_prefix(name)?.strip_prefix('=')).unwrap()
}

/// Names with their types, as C declares them.
fn declared(fields: &str, end: &str) -> Vec<String> {
    let fields = fields.split(',').map(str::trim).filter(|field| !field.is_empty());
    fields.map(|field| field.split_once(": ").unwrap()).map(|(name, kind)| format!("{}{name}{end}", in_c(kind))).collect()
}

#[test]
fn functions_are_those_of_the_header() {
    let functions = SOURCE.split("    pub fn ").skip(1).map(|text| {
        let (name, rest) = text.split_once(';').unwrap().0.split_once('(').unwrap();
        let (parameters, result) = rest.split_once(") -> ").unwrap();
        let parameters = declared(parameters, "").join(", ");
        format!("{}{name}({})", in_c(result), if parameters.is_empty() { "void" } else { &parameters })
    });
    let header = header();
    let parts = header.split(';').map(|part| String::from(part.trim().rsplit("} ").next().unwrap()));
    let exported = parts.filter(|part| part.starts_with("int32_t ima_verify_raw_") || part.ends_with("ima_verify_version(void)"));
    assert_eq!(functions.collect::<BTreeSet<_>>(), exported.collect());
    let fields = SOURCE.split_once("pub struct ima_verify_info {\n").unwrap().1.split_once('}').unwrap().0;
    let fields: String = fields.lines().filter(|line| !line.contains("///")).collect();
    let wanted = format!("struct ima_verify_info {{ {} }};", declared(&fields.replace("pub ", ""), ";").join(" "));
    assert!(header.contains(&wanted), "{wanted}");
}

/// Results, kinds of errors, and versions.
#[test]
fn numbers_are_those_of_the_header() {
    let header = header();
    for line in SOURCE.lines().filter_map(|line| line.strip_prefix("pub const ")) {
        let (name, rest) = line.split_once(": ").unwrap();
        let (_, number) = rest.trim_end_matches(';').split_once(" = ").unwrap();
        let forms = [format!(" {name} = {number}"), format!("#define {name} {number} "), format!("#define {name} UINT64_MAX ")];
        assert!(forms.iter().any(|form| header.contains(form)), "{line}");
    }
    // (none is left out: an enumeration ends after its last number)
    assert!(["MISUSED = 6", "LOG_FORM = 13", "BY_QUOTE = 2", "CONVERT_LOG = 2"].iter().all(|last| header.contains(&format!("IMA_VERIFY_{last} }}"))));
    assert!(header.contains(concat!("#define IMA_VERIFY_PACKAGE_VERSION \"", env!("CARGO_PKG_VERSION"), "\" ")));
    // SAFETY: the function takes nothing and only returns a number.
    assert!(unsafe { ima_verify_version() } >= IMA_VERIFY_VERSION);
}
