//! That the crate says what the header and the page say.

use std::fs;
use std::path::Path;

fn read(path: &str) -> String {
    let path = Path::new(env!("CARGO_MANIFEST_DIR")).join(path);
    fs::read_to_string(&path).unwrap_or_else(|why| panic!("{}: {why}", path.display()))
}

/// The headers without their comments.
fn headers() -> String {
    without_comments(&read("../../include/fstch.h")) + &without_comments(&read("../../include/fstch_cache.h"))
}

fn without_comments(mut rest: &str) -> String {
    let mut text = String::new();
    while let Some((before, behind)) = rest.split_once("/*") {
        text.push_str(before);
        rest = behind.split_once("*/").unwrap().1;
    }
    text + rest
}

/// A type of C, or a parameter with its name behind it, as Rust writes the type.
fn in_rust(type_of_c: &str) -> String {
    let base = type_of_c.trim_start_matches("const ").split([' ', '*']).next().unwrap();
    let base = match base {
        "char" => "c_char",
        "void" => "c_void",
        "int32_t" => "i32",
        "uint32_t" => "u32",
        "uint64_t" => "u64",
        "size_t" => "usize",
        "bool" | "fstch_store" | "fstch_cache" | "fstch_statistics" => base,
        other => panic!("no type of the header: {other}"),
    };
    match (type_of_c.contains('*'), type_of_c.starts_with("const ")) {
        (true, true) => format!("*const {base}"),
        (true, false) => format!("*mut {base}"),
        (false, _) => base.to_owned(),
    }
}

fn name_of(declared: &str) -> &str {
    declared.rsplit([' ', '*']).next().unwrap()
}

/// A call that the header declares, as `sys.rs` has to declare it.
fn call_in_rust(declared: &str) -> String {
    let (call, taken) = declared.split_once('(').unwrap();
    let taken: Vec<String> = taken
        .trim_end_matches(')')
        .split(',')
        .map(str::trim)
        .filter(|parameter| *parameter != "void")
        .map(|parameter| format!("{}: {}", name_of(parameter), in_rust(parameter)))
        .collect();
    format!("pub fn {}({}) -> {};", name_of(call), taken.join(", "), in_rust(call))
}

#[test]
fn calls_are_those_of_the_header() {
    let header = headers();
    let code: Vec<&str> = header.lines().filter(|line| !line.starts_with('#')).collect();
    let code = code.join("\n");
    let declared: Vec<String> = code
        .split(';')
        .map(|piece| piece.split_whitespace().collect::<Vec<_>>().join(" "))
        .filter(|piece| piece.contains(" fstch_") && piece.ends_with(')'))
        .map(|piece| call_in_rust(&piece))
        .collect();
    let sys = read("src/sys.rs");
    let wanted: Vec<&str> = sys.lines().map(str::trim).filter(|line| line.starts_with("pub fn ")).collect();
    assert_eq!(declared, wanted);
    assert_eq!(declared.len(), 48);
}

#[test]
fn a_store_and_a_cache_are_those_of_the_headers() {
    let (header, sys) = (headers(), read("src/sys.rs"));
    for name in ["fstch_store", "fstch_cache"] {
        assert_eq!(fields_of(name, &header), ["bool is_open", "void *at"]);
        let wanted = format!("#[repr(C)]\npub struct {name} {{\n    is_open: bool,\n    at: *mut c_void,\n}}\n");
        assert!(sys.contains(&wanted));
    }
}

#[test]
fn statistics_are_those_of_the_header() {
    let fields = fields_of("fstch_statistics", &headers());
    let written: Vec<String> =
        fields.iter().map(|field| format!("    pub {}: {},\n", name_of(field), in_rust(field))).collect();
    let wanted = format!("#[repr(C)]\n#[derive(Default)]\npub struct fstch_statistics {{\n{}}}\n", written.concat());
    assert!(read("src/sys.rs").contains(&wanted));
    assert_eq!(fields.len(), 8);
}

/// What a struct of the header has, each with its type before it.
fn fields_of(name: &str, header: &str) -> Vec<String> {
    let (_, behind) = header.split_once(&format!("typedef struct {name} {{")).unwrap();
    let fields = behind.split_once('}').unwrap().0.split(';');
    fields
        .map(|field| field.split_whitespace().collect::<Vec<_>>().join(" "))
        .filter(|field| !field.is_empty())
        .collect()
}

#[test]
fn numbers_are_those_of_the_header() {
    let header = headers();
    let mut declared = Vec::new();
    for line in header.lines() {
        let line = line.trim();
        if let Some((name, value)) = line.strip_prefix("#define FSTCH_").and_then(|line| line.split_once(' ')) {
            declared.push((name.to_owned(), value.trim_end_matches('u').replace("UINT32_MAX", "u32::MAX")));
        } else if let Some((name, value)) = line.strip_prefix("FSTCH_").and_then(|line| line.split_once(" = ")) {
            declared.push((name.to_owned(), value.trim_end_matches(',').to_owned()));
        }
    }
    declared.retain(|(name, _)| name != "CLOSED");
    let sys = read("src/sys.rs");
    let mut wanted: Vec<(String, String)> = sys
        .lines()
        .filter_map(|line| line.strip_prefix("pub const FSTCH_")?.strip_suffix(';')?.split_once(": "))
        .filter_map(|(name, rest)| Some((name.to_owned(), rest.split_once(" = ")?.1.to_owned())))
        .collect();
    wanted.retain(|(name, _)| name != "CLOSED");
    declared.sort();
    wanted.sort();
    assert_eq!(declared, wanted);
    assert!(declared.len() > 40);
}

#[test]
fn the_version_is_that_of_the_header() {
    let [major, minor, patch] =
        [env!("CARGO_PKG_VERSION_MAJOR"), env!("CARGO_PKG_VERSION_MINOR"), env!("CARGO_PKG_VERSION_PATCH")]
            .map(|number| number.parse::<u32>().unwrap());
    assert_eq!(major * 10000 + minor * 100 + patch, fstch::VERSION);
}

/// What the page shows in Rust, and the first examples of the crate and of its module, without the lines that aren't shown.
#[test]
fn the_page_shows_the_first_examples() {
    let page = read("../../docs/EMBEDDING.md");
    let shown: Vec<Vec<&str>> = page
        .split("\n```rust\n")
        .skip(1)
        .map(|behind| behind.lines().take_while(|line| *line != "```").collect())
        .collect();
    assert_eq!(shown, [example(&read("src/lib.rs")), example(&read("src/cache.rs"))]);
}

fn example(code: &str) -> Vec<&str> {
    code.lines()
        .filter_map(|line| line.strip_prefix("//!"))
        .map(|line| line.strip_prefix(' ').unwrap_or(line))
        .skip_while(|line| *line != "```")
        .skip(1)
        .take_while(|line| *line != "```")
        .filter(|line| !line.starts_with("# "))
        .collect()
}
