//! Holds the three places that declare the C interface against each other: the source of the library, the C header and
//! `src/sys.rs`. Nothing else would notice a difference. It reads their text and links nothing, so that
//! `rustc --test rust/tests/declarations.rs` runs it on any machine.

use std::collections::BTreeMap;
use std::fs;
use std::path::{Path, PathBuf};

/// A parameter: its name, and its type as Rust has it.
type Parameter = (String, String);

/// Functions by name, each with its parameters and its result.
type Functions = BTreeMap<String, (Vec<Parameter>, String)>;

/// The top of the repository: the folder that holds the header, at or above where the test is run.
fn root() -> PathBuf {
    let here = std::env::current_dir().unwrap();
    let root = here.ancestors().find(|folder| folder.join("include/streamvault.h").is_file());
    root.expect("run it in the repository").to_path_buf()
}

fn text(path: &str) -> String {
    let path = root().join(path);
    fs::read_to_string(&path).unwrap_or_else(|error| panic!("{}: {error}", path.display()))
}

/// The C header up to its conveniences, which export nothing.
fn header() -> String {
    let header = text("include/streamvault.h");
    header.split_once("/*\n * ---- conveniences\n").expect("conveniences").0.to_string()
}

/// Every file of the exporting crate's source and of the library's below it, one after another.
fn source() -> String {
    let mut out = String::new();
    gather(&root().join("crates/capi_c/src"), &mut out);
    gather(&root().join("crates/capi/src"), &mut out);
    out
}

fn gather(folder: &Path, out: &mut String) {
    let entries = fs::read_dir(folder).unwrap_or_else(|error| panic!("{}: {error}", folder.display()));
    for entry in entries {
        let path = entry.unwrap().path();
        if path.is_dir() {
            gather(&path, out);
        } else if path.extension().is_some_and(|ending| ending == "rt") {
            out.push_str(&fs::read_to_string(&path).unwrap());
        }
    }
}

// ---- the three readers of text

/// Text without comments to the line's end, and with one space for each run of blanks.
fn plain(text: &str) -> String {
    let lines = text.lines().map(|line| line.split("//").next().unwrap());
    lines.flat_map(str::split_whitespace).collect::<Vec<_>>().join(" ")
}

/// What stands between the first `open` and the next `close`, and what follows.
fn between<'a>(text: &'a str, open: &str, close: &str) -> (&'a str, &'a str) {
    let (_, inside) = text.split_once(open).expect(open);
    inside.split_once(close).expect(close)
}

/// Parameters between commas, a last comma allowed.
fn parameters(list: &str) -> impl Iterator<Item = &str> {
    list.split(',').map(str::trim).filter(|one| !one.is_empty())
}

/// `name: type` as a pair.
fn named(parameter: &str) -> (String, String) {
    let (name, kind) = parameter.split_once(':').expect(parameter);
    (name.trim().to_string(), kind.trim().to_string())
}

/// The functions marked `#[unsafe(no_mangle)] pub extern "C"`. A slice is a pointer and a count.
fn exported(source: &str) -> Functions {
    let source = plain(source);
    let mut functions = Functions::new();
    for item in source.split("#[unsafe(no_mangle)] ").skip(1) {
        let item = item.strip_prefix("pub extern \"C\" fn ").expect("an exported function is pub extern \"C\"");
        let (name, _) = item.split_once('(').unwrap();
        let (list, after) = between(item, "(", ")");
        let result = after.trim_start().strip_prefix("-> ").map_or("", |kind| kind.split([' ', '{']).next().unwrap());
        let parameters = parameters(list).flat_map(|one| lent(named(one))).collect();
        functions.insert(name.to_string(), (parameters, result.to_string()));
    }
    functions
}

/// A parameter as C sees it.
fn lent((name, kind): Parameter) -> Vec<Parameter> {
    let (pointer, rest) = match kind.strip_prefix("&mut ") {
        Some(rest) => ("*mut", rest),
        None => ("*const", kind.strip_prefix('&').unwrap_or(&kind)),
    };
    match rest.strip_prefix('[').and_then(|rest| rest.strip_suffix(']')) {
        Some(element) => {
            let count = (format!("{name}_len"), "usize".to_string());
            vec![(name, format!("{pointer} {element}")), count]
        }
        None => vec![(name, kind)],
    }
}

/// The functions that the C header declares.
fn declared_in_c(header: &str) -> Functions {
    let header = plain(&without_comments(header));
    let mut functions = Functions::new();
    for statement in header.split(';').filter(|statement| statement.contains('(')) {
        let (before, _) = statement.split_once('(').unwrap();
        let mut words = before.split(' ').rev();
        let name = words.next().unwrap().to_string();
        let result = rust_type(words.next().unwrap());
        let (list, _) = between(statement, "(", ")");
        functions.insert(name, (parameters(list).map(c_parameter).collect(), result.to_string()));
    }
    functions
}

/// C text without comments, preprocessor lines and the guard for C++.
fn without_comments(text: &str) -> String {
    let mut out = String::new();
    let mut rest = text;
    while let Some((before, comment)) = rest.split_once("/*") {
        out.push_str(before);
        rest = comment.split_once("*/").expect("a comment ends").1;
    }
    out.push_str(rest);
    let kept = out.lines().filter(|line| !line.starts_with('#') && !line.starts_with("extern \"C\""));
    kept.collect::<Vec<_>>().join("\n")
}

/// `const uint8_t *tag` as a name and the type that Rust has for it.
fn c_parameter(parameter: &str) -> Parameter {
    let (kind, name) = parameter.rsplit_once([' ', '*']).expect(parameter);
    let pointer = parameter.contains('*');
    let kind = kind.trim_end_matches(['*', ' ']);
    match kind.strip_prefix("const ") {
        Some(element) => (name.to_string(), format!("*const {}", rust_type(element))),
        None if pointer => (name.to_string(), format!("*mut {}", rust_type(kind))),
        None => (name.to_string(), rust_type(kind).to_string()),
    }
}

fn rust_type(kind: &str) -> &str {
    match kind {
        "uint8_t" => "u8",
        "uint32_t" => "u32",
        "uint64_t" => "u64",
        "size_t" => "usize",
        other => panic!("{other} is no type of the interface"),
    }
}

/// The functions that the Rust declares.
fn declared_in_rust(sys: &str) -> Functions {
    let sys = plain(sys);
    let (block, _) = between(&sys, "extern \"C\" {", "}");
    let mut functions = Functions::new();
    for statement in block.split(';').filter(|statement| statement.contains("fn ")) {
        let (name, _) = between(statement, "fn ", "(");
        let (list, after) = between(statement, "(", ")");
        let result = after.trim().strip_prefix("-> ").unwrap_or("");
        functions.insert(name.to_string(), (parameters(list).map(named).collect(), result.to_string()));
    }
    functions
}

// ---- constants: name, number, and the text beside it

type Constants = BTreeMap<String, (u64, String)>;

/// `#define SV_X 1 /* text */`
fn constants_in_c(header: &str) -> Constants {
    let lines = header.lines().filter_map(|line| line.strip_prefix("#define SV_"));
    let with_number = lines.filter_map(|line| {
        let (name, rest) = line.split_once(' ')?;
        let (number, text) = rest.split_once(' ').unwrap_or((rest, ""));
        let text = text.trim().trim_start_matches("/*").trim_end_matches("*/").trim();
        Some((name.to_string(), (number.parse().ok()?, text.to_string())))
    });
    with_number.collect()
}

/// `/// text` and in the next line `pub const SV_X: u32 = 1;`, or `// text` and `pub const X: u64 = 1;` or
/// `pub const X: Refusal = Refusal { number: 1 };`
fn constants_after(text: &str, prefix: &str, comment: &str) -> Constants {
    let mut constants = Constants::new();
    let mut above = "";
    for line in text.lines().map(str::trim) {
        if let Some(item) = line.strip_prefix(prefix) {
            let (name, rest) = item.split_once(':').unwrap();
            let (_, number) = rest.split_once('=').unwrap();
            let number = number.trim().trim_start_matches("Refusal { number: ").trim_end_matches(';');
            if let Ok(number) = number.trim_end_matches(" }").parse() {
                constants.insert(name.to_string(), (number, above.to_string()));
            }
        }
        above = line.strip_prefix(comment).unwrap_or("").trim();
    }
    constants
}

fn numbers(constants: &Constants) -> BTreeMap<&str, u64> {
    constants.iter().map(|(name, (number, _))| (name.as_str(), *number)).collect()
}

// ---- the comparisons

const EXPORTED: [&str; 15] = [
    "sv_add",
    "sv_append",
    "sv_begin",
    "sv_begin_plain",
    "sv_finish",
    "sv_header",
    "sv_lift",
    "sv_meter_next",
    "sv_meter_open",
    "sv_open",
    "sv_raise",
    "sv_references",
    "sv_remove",
    "sv_replace",
    "sv_step",
];

#[test]
fn the_source_exports_what_rust_declares() {
    let source = exported(&source());
    assert_eq!(source.keys().collect::<Vec<_>>(), EXPORTED);
    assert_eq!(source, declared_in_rust(&text("rust/src/sys.rs")));
}

#[test]
fn the_header_declares_what_rust_declares() {
    let header = declared_in_c(&header());
    assert_eq!(header.keys().collect::<Vec<_>>(), EXPORTED);
    assert_eq!(header, declared_in_rust(&text("rust/src/sys.rs")));
}

#[test]
fn the_constants_of_the_header_are_those_of_rust() {
    let header = constants_in_c(&header());
    let rust = constants_after(&text("rust/src/sys.rs"), "pub const SV_", "///");
    assert!(header.len() > 80);
    assert_eq!(numbers(&header), numbers(&rust));
}

#[test]
fn the_source_places_words_as_rust_does() {
    let sys = text("rust/src/sys.rs");
    let refusals = refusals(&sys);
    let rust = constants_after(&sys, "pub const SV_", "///");
    let source = constants_after(&text("crates/capi/src/places.rt"), "pub(crate) const ", "//");
    let mut placed = numbers(&rust);
    placed.retain(|name, _| *name != "END" && !name.starts_with("MODE_") && !refusals.contains(&name.to_string()));
    assert!(placed.len() > 70);
    assert_eq!(numbers(&source), placed);
    assert_eq!(constants_after(&text("crates/capi/src/lib.rt"), "const ", "//")["END"].0, rust["END"].0);
}

#[test]
fn the_refusals_are_those_of_the_source_and_mean_the_same_in_c_and_rust() {
    let source = constants_after(&text("crates/format/src/refusals.rt"), "pub const ", "//");
    let header = constants_in_c(&header());
    let rust = constants_after(&text("rust/src/sys.rs"), "pub const SV_", "///");
    assert!(source.len() >= 30);
    for (name, (number, _)) in &source {
        let (in_c, meaning) = header.get(name).unwrap_or_else(|| panic!("{name} is not in the header"));
        assert_eq!(number, in_c, "{name}");
        assert!(!meaning.is_empty(), "{name}");
        assert_eq!(rust[name], (*number, meaning.clone()), "{name}");
    }
    let refusals = refusals(&text("rust/src/sys.rs"));
    assert_eq!(refusals, source.keys().cloned().collect::<Vec<_>>());
}

/// The names in the block of refusals of the Rust, sorted.
fn refusals(sys: &str) -> Vec<String> {
    let (block, _) = between(sys, "\nrefusals! {", "\n}");
    constants_after(block, "pub const SV_", "///").into_keys().collect()
}

// ---- that the comparisons can fail

#[test]
fn a_parameter_that_differs_is_seen() {
    let source = "
        #[unsafe(no_mangle)]
        pub extern \"C\" fn sv_a(tag: &[u8], n: u64, out: &mut [u64]) -> u32
            ensures { λ r. ⌜ r ≡ 0 ⌝ } // (a comment)
        { 0 }
        fn other(x: u8) -> u8 { x }";
    let header =
        "/* f(x); */ uint32_t sv_a(const uint8_t *tag, size_t tag_len,\n uint64_t n, uint64_t *out, size_t out_len);";
    let rust = "extern \"C\" { /// A doc.\n pub fn sv_a(tag: *const u8, tag_len: usize, n: u64, out: *mut u64, out_len: usize,) -> u32; }";
    assert_eq!(exported(source), declared_in_c(header));
    assert_eq!(exported(source), declared_in_rust(rust));
    for (old, new) in
        [("&mut [u64]", "&[u64]"), ("n: u64", "n: u32"), ("sv_a", "sv_b"), ("tag:", "gat:"), ("-> u32", "-> u64")]
    {
        assert_ne!(exported(&source.replace(old, new)), declared_in_c(header), "{old}");
    }
    assert_ne!(declared_in_c(&header.replace("const ", "")), declared_in_rust(rust));
    assert_ne!(declared_in_c(header), declared_in_rust(&rust.replace("*mut u64", "*mut u32")));
}

#[test]
fn a_constant_that_differs_is_seen() {
    let header = "#define SV_A 1 /* one */\n#define SV_B 2\n#define SV_GUARD\n";
    let rust = "/// one\npub const SV_A: u32 = 1;\n/// Two.\npub const SV_B: usize = 2;\n";
    let found = constants_after(rust, "pub const SV_", "///");
    assert_eq!(numbers(&constants_in_c(header)), numbers(&found));
    assert_eq!(constants_in_c(header)["A"], found["A"]);
    assert_ne!(numbers(&constants_in_c(&header.replace('2', "3"))), numbers(&found));
}
