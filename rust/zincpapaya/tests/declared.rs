//! That a function of the library is the same wherever it is declared: its name, the names and types of
//! its arguments, its result, and the structs among them. One argument has another name in the header.
//!
//! - Checked functions: the exports in Rattle, `crates/zincpapaya_c/src`, are compared with
//!   `include/zincpapaya.h`, and the header with `ffi.rs`.
//! - Functions of an owned memory: the exports in Rattle, `crates/owned_c/src`, are compared with
//!   `memory/calls.rs`. No header has them.

use std::{collections::BTreeMap, fs, mem::size_of};

use zincpapaya::{Error, Registers, Word};

const HEADER: &str = include_str!("../../../include/zincpapaya.h");
const FFI: &str = include_str!("../src/ffi.rs");

const OWNED: [&str; 2] = [
    include_str!("../../../crates/owned/src/memory.rt"),
    include_str!("../../../crates/owned/src/execute.rt"),
];
const EXPORTED: [&str; 2] = [
    include_str!("../../../crates/owned_c/src/memory.rt"),
    include_str!("../../../crates/owned_c/src/execute.rt"),
];
const CALLS: &str = include_str!("../src/memory/calls.rs");

const CRATES: &str = concat!(env!("CARGO_MANIFEST_DIR"), "/../../crates");

/// Functions by name, each with the names and Rust types of its arguments, and its result.
type Functions = BTreeMap<String, (Vec<Argument>, String)>;
type Argument = (String, String);

/// The four buffers with the types of their elements.
const BUFFERS: [(&str, &str); 4] =
    [("bytes", "u8"), ("keys", "u64"), ("order", "u32"), ("words", "u64")];

/// Name, arguments and what follows, of each function that stands behind `before`.
fn declarations<'a>(text: &'a str, before: &str, prefix: &str) -> Vec<[&'a str; 3]> {
    let starts = text.match_indices(before).map(|(at, _)| &text[at + before.len()..]);
    let parts = starts.filter(|rest| rest.starts_with(prefix));
    parts
        .map(|rest| {
            let (name, rest) = rest.split_once('(').expect("arguments follow a name");
            let (arguments, rest) = rest.split_once(')').expect("arguments end");
            [name, arguments, rest]
        })
        .collect()
}

fn words(text: &str) -> Vec<&str> {
    text.split_whitespace().collect()
}

/// What stands between commas.
fn listed(text: &str) -> impl Iterator<Item = &str> {
    text.split(',').map(str::trim).filter(|item| !item.is_empty())
}

/// A slice as two arguments.
fn slice(name: &str, pointer: &str, element: &str) -> [Argument; 2] {
    [(name.into(), format!("*{pointer} {element}")), (format!("{name}_len"), "usize".into())]
}

/// The name and the Rust type of an argument in C.
fn from_c(argument: &str) -> Argument {
    let argument = argument.replace('*', " * ");
    let rust = |name| match name {
        "uint8_t" => "u8",
        "uint32_t" => "u32",
        "uint64_t" => "u64",
        "size_t" => "usize",
        "bool" => "bool",
        other => panic!("the type {other} is not known here"),
    };
    match words(&argument)[..] {
        ["const", kind, "*", name] => (name.into(), format!("*const {}", rust(kind))),
        [kind, "*", name] => (name.into(), format!("*mut {}", rust(kind))),
        [kind, name] => (name.into(), rust(kind).into()),
        _ => panic!("the argument '{argument}' is not read here"),
    }
}

/// What a name is defined as, in a text in C.
fn definition(text: &str, name: &str) -> String {
    let begin = format!("#define {name} ");
    let rest = text.split_once(&begin).expect("the name is defined").1.replace("\\\n", " ");
    rest.lines().next().expect("a definition is not empty").to_owned()
}

/// The one argument with two names: what the header of `zp_open` says, and what it is called elsewhere. The header is kept as
/// hosts know it.
const RENAMED: (&str, &str) = ("uint32_t room", "uint32_t journal_words");

/// The functions of a header, with the arguments of a memory written out.
fn header(text: &str) -> Functions {
    assert_eq!(text.matches(RENAMED.0).count(), 1);
    let text = &text.replace(RENAMED.0, RENAMED.1);
    let memories = ["ZP_CONST_MEMORY", "ZP_MEMORY"].map(|name| (name, definition(text, name)));
    let functions = declarations(text, "uint32_t ", "zp_").into_iter();
    let functions = functions.map(|[name, arguments, _]| {
        let written_out =
            |all: String, (memory, arguments): &(&str, String)| all.replace(memory, arguments);
        let arguments = memories.iter().fold(arguments.to_owned(), written_out);
        (name.into(), (listed(&arguments).map(from_c).collect(), "u32".into()))
    });
    functions.collect()
}

/// The arguments that an argument in Rattle stands for.
fn from_rattle(argument: &str) -> Vec<Argument> {
    let (name, kind) = argument.split_once(':').expect("a name and a type");
    let kind = kind.trim().replace("'a ", "");
    let within = |begin: &str| kind.strip_prefix(begin)?.strip_suffix(']');
    // An array is lent by its address alone: its length is part of its type.
    let lent = |pointer: &str, within: &str| match within.split_once(';') {
        Some((element, _)) => vec![(name.into(), format!("*{pointer} {element}"))],
        None => slice(name, pointer, within).into(),
    };
    match (within("&["), within("&mut [")) {
        (Some(inside), _) => lent("const", inside),
        (_, Some(inside)) => lent("mut", inside),
        _ => vec![(name.into(), kind)],
    }
}

/// The exported functions of a crate in Rattle, from all files of its source.
fn exported(name: &str) -> Functions {
    let files = fs::read_dir(format!("{CRATES}/{name}/src")).expect("the crate has a source");
    let texts = files.map(|file| fs::read_to_string(file.expect("a file").path()).expect("a text"));
    let mut functions = Functions::new();
    for text in texts {
        let exports = declarations(&text, "#[unsafe(no_mangle)]\npub extern \"C\" fn ", "");
        functions.extend(exports.into_iter().map(|[name, arguments, rest]| {
            let name = name.trim_end_matches("<'a>");
            let result = rest.trim_start().strip_prefix("->").expect("each returns something");
            let result = words(result)[0].to_owned();
            (name.into(), (listed(arguments).flat_map(from_rattle).collect(), result))
        }));
    }
    functions
}

/// The functions of a `declare!`, with the arguments of a memory written out.
fn declared(text: &str, prefix: &str) -> Functions {
    let sorts = [
        ("plain", None),
        ("reading", Some(["const"; 4])),
        ("writing", Some(["mut"; 4])),
        ("restoring", Some(["mut", "const", "const", "mut"])),
        ("forgetting", Some(["const", "const", "const", "mut"])),
    ];
    let mut functions = Functions::new();
    for (sort, pointers) in sorts {
        let lent = pointers.into_iter().flatten().zip(BUFFERS);
        let memory: Vec<_> =
            lent.flat_map(|(pointer, (name, kind))| slice(name, pointer, kind)).collect();
        for [name, arguments, rest] in declarations(text, &format!("    {sort} fn "), prefix) {
            let more = listed(arguments).map(|argument| {
                let (name, kind) = argument.split_once(':').expect("a name and a type");
                (name.trim().to_owned(), words(kind).join(" "))
            });
            let arguments = memory.iter().cloned().chain(more).collect();
            let result = rest.strip_prefix(" -> ").and_then(|rest| rest.split_once(';'));
            let result = result.expect("a result").0.to_owned();
            functions.insert(name.into(), (arguments, result));
        }
    }
    functions
}

fn same(theirs: &Functions, ours: &Functions, least: usize) {
    assert!(theirs.len() >= least);
    assert!(theirs.keys().eq(ours.keys()), "{:?}\n{:?}", theirs.keys(), ours.keys());
    for (name, function) in theirs {
        assert_eq!(function, &ours[name], "{name}");
    }
}

#[test]
fn the_header_declares_what_the_crate_zincpapaya_c_exports() {
    same(&exported("zincpapaya_c"), &header(HEADER), 34);
}

#[test]
fn ffi_declares_what_the_header_does() {
    same(&header(HEADER), &declared(FFI, "zp_"), 34);
}

#[test]
fn calls_declares_what_the_crate_owned_c_exports() {
    same(&exported("owned_c"), &declared(CALLS, "own_"), 24);
}

/// Places of the header, each with something else that a compiler of C would take.
const FAULTS: [(&str, &str); 12] = [
    // Two types or two names are exchanged.
    ("bool aux, uint32_t new_bound", "uint32_t aux, bool new_bound"),
    ("uint64_t heap, uint64_t aux", "uint64_t aux, uint64_t heap"),
    ("(uint32_t gas, uint32_t amount", "(uint32_t amount, uint32_t gas"),
    ("bool kernel, bool hook", "bool hook, bool kernel"),
    ("bool aux, uint32_t source, uint32_t value", "bool aux, uint32_t value, uint32_t source"),
    // A `const` is left out.
    ("const uint32_t *list", "uint32_t *list"),
    ("zp_snapshot(ZP_CONST_MEMORY", "zp_snapshot(ZP_MEMORY"),
    // An argument is left out, or a function.
    ("uint32_t base, uint32_t stride, uint64_t *out", "uint32_t base, uint64_t *out"),
    ("bool increment, uint64_t *out, size_t out_len", "bool increment"),
    ("uint32_t zp_deallocate(ZP_MEMORY, uint32_t page);", ""),
    // Another result.
    ("uint32_t zp_quote(", "uint64_t zp_quote("),
    // Another buffer comes first in a memory.
    (
        "    uint8_t *bytes, size_t bytes_len, uint64_t *keys, size_t keys_len, uint32_t *order, ",
        "    uint64_t *keys, size_t keys_len, uint8_t *bytes, size_t bytes_len, uint32_t *order, ",
    ),
];

#[test]
fn a_fault_of_the_header_is_found() {
    let exported = exported("zincpapaya_c");
    for (right, wrong) in FAULTS {
        assert_eq!(HEADER.matches(right).count(), 1, "{right}");
        assert_ne!(exported, header(&HEADER.replace(right, wrong)), "{wrong}");
    }
}

/// The fields of a struct that is laid out as C does it. A ghost field is a proof, which no memory holds.
fn fields(text: &str, name: &str) -> Vec<Argument> {
    let begin = format!("struct {name} {{");
    let (before, rest) = text.split_once(&begin).expect("the struct is there");
    let before = before.trim_end().trim_end_matches("pub");
    let mut attributes = before.lines().rev().take_while(|line| line.starts_with("#["));
    assert!(attributes.any(|line| line == "#[repr(C)]"), "{name}");
    let lines = rest.split_once("\n}").expect("the struct ends").0.lines().map(str::trim);
    let fields = lines
        .filter(|line| !line.is_empty() && !line.starts_with("//"))
        .filter(|line| !line.starts_with("pub ghost "));
    fields
        .map(|line| {
            let (name, kind) = line.split_once(": ").expect("a name and a type");
            (name.trim_start_matches("pub ").into(), kind.trim_end_matches(',').into())
        })
        .collect()
}

#[test]
fn structs_have_the_fields_that_they_have_in_rattle() {
    let [memory, _] = OWNED;
    let ran = include_str!("../../../crates/owned/src/ran.rt");
    let structs = [
        (memory, "PartialRead"),
        (memory, "Marks"),
        (memory, "Compared"),
        (ran, "Ran"),
        (ran, "PointerRan"),
    ];
    for (text, name) in structs {
        assert_eq!(fields(text, name), fields(CALLS, name), "{name}");
    }
    let word = fields(include_str!("../../../crates/word/src/lib.rt"), "Word");
    assert_eq!(word, [("limbs".to_owned(), "[u64; 4]".to_owned())]);
    let Word(limbs) = Word::ZERO;
    let _: [u64; 4] = limbs;
    assert!(include_str!("../src/word.rs").contains("#[repr(C)]\npub struct Word("));
}

/// The registers are as many numbers here as in Rattle, and all functions that take them without a length take an array of so
/// many.
#[test]
fn registers_have_the_length_that_they_have_in_rattle() {
    let registers = include_str!("../../../crates/registers/src/lib.rt");
    assert!(registers.contains("pub const FLAGS: usize = 64;"));
    assert!(registers.contains("pub const LENGTH: usize = FLAGS + 1;"));
    assert_eq!(size_of::<Registers>(), 65 * size_of::<u64>());
    let [memory, execute] = EXPORTED;
    assert!(!memory.contains("registers:"));
    let exported: Vec<&str> = execute.split("pub extern \"C\" fn ").skip(1).collect();
    assert_eq!(exported.len(), 5);
    for function in exported {
        assert_eq!(function.matches("    registers: ").count(), 1);
        assert_eq!(function.matches("    registers: &mut [u64; registers::LENGTH],\n").count(), 1);
    }
}

/// The forms of places have the same numbers in Rattle and in the header. The tests of the crate give such numbers to the library.
#[test]
fn forms_of_places_have_their_numbers() {
    let registers = include_str!("../../../crates/registers/src/lib.rt");
    for line in [
        "LAST_REGISTER_CODE: u32 = 65535;",
        "FIRST_IMMEDIATE_CODE: u32 = 65536;",
        "LAST_IMMEDIATE_CODE: u32 = 131071;",
        "0..=LAST_REGISTER_CODE => Place::Register(code),",
        "FIRST_IMMEDIATE_CODE..=LAST_IMMEDIATE_CODE => {",
        "Place::Immediate(code - FIRST_IMMEDIATE_CODE)",
    ] {
        assert_eq!(registers.matches(line).count(), 1, "{line}");
    }
    let immediate = "((uint64_t)(i) <= 65535 ? 65536 + (uint32_t)(i) : ZP_OTHER_FORM)";
    assert!(definition(HEADER, "ZP_IMMEDIATE(i)").starts_with(immediate));
    assert_eq!(words(&definition(HEADER, "ZP_OTHER_FORM"))[0], "131072");
}

/// What the header defines for refusals are their numbers.
#[test]
fn refusals_have_their_numbers() {
    let lines = HEADER.lines().filter_map(|line| line.strip_prefix("#define ZP_"));
    let numbers = lines.map(words).filter_map(|line| line.get(1)?.parse::<u8>().ok());
    let refusals: Vec<u8> = numbers.take(Error::ALL.len()).collect();
    assert_eq!(refusals, Error::ALL.map(Error::number));
    assert_eq!(words(&definition(HEADER, "ZP_OPERAND"))[0], Error::Operand.number().to_string());
}

#[test]
fn ends_of_instructions_have_their_numbers() {
    let constants = |text: &'static str| {
        let lines = text.lines().map(|line| line.trim_start_matches("pub "));
        lines.filter(|line| line.starts_with("const ")).collect::<Vec<_>>()
    };
    let (rattle, ours) = (constants(OWNED[1]), constants(CALLS));
    assert_eq!((rattle.len(), ours.len()), (4, 3));
    assert!(ours.iter().all(|constant| rattle.contains(constant)), "{rattle:?}\n{ours:?}");
}
