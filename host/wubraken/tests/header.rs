//! The header `wubraken.h` beside the wrapper: structs, numbers, limits and texts.

use std::mem::{align_of, size_of};

use second::layout::{HEADS, NODE_WORDS};
use wubraken::raw::{kind, stop, Answer, BatchEnd, Dealt, Measured};
use wubraken::{Arrival, Echogram, Refusal, Shape, Worker, LINE};

const HEADER: &str = include_str!("../../include/wubraken.h");
const RAW: &str = include_str!("../src/raw.rs");
const POOL: &str = include_str!("../src/pool.rs");

/// Fields of a struct of the header, by name and type, in their order.
fn declared(name: &str) -> Vec<(String, String)> {
    let (before, _) = HEADER.split_once(&format!("}} {name};")).unwrap();
    let (_, body) = before.rsplit_once("typedef struct {").unwrap();
    let mut fields = Vec::new();
    for statement in without_comments(body).split(';') {
        if let Some((kind, names)) = statement.trim().split_once(' ') {
            let names = names.split(',').map(|name| name.trim().to_string());
            fields.extend(names.map(|name| (name, kind.to_string())));
        }
    }
    fields
}

fn without_comments(text: &str) -> String {
    let mut parts = text.split("/*");
    let first = parts.next().unwrap_or_default().to_string();
    let rest = parts.map(|part| part.split_once("*/").unwrap().1);
    rest.fold(first, |all, part| all + part)
}

/// An enumerator of the header.
fn enumerator(name: &str) -> u64 {
    let text = without_comments(HEADER);
    let (_, rest) = text.split_once(&format!("WUBRAKEN_{name} = ")).unwrap();
    let digits: String = rest.chars().take_while(char::is_ascii_digit).collect();
    digits.parse().unwrap()
}

/// The place of each field in a value, and what the header calls it.
macro_rules! check {
    ($type:ident $header:literal $size:literal $value:expr, $($field:ident: $kind:literal at $offset:literal),+) => {{
        let value: $type = $value;
        let start = &value as *const $type as usize;
        assert_eq!(size_of::<$type>(), $size);
        $(assert_eq!(&value.$field as *const _ as usize - start, $offset);)+
        let fields = [$((stringify!($field).to_string(), $kind.to_string())),+];
        assert_eq!(declared($header), fields);
    }};
}

#[test]
fn structs_are_declared_alike() {
    check!(Shape "wubraken_shape" 32 Shape::default(),
        workers: "uint64_t" at 0, nodes: "uint64_t" at 8,
        buckets: "uint64_t" at 16, width: "uint64_t" at 24);
    check!(Arrival "wubraken_arrival" 16 Arrival::default(),
        time: "uint32_t" at 0, path: "uint32_t" at 4,
        order: "uint32_t" at 8, distance: "uint32_t" at 12);
    check!(Worker "wubraken_worker" 72 Worker::default(),
        stage: "uint64_t" at 0, kind: "uint64_t" at 8, own: "uint64_t" at 16,
        bucket: "uint64_t" at 24, left: "uint64_t" at 32, right: "uint64_t" at 40,
        seen: "uint64_t" at 48, current: "uint64_t" at 56, ticket: "uint64_t" at 64);
    check!(Answer "wubraken_answer" 64 Answer::default(),
        kind: "uint64_t" at 0, number: "uint64_t" at 8, ticket: "uint64_t" at 16,
        time: "uint64_t" at 24, path: "uint64_t" at 32, order: "uint64_t" at 40,
        distance: "uint64_t" at 48, energy: "uint64_t" at 56);
    check!(BatchEnd "wubraken_batch_end" 56 BatchEnd::default(),
        shape: "wubraken_shape" at 0, read: "uint64_t" at 32,
        written: "uint64_t" at 40, stop: "uint64_t" at 48);
    check!(Dealt "wubraken_dealt" 80 Dealt::default(),
        dealer: "uint64_t" at 0, turns: "uint64_t" at 8, answer: "wubraken_answer" at 16);
    check!(Measured "wubraken_measured" 16 Measured::default(),
        number: "uint64_t" at 0, value: "uint64_t" at 8);
    let handle = [
        ("shape", "wubraken_shape"),
        ("*store", "uint64_t"),
        ("words", "size_t"),
        ("*table", "wubraken_worker"),
        ("records", "size_t"),
    ];
    assert_eq!(
        declared("wubraken_pool"),
        handle.map(|(name, kind)| (name.to_string(), kind.to_string()))
    );
    assert_eq!(
        [
            align_of::<Shape>(),
            align_of::<Worker>(),
            align_of::<Answer>()
        ],
        [8; 3]
    );
    assert_eq!((align_of::<Arrival>(), align_of::<BatchEnd>()), (4, 8));
    assert_eq!((align_of::<Dealt>(), align_of::<Measured>()), (8, 8));
}

/// `BadShape` is `BAD_SHAPE` in C.
fn name_in_c(refusal: &Refusal) -> String {
    let mut c = String::new();
    for letter in format!("{refusal:?}").chars() {
        if letter.is_uppercase() && !c.is_empty() {
            c.push('_');
        }
        c.push(letter.to_ascii_uppercase());
    }
    c
}

#[test]
fn numbers_and_limits_are_the_same() {
    for refusal in Refusal::ALL {
        assert_eq!(enumerator(&name_in_c(refusal)), refusal.number());
    }
    for (name, number) in [
        ("OPEN", kind::OPEN),
        ("BEGUN", kind::BEGUN),
        ("ON", kind::ON),
        ("STORED", kind::STORED),
        ("TOOK", kind::TOOK),
        ("EMPTY", kind::EMPTY),
        ("REFUSED", kind::REFUSED),
        ("DRAINED", stop::DRAINED),
        ("FULL", stop::FULL),
        ("LINE", LINE as u64),
        ("MAX_WORKERS", Shape::MAX_WORKERS),
        ("MAX_NODES", Shape::MAX_NODES),
        ("MAX_BUCKETS", Shape::MAX_BUCKETS),
        ("MAX_WIDTH", Shape::MAX_WIDTH),
        ("MAX_PATH", Arrival::MAX_PATH.into()),
        ("MAX_ORDER", Arrival::MAX_ORDER.into()),
        ("MAX_DISTANCE", Arrival::MAX_DISTANCE.into()),
        ("MAX_SLOTS", Echogram::MAX_SLOTS as u64),
        ("MAX_SLOT_LENGTH", Echogram::MAX_SLOT_LENGTH),
        ("NO_LEVEL", Echogram::NO_LEVEL.into()),
    ] {
        assert_eq!(enumerator(name), number, "{name}");
    }
}

/// The header says of a refusal what the wrapper says.
#[test]
fn texts_of_refusals_are_the_same() {
    for refusal in Refusal::ALL {
        let case = format!("case WUBRAKEN_{}:\n        return \"", name_in_c(refusal));
        let (_, rest) = HEADER.split_once(&case).unwrap();
        let (text, _) = rest.split_once("\";\n").unwrap();
        let number = refusal.number();
        assert_eq!(refusal.to_string(), format!("refused by {number}: {text}"));
    }
    assert_eq!(HEADER.matches("    case ").count(), Refusal::ALL.len());
    assert!(HEADER.contains("default:\n        return \"no refusal has this number\";"));
}

/// What the wrapper says of it is compared above.
#[test]
fn number_6_is_reserved() {
    assert!(HEADER.contains("WUBRAKEN_TOO_LATE = 6,       /* not given since Q-1 */\n"));
    for list in HEADER.split("Refusals").skip(1) {
        let (list, _) = list.split_once("*/").unwrap();
        let mut numbers = list.split(|letter: char| !letter.is_ascii_digit());
        assert!(numbers.all(|number| number != "6"), "{list}");
    }
}

#[test]
fn words_to_lend_by_macro() {
    let words = format!("({HEADS} + (buckets) + {NODE_WORDS} * (nodes))\n");
    assert!(HEADER.contains(&format!("WUBRAKEN_WORDS(nodes, buckets) {words}")));
}

/// A function: its name, its parameters by name and type, and what it gives back.
type Function = (String, Vec<(String, String)>, String);

/// The functions that the header only declares: their types as Rust has them.
fn functions_in_c() -> Vec<Function> {
    let text = without_comments(HEADER);
    let mut functions = Vec::new();
    for statement in text.split([';', '}']) {
        // What stands inside a function is indented.
        let last = statement.rsplit("\n\n").next().unwrap();
        let last = last.trim_start_matches('\n').trim_end();
        let (head, parameters) = match last.split_once('(') {
            Some((head, rest)) if !last.starts_with(' ') => (head, rest),
            _ => continue,
        };
        if let ([kind, name], Some(list)) = (&words(head)[..], parameters.strip_suffix(')')) {
            let parameters = list.split(',').map(parameter_in_c).collect();
            functions.push((name.to_string(), parameters, type_in_rust(kind, false)));
        }
    }
    functions
}

fn words(text: &str) -> Vec<&str> {
    text.split_whitespace().collect()
}

/// `const uint8_t *input` is `input: *const u8`.
fn parameter_in_c(text: &str) -> (String, String) {
    let words = words(text);
    let (name, kind) = words.split_last().unwrap();
    let is_pointer = name.starts_with('*');
    let kind = type_in_rust(&kind.join(" "), is_pointer);
    (name.trim_start_matches('*').to_string(), kind)
}

fn type_in_rust(kind: &str, is_pointer: bool) -> String {
    let (access, kind) = match kind.strip_prefix("const ") {
        Some(kind) => ("*const ", kind),
        None => ("*mut ", kind),
    };
    let name = match kind {
        "uint64_t" => "u64",
        "uint32_t" => "u32",
        "uint16_t" => "u16",
        "uint8_t" => "u8",
        "size_t" => "usize",
        "wubraken_shape" => "Shape",
        "wubraken_arrival" => "Arrival",
        "wubraken_worker" => "Worker",
        "wubraken_answer" => "Answer",
        "wubraken_batch_end" => "BatchEnd",
        "wubraken_dealt" => "Dealt",
        "wubraken_measured" => "Measured",
        other => panic!("{other} is new"),
    };
    format!("{}{name}", if is_pointer { access } else { "" })
}

/// The functions that the wrapper declares.
fn functions_in_rust() -> Vec<Function> {
    let functions = RAW.split("    pub fn ").skip(1).map(|text| {
        let (name, rest) = text.split_once('(').unwrap();
        let (list, rest) = rest.split_once(") -> ").unwrap();
        let parameters = list.split(',').filter_map(|each| {
            let (name, kind) = each.trim().split_once(": ")?;
            Some((name.to_string(), kind.to_string()))
        });
        let result = rest.split_once(';').unwrap().0;
        (name.to_string(), parameters.collect(), result.to_string())
    });
    functions.collect()
}

#[test]
fn functions_are_declared_alike() {
    let functions = functions_in_c();
    assert_eq!(functions, functions_in_rust());
    assert_eq!(functions.len(), 20);
}

/// The handle has a function for each method of a pool that works on it, with the
/// same parameters, and one for the runs of a dealer; what else a pool has, C has in its
/// struct.
#[test]
fn the_handle_has_the_methods_of_a_pool() {
    let methods = POOL.split("    pub fn ").skip(1).map(|text| {
        let (name, rest) = text.split_once('(').unwrap();
        let list = rest.split_once(") ->").unwrap().0;
        let names = list
            .split(',')
            .filter_map(|each| each.trim().split_once(": "));
        (name, names.map(|(name, _)| name).collect::<Vec<_>>())
    });
    let in_rust_only = ["new", "resume", "shape", "into_parts", "store", "table"];
    let mut methods: Vec<_> = methods
        .filter(|(name, _)| !in_rust_only.contains(name))
        .chain([("deal", vec!["dealer", "turns"])])
        .collect();
    let text = without_comments(HEADER);
    let handle = text.split("wubraken_pool_").skip(1).filter_map(|text| {
        let (name, rest) = text.split_once('(').unwrap();
        let list = rest.split_once(')').unwrap().0;
        // A call has no types.
        let mut parameters = list.split(',').map(words);
        let is_declared = parameters.next()?.contains(&"wubraken_pool");
        let names = parameters.map(|each| each.last().unwrap().trim_start_matches('*'));
        // Lengths come with the slices.
        let names = names.filter(|name| !["words", "records", "bytes", "room"].contains(name));
        is_declared.then(|| (name, names.collect::<Vec<_>>()))
    });
    let mut handle: Vec<_> = handle.collect();
    methods.sort();
    handle.sort();
    assert_eq!(handle, methods);
    assert_eq!(handle.len(), 13);
}
