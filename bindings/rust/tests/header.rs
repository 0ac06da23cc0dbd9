//! The C header, the wrapper's declarations and the crate's own functions are the same: functions, parameters in their
//! order, types and results. The header's numbers, version and texts are those of the wrapper, and of the Python package.

use parity::Refusal;

use std::fs::read_to_string;

/// A function's name and its parameters, each as its name and its Rust type, the result last.
type Declared = (String, Vec<(String, String)>);

fn without_comments(text: &str) -> String {
    let mut out = String::new();
    let mut rest = text;
    while let Some(start) = rest.find("/*") {
        out.push_str(&rest[..start]);
        rest = &rest[start + rest[start..].find("*/").unwrap() + 2..];
    }
    out + rest
}

fn rust_type(c: &str) -> String {
    let scalar = |name: &str| match name {
        "uint8_t" => "u8",
        "uint16_t" => "u16",
        "uint32_t" => "u32",
        "uint64_t" => "u64",
        "size_t" => "usize",
        "float" => "f32",
        other => panic!("type {other}"),
    };
    match c.strip_suffix('*') {
        Some(pointed) => match pointed.trim().strip_prefix("const ") {
            Some(pointed) => format!("*const {}", scalar(pointed.trim())),
            None => format!("*mut {}", scalar(pointed.trim())),
        },
        None => scalar(c.trim()).to_string(),
    }
}

/// The header without its one function that has a body.
fn declarations(text: &str) -> String {
    let start = text.find("static inline").unwrap();
    let end = start + text[start..].find("\n}\n").unwrap() + 3;
    assert_eq!(text.matches("static inline").count(), 1);
    text[..start].to_string() + &text[end..]
}

fn of_header(text: &str) -> Vec<Declared> {
    let text = without_comments(&declarations(text));
    let mut all = Vec::new();
    for part in text.split(';').filter(|part| part.contains("parity_")) {
        let (head, parameters) = part.split_once('(').unwrap();
        let name = head.split_whitespace().last().unwrap().to_string();
        let result = head.trim().strip_suffix(&name).unwrap().split_whitespace().last().unwrap();
        let mut list = Vec::new();
        for parameter in parameters.trim().trim_end_matches(')').split(',') {
            let parameter = parameter.trim();
            let at = parameter.rfind([' ', '*']).unwrap() + 1;
            list.push((parameter[at..].to_string(), rust_type(parameter[..at].trim())));
        }
        list.push((String::new(), rust_type(result)));
        all.push((name, list));
    }
    all
}

fn of_wrapper(text: &str) -> Vec<Declared> {
    let mut all = Vec::new();
    for part in text.split("pub fn ").skip(1) {
        let (name, rest) = part.split_once('(').unwrap();
        let (parameters, rest) = rest.split_once(')').unwrap();
        let mut list = Vec::new();
        for parameter in parameters.split(',').map(str::trim).filter(|parameter| !parameter.is_empty()) {
            let (name, kind) = parameter.split_once(':').unwrap();
            list.push((name.trim().to_string(), kind.trim().to_string()));
        }
        let result = rest.split_once("->").unwrap().1.split_once(';').unwrap().0;
        list.push((String::new(), result.trim().to_string()));
        all.push((name.to_string(), list));
    }
    all
}

/// A slice of the crate is a pointer and then its length.
fn of_crate(text: &str) -> Vec<Declared> {
    let mut all = Vec::new();
    for part in text.split("#[unsafe(no_mangle)]\npub extern \"C\" fn ").skip(1) {
        let (name, rest) = part.split_once('(').unwrap();
        let (parameters, rest) = rest.split_once(')').unwrap();
        let mut list = Vec::new();
        for parameter in parameters.split(',').map(str::trim).filter(|parameter| !parameter.is_empty()) {
            let (name, kind) = parameter.split_once(':').unwrap();
            let (name, kind) = (name.trim(), kind.trim());
            match kind.strip_suffix(']') {
                None => list.push((name.to_string(), kind.to_string())),
                Some(slice) => {
                    let pointer = slice.replace("&mut [", "*mut ").replace("&[", "*const ");
                    list.push((name.to_string(), pointer));
                    list.push((format!("{name}_len"), "usize".to_string()));
                }
            }
        }
        let result = rest.split_once("->").unwrap().1.split_whitespace().next().unwrap();
        list.push((String::new(), result.to_string()));
        all.push((name.to_string(), list));
    }
    all
}

fn read(path: &str) -> String {
    read_to_string(format!("{}/{path}", env!("CARGO_MANIFEST_DIR"))).unwrap()
}

#[test]
fn header_wrapper_and_crate_agree() {
    let header = of_header(&read("../../include/parity.h"));
    assert_eq!(header.len(), 22);
    assert_eq!(header, of_wrapper(&read("src/ffi.rs")));
    let text = read("../../crates/capi/src/lib.rt");
    assert_eq!(text.matches("extern \"C\"").count(), 22);
    assert_eq!(header, of_crate(&text));
}

/// The Python package declares each function by `SLICE`, `MATRIX` (a slice and three sizes) and `SIZE`, without the last slice, and
/// has a call of its name.
#[test]
fn python_declares_the_same() {
    let (declared, calls) = (read("../python/parity/_library.py"), read("../python/parity/calls.py"));
    let header = of_header(&read("../../include/parity.h"));
    assert_eq!(declared.matches("    \"parity_").count(), header.len());
    for (name, parameters) in header {
        let line = declared.lines().find(|line| line.trim_start().starts_with(&format!("\"{name}\":"))).expect(&name);
        let (slices, matrices) = (line.matches("SLICE").count(), line.matches("MATRIX").count());
        let pointers = parameters.iter().filter(|(_, kind)| kind.starts_with('*')).count();
        assert_eq!(slices + matrices + 1, pointers, "{name}");
        let sizes = parameters.iter().filter(|(name, kind)| kind == "usize" && !name.ends_with("_len")).count();
        assert_eq!(line.matches("SIZE").count() + 3 * matrices, sizes, "{name}");
        let call = name.strip_prefix("parity_").unwrap();
        assert!(calls.contains(&format!("\ndef {call}(")) && calls.contains(&format!("\"{name}\",")), "{name}");
    }
}

/// Every refusal, by its name in the header.
const REFUSALS: [(&str, Refusal); 23] = [
    ("MATRIX_LENGTH", Refusal::MatrixLength),
    ("RANGE", Refusal::Range),
    ("ONE_OUTSIDE", Refusal::OneOutside),
    ("RULE_A", Refusal::RuleA),
    ("FAULTY_WORD", Refusal::FaultyWord { place: 0 }),
    ("RECORD_SHORT", Refusal::RecordShort { needed: 0 }),
    ("PAIR", Refusal::Pair),
    ("SHARE", Refusal::Share { share: 0 }),
    ("FULL", Refusal::Full),
    ("LENGTH", Refusal::Length),
    ("BYTE", Refusal::Byte { place: 0 }),
    ("CONTRADICTION", Refusal::Contradiction),
    ("EXTENDED", Refusal::Extended),
    ("NOTHING_TO_TAKE_BACK", Refusal::NothingToTakeBack),
    ("CANNOT_TAKE_BACK", Refusal::CannotTakeBack),
    ("UNKNOWN_NAME", Refusal::UnknownName),
    ("SET_SIZE", Refusal::SetSize),
    ("SETS_SHORT", Refusal::SetsShort { needed: 0 }),
    ("DIFFERENT_LENGTHS", Refusal::DifferentLengths),
    ("TOO_MANY_CHECKS", Refusal::TooManyChecks),
    ("ROUNDS", Refusal::Rounds),
    ("FLOAT", Refusal::Float { place: 0 }),
    ("LOW_ABOVE_HIGH", Refusal::LowAboveHigh { place: 0 }),
];

#[test]
fn header_has_the_numbers_of_the_wrapper() {
    let header = read("../../include/parity.h");
    let defined: Vec<(&str, usize)> = header
        .lines()
        .filter_map(|line| line.strip_prefix("#define PARITY_")?.split_once(' '))
        .filter(|(_, value)| !value.starts_with('"'))
        .map(|(name, number)| (name, number.trim().parse().unwrap()))
        .collect();
    let version: Vec<usize> = parity::VERSION.split('.').map(|number| number.parse().unwrap()).collect();
    let mut due = vec![
        ("VERSION_MAJOR", version[0]),
        ("VERSION_MINOR", version[1]),
        ("VERSION_PATCH", version[2]),
        ("WORDS", parity::WORDS),
        ("SENT_MOST", 120),
        ("CHECKS_MOST", 120),
        ("ADDED_MOST", 392),
        ("RECORD_MOST", parity::RECORD_MOST),
        ("SET_SIZE_MOST", parity::SET_SIZE_MOST),
        ("ROUNDS_MOST", parity::ROUNDS_MOST),
        ("MESSAGES", parity::MESSAGES),
        ("OTHERS_MOST", parity::OTHERS_MOST),
        ("VALUES_MOST", parity::VALUES_MOST),
        ("STACK_MOST", parity::STACK_MOST),
        ("ERASED", usize::from(parity::ERASED)),
        ("SOFT", usize::from(parity::SOFT)),
        ("STAGE_PEELING", parity::STAGE_PEELING),
        ("STAGE_EXTENDED", parity::STAGE_EXTENDED),
        ("STAGE_ELIMINATION", parity::STAGE_ELIMINATION),
        ("ANSWER", 0),
    ];
    due.extend(REFUSALS.map(|(name, refusal)| (name, refusal.number() as usize)));
    due.extend([
        ("HOUSE_CIRCULANT", parity::HOUSE_CIRCULANT),
        ("HOUSE_HAMMING_3", parity::HOUSE_HAMMING_3),
        ("HOUSE_HAMMING_7", parity::HOUSE_HAMMING_7),
        ("HOUSE_HAMMING_15", parity::HOUSE_HAMMING_15),
        ("HOUSE_HAMMING_31", parity::HOUSE_HAMMING_31),
    ]);
    assert_eq!(defined, due);
}

#[test]
fn one_version() {
    let header = read("../../include/parity.h");
    let version = parity::VERSION;
    assert!(header.contains(&format!("#define PARITY_VERSION \"{version}\"\n")));
    assert!(header.lines().next().unwrap().ends_with(&format!("version {version}.")));
    assert!(read("../python/parity/__init__.py").contains(&format!("__version__ = \"{version}\"\n")));
    assert!(read("../../cli/Cargo.toml").contains(&format!("\nversion = \"{version}\"\n")));
}

/// The texts of the header stand in a `case` each, those of the Python package in a line `number: "text",` each.
#[test]
fn one_text_for_each_refusal() {
    let header = read("../../include/parity.h");
    let function = header.split_once("*parity_refusal_text").unwrap().1.split_once("\n}\n").unwrap().0;
    let texts: Vec<(&str, &str)> = function
        .lines()
        .filter_map(|line| line.trim().strip_prefix("case PARITY_")?.split_once(": return \""))
        .map(|(name, text)| (name, text.strip_suffix("\";").unwrap()))
        .collect();
    let mut due = vec![("ANSWER", "answer")];
    due.extend(REFUSALS.iter().map(|(name, refusal)| (*name, refusal.text())));
    assert_eq!(texts, due);

    let python = read("../python/parity/refusals.py");
    let lines: Vec<&str> =
        python.split_once("TEXTS").unwrap().1.split_once("\n}\n").unwrap().0.lines().skip(1).collect();
    let due = REFUSALS.iter().map(|(_, refusal)| format!("    {}: \"{}\",", refusal.number(), refusal.text()));
    assert_eq!(lines, due.collect::<Vec<String>>());
    for (name, refusal) in REFUSALS {
        assert!(python.contains(&format!("    {name} = {}\n", refusal.number())), "{name}");
    }
}
