//! Room for answers; the declarations.

use crate::{MOST, Refusal, STACK, answered, room};

#[path = "../tests/recorded/mod.rs"]
pub mod recorded;

/// A call that answers with so many bytes.
fn answering(length: usize) -> impl Fn(&mut [u8], &mut usize) -> u8 {
    move |out, size| {
        if out.len() < length {
            return 6;
        }
        out[..length].fill(b'a');
        *size = length;
        0
    }
}

#[test]
fn room_grows_until_the_answer_fits() {
    for length in [0, 1, 2, 3, 100, 4_097] {
        for room in [0, 1, 50, 4_097, 10_000] {
            let answer = answered(room, answering(length));
            assert_eq!(answer, Ok(vec![b'a'; length]));
        }
    }
}

#[test]
fn room_has_an_end() {
    let endless = answered(1, |_, _| 6);
    assert_eq!(endless, Err(Refusal::TooShort));
    assert_eq!(
        answered(MOST, answering(MOST)).map(|answer| answer.len()),
        Ok(MOST)
    );
}

#[test]
fn every_number_but_0_is_a_refusal() {
    for number in 1..=u8::MAX {
        let Err(refusal) = answered(MOST, |_, _| number) else {
            panic!("{number} is an answer");
        };
        assert_eq!(refusal.number(), number);
        let named = matches!(number, 1..=7 | 9..=11 | 14 | 15);
        assert_eq!(refusal == Refusal::Other(number), !named);
        assert!(!refusal.to_string().is_empty());
    }
    assert_eq!(answered(1, |_, _| 0), Ok(vec![]));
}

#[test]
fn recorded_answers_have_room() {
    for (name, cases) in recorded::all() {
        for case in cases {
            let texts: Vec<&[u8]> = case.texts.iter().map(Vec::as_slice).collect();
            let room = match (name.as_str(), texts.as_slice()) {
                ("scope", [tree]) => room::scope(tree),
                ("rename", [tree, _]) => room::rename(tree),
                ("merge" | "merge_queries", [left, right, _, lefts, rights]) => {
                    room::merge(left, right, lefts, rights)
                }
                ("push", [query, constants]) => room::push(query, constants),
                ("negate", [query]) => room::negate(query),
                ("bindings", [tree, sets]) => room::bindings(tree, sets),
                ("filters", [tree, filters]) => room::filters(tree, filters),
                ("namespaces", [tree, _]) => room::namespaces(tree),
                _ => panic!("{name} is no call"),
            };
            assert!(
                case.answer.len() <= room,
                "{name}: {} over {room}",
                case.answer.len()
            );
        }
    }
}

const HEADER: &str = include_str!("../../include/gandeuch.h");
const DECLARED: &str = include_str!("ffi.rs");

/// The functions of a text, each with its parameters, by a function that gives a parameter as it stands in Rust.
fn functions(text: &str, parameter: fn(&str) -> String) -> Vec<(&str, Vec<String>)> {
    let functions = text.split("gandeuch_").skip(1);
    functions
        .filter_map(|function| {
            let (name, rest) = function.split_once('(')?;
            let parameters = rest.split_once(')')?.0.split(',').map(str::trim);
            let parameters = parameters.filter(|text| !text.is_empty());
            Some((name, parameters.map(parameter).collect()))
        })
        .collect()
}

/// A parameter of C in Rust.
fn from_c(parameter: &str) -> String {
    let kinds = [
        ("const uint8_t *", "*const u8"),
        ("uint8_t *", "*mut u8"),
        ("uint16_t *", "*mut u16"),
        ("size_t *", "*mut usize"),
        ("size_t ", "usize"),
    ];
    let known = kinds.iter().find_map(|(c, rust)| {
        let name = parameter.strip_prefix(c)?;
        Some(format!("{name}: {rust}"))
    });
    known.unwrap_or_else(|| panic!("{parameter} is no parameter of C"))
}

#[test]
fn declarations_are_those_of_the_header() {
    let code = HEADER.split_once("extern \"C\" {").expect("declarations").1;
    let in_header = functions(code, from_c);
    assert_eq!(in_header.len(), 10);
    assert_eq!(code.matches("uint8_t gandeuch_").count(), 10);
    assert_eq!(DECLARED.matches(") -> u8;").count(), 10);
    assert_eq!(functions(DECLARED, str::to_string), in_header);
}

#[test]
fn rooms_are_those_of_the_header() {
    let header = HEADER.replace("(size_t)", "").replace("\\\n", "");
    let header: String = header.split_whitespace().collect();
    let [tree, list, other] = [100, 10, 1].map(|length| vec![0; length]);
    let rooms = [
        (
            "SCOPE_ROOM(tree_size)((tree_size)+7)",
            room::scope(&tree),
            107,
        ),
        (
            "RENAME_ROOM(tree_size)(44*(tree_size)+14)",
            room::rename(&tree),
            4_414,
        ),
        (
            "MERGE_ROOM(left_size,right_size,left_constants_size,right_constants_size)\
             (3*((left_size)+(right_size))+(left_constants_size)+(right_constants_size)+84)",
            room::merge(&tree, &tree, &list, &other),
            695,
        ),
        (
            "PUSH_ROOM(query_size,constants_size)(3*(query_size)+(constants_size)+42)",
            room::push(&tree, &list),
            352,
        ),
        (
            "NEGATE_ROOM(query_size)((query_size)+38)",
            room::negate(&tree),
            138,
        ),
        (
            "WITHOUT_ROOM(left_size,right_size)(3*((left_size)+(right_size))+84)",
            room::without(&tree, &list),
            414,
        ),
        (
            "BINDINGS_ROOM(tree_size,sets_size)((tree_size)+65*(sets_size)+14)",
            room::bindings(&tree, &list),
            764,
        ),
        (
            "FILTERS_ROOM(tree_size,filters_size)((tree_size)+24*(filters_size)+14)",
            room::filters(&tree, &list),
            354,
        ),
        (
            "NAMESPACES_ROOM(tree_size)(33*(tree_size)+14)",
            room::namespaces(&tree),
            3314,
        ),
        ("LIST_ROOM(256)", room::LIST, 256),
        ("TEXT(16384)", room::scope(&[0; 20_000]), 16_391),
        ("STACK(262144)", STACK, 262_144 + 4_096),
    ];
    for (defined, room, expected) in rooms {
        let line = format!("#defineGANDEUCH_{defined}");
        assert!(header.contains(&line), "{line}");
        assert_eq!(room, expected, "{line}");
    }
}
