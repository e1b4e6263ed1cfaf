//! The calls on the recorded inputs, whose answers are those of nemo's Rust; refusals; rooms.

mod recorded;

use gandeuch::Refusal;

/// The call of a file's name on a case's texts.
fn call(name: &str, texts: &[Vec<u8>]) -> Result<Vec<u8>, Refusal> {
    let texts: Vec<&[u8]> = texts.iter().map(Vec::as_slice).collect();
    match (name, texts.as_slice()) {
        ("scope", [tree]) => gandeuch::scope(tree),
        ("rename", [tree, mapping]) => gandeuch::rename(tree, mapping),
        ("merge", [left, right, joins, lefts, rights]) => {
            gandeuch::merge_patterns(left, right, joins, lefts, rights)
        }
        ("merge_queries", [left, right, joins, lefts, rights]) => {
            gandeuch::merge_queries(left, right, joins, lefts, rights)
        }
        ("without", [left, right, joins]) => gandeuch::without(left, right, joins),
        ("push", [query, constants]) => gandeuch::push_constants(query, constants),
        ("negate", [query]) => gandeuch::negate(query),
        ("bindings", [tree, sets]) => gandeuch::bindings(tree, sets),
        ("filters", [tree, filters]) => gandeuch::filters(tree, filters).map(|(answer, _)| answer),
        ("namespaces", [tree, table]) => gandeuch::namespaces(tree, table),
        _ => panic!("{name} with {} texts is no call", texts.len()),
    }
}

#[test]
fn recorded_answers() {
    for (name, cases) in recorded::all() {
        for (index, case) in cases.iter().enumerate() {
            let answer = call(&name, &case.texts);
            assert_eq!(answer.as_ref(), Ok(&case.answer), "{name} {index}");
        }
        println!("{name}: {} cases", cases.len());
    }
}

const TREE: &[u8] = b"project\t?r\t?bay\nbgp\t1\nt\t?r\t<in>\t?bay\n";

fn query(kind: &str) -> Vec<u8> {
    [format!("query\t{kind}\t-\t-\n").as_bytes(), TREE].concat()
}

#[test]
fn refused() {
    assert_eq!(gandeuch::scope(b"\n"), Err(Refusal::Malformed));
    assert_eq!(gandeuch::negate(b""), Err(Refusal::Malformed));
    assert_eq!(gandeuch::rename(TREE, b"?a\n"), Err(Refusal::Malformed));
    assert_eq!(gandeuch::negate(TREE), Err(Refusal::Malformed));
    assert_eq!(gandeuch::scope(&[b'\n'; 16_385]), Err(Refusal::OverBound));
    let outside = gandeuch::merge_patterns(TREE, TREE, b"0\t2\n", b"", b"");
    assert_eq!(outside, Err(Refusal::Outside));
    let outside = gandeuch::push_constants(&query("ask"), b"2\t<k>\n");
    assert_eq!(outside, Err(Refusal::Outside));
    let repeated = gandeuch::merge_patterns(TREE, TREE, b"0\t0\n0\t1\n", b"", b"");
    assert_eq!(repeated, Err(Refusal::Repeated));
    let root = gandeuch::merge_patterns(TREE, b"bgp\t0\n", b"", b"", b"");
    assert_eq!(root, Err(Refusal::NotProject));
    let heads = gandeuch::merge_queries(&query("ask"), &query("select"), b"", b"", b"");
    assert_eq!(heads, Err(Refusal::NotMergeable));
    let pairs = gandeuch::without(&query("ask"), &query("ask"), b"");
    assert_eq!(pairs, Err(Refusal::NoPairs));
    let heads = gandeuch::without(&query("ask"), &query("select"), b"");
    assert_eq!(heads, Err(Refusal::NotMergeable));
    let outside = gandeuch::without(&query("ask"), b"query\task\t-\t-\n", b"0\t0\n");
    assert_eq!(outside, Err(Refusal::Outside));
    let kind = gandeuch::merge_queries(&query("describe"), &query("describe"), b"", b"", b"");
    assert_eq!(kind, Err(Refusal::NotMergeable));
}

/// Every call on a tree of no bytes, or on a query of its head line alone.
#[test]
fn empty_files() {
    let (head, other) = (b"query\task\t-\t-\n", b"query\tselect\t-\t-\n");
    let lines: &[u8] = b"project\nbgp\t0\n";
    let joined: &[u8] = b"project\njoin\nbgp\t0\nbgp\t0\n";
    let negated: &[u8] = b"project\nfilter\nbgp\t0\nnot\nexists\nbgp\t0\n";
    let answers = [
        (gandeuch::scope(b""), b"in\nhid\n".to_vec()),
        (gandeuch::rename(b"", b"?a\t?b\n"), lines.to_vec()),
        (
            gandeuch::merge_patterns(b"", b"", b"", b"", b""),
            joined.to_vec(),
        ),
        (
            gandeuch::merge_queries(head, head, b"", b"", b""),
            [head, joined].concat(),
        ),
        (gandeuch::push_constants(head, b""), [head, lines].concat()),
        (gandeuch::negate(head), [head, negated].concat()),
        (gandeuch::bindings(b"", b""), lines.to_vec()),
    ];
    for (answer, expected) in answers {
        assert_eq!(answer, Ok(expected));
    }
    let filtered = gandeuch::filters(b"", b"nary\tf\t0\n");
    assert_eq!(filtered, Ok((lines.to_vec(), vec![0])));
    let outside = gandeuch::merge_patterns(b"", TREE, b"0\t0\n", b"", b"");
    assert_eq!(outside, Err(Refusal::Outside));
    let heads = gandeuch::merge_queries(head, other, b"", b"", b"");
    assert_eq!(heads, Err(Refusal::NotMergeable));
    let unended = gandeuch::push_constants(&head[..head.len() - 1], b"");
    assert_eq!(unended, Err(Refusal::Malformed));
}

#[test]
fn bindings_and_filters() {
    let sets = b"set\t1\t2\nat\t0\nrow\tIri\tr7\t-\nrow\tNull\t-\t-\n";
    assert_eq!(
        gandeuch::bindings(TREE, sets).map(String::from_utf8),
        Ok(Ok("project\t?r\t?bay\njoin\nbgp\t1\nt\t?r\t<in>\t?bay\nvalues\t1\t2\ncols\t?r\nrow\t<r7>\nrow\t-\n".to_string()))
    );
    assert_eq!(gandeuch::bindings(TREE, b""), Ok(TREE.to_vec()));
    let outside = gandeuch::bindings(TREE, b"set\t1\t0\nat\t2\n");
    assert_eq!(outside, Err(Refusal::Outside));
    let tuple = gandeuch::bindings(TREE, b"set\t1\t1\nat\t0\nrow\tTuple\t()\t-\n");
    assert_eq!(tuple, Err(Refusal::NotUsable));

    let filter = b"bin\tUnequals\nref\t1\nleaf\tPlainString\tspare\t-\n";
    let placed = b"project\t?r\t?bay\nfilter\nbgp\t1\nt\t?r\t<in>\t?bay\nnot\neq\nterm\t?bay\nterm\t\"spare\"\n";
    assert_eq!(
        gandeuch::filters(TREE, filter),
        Ok((placed.to_vec(), vec![]))
    );
    let others = [
        b"leaf\tBoolean\ttrue\t<d>\n",
        &filter[..],
        b"un\tOther\nref\t0\n",
    ];
    assert_eq!(
        gandeuch::filters(TREE, &others.concat()),
        Ok((placed.to_vec(), vec![0, 2]))
    );
    let all = gandeuch::filters(b"bgp\t0\n", &b"ref\t9\n".repeat(256));
    assert_eq!(all, Ok((b"bgp\t0\n".to_vec(), (0..256).collect())));
    assert_eq!(gandeuch::filters(TREE, b"ref\t2\n"), Err(Refusal::Outside));
    assert_eq!(gandeuch::filters(TREE, b"un\t"), Err(Refusal::Malformed));
}

#[test]
fn namespaces() {
    let tree = b"bgp\t1\nt\t<a:x>\t<b:p>\t\"1\"^^<a:int>\n";
    let converted = gandeuch::namespaces(tree, b"a:\tc:\nb:\td:\n");
    assert_eq!(converted, Ok(b"bgp\t1\nt\t<c:x>\t<d:p>\t\"1\"^^<a:int>\n".to_vec()));
    assert_eq!(gandeuch::namespaces(b"", b""), Ok(b"project\nbgp\t0\n".to_vec()));
    assert_eq!(gandeuch::namespaces(tree, b"a:\tc:\n"), Err(Refusal::NotCovered));
    assert_eq!(gandeuch::namespaces(tree, b"b:\tc:\na:\td:\n"), Err(Refusal::NotInOrder));
    assert_eq!(gandeuch::namespaces(tree, b"a:\t\n"), Err(Refusal::Malformed));
}

#[test]
fn numbers_and_messages() {
    let numbers: Vec<_> = Refusal::ALL.iter().map(|refusal| refusal.number()).collect();
    assert_eq!(numbers, [1, 2, 3, 4, 5, 6, 7, 9, 10, 11, 14, 15]);
    for &refusal in Refusal::ALL {
        let error: Box<dyn std::error::Error> = Box::new(refusal);
        assert!(!error.to_string().is_empty());
    }
}

/// A tree at the bounds: 16,384 bytes but for less than a line, 64 short names.
fn longest_tree() -> Vec<u8> {
    let names: Vec<_> = (0..64).map(|name| char::from(b'0' + name)).collect();
    let columns: String = names.iter().map(|name| format!("\t?{name}")).collect();
    let count = 1_150;
    let triple = |place: usize| {
        let [s, p, o] = [0, 1, 2].map(|step| names[(3 * place + step) % names.len()]);
        format!("t\t?{s}\t?{p}\t?{o}\n")
    };
    let triples: String = (0..count).map(triple).collect();
    format!("project{columns}\nbgp\t{count}\n{triples}").into_bytes()
}

/// The longest answers, each in a thread with little more than the stack that a call needs.
#[test]
fn longest_answers() {
    let tree = longest_tree();
    assert!((12_000..=16_384).contains(&tree.len()));
    let new = |name: char| format!("?{name}\t?{}{name}\n", "n".repeat(127));
    let mapping: String = (0..64).map(|name| new(char::from(b'0' + name))).collect();
    let query = [b"query\tselect\t-\t-\n".as_slice(), &tree].concat();
    let small = |call: Box<dyn FnOnce() -> Result<Vec<u8>, Refusal> + Send>| {
        let thread = std::thread::Builder::new().stack_size(320 * 1024);
        thread
            .spawn(call)
            .expect("a thread")
            .join()
            .expect("an end")
    };
    let (text, names) = (tree.clone(), mapping.clone());
    let renamed = small(Box::new(move || gandeuch::rename(&text, names.as_bytes())));
    assert_eq!(
        renamed.map(|renamed| renamed.len()),
        Ok(tree.len() + 127 * (64 + 3 * 1_150))
    );
    let text = tree.clone();
    let merged = small(Box::new(move || {
        gandeuch::merge_patterns(&text, &text, b"0\t0\n", b"", b"")
    }));
    assert!(merged.expect("merged").len() > 2 * tree.len());
    let text = query.clone();
    let negated = small(Box::new(move || gandeuch::negate(&text)));
    assert_eq!(negated.map(|negated| negated.len()), Ok(query.len() + 24));
    let pushed = small(Box::new(move || {
        gandeuch::push_constants(&query, b"0\t<k>\n")
    }));
    assert!(pushed.is_ok());
    let scope = small(Box::new(move || gandeuch::scope(&tree)));
    assert_eq!(
        scope.map(|scope| scope.len()),
        Ok("in\nhid\n".len() + 2 * 64 * 3)
    );
}

/// Where a call's stack isn't left, the program ends as with any overflow of Rust's own.
#[test]
fn little_stack_is_an_overflow() {
    const TEST: &str = "little_stack_is_an_overflow";
    if std::env::var_os(TEST).is_some() {
        let thread = std::thread::Builder::new().stack_size(128 * 1024);
        let _ = thread
            .spawn(|| gandeuch::scope(TREE))
            .map(|call| call.join());
        return;
    }
    let program = std::env::current_exe().expect("this program");
    let child = std::process::Command::new(program)
        .args(["--exact", TEST, "--nocapture"])
        .env(TEST, "")
        .output()
        .expect("a child");
    assert!(!child.status.success());
    let said = String::from_utf8_lossy(&child.stderr);
    assert!(said.contains("overflowed its stack"), "{said}");
}
