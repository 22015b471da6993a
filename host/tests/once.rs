//! Checks on what is compiled, by the calls in the proved MIR of the libraries under `tunnel`, that a scale makes its boundary once, before the loop over the
//! degrees, and that a degree looks up its sine and cosine once, before the loop over the points. A look-up is a call of `Sines::sine`, which alone indexes the
//! table (source.rs). A library's MIR is what `rt lib` links the archive from.
use std::{
    collections::{BTreeMap, BTreeSet},
    fs,
    path::Path,
};

const TRY_SCALES: &str = "detector_turn::try_scales";
const ATTEMPT: &str = "detector_turn::attempt_rotation_box";
const POINTS: &str = "detector_points::adjusted_orientation_points";
const TRY_DEGREES: &str = "detector_degrees::try_degrees";
const TRY_OFFSETS: &str = "detector_degrees::try_offsets";
const TEST_DEGREE: &str = "detector_colours::test_degree";
const PLAIN_BOUNDARY: &str = "detector_boundary::plain_boundary";
const SCALED_BOUNDARY: &str = "detector_boundary::scaled_boundary";
const ANGLE: &str = "sines::Sines::angle";
/// What a `?` on an option calls.
const ASKED: [&str; 2] = [
    "core::option::OptionTry::branch",
    "core::option::OptionFromResidualNoValue::from_residual",
];

/// One call, by the functions' names, and how many loops of the caller it stands in.
#[derive(Debug, PartialEq)]
struct Call {
    from: String,
    to: String,
    loops: usize,
}

/// A value of JSON. The escapes of a text stay as they are.
#[derive(Debug, PartialEq)]
enum Json<'a> {
    Text(&'a str),
    List(Vec<Json<'a>>),
    Fields(Vec<(&'a str, Json<'a>)>),
    /// A number, true, false or null.
    Word(&'a str),
}

impl<'a> Json<'a> {
    /// The value that a text begins with; the text keeps what comes after it.
    fn read(text: &mut &'a str) -> Self {
        *text = text.trim_start();
        if text.starts_with('[') {
            let mut list = Vec::new();
            while another(text, ']') {
                list.push(Json::read(text));
            }
            Json::List(list)
        } else if text.starts_with('{') {
            let mut fields = Vec::new();
            while another(text, '}') {
                let name = quoted(text);
                *text = text
                    .trim_start()
                    .strip_prefix(':')
                    .expect("a field has a value");
                fields.push((name, Json::read(text)));
            }
            Json::Fields(fields)
        } else if text.starts_with('"') {
            Json::Text(quoted(text))
        } else {
            let ends = |letter: char| letter.is_whitespace() || ",]}".contains(letter);
            let (word, rest) = text.split_at(text.find(ends).unwrap_or(text.len()));
            *text = rest;
            Json::Word(word)
        }
    }

    fn list(&self) -> &[Json<'a>] {
        let Json::List(list) = self else {
            panic!("no list: {self:?}")
        };
        list
    }

    /// What a field has, of an object that has it.
    fn field(&self, name: &str) -> Option<&Json<'a>> {
        let Json::Fields(fields) = self else {
            return None;
        };
        let found = fields.iter().find(|(own, _)| *own == name);
        found.map(|(_, value)| value)
    }
}

/// Whether a list goes on: passes the bracket or the comma before its next item, or what ends it.
fn another(text: &mut &str, end: char) -> bool {
    let rest = text.trim_start();
    let rest = rest
        .strip_prefix(['[', '{', ','])
        .unwrap_or(rest)
        .trim_start();
    let ended = rest.strip_prefix(end);
    *text = ended.unwrap_or(rest);
    ended.is_none()
}

/// The text in quotes that comes next.
fn quoted<'a>(text: &mut &'a str) -> &'a str {
    let rest = text.trim_start().strip_prefix('"').expect("a text");
    let mut escaped = false;
    let end = rest.find(|letter| {
        let ends = letter == '"' && !escaped;
        escaped = letter == '\\' && !escaped;
        ends
    });
    let end = end.expect("a text ends");
    *text = &rest[end + 1..];
    &rest[..end]
}

/// The calls in a library's MIR: a list of functions, each with its name and fields. Its body is a list of steps, each before those that stand in it: of two
/// in a sequence, of one in a loop or a block, of both sides of a choice, of each case of a switch and of its rest. A closure is a function of its own there;
/// its calls are those of the function that it stands in, in one loop more, as it may be called again.
fn calls(mir: &str) -> Vec<Call> {
    let mut found = Vec::new();
    for function in Json::read(&mut { mir }).list() {
        let [Json::Text(from), fields] = function.list() else {
            panic!("no function: {function:?}")
        };
        let outer = holder(from);
        // the loops of each step that is still to come
        let mut open = vec![usize::from(outer != *from)];
        for step in fields.field("body").expect("it has a body").list() {
            let loops = open.pop().expect("the body goes on");
            let (inside, deeper) = match step {
                Json::Text("Seq") => (2, 0),
                Json::Text("Loop") => (1, 1),
                Json::Text("Block") => (1, 0),
                _ if step.field("If").is_some() => (2, 0),
                _ => (step.field("Switch").map_or(0, cases), 0),
            };
            open.extend(vec![loops + deeper; inside]);
            if let Some(to) = step.field("Call").and_then(callee) {
                let (from, to) = (outer.clone(), holder(to));
                found.push(Call { from, to, loops });
            }
        }
        assert!(open.is_empty(), "{from}: its body ends early");
    }
    found
}

/// The function that a closure stands in, by its name: `a::fn::b::map`, or with what it is a value of `a::fn::b::map+FnMut::call_mut`, stands in `a::b`, and
/// so do those in it, as `a::fn::b::fn::map::any`. Any other function's own name.
fn holder(name: &str) -> String {
    let Some((module, inside)) = name.split_once("::fn::") else {
        return name.to_owned();
    };
    let deeper = inside.split_once("::fn::").map(|(function, _)| function);
    let (path, _) = inside.split_once('+').unwrap_or((inside, ""));
    let (function, _) = path.rsplit_once("::").expect("a closure has a name");
    format!("{module}::{}", deeper.unwrap_or(function))
}

/// How many steps stand in a switch.
fn cases(switch: &Json) -> usize {
    let [_, cases, rest] = switch.list() else {
        panic!("no switch: {switch:?}")
    };
    cases.list().len() + usize::from(*rest == Json::Word("true"))
}

/// The function that is called by its name.
fn callee<'a>(call: &Json<'a>) -> Option<&'a str> {
    match call.list()[0].field("Fn")?.list()[0] {
        Json::Text(name) => Some(name),
        _ => None,
    }
}

/// The crates of the repository that a crate uses, and those that they use, by crates.txt.
fn below(text: &str, name: &str) -> BTreeSet<String> {
    let lines = text.lines().filter(|line| !line.starts_with('#'));
    let uses: BTreeMap<&str, &str> = lines
        .filter_map(|line| line.split_once(':'))
        .map(|(head, uses)| (head.split(' ').next().unwrap_or(head), uses))
        .collect();
    let mut found = BTreeSet::new();
    let mut left = vec![name];
    while let Some(one) = left.pop() {
        let used = uses[one].split_whitespace();
        let own = used.filter(|used| uses.contains_key(used));
        left.extend(own.filter(|own| found.insert(String::from(*own))));
    }
    found
}

/// The calls of the libraries that the archive is linked from.
fn compiled() -> Vec<Call> {
    let host = Path::new(env!("CARGO_MANIFEST_DIR"));
    let root = host.parent().expect("host/ has a parent");
    let list = fs::read_to_string(root.join("crates.txt")).expect("crates.txt is there");
    let mut found = Vec::new();
    for name in below(&list, "tunnel") {
        let file = format!("crates/{name}/out/rlib/{name}.rlib/toolchain/mir.json");
        let text = fs::read_to_string(root.join(&file));
        let made = |error| panic!("{file}: {error} (rt lib in crates/tunnel makes it)");
        found.extend(calls(&text.unwrap_or_else(made)));
    }
    assert!(found.len() > 100, "only {} calls were found", found.len());
    found
}

/// What a function calls, in the order of its text, but for what a `?` calls.
fn called<'a>(calls: &'a [Call], from: &str) -> Vec<&'a str> {
    let from = calls.iter().filter(|call| call.from == from);
    let to = from.map(|call| call.to.as_str());
    to.filter(|to| !ASKED.contains(to)).collect()
}

/// Callers of a function, each with its loops.
fn callers<'a>(calls: &'a [Call], to: &str) -> Vec<(&'a str, usize)> {
    let to = calls.iter().filter(|call| call.to == to);
    to.map(|call| (call.from.as_str(), call.loops)).collect()
}

/// What a function calls, and what those call, and so on.
fn reached<'a>(calls: &'a [Call], from: &'a str) -> Vec<&'a str> {
    let mut found = vec![from];
    let mut next = 0;
    while let Some(&name) = found.get(next) {
        for call in calls.iter().filter(|call| call.from == name) {
            if !found.contains(&call.to.as_str()) {
                found.push(&call.to);
            }
        }
        next += 1;
    }
    found
}

#[test]
fn a_scale_makes_its_boundary_once_before_its_degrees() {
    let calls = &compiled();
    assert_eq!(callers(calls, ATTEMPT), [(TRY_SCALES, 1)]);
    assert_eq!(
        called(calls, ATTEMPT),
        [SCALED_BOUNDARY, POINTS, TRY_DEGREES]
    );
    assert_eq!(callers(calls, SCALED_BOUNDARY), [(ATTEMPT, 0)]);
    assert_eq!(
        callers(calls, PLAIN_BOUNDARY),
        [("detector_box::box_symbol", 0)]
    );
    let simple = callers(calls, "detector_boundary::calculate_simple_boundary");
    assert_eq!(simple, [(PLAIN_BOUNDARY, 0), (SCALED_BOUNDARY, 0)]);
    // the points have the boundary, and call nothing outside their crate but the language's own
    assert_eq!(callers(calls, POINTS), [(ATTEMPT, 0)]);
    for name in reached(calls, POINTS) {
        let own = name.starts_with("detector_points::") || name.starts_with("core::int::");
        assert!(own, "{name}");
    }
    // the degrees' loop, and that nothing in it makes a boundary
    assert_eq!(callers(calls, TRY_DEGREES), [(ATTEMPT, 0)]);
    assert_eq!(callers(calls, TRY_OFFSETS), [(TRY_DEGREES, 0)]);
    assert_eq!(callers(calls, TEST_DEGREE), [(TRY_OFFSETS, 1)]);
    for name in reached(calls, TRY_DEGREES) {
        assert!(!name.starts_with("detector_boundary::"), "{name}");
    }
}

#[test]
fn a_degree_looks_up_its_sine_and_cosine_once_before_its_points() {
    let calls = &compiled();
    let of_degrees: Vec<_> = (callers(calls, ANGLE).into_iter())
        .filter(|(from, _)| reached(calls, TRY_DEGREES).contains(from))
        .collect();
    assert_eq!(of_degrees, [(TRY_OFFSETS, 1)]);
    assert_eq!(called(calls, TRY_OFFSETS), [ANGLE, TEST_DEGREE]);
    assert_eq!(callers(calls, "sines::Sines::cosine"), [(ANGLE, 0)]);
    let mut sines = callers(calls, "sines::Sines::sine");
    sines.sort_unstable();
    assert_eq!(sines, [(ANGLE, 0), ("sines::Sines::cosine", 0)]);
    // the points' loop, and that nothing in it looks up a sine
    assert_eq!(callers(calls, "detector_colours::look"), [(TEST_DEGREE, 1)]);
    for name in reached(calls, TEST_DEGREE) {
        assert!(!name.starts_with("sines::"), "{name}");
    }
}

#[test]
fn a_call_in_a_loop_is_told_from_one_before_it() {
    let call =
        |to: &str| format!(r#"{{"Call":[{{"Fn":["{to}",{{"types":[]}}]}},[],{{"local":0}}]}}"#);
    let body = [
        r#""Seq""#.into(),
        call("b::c"),
        r#""Seq","Block","Loop","Seq",{"If":{"Copy":{"local":3}}},"Skip",{"Exit":1}"#.into(),
        r#"{"Switch":[{"local":1},[[0],[1]],true]},"Skip""#.into(),
        call("d"),
        r#"{"Exit":0}"#.into(),
        call("e"),
    ];
    let mir = format!(
        r#"[["a",{{"types":[],"body":[{}]}}], ["b::c",{{"name":"\\\"]","body":["Return"]}}]]"#,
        body.join(", ")
    );
    let call = |from: &str, to: &str, loops| Call {
        from: from.to_owned(),
        to: to.to_owned(),
        loops,
    };
    let calls = calls(&mir);
    let expected = [call("a", "b::c", 0), call("a", "d", 1), call("a", "e", 0)];
    assert_eq!(calls, expected);
    assert_eq!(reached(&calls, "a"), ["a", "b::c", "d", "e"]);
    assert_eq!(callers(&calls, "d"), [("a", 1)]);
}

#[test]
fn a_call_in_a_closure_is_of_the_function_it_stands_in() {
    let function = |name: &str, calls: &[&str]| {
        let call = |to: &&str| format!(r#""Seq",{{"Call":[{{"Fn":["{to}",{{}}]}},[],{{}}]}},"#);
        let steps: String = calls.iter().map(call).collect();
        format!(r#"["{name}",{{"body":[{steps}"Return"]}}]"#)
    };
    let functions = [
        function(
            "a::b",
            &["c", ASKED[0], "core::option::Option::map", ASKED[1]],
        ),
        function("a::fn::b::map", &["d"]),
        function("a::fn::b::map+FnOnce::call_once", &["a::fn::b::map"]),
    ];
    let calls = calls(&format!("[{}]", functions.join(",")));
    let own = ["c", "core::option::Option::map", "d", "a::b"];
    assert_eq!(called(&calls, "a::b"), own);
    assert_eq!(callers(&calls, "d"), [("a::b", 1)]);
    assert!(reached(&calls, "a::b").contains(&"d"));
    assert_eq!(holder("a::fn::B::c::any+2+FnMut"), "a::B::c");
    assert_eq!(holder("a::fn::b::fn::map::any"), "a::b");
}

#[test]
fn crates_below_are_found() {
    let text = "# a: comment\na:\nb: a std\nc staticlib: b io\nd: c\n";
    let names = |found: &[&str]| found.iter().map(|name| String::from(*name)).collect();
    assert_eq!(below(text, "c"), names(&["a", "b"]));
    assert_eq!(below(text, "a"), names(&[]));
}
