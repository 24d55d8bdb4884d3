//! The build script on the hard cases of its input.

#[allow(dead_code)]
#[path = "../build/constants.rs"]
mod constants;
#[allow(dead_code)]
#[path = "../build/contracts.rs"]
mod contracts;
#[allow(dead_code)]
#[path = "../build/decisions.rs"]
mod decisions;
#[allow(dead_code)]
#[path = "../build/definitions.rs"]
mod definitions;
#[allow(dead_code)]
#[path = "../build/face.rs"]
mod face;
#[allow(dead_code)]
#[path = "../build/members.rs"]
mod members;
#[allow(dead_code)]
#[path = "../build/methods.rs"]
mod methods;
#[path = "../build/strip/mod.rs"]
mod strip;
#[allow(dead_code)]
#[path = "../build/zones.rs"]
mod zones;

use definitions::Definitions;
use std::fs;
use std::path::Path;
use strip::{Edits, Fault, Kind, Options, Source, translated};
use zones::Zones;

fn source(text: &str) -> Result<Source, Fault> {
    Source::new(Path::new("cal_date/src/lib.rt").to_path_buf(), "cal_date", text.to_string())
}

const OPTIONS: Options = Options { crates: &["cal_date", "cal_units"], standard: "core", tests: None, more: None };

fn translation(text: &str) -> String {
    translated(&source(text).unwrap(), &OPTIONS).unwrap()
}

/// Source, and the same text in Rust.
const TRANSLATIONS: &[(&str, &str)] = &[
    // Clauses and ghosts become comments.
    (
        "fn f() -> u8\n    ensures value { result ≡ 1 }\n{\n    1\n}\n",
        "fn f() -> u8\n    /*ensures value { result ≡ 1 }*/\n{\n    1\n}\n",
    ),
    (
        "fn f(n: u8)\n    requires { n < 9 }\n    // Why.\n    ensures { { 1 } }\n{\n}",
        "fn f(n: u8)\n    /*requires { n < 9 }*/\n    // Why.\n    /*ensures { { 1 } }*/\n{\n}",
    ),
    ("ghost use Rattle.std.{◌≡◌, ℕ};\nuse std::fmt;", "/*ghost use Rattle.std.{◌≡◌, ℕ};*/\nuse core::fmt;"),
    ("trait T {\n    ghost a: { ℕ };\n    fn f();\n}", "trait T {\n    /*ghost a: { ℕ };*/\n    fn f();\n}"),
    ("struct S {\n    ghost a: { ℕ },\n    b: u8,\n}", "struct S {\n    /*ghost a: { ℕ },*/\n    b: u8,\n}"),
    // Braces in strings and characters of clauses and of code.
    ("fn f() ensures { codes \"}{\" } { g('}', \"}\", b'{') }", "fn f() /*ensures { codes \"}{\" }*/ { g('}', \"}\", b'{') }"),
    ("fn f() ensures { c '}' x' y'' } {}", "fn f() /*ensures { c '}' x' y'' }*/ {}"),
    ("fn f() { g('\\'', '\\\\', '\\u{7d}', \"\\\"{\") }", "fn f() { g('\\'', '\\\\', '\\u{7d}', \"\\\"{\") }"),
    ("fn f<'a>(x: &'a str) -> &'a str { x }", "fn f<'a>(x: &'a str) -> &'a str { x }"),
    // Raw strings, and names that begin like one.
    (
        "fn f() { g(r\"\\\", r#\"\"{\"#, br##\"\"#}\"##, b\"}\", c\"{\") }",
        "fn f() { g(r\"\\\", r#\"\"{\"#, br##\"\"#}\"##, b\"}\", c\"{\") }",
    ),
    ("fn f(r: u8, b: u8) { r; b; r#mod(br) }", "fn f(r: u8, b: u8) { r; b; r#mod(br) }"),
    // Comments, nested ones too, keep what looks like source.
    ("// ensures { x\nfn f() { /* { ensures { /* } */ */ }", "// ensures { x\nfn f() { /* { ensures { /* } */ */ }"),
    ("/// Requires { a brace.\nfn f() {} //! }", "/// Requires { a brace.\nfn f() {} //! }"),
    // Nested blocks and words in which keywords stand.
    ("fn f() { if a { b({ c }) } else { ensures_all() } }", "fn f() { if a { b({ c }) } else { ensures_all() } }"),
    // Paths get the module of their crate.
    ("use crate::a::B;\nuse cal_units::C;", "use crate::cal_date::a::B;\nuse crate::cal_units::C;"),
    ("pub(crate) fn f() -> a::std::B { x.cal_units }", "pub(crate) fn f() -> a::std::B { x.cal_units }"),
    // Casts that are newer than the oldest supported Rust.
    ("fn f() { -a.b(c.d()).cast_signed() + 1 }", "fn f() { -crate::signs::Bits(a.b(c.d())).into_signed() + 1 }"),
    (
        "fn f() { match x\n    .cast_unsigned()\n    .f(y[1].cast_unsigned()) {} }",
        "fn f() { match crate::signs::Bits(x\n    ).into_unsigned()\n    .f(crate::signs::Bits(y[1]).into_unsigned()) {} }",
    ),
    (
        "fn f() { return cal_units::f(1).cast_signed(); }",
        "fn f() { return crate::signs::Bits(crate::cal_units::f(1)).into_signed(); }",
    ),
    // What only the kit has.
    (
        "#![tactic(auto)]\n#[tactic(auto, using(a(b)))]\nfn f() {}",
        "/*#![tactic(auto)]*/\n/*#[tactic(auto, using(a(b)))]*/\nfn f() {}",
    ),
    ("#[derive(Debug, Drop)]\nstruct S;", "#[derive(Debug, /*Drop*/)]\nstruct S;"),
    ("#[derive(Drop, Debug)]\nstruct S;", "#[derive(/*Drop,*/ Debug)]\nstruct S;"),
    ("impl Model for S {\n    ghost Value = { ℕ };\n}\n", "/*impl Model for S {\n    /*ghost Value = { ℕ };*/\n}*/\n"),
    ("#[cfg(test)]\nmod tests;\nmod a;", "/*#[cfg(test)]\nmod tests;*/\nmod a;"),
    (
        "impl fmt::Display for S {\n    fn fmt<W: fmt::Write>(&self, f: &mut fmt::Formatter<W>) {}\n}",
        "impl fmt::Display for S {\n    fn fmt(&self, f: &mut fmt::Formatter<'_>) {}\n}",
    ),
    (
        "impl Clone for S {\n    fn clone(&self) -> Result<Self, AllocError> {\n        Ok(*self)\n    }\n}",
        "impl Clone for S {\n    fn clone(&self) -> Self {\n        (*self)\n    }\n}",
    ),
];

#[test]
fn source_becomes_rust() {
    for (rattle, rust) in TRANSLATIONS {
        assert_eq!(translation(rattle), *rust, "{rattle}");
    }
}

#[test]
fn lines_keep_their_numbers() {
    for (rattle, _) in TRANSLATIONS {
        assert_eq!(translation(rattle).lines().count(), rattle.lines().count(), "{rattle}");
    }
}

/// Source that isn't understood, with the line and the reason.
const REFUSALS: &[(&str, usize, &str)] = &[
    ("fn f()\n    ensures value;\n{ }", 2, "a clause without a brace"),
    ("fn f()\n    ensures (x) { }\n{ }", 2, "a clause without a brace"),
    ("fn f()\n    ensures { a { }\n{ }", 2, "a brace without an end"),
    ("fn f()\n    ensures { a { }\n{ }\npub fn g() {\n}\n}", 2, "a clause with an item in it"),
    ("fn f()\n    ensures { a }\n    ensures { b {\n    }\n{\n    let mut a = 1;\n}\n}", 3, "a clause with an item in it"),
    ("fn f()\n    ensures { a\" }\n{ }", 2, "a string without an end in a clause"),
    ("fn f()\n    ensures { a // b\n }\n{ }", 2, "a clause with a comment in it"),
    ("\nghost x;", 2, "a ghost in an unknown form"),
    ("\nghost use a.{b}", 2, "a ghost without an end"),
    ("impl A {\n    ghost a = { b }\n}", 2, "a ghost without a semicolon or comma"),
    ("fn f() {\n    g(\"a)\n}", 2, "a string without an end"),
    ("fn f() {\n    g(r#\"a\")\n}", 2, "a string without an end"),
    ("\n/* /* */", 2, "a comment without an end"),
    ("fn f() {\n    g(]\n", 1, "a bracket without an end"),
    ("fn f()\n}", 2, "a bracket that nothing opens"),
    ("fn f() {}\n}", 2, "a brace that nothing opens"),
    ("\nunion U {}", 2, "an item in an unknown form"),
    ("impl A {\n    fn f() {}\n", 3, "an item without an end"),
    ("mod a", 1, "an item without an end"),
];

#[test]
fn other_source_is_refused() {
    for (text, line, reason) in REFUSALS {
        let fault = source(text).err().unwrap_or_else(|| panic!("{text} is read"));
        assert_eq!((fault.line, fault.reason.as_str()), (*line, *reason), "{text}");
    }
}

#[test]
fn a_method_of_display_in_another_form_is_refused() {
    let text = "impl Display for S {\n    fn fmt(&self) {}\n}";
    let fault = translated(&source(text).unwrap(), &OPTIONS).unwrap_err();
    assert_eq!(fault.to_string(), "cal_date/src/lib.rt:2: a method fmt without <W: fmt::Write>");
}

#[test]
fn items_have_owners() {
    let text = "impl<T: Copy> Iterator for Walk<T> {\n    fn next() {}\n}\npub trait A: B { fn a(); }\nimpl S<'_> where S: A { const fn s() {} }";
    let items = source(text).unwrap().items;
    let functions: Vec<_> = items.iter().filter(|item| item.kind == Kind::Function).collect();
    let names: Vec<_> = functions.iter().map(|item| (item.owner.as_str(), item.name.as_str())).collect();
    assert_eq!(names, [("Iterator for Walk", "next"), ("A", "a"), ("S", "s")]);
}

fn with_face(text: &str) -> Result<String, Fault> {
    let definitions = Definitions::default();
    let change = |source: &Source, edits: &mut Edits| face::change(source, &definitions, edits);
    translated(&source(text)?, &Options { more: Some(&change), ..OPTIONS })
}

#[test]
fn a_condition_that_nobody_decided_about_is_refused() {
    let rows = [
        "\nimpl Date {\n    pub fn new(n: u8) -> Self\n        requires { n < 9 }\n    {}\n}",
        "impl Add for Other {\n    ghost can_add = { a };\n    fn add(self) {}\n}",
        "pub trait T {\n\n    fn f()\n        requires { a };\n}",
        "\n\npub fn free()\n    requires { a }\n{}",
    ];
    for text in rows {
        let fault = with_face(text).unwrap_err();
        assert!(fault.reason.starts_with("nobody decided about the condition of "), "{}", fault.reason);
        assert_eq!(fault.line, 3, "{text}");
    }
    with_face("impl Date {\n    fn private(n: u8)\n        requires { n < 9 }\n    {}\n}").unwrap();
}

#[test]
fn a_condition_becomes_a_panic() {
    let rust = with_face(
        "impl Add<D> for Date {\n    ghost can_add = { a };\n    fn add(self) -> Self {\n        self.checked().unwrap()\n    }\n}",
    );
    let rust = rust.unwrap();
    assert!(rust.contains("self.checked().expect(\"overflow adding duration to date\")"), "{rust}");
    assert!(rust.contains("#[track_caller]"), "{rust}");
    let fault = with_face("impl Add<D> for Date {\n    ghost can_add = { a };\n    fn add(self) {\n    }\n}").unwrap_err();
    assert_eq!(fault.reason, "a body that should panic without one .unwrap()");
}

#[test]
fn all_source_is_read() {
    let top = Path::new(env!("CARGO_MANIFEST_DIR"));
    let (crates, tests) = (top.join("crates"), top.join("tests/worked"));
    let names: Vec<String> = std::fs::read_dir(&crates)
        .unwrap()
        .map(|entry| entry.unwrap().file_name().into_string().unwrap())
        .filter(|name| name.starts_with("cal"))
        .collect();
    let names: Vec<&str> = names.iter().map(String::as_str).chain(["cal_values"]).collect();
    let out = Path::new(env!("CARGO_TARGET_TMPDIR")).join("all_source");
    let options = Options { crates: &names, standard: "std", tests: Some(&tests), more: None };
    let count = strip::write_crates(&crates, &out, &options).unwrap();
    assert!(count >= 200, "{count} files");
}

/// Source of a crate that has constant functions, and what it becomes.
const CONSTANTS: &[(&str, &str)] = &[
    ("u32::from(self.ordinal()) - 1", "((self.ordinal()) as u32) - 1"),
    ("u8::from(month)", "u8::from(month)"),
    ("let x = Self::f(a)?;", "let x = (match Self::f(a) { Ok(value) => value, Err(error) => return Err(error) });"),
    (
        "return a.b(c?)?.d();",
        "return (match a.b((match c { Ok(value) => value, Err(error) => return Err(error) })) { Ok(value) => value, Err(error) => return Err(error) }).d();",
    ),
    ("S { x: y?, z }", "S { x: (match y { Ok(value) => value, Err(error) => return Err(error) }), z }"),
    ("-a.b.min(c(d)) + 1", "-(match (a.b, c(d)) { (one, other) => if one < other { one } else { other } }) + 1"),
    (
        "a?.min(b)",
        "(match ((match a { Ok(value) => value, Err(error) => return Err(error) }), b) { (one, other) => if one < other { one } else { other } })",
    ),
    ("a[b].max(c)", "(match (a[b], c) { (one, other) => if one > other { one } else { other } })"),
];

#[test]
fn constant_functions_call_no_traits() {
    for (rattle, rust) in CONSTANTS {
        let text = format!("impl Date {{ pub fn year(self) -> Result<A, B> {{ {rattle} }} }}");
        let found = with_face(&text).unwrap();
        assert_eq!(found, format!("impl Date {{ #[inline] pub const fn year(self) -> Result<A, B> {{ {rust} }} }}"));
        let text = text.replace("year", "other");
        assert_eq!(with_face(&text).unwrap(), text.replace("pub fn", "#[inline] pub fn"));
    }
}

#[test]
fn large_and_cold_functions_are_not_inlined() {
    let large = format!("fn f() {{{}\n}}", "\n    a();".repeat(12));
    assert_eq!(with_face(&large).unwrap(), large);
    let cold = "#[cold]\nfn f() {}";
    assert_eq!(with_face(cold).unwrap(), cold);
}

#[test]
fn free_functions_become_methods() {
    let text = "/// Adds to `date`, like [`quarter`].\npub fn checked_add_months(date: Date, months: i32) -> Option<Date>\n    ensures { a }\n{\n}";
    let source = Source::new(Path::new("lib.rt").to_path_buf(), "cal_schedule", text.to_string()).unwrap();
    let definitions = Definitions::default();
    let change = |source: &Source, edits: &mut Edits| face::change(source, &definitions, edits);
    let rust = translated(&source, &Options { more: Some(&change), ..OPTIONS }).unwrap();
    let method = "#[inline] pub fn checked_add_months(self, months:  i32) -> Option<Date> { checked_add_months(self, months) } }";
    assert!(rust.contains("} impl Date { #[doc = \" Adds to `date`, like [`quarter`](crate::Date::quarter).\"]"), "{rust}");
    assert!(rust.ends_with(method), "{rust}");
}

#[test]
fn contracts_link_to_definitions() {
    let folder = Path::new(env!("CARGO_TARGET_TMPDIR")).join("definitions");
    for (file, text) in [
        ("cal_a/specs/Lib.antt", "pub use Rattle.cal_b.specs.Date\n"),
        ("cal_b/specs/Date.antt", "-- n is a day *of* the range.\nabbrev pub IsDate : ℕ → Type 0\nIsDate n = n ≤ last_day\n"),
    ] {
        std::fs::create_dir_all(folder.join(file).parent().unwrap()).unwrap();
        std::fs::write(folder.join(file), text).unwrap();
    }
    let definitions = Definitions::read(&folder, &["cal_a", "cal_b"]).unwrap();
    let page = "crate::definitions::cal_b::Date#IsDate";
    assert_eq!(definitions.imports(["ghost use Rattle.cal_a.specs.Date.{◌≡◌, IsDate};"].into_iter())["IsDate"], page);
    let text = "ghost use Rattle.cal_a.specs.Date.{IsDate};\nimpl Date { pub fn new() -> Self\n    // Why.\n    ensures value { IsDate result × a_b < 1 }\n    ensures closed_form { c }\n{} }";
    let change = |source: &Source, edits: &mut Edits| face::change(source, &definitions, edits);
    let rust = translated(&source(text).unwrap(), &Options { more: Some(&change), ..OPTIONS }).unwrap();
    let clause = format!("Why.\\n\\n<code>ensures value {{ [IsDate]({page}) result × a\\\\_b &lt; 1 }}</code>");
    assert!(rust.contains(&clause) && !rust.contains("<code>ensures closed"), "{rust}");
    let pages = definitions.written();
    assert!(pages.contains("n is a day \\\\*of\\\\* the range.") && pages.contains("<a id=\\\"IsDate\\\"></a>"), "{pages}");
}

#[test]
fn zones_of_a_folder() {
    let folder = std::env::temp_dir().join(format!("fotsevindre-packed-{}", std::process::id()));
    let error = |folder: &Path| Zones::read(folder).err().unwrap().to_string();
    assert!(
        error(&folder)
            .ends_with(": no time zones for the feature bundled-zones; install tzdata, or set TZDIR to a folder of zones")
    );
    for name in ["Etc", "America/Indiana", "right"] {
        fs::create_dir_all(folder.join(name)).unwrap();
    }
    fs::write(folder.join("zone.tab"), "TZif").unwrap();
    assert!(error(&folder).contains("install tzdata"));
    for name in ["Etc/GMT+1", "Etc/UTC", "UTC", "localtime", "right/UTC", "A.B"] {
        fs::write(folder.join(name), "TZif").unwrap();
    }
    fs::write(folder.join("America/Indiana/Tell_City"), "TZif2").unwrap();
    fs::write(folder.join("README"), "text").unwrap();
    let zones = Zones::read(&folder).unwrap();
    let names: Vec<&str> = zones.places.keys().map(String::as_str).collect();
    assert_eq!(names, ["America/Indiana/Tell_City", "Etc/GMT+1", "Etc/UTC", "UTC"]);
    assert_eq!(zones.places.into_values().collect::<Vec<_>>(), [(0, 5), (5, 9), (5, 9), (5, 9)]);
    assert_eq!((zones.bytes.as_slice(), zones.version.as_str()), (&b"TZif2TZif"[..], "unknown"));
    for (name, text, version) in
        [("+VERSION", "2024a\n", "2024a"), ("tzdata.zi", "# version 2025b\nZ\n", "2025b"), ("tzdata.zi", "Z", "2024a")]
    {
        fs::write(folder.join(name), text).unwrap();
        assert_eq!(Zones::read(&folder).unwrap().version, version);
    }
    fs::remove_dir_all(&folder).unwrap();
}
