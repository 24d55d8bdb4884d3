//! What a test of the kit has and a test of Rust hasn't: a parameter for access to the system, which
//! goes to what may fail, and clones that may fail.
use crate::strip::{Edits, Fault, Item, Kind, Source, TokenKind};

/// Texts that differ: the end of the path of a file, what it has once, and what takes its place.
const OTHERS: [(&str, &str, &str); 11] = [
    ("cal_values/datetime/dates.rattle", "Date::MAX.clone()?", "Date::MAX.clone()"),
    ("cal_values/datetime/dates.rattle", "kernel.clone()?", "kernel.clone()"),
    // The law `clones` is left out.
    ("cal_values/datetime/plain.rattle", "clones, hash_of,", "hash_of,"),
    ("cal_values/datetime/plain.rattle", "clones(noon, utc)?", "(noon.clone(), utc.clone())"),
    ("cal_values/time/trait_methods.rattle", "value.clone().ok()", "Some(value.clone())"),
    ("cal_values/time/trait_methods.rattle", "Clone::clone(&value).ok()", "Some(Clone::clone(&value))"),
    ("cal_values/schedule/recurrences/written.rattle", "recurrence.clone()", "Some(recurrence.clone())"),
    // Rust has these kinds, but stable versions don't let programs use them, and only 1.87 has the first.
    ("cal_values/caldate/writes.rattle", "ErrorKind::InvalidFilename", "ErrorKind::Other"),
    ("cal_values/caldate/writes.rattle", "ErrorKind::FilesystemLoop", "ErrorKind::Other"),
    ("cal_values/caldate/writes.rattle", "ErrorKind::InProgress", "ErrorKind::Other"),
    ("cal_values/caldate/writes.rattle", "ErrorKind::Uncategorized", "ErrorKind::Other"),
];

/// Changes a file.
pub fn change(source: &Source, edits: &mut Edits) -> Result<(), Fault> {
    for item in &source.items {
        if item.kind == Kind::Function && item.name == "main" {
            edits.comment_out(source.bytes(&item.all));
        } else if item.kind == Kind::Function && source.part(&(item.all.start..item.head.start)).contains("#[test]") {
            drop_parameter(source, item, edits)?;
        }
    }
    if is_test(source) {
        import_kit(source, edits);
        drop_arguments(source, edits);
    }
    for (path, kit, rust) in OTHERS {
        if source.path.ends_with(path) {
            replace_once(source, edits, kit, rust)?;
        }
    }
    Ok(())
}

fn is_test(source: &Source) -> bool {
    source.krate.ends_with("_tests") || source.path.extension().is_some_and(|extension| extension == "rattle")
}

/// Imports the names of the kit's prelude, before the first item that may come after it.
fn import_kit(source: &Source, edits: &mut Edits) {
    if let Some(item) = source.items.iter().find(|item| matches!(item.kind, Kind::Use | Kind::Module)) {
        edits.insert(source.bytes(&item.head).start, "use std::kit::*; ");
    }
}

/// Makes the parameter of a test a variable.
fn drop_parameter(source: &Source, item: &Item, edits: &mut Edits) -> Result<(), Fault> {
    let head = source.bytes(&item.head);
    let Some(body) = &item.body else {
        return Err(source.fault(head.start, "a test without a body"));
    };
    let parameter = "rt: HostRuntime";
    if let Some(at) = source.text[head.clone()].find(parameter) {
        let start = head.start + at;
        edits.replace(start..start + parameter.len(), "");
        edits.insert(source.bytes(body).start + 1, " let rt = HostRuntime;");
    }
    Ok(())
}

/// Leaves out the first argument of `expect` and `unwrap`, and names the methods of slices that
/// allocate otherwise.
fn drop_arguments(source: &Source, edits: &mut Edits) {
    let words: Vec<usize> = (0..source.tokens.len()).filter(|at| source.tokens[*at].kind != TokenKind::Blank).collect();
    for call in words.windows(3).enumerate().filter(|(_, call)| source.word(call[0]) == "." && source.word(call[2]) == "(") {
        let (place, &[_, name, _]) = call else { continue };
        match source.word(name) {
            "expect" | "unwrap" => {
                let mut end = place + 3;
                while matches!(source.word(words[end]), "&" | "$") {
                    end += 1;
                }
                if source.word(words[end]) == "rt" {
                    end += 1 + usize::from(source.word(words[end + 1]) == ",");
                    edits.comment_out(source.bytes(&(words[place + 3]..words[end - 1] + 1)));
                }
            }
            "to_vec" | "repeat" => edits.insert(source.tokens[name].range.end, "_with"),
            _ => {}
        }
    }
}

/// Replaces a text that the file has once.
fn replace_once(source: &Source, edits: &mut Edits, kit: &str, rust: &str) -> Result<(), Fault> {
    match source.text.match_indices(kit).collect::<Vec<_>>()[..] {
        [(at, _)] => edits.replace(at..at + kit.len(), rust),
        _ => return Err(source.fault(0, format!("not once {kit}"))),
    }
    Ok(())
}
