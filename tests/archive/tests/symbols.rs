//! What the archive has and needs, as the compiler's own tools list it.

use std::collections::BTreeSet;

use archive::header::Header;
use archive::listing;

/// The names that nm lists under some of its letters.
fn names(words: &[&str]) -> BTreeSet<String> {
    let text = listing("nm", words);
    let last = |line: &str| line.split_whitespace().last().map(str::to_string);
    let lines = text.lines().filter(|line| !line.ends_with(':'));
    lines.filter_map(last).collect()
}

#[test]
fn memcpy_and_memset_are_all_that_it_needs() {
    let needed = names(&["--undefined-only"]);
    assert_eq!(needed, ["memcpy", "memset"].map(str::to_string).into());
}

#[test]
fn it_has_the_header_s_functions_and_no_other_name() {
    let exported = names(&["--defined-only", "--extern-only"]);
    let declared = Header::read().functions().into_keys();
    let declared = declared.map(|name| format!("gasplan_{name}")).collect();
    assert_eq!(exported, declared);
}

/// No variable, so no state: nothing in the archive can be written.
#[test]
fn it_has_no_variables() {
    let text = listing("objdump", &["-h", "-w"]);
    let sections: Vec<&str> = text.lines().filter(|line| line.contains("ALLOC")).collect();
    assert!(sections.len() > 6, "{text}");
    for section in sections {
        let size = section.split_whitespace().nth(2).expect(section);
        let empty = size.bytes().all(|digit| digit == b'0');
        assert!(empty || section.contains("READONLY"), "{section}");
    }
}

/// What compilers take where they may go beyond SSE2.
const LATER: [&str; 24] = [
    "popcnt", "lzcnt", "tzcnt", "andn", "bextr", "blsi", "blsmsk", "blsr", "mulx", "rorx", "sarx",
    "shlx", "shrx", "movbe", "pshufb", "pinsrd", "pinsrq", "pextrd", "pextrq", "pcmpeqq",
    "pcmpgtq", "pmulld", "ptest", "pblendw",
];

/// Every x86-64 machine has SSE2.
#[test]
fn it_runs_on_every_machine_of_its_kind() {
    let text = listing("objdump", &["-d", "--no-show-raw-insn"]);
    assert!(text.contains("file format elf64-x86-64"));
    assert!(text.contains("%xmm0"), "registers are named so");
    for wider in ["%ymm", "%zmm"] {
        assert!(!text.contains(wider), "{wider}");
    }
    let used: BTreeSet<&str> = text.split_whitespace().collect();
    assert!(used.contains("cmp"), "instructions are listed so");
    for later in LATER {
        assert!(!used.contains(later), "{later}");
    }
}

/// Only distances stand in it, so it can be placed anywhere.
#[test]
fn it_has_no_absolute_address() {
    let text = listing("objdump", &["-r"]);
    let words = text.split_whitespace();
    let kinds: BTreeSet<&str> = words.filter(|word| word.starts_with("R_X86_64_")).collect();
    assert_eq!(kinds, ["R_X86_64_PC32", "R_X86_64_PLT32"].into());
}
