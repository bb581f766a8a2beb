//! The frames of the archive's functions, read from its machine code by `objdump`.

use std::collections::{BTreeMap, BTreeSet};
use std::process::Command;

/// The bytes of a pushed register or a return address.
const WORD: usize = 8;

/// What the archive takes from the C library. Their own stack is not counted.
const OUTSIDE: [&str; 2] = ["memcpy", "memset"];

/// What a function takes from the stack, and the functions that it calls.
#[derive(Default)]
pub struct Function {
    frame: usize,
    calls: BTreeSet<String>,
}

impl Function {
    /// Adds an instruction, with the name that its relocation has. One that moves the stack pointer in
    /// another way, or goes to a computed place, is a failure.
    fn add(&mut self, instruction: &str, relocation: Option<&str>) {
        let (word, operands) = instruction.split_once(' ').unwrap_or((instruction, ""));
        let operands = operands.trim();
        if word == "call" || word.starts_with('j') {
            assert!(!operands.contains('*'), "{instruction}");
            // A jump without a relocation stays in its function.
            let own = operands.split(['<', '+', '>']).nth(1);
            let target = relocation.or(own.filter(|_| word == "call"));
            self.calls.extend(target.map(String::from));
        } else if word.starts_with("push") {
            self.frame += WORD;
        } else if word == "sub" && operands.ends_with(",%rsp") {
            self.frame += constant(operands);
        } else {
            let moves = operands.ends_with("%rsp") && !["add", "cmp"].contains(&word);
            assert!(!moves && word != "enter", "{instruction}");
        }
    }
}

/// The number of `$0x1f,%rsp`.
fn constant(operands: &str) -> usize {
    let digits = operands
        .strip_prefix("$0x")
        .and_then(|rest| rest.strip_suffix(",%rsp"));
    let number = digits.and_then(|digits| usize::from_str_radix(digits, 16).ok());
    number.unwrap_or_else(|| panic!("the stack pointer goes down by {operands}"))
}

/// The function that a relocation names: `R_X86_64_PLT32 .text.f-0x4` names `f`.
fn relocation(line: &str) -> Option<&str> {
    let (_, name) = line.split_once("R_X86_64_")?;
    let name = name.split_whitespace().nth(1)?;
    let name = name.strip_prefix(".text.").unwrap_or(name);
    Some(name.strip_suffix("-0x4").unwrap_or(name))
}

/// The functions of a listing. A frame is the sum of all that the function pushes and subtracts anywhere,
/// so it is never too small.
fn read(listing: &str) -> BTreeMap<String, Function> {
    let mut functions = BTreeMap::new();
    let mut name = String::new();
    let mut lines = listing.lines().peekable();
    while let Some(line) = lines.next() {
        if let Some(head) = line.strip_suffix(">:") {
            name = head.split_once('<').expect("a name").1.to_string();
        } else if let Some((_, instruction)) = line.split_once(":\t") {
            let function: &mut Function = functions.entry(name.clone()).or_default();
            let next = lines.peek().copied().and_then(relocation);
            function.add(instruction.trim(), next);
        }
    }
    functions
}

/// The functions of the archive.
pub fn functions() -> BTreeMap<String, Function> {
    let listed = Command::new("objdump")
        .args(["-d", "-r", "--no-show-raw-insn"])
        .arg(env!("CARD_ARCHIVE"))
        .output()
        .expect("objdump runs");
    assert!(listed.status.success(), "{}", listed.status);
    read(&String::from_utf8(listed.stdout).expect("text"))
}

/// The deepest stack of a call, from its return address on. A function that calls itself is a failure.
pub fn depth(functions: &BTreeMap<String, Function>, name: &str) -> usize {
    below(functions, name, &mut Vec::new())
}

/// The same under the functions that are `open`.
fn below<'a>(
    functions: &'a BTreeMap<String, Function>,
    name: &'a str,
    open: &mut Vec<&'a str>,
) -> usize {
    assert!(!open.contains(&name), "{name} calls itself");
    let Some(function) = functions.get(name) else {
        assert!(OUTSIDE.contains(&name), "{name} is not in the archive");
        return WORD;
    };
    open.push(name);
    let calls = function.calls.iter();
    let deepest = calls.map(|call| below(functions, call, open)).max();
    open.pop();
    WORD + function.frame + deepest.unwrap_or(0)
}

#[test]
fn a_listing_is_read() {
    let functions = read(
        "\
0000000000000000 <a::b>:
   0:\tpush   %rbp
   1:\tsub    $0x20,%rsp
   5:\tcall   a <a::b+0xa>
\t\t\t6: R_X86_64_PLT32\t.text.c-0x4
   a:\tadd    $0x20,%rsp
   e:\tjne    5 <a::b+0x5>
  10:\tret

0000000000000000 <c>:
   0:\tjmp    5 <c+0x5>
\t\t\t1: R_X86_64_PLT32\tmemcpy-0x4
",
    );
    assert_eq!(depth(&functions, "c"), 8 + 8);
    assert_eq!(depth(&functions, "a::b"), 8 + 8 + 0x20 + 16);
}

#[test]
#[should_panic(expected = "f calls itself")]
fn a_function_that_calls_itself_is_found() {
    let functions = read("0000000000000000 <f>:\n   0:\tcall   0 <f>\n");
    depth(&functions, "f");
}

#[test]
#[should_panic(expected = "and    $0xfffffffffffffff0,%rsp")]
fn a_stack_pointer_that_is_moved_otherwise_is_found() {
    read("0000000000000000 <f>:\n   0:\tand    $0xfffffffffffffff0,%rsp\n");
}
