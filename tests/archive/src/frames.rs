//! The longest chain of frames below each function of an archive, from its machine code.
//!
//! A frame is what a function pushes, what it takes off the stack pointer, what it uses below that, and its return
//! address. Whatever else would move the stack pointer, an indirect call and a cycle of calls are refused. Jumps through
//! a register are those of jump tables, within their function: nothing in the library has the address of a function.

use std::collections::BTreeMap;

/// The C library's, whose own frames are not counted.
const OUTSIDE: [&str; 2] = ["memcpy", "memset"];
const RETURN_ADDRESS: usize = 8;

#[derive(Debug, Default)]
struct Function {
    frame: usize,
    below: usize,
    calls: Vec<String>,
    /// A call has been read, and not yet which function it calls.
    calling: bool,
}

/// The functions of an archive by name.
pub struct Frames(BTreeMap<String, Function>);

impl Frames {
    /// Reads what `objdump -dr --no-show-raw-insn` lists.
    ///
    /// # Errors
    /// A form that is not known.
    pub fn parse(listing: &str) -> Result<Frames, String> {
        let mut functions: BTreeMap<String, Function> = BTreeMap::new();
        let mut name = String::new();
        for line in listing.lines().map(str::trim) {
            if let Some(found) = head(line) {
                name = found.to_string();
                functions.entry(name.clone()).or_default();
            } else if let Some(function) = functions.get_mut(&name) {
                read_line(function, line).map_err(|why| format!("{name}: {why}: {line}"))?;
            }
        }
        Ok(Frames(functions))
    }

    /// The most bytes below the stack pointer of the caller, arguments on the stack left out.
    ///
    /// # Errors
    /// A function that is not there, or a cycle of calls.
    pub fn longest(&self, name: &str) -> Result<usize, String> {
        self.chain(name, &mut Vec::new())
    }

    fn chain(&self, name: &str, above: &mut Vec<String>) -> Result<usize, String> {
        if OUTSIDE.contains(&name) {
            return Ok(RETURN_ADDRESS);
        }
        let function = self.0.get(name).ok_or(format!("no function {name}"))?;
        if above.iter().any(|one| one == name) {
            return Err(format!("{name} calls itself"));
        }
        above.push(name.to_string());
        let mut deepest = function.below;
        for callee in &function.calls {
            deepest = deepest.max(self.chain(callee, above)?);
        }
        above.pop();
        Ok(RETURN_ADDRESS + function.frame + deepest)
    }
}

/// `0000000000000000 <NAME>:`
fn head(line: &str) -> Option<&str> {
    let (address, rest) = line.split_once(" <")?;
    let hexadecimal = address.bytes().all(|byte| byte.is_ascii_hexdigit());
    rest.strip_suffix(">:").filter(|_| hexadecimal)
}

/// An instruction, or a relocation: which function the instruction above calls, or what else it names.
fn read_line(function: &mut Function, line: &str) -> Result<(), &'static str> {
    let Some((_, text)) = line.split_once(":\t").or(line.split_once(": ")) else {
        return Ok(());
    };
    let (word, operands) = text.split_once(char::is_whitespace).unwrap_or((text, ""));
    let operands = operands.trim();
    let called = word == "R_X86_64_PLT32";
    if function.calling && !called {
        return Err("a call before it that names no function");
    }
    function.calling = word == "call";
    match word {
        _ if called => function.calls.push(callee(operands)?),
        _ if word.starts_with("R_") && operands.starts_with(".text.") => {
            return Err("the address of a function");
        }
        "push" => function.frame += 8,
        "cmp" | "test" => {}
        "sub" if operands.ends_with(",%rsp") => function.frame += taken(immediate(operands)?),
        "add" if operands.ends_with(",%rsp") => function.frame += taken(-immediate(operands)?),
        "enter" | "leave" => return Err("a frame of another kind"),
        _ if operands.ends_with(",%rsp") || operands == "%rsp" => {
            return Err("a stack pointer that moves");
        }
        _ => {}
    }
    function.below = function.below.max(below(operands)?);
    Ok(())
}

/// `.text.NAME-0x4` or `NAME-0x4`
fn callee(operands: &str) -> Result<String, &'static str> {
    let name = operands.strip_suffix("-0x4");
    let name = name.ok_or("a call into the middle")?;
    Ok(name.strip_prefix(".text.").unwrap_or(name).to_string())
}

/// `$0x478,%rsp`; negative numbers are written as those of 64 bits.
fn immediate(operands: &str) -> Result<i64, &'static str> {
    let number = operands
        .strip_prefix("$0x")
        .and_then(|it| it.split(',').next());
    let number = number.and_then(|it| u64::from_str_radix(it, 16).ok());
    number.map(|it| it as i64).ok_or("no number of bytes")
}

/// What is given back does not count.
fn taken(bytes: i64) -> usize {
    usize::try_from(bytes).unwrap_or(0)
}

/// How far below the stack pointer an operand reaches: 0x18 in `-0x18(%rsp)`.
fn below(operands: &str) -> Result<usize, &'static str> {
    let Some((before, _)) = operands.split_once("(%rsp") else {
        return Ok(0);
    };
    let offset = before.rsplit([',', ' ', '*']).next().unwrap_or("");
    match offset.strip_prefix("-0x") {
        Some(number) => usize::from_str_radix(number, 16).map_err(|_| "no offset"),
        None => Ok(0),
    }
}
