//! Counts, from the archive's machine code, the most stack that a call of it can take: the frames along the deepest path of calls.
//!
//! A frame is its return address, what the function pushes, and what it takes from the stack pointer. A path passes no function twice, but
//! for one that calls itself: each such call goes down one node of the tree, and the walk looks at no node deeper than 257, one below the
//! last that is accepted. Whatever else an instruction does to the stack pointer, a call through a pointer, and a cycle of several
//! functions end the program; a jump through a register is the table of a `match`, since no function here is called through a pointer.
//!
//! `OBJDUMP` names a disassembler of x86-64, else it is `objdump`.
use compare::{commands, small_stack};
use std::collections::BTreeMap;
use std::process::{exit, Command};

/// How many calls of itself a function can be in: one for each node down to depth 256, and one that is refused for its depth.
const DEPTH: usize = 257;

/// What is counted for a function of the C library (`memset`), also where its first call binds it.
const FOREIGN: usize = 4096;

/// The functions that a caller of the archive calls, and the bytes of arguments that each is passed on the stack.
const ENTRIES: [(&str, usize); 4] = [("sva_lower", 4 * 8), ("sva_tick", 6 * 8), ("sva_stretch", 0), ("sva_matches", 5 * 8)];

/// A function: the bytes of its frame, and what it calls.
#[derive(Default)]
struct Function {
    frame: usize,
    calls: Vec<String>,
}

/// What was found on the deepest path below a function: bytes, and a line for each frame.
#[derive(Clone, Default)]
struct Path {
    bytes: usize,
    lines: Vec<String>,
}

/// The disassembly of an archive, relocations between its instructions.
fn disassembly(archive: &str) -> String {
    let program = std::env::var("OBJDUMP").unwrap_or_else(|_| "objdump".to_string());
    let output = Command::new(program).args(["-dr", "--no-show-raw-insn", archive]).output().expect("a disassembler");
    assert!(output.status.success(), "{}", String::from_utf8_lossy(&output.stderr));
    String::from_utf8(output.stdout).expect("text")
}

/// The bytes that an instruction takes from the stack pointer, if it changes it.
fn taken(instruction: &str) -> usize {
    let (operation, operands) = instruction.split_once(' ').unwrap_or((instruction, ""));
    let operands = operands.trim();
    match operation {
        "push" => return 8,
        "pop" => return 0,
        _ if !operands.ends_with(",%rsp") || matches!(operation, "cmp" | "test") => return 0,
        _ => {}
    }
    let number = operands.strip_prefix("$0x").and_then(|rest| u64::from_str_radix(rest.trim_end_matches(",%rsp"), 16).ok());
    match (operation, number.map(|number| number as i64)) {
        ("sub", Some(bytes)) => usize::try_from(bytes).expect("a frame that grows"),
        ("add", Some(bytes)) => usize::try_from(-bytes).unwrap_or(0),
        _ => panic!("not understood: {instruction}"),
    }
}

/// The function that a relocation names, without its section's prefix and its addend.
fn relocated(line: &str) -> Option<String> {
    let name = line.split_whitespace().last()?;
    let name = name.rsplit_once("-0x").map_or(name, |(name, _)| name);
    Some(name.strip_prefix(".text.").unwrap_or(name).to_string())
}

/// The functions of a disassembly, by their names.
fn functions(text: &str) -> BTreeMap<String, Function> {
    let mut functions: BTreeMap<String, Function> = BTreeMap::new();
    let mut current = String::new();
    let mut lines = text.lines().peekable();
    while let Some(line) = lines.next() {
        if let Some((_, name)) = line.strip_suffix(">:").and_then(|start| start.split_once(" <")) {
            current = name.to_string();
            functions.insert(current.clone(), Function { frame: 8, calls: Vec::new() });
            continue;
        }
        let Some((address, instruction)) = line.split_once(":\t") else { continue };
        if !address.trim().bytes().all(|digit| digit.is_ascii_hexdigit()) || instruction.starts_with("R_X86_64") {
            continue;
        }
        let function = functions.get_mut(&current).expect("a function");
        let instruction = instruction.trim();
        function.frame += taken(instruction);
        let moved = lines.peek().filter(|next| next.contains("R_X86_64"));
        let local = || instruction.split_once('<').map(|(_, name)| name.trim_end_matches('>').to_string());
        match instruction.split_whitespace().next() {
            Some("call") if instruction.contains('*') => panic!("through a pointer: {instruction}"),
            Some("call") => function.calls.push(moved.map_or_else(local, |line| relocated(line)).expect("a function that is called")),
            Some("jmp") => function.calls.extend(moved.and_then(|line| relocated(line))),
            _ => {}
        }
    }
    functions
}

/// The deepest path from a function on; `above` are the functions that lead to it.
fn deepest(functions: &BTreeMap<String, Function>, name: &str, above: &mut Vec<String>) -> Path {
    let Some(function) = functions.get(name) else {
        return Path { bytes: FOREIGN, lines: vec![format!("{FOREIGN:>9}  {name}, of the C library")] };
    };
    assert!(!above.iter().any(|other| other == name), "a cycle of several functions: {above:?}");
    let times = if function.calls.iter().any(|callee| callee == name) { DEPTH } else { 1 };
    above.push(name.to_string());
    let below = function.calls.iter().filter(|callee| *callee != name).map(|callee| deepest(functions, callee, above));
    let mut path = below.max_by_key(|path| path.bytes).unwrap_or_default();
    above.pop();
    path.bytes += times * function.frame;
    path.lines
        .insert(0, if times == 1 { format!("{:>9}  {name}", function.frame) } else { format!("{times} * {:>3}  {name}", function.frame) });
    path
}

/// The most that each function of the header can take, and that none takes more than is promised.
fn count(archive: &str) {
    let functions = functions(&disassembly(archive));
    let promised = small_stack::promised();
    let mut most = 0;
    for (entry, arguments) in ENTRIES {
        assert!(functions.contains_key(entry), "no {entry} in {archive}");
        let path = deepest(&functions, entry, &mut Vec::new());
        println!("{entry}\n{arguments:>9}  arguments\n{}\n{:>9}  together", path.lines.join("\n"), arguments + path.bytes);
        most = most.max(arguments + path.bytes);
    }
    println!("at most {most} of {promised} promised");
    if promised < most {
        exit(1);
    }
}

fn main() {
    let words = commands::words("usage: frames [ARCHIVE | --help]", |words| words.len() < 2);
    let archive = words.first().cloned().unwrap_or_else(|| "../target/staticlib/libsva_c.a".to_string());
    commands::run(move || count(&archive));
}
