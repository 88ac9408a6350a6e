//! The stack that each call of our library can take, computed from its object code, beside what was measured.
//!
//!     stack DISASSEMBLY MEASURED ENOUGH
//!
//! DISASSEMBLY is what `objdump -t -d -r --no-show-raw-insn` prints of the library. MEASURED has a line for each call: its name and
//! the bytes that it took on each input, or - where it does not take one. bench/stack makes both, and says what the
//! columns are. ENOUGH is what the header says is enough. Prints a table, and why; the status is 1 where a call took more
//! than its bound, or its bound is more than enough.
//!
//! A function's code is followed along every jump, with the bytes between the stack pointer and the caller's: what was
//! pushed and taken off, the return address among it. Whatever else changes the stack pointer ends the program. A function
//! needs the most that it has at one of its calls and what the called one needs there; beneath what it has itself the
//! x86-64 convention leaves it 128 bytes.
//!
//! Functions that call one another are a cycle. Each of its calls hands down a depth that is left, from 32 to 0, and of one
//! function no two that are on the stack have the same, since the depth falls from a frame to the frames in it, and a
//! frame has one attribute at most. So each function of a cycle is there 33 times at most, and all but the last of them are
//! at a call within the cycle.

use std::collections::{BTreeMap, BTreeSet};
use std::process::ExitCode;

/// Depths that can be left: 32 to 0.
const TIMES: usize = 33;
/// What the x86-64 convention lets a function use beneath its stack pointer.
const BENEATH: usize = 128;

/// A function's section and offset.
type Place = (String, u64);

#[derive(Default)]
struct Function {
    name: String,
    code: BTreeMap<u64, Step>,
    /// The most bytes that it has at a call of a function, and anywhere.
    calls: BTreeMap<Place, usize>,
    most: usize,
}

struct Step {
    text: String,
    /// The function that a call or jump is to, by a relocation.
    to: Option<Place>,
}

fn fail(why: String) -> ! {
    eprintln!("bench/stack: {why}");
    std::process::exit(2);
}

fn hex(text: &str) -> Option<u64> {
    u64::from_str_radix(text.trim_start_matches("0x"), 16).ok()
}

/// The functions, and the exported names.
fn read(text: &str) -> (BTreeMap<Place, Function>, BTreeMap<String, Place>) {
    let mut functions: BTreeMap<Place, Function> = BTreeMap::new();
    let mut exports = BTreeMap::new();
    let mut sections = BTreeMap::new();
    let (mut section, mut at) = (String::new(), None);
    for line in text.lines() {
        let words: Vec<&str> = line.split_whitespace().collect();
        if let Some(name) = line.strip_prefix("Disassembly of section ") {
            section = name.trim_end_matches(':').to_string();
            at = None;
        } else if words.len() == 6 && words[2] == "F" {
            // a symbol: value, g or l, F, section, size, name
            let place = (words[3].to_string(), hex(words[0]).unwrap());
            if words[1] == "g" {
                exports.insert(words[5].to_string(), place.clone());
            }
            sections.insert(words[5].to_string(), place);
        } else if line.ends_with(">:") {
            let (value, name) = line.split_once(" <").unwrap();
            at = Some((section.clone(), hex(value).unwrap()));
            let name = name.trim_end_matches(">:").to_string();
            functions.insert(at.clone().unwrap(), Function { name, ..Function::default() });
        } else if words.len() >= 3 && words[1].starts_with("R_X86_64_") {
            // a relocation of the instruction above
            if let Some(f) = at.as_ref().and_then(|a| functions.get_mut(a)) {
                // counted from the four bytes that it is written to
                let target = words[2].strip_suffix("-0x4").unwrap_or("the middle of a function");
                let place = sections.get(target).cloned().unwrap_or((target.to_string(), 0));
                f.code.values_mut().next_back().unwrap().to = Some(place);
            }
        } else if let (Some(a), Some((value, step))) = (&at, line.split_once(":\t")) {
            if let Some(value) = hex(value.trim()) {
                let step = step.split('#').next().unwrap().trim().to_string();
                functions.get_mut(a).unwrap().code.insert(value, Step { text: step, to: None });
            }
        }
    }
    (functions, exports)
}

impl Function {
    fn wrong(&self, at: u64, why: &str) -> ! {
        fail(format!("{} at {at:x}, `{}`: {why}", self.name, self.code[&at].text))
    }

    /// Follows the code; `own` is where the function is.
    fn follow(&mut self, own: &Place) {
        let first = own.1;
        let mut have: BTreeMap<u64, usize> = BTreeMap::new();
        let mut to_do = vec![(first, 8)];
        let mut tables: BTreeSet<usize> = BTreeSet::new();
        loop {
            let Some((at, bytes)) = to_do.pop() else {
                // behind a jump by a table: what nothing else leads to
                let Some(at) = self.code.keys().copied().find(|a| !have.contains_key(a) && self.meant(*a)) else {
                    break;
                };
                let (1, Some(bytes)) = (tables.len(), tables.first()) else { self.wrong(at, "nothing leads here") };
                to_do.push((at, *bytes));
                continue;
            };
            match have.get(&at) {
                Some(b) if *b == bytes => continue,
                Some(_) => self.wrong(at, "reached with two heights of the stack"),
                None => {}
            }
            have.insert(at, bytes);
            self.most = self.most.max(bytes);
            let next = self.code.range(at + 1..).next().map(|(a, _)| *a);
            let step = &self.code[&at];
            let (op, rest) = step.text.split_once(char::is_whitespace).unwrap_or((&step.text, ""));
            let rest = rest.trim();
            let number = || rest.strip_prefix('$').and_then(|r| hex(r.split(',').next()?)).map(|n| n as usize);
            // a place in this function, unless a relocation says another
            let local = || step.to.is_none().then(|| hex(rest.split(' ').next().unwrap())).flatten();
            let sets_pointer = rest.ends_with(",%rsp") || rest == "%rsp";
            let after = match op {
                "push" => bytes + 8,
                "pop" if bytes >= 16 && rest != "%rsp" => bytes - 8,
                "sub" if sets_pointer => bytes.wrapping_add(number().unwrap_or_else(|| self.wrong(at, "no number"))),
                "add" if sets_pointer => bytes.wrapping_sub(number().unwrap_or_else(|| self.wrong(at, "no number"))),
                "cmp" | "test" => bytes,
                "ret" => {
                    if bytes != 8 {
                        self.wrong(at, "returns with something left");
                    }
                    continue;
                }
                "call" => {
                    let to = step.to.clone().or_else(|| Some((own.0.clone(), local()?)));
                    let Some(to) = to else { self.wrong(at, "calls by an address") };
                    let most = self.calls.entry(to).or_insert(0);
                    *most = (*most).max(bytes);
                    bytes
                }
                "jmp" if rest.starts_with('*') => {
                    tables.insert(bytes);
                    continue;
                }
                _ if op.starts_with('j') => {
                    match (&step.to, local()) {
                        // in place of a call and a return
                        (Some(to), _) => {
                            let most = self.calls.entry(to.clone()).or_insert(0);
                            *most = (*most).max(bytes - 8);
                        }
                        (None, Some(to)) if self.code.contains_key(&to) => to_do.push((to, bytes)),
                        _ => self.wrong(at, "jumps to where there is no instruction"),
                    }
                    if op == "jmp" {
                        continue;
                    }
                    bytes
                }
                "ud2" | "hlt" => continue,
                _ if sets_pointer
                    || op == "leave"
                    || op == "enter"
                    || op.starts_with("xchg") && rest.contains("%rsp") =>
                {
                    self.wrong(at, "what it does to the stack is not known")
                }
                _ => bytes,
            };
            match next {
                Some(n) => to_do.push((n, after)),
                None => self.wrong(at, "the code goes on behind its end"),
            }
        }
    }

    /// Whether an instruction is one: what fills up to the next place that is jumped to is none.
    fn meant(&self, at: u64) -> bool {
        let text = &self.code[&at].text;
        !(text.contains("nop") || text == "int3" || text.starts_with("xchg   %ax,%ax") || text.starts_with("cs nop"))
    }
}

/// What each function needs, and the names of its cycle where it is in one.
struct Bounds<'a> {
    functions: &'a BTreeMap<Place, Function>,
    known: BTreeMap<Place, usize>,
}

impl Bounds<'_> {
    fn get(&self, place: &Place) -> &Function {
        &self.functions[place]
    }

    /// Every function that this one's calls lead to.
    fn reached(&self, from: &Place) -> BTreeSet<Place> {
        let mut all = BTreeSet::new();
        let mut to_do = vec![from.clone()];
        while let Some(p) = to_do.pop() {
            for to in self.get(&p).calls.keys() {
                if all.insert(to.clone()) {
                    to_do.push(to.clone());
                }
            }
        }
        all
    }

    fn cycle(&self, of: &Place) -> Vec<Place> {
        self.reached(of).into_iter().filter(|p| self.reached(p).contains(of)).collect()
    }

    /// What a function needs where it calls none of its cycle.
    fn outside(&mut self, place: &Place, cycle: &[Place]) -> usize {
        let f = self.get(place);
        let calls: Vec<(Place, usize)> = f.calls.iter().map(|(p, n)| (p.clone(), *n)).collect();
        let mut most = f.most + BENEATH;
        for (to, bytes) in calls {
            if !cycle.contains(&to) {
                most = most.max(bytes + self.of(&to));
            }
        }
        most
    }

    fn of(&mut self, place: &Place) -> usize {
        if let Some(n) = self.known.get(place) {
            return *n;
        }
        let cycle = self.cycle(place);
        let need = if cycle.is_empty() {
            self.outside(place, &[])
        } else {
            let within: Vec<usize> = cycle
                .iter()
                .map(|p| self.get(p).calls.iter().filter(|(to, _)| cycle.contains(to)).map(|(_, n)| *n).max().unwrap())
                .collect();
            let all: usize = within.iter().map(|n| n * TIMES).sum();
            let last: Vec<usize> = cycle.iter().map(|p| self.outside(p, &cycle)).collect();
            within.iter().zip(last).map(|(n, last)| all - n + last).max().unwrap()
        };
        self.known.insert(place.clone(), need);
        need
    }

    fn names(&self, places: &[Place]) -> String {
        let of = |p: &Place| {
            let f = self.get(p);
            let within = f.calls.iter().filter(|(to, _)| places.contains(to)).map(|(_, n)| *n).max().unwrap();
            format!("`{}` {within}", f.name)
        };
        places.iter().map(of).collect::<Vec<_>>().join(", ")
    }
}

fn main() -> ExitCode {
    let words: Vec<String> = std::env::args().skip(1).collect();
    let file = |i: usize| {
        let name = words.get(i).unwrap_or_else(|| fail("usage: stack DISASSEMBLY MEASURED ENOUGH".into()));
        std::fs::read_to_string(name).unwrap_or_else(|e| fail(format!("{name}: {e}")))
    };
    let (mut functions, exports) = read(&file(0));
    for (place, f) in &mut functions {
        f.follow(place);
    }
    for f in functions.values() {
        if let Some(to) = f.calls.keys().find(|to| !functions.contains_key(to)) {
            fail(format!("{} calls {}, which the library does not have: what that takes is not known", f.name, to.0));
        }
    }
    let enough =
        words.get(2).and_then(|w| w.parse().ok()).unwrap_or_else(|| fail("no number of bytes that are enough".into()));
    let measured = file(1);
    let mut lines = measured.lines();
    let inputs: Vec<&str> = lines.next().unwrap_or("").split('|').collect();
    let measured: BTreeMap<&str, Vec<&str>> =
        lines.filter_map(|l| l.split_once(' ')).map(|(name, rest)| (name, rest.split(' ').collect())).collect();
    if exports.is_empty() || !exports.keys().all(|name| measured.contains_key(name.as_str())) {
        fail("not every exported call was measured".into());
    }
    let mut bounds = Bounds { functions: &functions, known: BTreeMap::new() };
    println!("| call | {} | bound | most measured by it |", inputs.join(" | "));
    println!("|---|{}--:|--:|", "--:|".repeat(inputs.len()));
    let mut good = true;
    let mut cycles: BTreeSet<Vec<Place>> = BTreeSet::new();
    for (name, place) in &exports {
        let bound = bounds.of(place);
        let took = &measured[name.as_str()];
        let most: usize = took
            .iter()
            .filter_map(|t| t.parse().ok())
            .max()
            .unwrap_or_else(|| fail(format!("{name} was not measured")));
        good &= most <= bound && bound <= enough;
        let shown: Vec<&str> = took.iter().map(|t| if *t == "-" { "–" } else { t }).collect();
        println!("| `{name}` | {} | {bound} | {:.2} |", shown.join(" | "), most as f64 / bound as f64);
        for p in bounds.reached(place) {
            let cycle = bounds.cycle(&p);
            if !cycle.is_empty() {
                cycles.insert(cycle);
            }
        }
    }
    println!("\nFunctions that call one another, each at most {TIMES} times on the stack, with the bytes of one at such a call:\n");
    for cycle in &cycles {
        println!("- {}", bounds.names(cycle));
    }
    if !good {
        println!("\nA call took more than its bound, or can take more than the {enough} bytes that the header says.");
    }
    if good {
        ExitCode::SUCCESS
    } else {
        ExitCode::FAILURE
    }
}
