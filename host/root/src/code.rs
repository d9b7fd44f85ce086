//! What a disassembly says of one function and of all that it calls.

use std::collections::{BTreeMap, BTreeSet};

/// The instructions of a function and the names that they refer to.
#[derive(Debug, Default)]
struct Function<'a> {
    instructions: Vec<&'a str>,
    names: BTreeSet<&'a str>,
}

/// A function with all that it calls.
#[derive(Debug, PartialEq)]
pub struct Code {
    pub functions: usize,
    pub instructions: usize,
}

/// Whether an instruction divides or takes a root, exactly or nearly.
fn divides_or_roots(instruction: &str) -> bool {
    instruction.split_whitespace().any(|word| {
        let word = word.strip_prefix('v').unwrap_or(word);
        [
            "div", "idiv", "fdiv", "fidiv", "sqrt", "fsqrt", "rcp", "rsqrt",
        ]
        .iter()
        .any(|begin| word.starts_with(begin))
    })
}

/// The name in `<name+0x12>`, `name-0x4` or `name`.
fn plain(name: &str) -> &str {
    let name = name.trim_matches(|c| c == '<' || c == '>');
    match name.rfind(['+', '-']) {
        Some(at) if name[at + 1..].starts_with("0x") => &name[..at],
        _ => name,
    }
}

/// The functions of what `objdump -d -r --no-show-raw-insn` printed.
fn functions(disassembly: &str) -> BTreeMap<&str, Function<'_>> {
    let mut functions: BTreeMap<&str, Function> = BTreeMap::new();
    let mut name = "";
    for line in disassembly.lines() {
        if let Some(header) = line.strip_suffix(">:") {
            name = header.split_once('<').map_or("", |(_, name)| name);
            functions.entry(name).or_default();
            continue;
        }
        let Some(function) = functions.get_mut(name) else {
            continue;
        };
        let Some((place, text)) = line.split_once(":\t").or_else(|| line.split_once(": ")) else {
            continue;
        };
        if !place.trim().bytes().all(|byte| byte.is_ascii_hexdigit()) {
            continue;
        }
        let text = text.split('#').next().unwrap_or(text).trim();
        if text.starts_with("R_X86_64_") {
            function
                .names
                .extend(text.split_whitespace().nth(1).map(plain));
        } else {
            function.instructions.push(text);
            function
                .names
                .extend(text.find('<').map(|at| plain(&text[at..])));
        }
    }
    functions
}

/// Follows `start` through all that it calls. An error where one of them divides or takes a root,
/// where it calls what the disassembly does not have, or where `start` is not there.
pub fn without_division(disassembly: &str, start: &str) -> Result<Code, String> {
    let functions = functions(disassembly);
    let mut reached = BTreeSet::new();
    let mut next = vec![start];
    let mut instructions = 0;
    while let Some(name) = next.pop() {
        if !reached.insert(name) {
            continue;
        }
        let Some(function) = functions.get(name) else {
            return Err(format!("{name} is no function of the library"));
        };
        instructions += function.instructions.len();
        for instruction in &function.instructions {
            if divides_or_roots(instruction) {
                return Err(format!("{name} has `{instruction}`"));
            }
            let branches = instruction.contains("call") || instruction.contains("jmp");
            if branches && instruction.contains('*') {
                return Err(format!("{name} has `{instruction}`, which leads anywhere"));
            }
        }
        // .LC names are constants.
        next.extend(
            function
                .names
                .iter()
                .filter(|name| !name.starts_with(".LC")),
        );
    }
    Ok(Code {
        functions: reached.len(),
        instructions,
    })
}

#[cfg(test)]
mod tests {
    use super::*;

    const PLAIN: &str = "
libexports.a:     file format elf64-x86-64

Disassembly of section .text.float::root:

0000000000000000 <float::root>:
   0:\tmovd   0x0(%rip),%xmm0        # 8 <float::root+0x8>
\t\t\t4: R_X86_64_PC32\t.LCPI0_0-0x4
   8:\tshr    $0x17,%esi
   b:\tjne    f <float::root+0xf>
   d:\tcall   12 <float::root+0x12>
\t\t\te: R_X86_64_PLT32\tfloat::packed-0x4
  12:\tret

Disassembly of section .text.float::packed:

0000000000000000 <float::packed>:
   0:\tret

0000000000000001 <float::exp>:
   1:\tdivsd  %xmm1,%xmm0
";

    #[test]
    fn follows_calls_and_passes_others_by() {
        assert_eq!(
            without_division(PLAIN, "float::root"),
            Ok(Code {
                functions: 2,
                instructions: 6
            })
        );
    }

    #[test]
    fn finds_a_division_or_a_root() {
        for slow in [
            "div    %ecx",
            "idivq  0x8(%rsp)",
            "divss  %xmm1,%xmm0",
            "vdivps %ymm1,%ymm2,%ymm0",
            "sqrtss %xmm0,%xmm0",
            "vsqrtsd %xmm0,%xmm0,%xmm0",
            "fsqrt",
            "rsqrtss %xmm0,%xmm0",
            "rep div %ecx",
        ] {
            let here = PLAIN.replace("shr    $0x17,%esi", slow);
            assert_eq!(
                without_division(&here, "float::root"),
                Err(format!("float::root has `{slow}`"))
            );
            let called = PLAIN.replace(
                "<float::packed>:\n   0:\t",
                &format!("<float::packed>:\n   0:\t{slow}\n   1:\t"),
            );
            assert_eq!(
                without_division(&called, "float::root"),
                Err(format!("float::packed has `{slow}`"))
            );
        }
    }

    #[test]
    fn refuses_what_it_cannot_follow() {
        let error = |text: &str| without_division(text, "float::root").unwrap_err();
        assert_eq!(
            error(&PLAIN.replace("float::root>:", "float::root_of>:")),
            "float::root is no function of the library"
        );
        assert_eq!(
            error(&PLAIN.replace("float::packed-0x4", "memcpy-0x4")),
            "memcpy is no function of the library"
        );
        for anywhere in ["call   *%rax", "notrack jmp *%rax"] {
            assert_eq!(
                error(&PLAIN.replace("shr    $0x17,%esi", anywhere)),
                format!("float::root has `{anywhere}`, which leads anywhere")
            );
        }
    }
}
