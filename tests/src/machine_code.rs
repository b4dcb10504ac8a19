//! Machine code as `objdump -dr --no-show-raw-insn` writes it, and where it takes the bits of a float: a NaN is followed
//! through the comparisons and the jumps behind them.

use std::collections::{BTreeMap, BTreeSet};

struct Instruction {
    address: u64,
    name: String,
    operands: String,
    /// the function that it calls, where the linker fills the name in
    callee: Option<String>,
}

/// The functions of an object file.
pub struct Code(BTreeMap<String, Vec<Instruction>>);

/// How many places of the code take the bits of a float, and how many of them are reached if the float is a NaN.
#[derive(Clone, Copy, PartialEq, Eq, Debug)]
pub struct Taken {
    pub all: usize,
    pub of_a_nan: usize,
}

impl Code {
    pub fn of(listing: &str) -> Code {
        let mut functions: BTreeMap<String, Vec<Instruction>> = BTreeMap::new();
        let mut current = String::new();
        for line in listing.lines() {
            if let Some(name) = line.strip_suffix(">:").and_then(|head| Some(head.split_once(" <")?.1)) {
                current = name.to_string();
            } else if let Some(callee) = relocated(line) {
                let last = functions.get_mut(&current).and_then(|code| code.last_mut());
                last.expect("an instruction stands before it").callee = Some(callee);
            } else if let Some(instruction) = instruction(line) {
                functions.entry(current.clone()).or_default().push(instruction);
            }
        }
        Code(functions)
    }

    /// A function and all that it calls, by their names.
    pub fn reached(&self, function: &str) -> BTreeSet<&str> {
        let (mut seen, mut waiting) = (BTreeSet::new(), vec![function]);
        while let Some(name) = waiting.pop() {
            if let Some((_, code)) = self.0.get_key_value(name).filter(|(name, _)| seen.insert(name.as_str())) {
                waiting.extend(code.iter().filter_map(|instruction| instruction.callee.as_deref()));
            }
        }
        seen
    }

    /// Where the bits of a float are taken in a function and in all that it calls.
    pub fn bits_taken(&self, function: &str) -> Taken {
        let mut taken = Taken { all: 0, of_a_nan: 0 };
        for code in self.reached(function).into_iter().map(|name| &self.0[name]) {
            let reached = reached_by_a_nan(code);
            let places = || code.iter().enumerate().filter(|(_, instruction)| instruction.float_taken().is_some());
            taken.all += places().count();
            taken.of_a_nan += places().filter(|(place, _)| reached.contains(place)).count();
        }
        taken
    }
}

/// `	1e: R_X86_64_PLT32	.text.name-0x4`: a function's name.
fn relocated(line: &str) -> Option<String> {
    let (_, symbol) = line.split_once(": R_X86_64_PLT32\t")?;
    let (name, _) = symbol.rsplit_once("-0x")?;
    Some(name.strip_prefix(".text.").unwrap_or(name).to_string())
}

/// `  28:	ucomiss %xmm0,%xmm1`
fn instruction(line: &str) -> Option<Instruction> {
    let (address, text) = line.split_once(":\t")?;
    let address = u64::from_str_radix(address.trim(), 16).ok()?;
    let (name, operands) = text.split_once(' ').unwrap_or((text, ""));
    Some(Instruction { address, name: name.to_string(), operands: operands.trim().to_string(), callee: None })
}

impl Instruction {
    /// The register of a float whose bits are moved to a register of whole numbers.
    fn float_taken(&self) -> Option<&str> {
        let (from, to) = self.operands.split_once(',')?;
        let whole = to.starts_with('%') && !to.starts_with("%xmm");
        (["movd", "vmovd"].contains(&&self.name[..]) && from.starts_with("%xmm") && whole).then_some(from)
    }

    /// The register of a float that is written.
    fn written(&self) -> Option<&str> {
        let to = self.operands.rsplit_once(',').map_or(&self.operands[..], |(_, to)| to);
        (to.starts_with("%xmm") && !self.name.ends_with("comiss") && self.name != "nop").then_some(to)
    }

    /// The two registers of a float's copy: from where, and to where.
    fn copied(&self) -> Option<(&str, &str)> {
        let (from, to) = self.operands.split_once(',')?;
        (["movaps", "vmovaps"].contains(&&self.name[..]) && from.starts_with("%xmm") && to.starts_with("%xmm"))
            .then_some((from, to))
    }

    fn compares(&self, registers: &BTreeSet<&str>) -> bool {
        let of = |register: &&str| self.operands.split(',').any(|operand| operand == *register);
        self.name.ends_with("comiss") && registers.iter().any(|register| of(register))
    }

    /// Whether the processor's flags are afterwards as they were.
    fn keeps_flags(&self) -> bool {
        self.name.starts_with("mov") || ["lea", "push", "pop"].contains(&&self.name[..])
    }

    fn target(&self) -> Option<u64> {
        u64::from_str_radix(self.operands.split(' ').next()?, 16).ok()
    }

    /// Whether a jump is made, and whether it can be left out; a comparison with a NaN stands before it or not.
    fn jumps(&self, behind_nan: bool) -> (bool, bool) {
        match (&self.name[..], behind_nan) {
            ("jmp", _) => (true, false),
            // not a number: below, equal and unordered all hold
            ("jb" | "jbe" | "je" | "jp", true) => (true, false),
            ("ja" | "jae" | "jne" | "jnp", true) => (false, true),
            (name, _) => (name.starts_with('j'), !["ret", "ud2"].contains(&name)),
        }
    }
}

/// Registers of floats, and those that hold nothing but a copy of one of them, which is not written over either where it has a copy.
fn with_copies<'a>(code: &'a [Instruction], taken: BTreeSet<&'a str>) -> BTreeSet<&'a str> {
    let writes = |register: &str| code.iter().filter(|instruction| instruction.written() == Some(register)).count();
    let copies = code.iter().filter_map(Instruction::copied);
    let of_them = copies.filter(|&(from, to)| taken.contains(from) && writes(to) == 1 && writes(from) <= 1);
    let of_them: BTreeSet<&str> = of_them.map(|(_, to)| to).collect();
    taken.union(&of_them).copied().collect()
}

/// The instructions of a function that can be run if the floats whose bits it takes are NaNs.
fn reached_by_a_nan(code: &[Instruction]) -> BTreeSet<usize> {
    let taken: BTreeSet<&str> = code.iter().filter_map(Instruction::float_taken).collect();
    let floats = with_copies(code, taken);
    let (mut seen, mut waiting) = (BTreeSet::new(), vec![(0, false)]);
    while let Some((place, behind_nan)) = waiting.pop() {
        let Some(instruction) = code.get(place).filter(|_| seen.insert((place, behind_nan))) else {
            continue;
        };
        let (jumps, goes_on) = instruction.jumps(behind_nan);
        let flags = instruction.compares(&floats)
            || behind_nan && (instruction.keeps_flags() || instruction.name.starts_with('j'));
        if jumps && instruction.callee.is_none() {
            let target = instruction.target().expect("a jump has its target");
            waiting.push((code.partition_point(|other| other.address < target), flags));
        }
        if goes_on {
            waiting.push((place + 1, flags));
        }
    }
    seen.into_iter().map(|(place, _)| place).collect()
}

#[cfg(test)]
mod tests {
    use super::{Code, Taken};

    const LISTING: &str = "
0000000000000000 <call>:
   0:\tmovss  %xmm0,0x18(%rsp)
   6:\tcall   b <call+0xb>
\t\t\t7: R_X86_64_PLT32\t.text.a::taken-0x4
   b:\tret

0000000000000000 <a::taken>:
   0:\tmovss  0x4(%rsi),%xmm0
   6:\tcmp    $0x1,%eax
   9:\tje     20 <a::taken+0x20>
   b:\txorps  %xmm1,%xmm1
   e:\tucomiss %xmm0,%xmm1
  11:\tmov    $0xd01,%eax
  16:\tjae    1b <a::taken+0x1b>
  18:\tucomiss %xmm1,%xmm0
  1a:\tjb     20 <a::taken+0x20>
  1b:\tmovd   %xmm0,%edx
  1f:\tret
  20:\txor    %eax,%eax
  22:\tret
";

    #[test]
    fn what_is_called_is_reached() {
        let code = Code::of(LISTING);
        assert_eq!(code.reached("call").into_iter().collect::<Vec<_>>(), ["a::taken", "call"]);
        assert_eq!(code.reached("a::taken").into_iter().collect::<Vec<_>>(), ["a::taken"]);
        assert!(code.reached("another").is_empty());
    }

    #[test]
    fn no_nan_passes_two_comparisons() {
        assert_eq!(Code::of(LISTING).bits_taken("call"), Taken { all: 1, of_a_nan: 0 });
    }

    #[test]
    fn a_comparison_that_is_missing_or_of_another_register_is_told() {
        let told = Taken { all: 1, of_a_nan: 1 };
        for lost in ["ucomiss %xmm0,%xmm1", "ucomiss %xmm1,%xmm0"] {
            assert_eq!(Code::of(&LISTING.replace(lost, "nop")).bits_taken("call"), told, "{lost}");
            assert_eq!(Code::of(&LISTING.replace(lost, "ucomiss %xmm1,%xmm2")).bits_taken("call"), told, "{lost}");
        }
        assert_eq!(Code::of(&LISTING.replace("jb ", "jae")).bits_taken("call"), told, "a jump the other way");
        assert_eq!(Code::of(&LISTING.replace("mov    $0xd01", "add    $0xd01")).bits_taken("call"), told, "flags lost");
    }

    #[test]
    fn a_copy_that_is_compared_counts_as_the_float() {
        let of_a_copy = LISTING
            .replace("ucomiss %xmm0,%xmm1", "ucomiss %xmm2,%xmm1")
            .replace("ucomiss %xmm1,%xmm0", "ucomiss %xmm1,%xmm2");
        assert_eq!(Code::of(&of_a_copy).bits_taken("call"), Taken { all: 1, of_a_nan: 1 }, "no copy of it");
        let copied = of_a_copy.replace("   6:\tcmp    $0x1,%eax", "   5:\tmovaps %xmm0,%xmm2\n   6:\tcmp    $0x1,%eax");
        assert_eq!(Code::of(&copied).bits_taken("call"), Taken { all: 1, of_a_nan: 0 });
        let written_over =
            copied.replace("  11:\tmov    $0xd01,%eax", "  10:\tmovaps %xmm3,%xmm2\n  11:\tmov    $0xd01,%eax");
        assert_eq!(Code::of(&written_over).bits_taken("call"), Taken { all: 1, of_a_nan: 1 }, "another value later");
    }

    #[test]
    fn code_that_takes_no_bits_is_told() {
        assert_eq!(Code::of(&LISTING.replace("movd ", "addss")).bits_taken("call"), Taken { all: 0, of_a_nan: 0 });
    }
}
