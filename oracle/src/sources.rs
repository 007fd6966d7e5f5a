//! The fixed list of sources, with the reference's answers: chosen ones first, then sources of
//! every kind from fixed seeds.

use std::collections::HashSet;

use crate::answer::answer;
use crate::gen::{self, GOOD_NUMBERS, KINDS, ODD_NUMBERS};
use crate::isa::{Field, Form, Place, Row, KEYS, REGISTERS, ROWS, SETTING};
use crate::list::{write_record, USUAL_TABLE};

/// The seeds of the made sources, for each kind.
pub(crate) const SEEDS: std::ops::Range<u64> = 1000..1120;

/// Writes the records of all sources.
pub(crate) fn write_sources(out: &mut String) {
    for source in sources() {
        let answer = answer(&source);
        assert!(answer.labels().len() <= USUAL_TABLE, "too many labels");
        out.push('\n');
        write_record(out, &source, &answer);
    }
}

/// All sources of the list, each once.
pub(crate) fn sources() -> Vec<Vec<u8>> {
    let mut all = Vec::new();
    all.extend(WORKED_EXAMPLES.iter().map(|source| source.to_vec()));
    all.extend(every_mnemonic());
    all.extend(every_register_name());
    all.extend(every_number());
    all.extend(every_range_end());
    all.extend(operand_faults());
    all.extend(numbers_and_faults());
    all.extend(LINES.iter().map(|source| source.to_vec()));
    all.extend(every_setting());
    all.extend(every_byte());
    all.extend(every_short_line());
    all.extend(every_target());
    all.extend(far_targets());
    all.extend(TARGETS.iter().map(|source| source.to_vec()));
    all.extend(RANGES.iter().map(|source| source.to_vec()));
    for kind in KINDS {
        all.extend(SEEDS.map(|seed| gen::source(kind, seed)));
    }
    let mut seen = HashSet::new();
    all.retain(|source| seen.insert(source.clone()));
    all
}

/// Document 01's examples.
const WORKED_EXAMPLES: [&[u8]; 16] = [
    b"",
    b"add r1, r2, r3",
    b"slli r1, r2, 300",
    b"beq r1, r2, 131072",
    b".config limb_bits 276",
    b".config limb_bits 15",
    b".config limb_bits 17",
    b"r1:",
    b"ADD R1, r2, r3",
    b"add a5, r1, r1",
    b"foo: bar:",
    b"r16",
    b"0xg",
    b"addi r1, r2, -9223372036854775808",
    b"addi r1, r2, 9223372036854775808",
    PROGRAM,
];

/// The program's input of document 01's examples.
pub(crate) const PROGRAM: &[u8] = b"start: ADDI a0, zero, -1 # one\n.config limb_bits 24\n\
    sw a0, 8(sp)\njal ra, 0x1FFFFE\necall\n";

/// Each mnemonic with distinct registers in its places, in several spellings.
fn every_mnemonic() -> Vec<Vec<u8>> {
    const CHOICES: [([&str; 3], &str); 4] = [
        (["r1", "r2", "r3"], "5"),
        (["t0", "a4", "ra"], "0"),
        (["r15", "r0", "r8"], "0xff"),
        (["s1", "r10", "gp"], "0b11001000"),
    ];
    let mut sources = Vec::new();
    for row in ROWS {
        for (registers, number) in CHOICES {
            sources.push(plain(&row, registers, number).into_bytes());
        }
        let line = plain(&row, ["r5", "r11", "r6"], "7");
        let split = row.mnemonic.len();
        sources.push((line[..split].to_uppercase() + &line[split..]).into_bytes());
        sources.push(format!("{}\n{}\n", row.mnemonic, line).into_bytes());
    }
    for rows in ROWS.chunks(25) {
        let lines = rows.iter().map(|row| plain(row, ["r4", "r9", "r14"], "77"));
        sources.push(lines.collect::<Vec<_>>().join("\n").into_bytes());
    }
    sources
}

/// An instruction in plain spelling; registers by place, from the left.
pub(crate) fn plain(row: &Row, registers: [&str; 3], number: &str) -> String {
    let operands = operands(row.form, registers, number);
    format!("{} {}", row.mnemonic, operands.join(" "))
        .trim_end()
        .to_string()
}

/// The operand tokens of a form; registers by place, from the left.
pub(crate) fn operands<'a>(form: Form, registers: [&'a str; 3], number: &'a str) -> Vec<&'a str> {
    let mut registers = registers.into_iter();
    let token = |place: &Place| match place {
        Place::Register => registers.next().expect("at most three registers"),
        Place::Number => number,
        Place::Mark(mark) => mark,
    };
    form.places().iter().map(token).collect()
}

/// Each register name in each place of three forms.
fn every_register_name() -> Vec<Vec<u8>> {
    let mut sources = Vec::new();
    for name in REGISTERS
        .into_iter()
        .chain(["a5", "a6", "s2", "t3", "r16", "R0", "Ra", "x0"])
    {
        sources.push(format!("xor {name}, r1, r2"));
        sources.push(format!("xor r1, {name}, r2"));
        sources.push(format!("xor r1,r2,{name}"));
        sources.push(format!("sd {name}, -8(r1)"));
        sources.push(format!("sd r1, -8({name})"));
        sources.push(format!("jal {name}, 4"));
    }
    sources.into_iter().map(String::into_bytes).collect()
}

/// Each number in each width, and as a setting.
fn every_number() -> Vec<Vec<u8>> {
    let mut sources = Vec::new();
    for number in GOOD_NUMBERS.into_iter().chain(ODD_NUMBERS) {
        sources.push(format!("addi r1, r2, {number}"));
        sources.push(format!("srai r1, r2, {number}"));
        sources.push(format!("lhu r3, {number}(r4)"));
        sources.push(format!("bltu r5, r6, {number}"));
        sources.push(format!("jal r7, {number}"));
        sources.push(format!(".config limb_bits {number}"));
        sources.push(number.to_string());
    }
    sources.into_iter().map(String::into_bytes).collect()
}

/// For each mnemonic with a number, for each key, and for what is no key: both ends of what the number
/// may be and one past them.
fn every_range_end() -> Vec<Vec<u8>> {
    let mut sources = Vec::new();
    for row in ROWS {
        let numbers = row.form.field().map(range_ends).unwrap_or_default();
        let line = |number: String| plain(&row, ["r12", "r3", "r8"], &number);
        sources.extend(numbers.into_iter().map(line));
    }
    for key in KEYS.into_iter().chain(["bogus", "LIMB_BITS", "r1", "7"]) {
        let line = |number: String| format!(".config {key} {number}");
        sources.extend(range_ends(SETTING).into_iter().map(line));
    }
    sources.into_iter().map(String::into_bytes).collect()
}

/// The ends of a field's range and one past them, in every base, with leading zeros and without; and -0.
fn range_ends(field: Field) -> Vec<String> {
    let mut ends = vec!["-0".to_string()];
    let (least, most) = field.decimals().into_inner();
    for number in [least - 1, least, most, most + 1] {
        let sign = if number < 0 { "-" } else { "" };
        let digits = number.unsigned_abs();
        ends.extend(["", "0", "0000000000000000000"].map(|zeros| format!("{sign}{zeros}{digits}")));
    }
    let most = *field.patterns().end();
    for pattern in [most, most + 1] {
        ends.extend([format!("0x{pattern:x}"), format!("0x0{pattern:X}")]);
        ends.extend(["", "00"].map(|zeros| format!("0b{zeros}{pattern:b}")));
    }
    ends
}

/// One instruction of each form with a token replaced, left out, or put in; with every two tokens
/// wrong, as the left one decides; and with a wrong count of wrong tokens, as the count decides.
fn operand_faults() -> Vec<Vec<u8>> {
    const EXAMPLES: [&str; 9] = [
        "sub", "ori", "srli", "lb", "sh", "bge", "jal", "jalr", "ebreak",
    ];
    const WRONG: [&str; 11] = ["r7", "a5", "7", ",", "(", ")", ":", "x", ".d", "R7", "$"];
    let mut lines: Vec<Vec<&str>> = Vec::new();
    for row in ROWS
        .into_iter()
        .filter(|row| EXAMPLES.contains(&row.mnemonic))
    {
        let mut good = vec![row.mnemonic];
        good.extend(operands(row.form, ["r1", "r2", "r3"], "9"));
        for at in 0..good.len() {
            lines.extend(WRONG.map(|wrong| replaced(&good, &[at], wrong)));
            lines.push([&good[..at], &good[at + 1..]].concat());
            lines.push([&good[..at], &[good[at]], &good[at..]].concat());
            for other in at + 1..good.len() {
                lines.push(replaced(&good, &[at, other], ":"));
                lines.push(replaced(&good, &[at, other], "a5"));
            }
        }
        lines.push([&good[..], &["r1"]].concat());
        lines.push([&good[..], &["$"]].concat());
        lines.push(vec![row.mnemonic, "x", "x"]);
        lines.push(
            ["l", ":"]
                .into_iter()
                .chain(replaced(&good, &[good.len() - 1], "x"))
                .collect(),
        );
    }
    lines
        .into_iter()
        .map(|tokens| tokens.join(" ").into_bytes())
        .collect()
}

/// One instruction of each form with a number that is out of every range, and another fault: a token
/// replaced or left out, to its left and to its right, or one more; and the same after a label.
fn numbers_and_faults() -> Vec<Vec<u8>> {
    const EXAMPLES: [&str; 7] = ["xori", "srai", "ld", "sb", "bgeu", "jal", "jalr"];
    let mut lines: Vec<Vec<&str>> = Vec::new();
    for row in ROWS
        .into_iter()
        .filter(|row| EXAMPLES.contains(&row.mnemonic))
    {
        let mut tokens = vec![row.mnemonic];
        tokens.extend(operands(row.form, ["r1", "r2", "r3"], "3000000"));
        for at in 0..tokens.len() {
            let wrong = ["a5", "8", ",", "x", "$"];
            lines.extend(wrong.map(|wrong| replaced(&tokens, &[at], wrong)));
            lines.push([&tokens[..at], &tokens[at + 1..]].concat());
        }
        lines.push([&tokens[..], &["x"]].concat());
        lines.push(tokens);
    }
    let after_label = |line: &Vec<&'static str>| [&["l", ":"], &line[..]].concat();
    let labelled: Vec<_> = lines.iter().map(after_label).collect();
    let lines = lines.into_iter().chain(labelled);
    lines.map(|tokens| tokens.join(" ").into_bytes()).collect()
}

fn replaced<'a>(tokens: &[&'a str], places: &[usize], by: &'a str) -> Vec<&'a str> {
    let mut tokens = tokens.to_vec();
    for place in places {
        tokens[*place] = by;
    }
    tokens
}

/// Each key at the ends of its range, and settings seen against earlier ones.
fn every_setting() -> Vec<Vec<u8>> {
    let mut sources = Vec::new();
    for key in KEYS {
        for value in (0..=35).chain([
            129,
            130,
            148,
            255,
            256,
            257,
            258,
            260,
            272,
            276,
            286,
            288,
            512 + 18,
        ]) {
            sources.push(format!(".config {key} {value}"));
            sources.push(format!(".config {key} -{value}"));
        }
    }
    // Each setting stands beside others, so that none is lost or mistaken for another.
    for (bits, data, addr) in [(16, 1, 1), (18, 2, 1), (22, 3, 2), (30, 4, 1), (26, 4, 2)] {
        sources.push(format!(
            ".config limb_bits {bits}\n.config data_limbs {data}\n.config addr_limbs {addr}\necall\n"
        ));
        sources.push(format!(
            "ecall\n.config addr_limbs {addr}\n.config data_limbs {data}\nl: ecall\n.config limb_bits {bits}"
        ));
    }
    sources.into_iter().map(String::into_bytes).collect()
}

/// Each byte alone, before, behind, within and in a comment of a line.
fn every_byte() -> Vec<Vec<u8>> {
    let mut sources = Vec::new();
    for byte in 0..128 {
        sources.push(vec![byte]);
        sources.push([b"ecall", &[byte][..]].concat());
        sources.push([&[byte][..], b"ecall\necall"].concat());
        sources.push([b"jal r1,", &[byte][..], b"5"].concat());
    }
    for byte in (0..32).chain(127..128) {
        sources.push([b"ecall #", &[byte][..], b"$\necall"].concat());
        sources.push([b"l", &[byte][..], b": ecall"].concat());
    }
    sources
}

/// Every line of one or two tokens of the small alphabet.
fn every_short_line() -> Vec<Vec<u8>> {
    let lines = |tokens| (0..gen::short_lines(tokens)).map(move |at| gen::short_line(tokens, at));
    lines(1).chain(lines(2)).collect()
}

/// For each mnemonic with a number a name in its place: the label stands on the line itself, before
/// it, behind it, in another case, or nowhere.
fn every_target() -> Vec<Vec<u8>> {
    let mut sources = Vec::new();
    for row in ROWS {
        if !row.form.places().contains(&Place::Number) {
            continue;
        }
        let line = plain(&row, ["r9", "r4", "r13"], "to");
        sources.push(format!("to: {line}"));
        sources.push(format!("to: ecall\necall\n{line}\necall\n"));
        sources.push(format!("ecall\n{line}\nebreak\necall\nto: ecall\n"));
        sources.push(format!("ecall\n{line}\nTo: ecall\n"));
        sources.push(format!("too:\nt:\n{line}"));
    }
    sources.into_iter().map(String::into_bytes).collect()
}

/// The words between a label and the instruction that names it: as many as a branch goes over, and
/// one more, either way.
fn far_targets() -> Vec<Vec<u8>> {
    let mut sources = Vec::new();
    for row in ROWS {
        if !matches!(row.form, Form::Branch | Form::Jump) {
            continue;
        }
        let line = plain(&row, ["r9", "r4", "r13"], "far");
        for words in [16_382, 16_383] {
            let between = "ecall\n".repeat(words);
            sources.push(format!("{line}\n{between}far: ebreak"));
            sources.push(format!("far: ebreak\n{between}{line}\n"));
        }
        let between = "ecall\n".repeat(16_384);
        sources.push(format!("ebreak\nfar:\n{between}\n{line}\nebreak"));
        sources.push(format!("far: ebreak\n{between}{line}\n"));
    }
    sources.into_iter().map(String::into_bytes).collect()
}

/// Chosen sources: lines and their ends, labels, settings, directives, long lines.
const LINES: &[&[u8]] = &[
    // Lines and their ends.
    b"\n",
    b"\n\n\n",
    b"\r\n",
    b"\r",
    b" ",
    b"\t",
    b" \t\x0b\x0c\r ",
    b"#",
    b"##",
    b" # x",
    b"#\n#\n",
    b"ecall#",
    b"ecall #",
    b"ecall # ebreak",
    b"ecall#ebreak\nebreak",
    b"#ecall\n",
    b"ecall # a # b\necall",
    b"ecall \x0b# c",
    b"ecall\x0b# c",
    b"ecall\x0c\x0b\r\n",
    b"\x0b\x0cecall",
    b"\x0becall\x0c\n\x0cebreak\x0b",
    b"ecall\r\nebreak\r\n",
    b"ecall\rebreak",
    b"ecall\r\rebreak\n",
    b"ecall\x0bebreak",
    b"ecall \x0c ebreak",
    b"add r1,\x0br2, r3",
    b"add r1,\tr2,\tr3",
    b"add\tr1 , r2 , r3\t",
    b"add r1,r2,r3",
    b"addr1,r2,r3",
    b"add r1r2,r3",
    b"lw r1,8(r2)",
    b"lw r1 , 8 ( r2 )",
    b"lw r1,8 (r2)",
    b"lw r1,(r2)",
    b"lw r1,8r2)",
    b"lw r1,8(r2",
    b"sw r1,-0x8(r2)",
    b"jal r1,-5",
    b"jal r1-5",
    b"jal r1,5-5",
    b"jal r1,5x",
    b"jal r1,x5",
    b"jal r1 5",
    b"jal,r1,5",
    b"jal 5,r1",
    b"ecall ecall",
    b"ecall,",
    b"ecall 1",
    b"ecall $",
    b"ecall\n$",
    b"ecall\n\n$\n",
    b"ecall\n\n\nbogus\n$",
    b"ecall\n  r1  \n",
    b"ecall\nadd\n",
    b"# c\n\n.text\nl:\nlw r1, 5(a5)",
    b"# c\n\n.text\nl: m: ecall",
    b"\n\n\n\n\n\n\n\n\nadd r1, r2, 5",
    b"\n\n\n\n\n\n\n\n\n\nadd r1, r2, x",
    b"\n\n\n\n\n\n\n\n\n\n\naddi r1, r2, x",
    b"\r\n\r\nadd r1, r2, r3, r4",
    b"eCaLl\nEBREAK\nEbreak",
    b"aDDi r1, r2, 3",
    b"e call",
    b"_",
    b"__add",
    b"add__",
    b"ADD_ r1, r2, r3",
    // Labels.
    b"a:",
    b"a :",
    b"a\t:\t",
    b" a:",
    b"\x0b\x0ca:\r\n",
    b"_:",
    b"_1:",
    b"a1_B:",
    b"A:\na:",
    b"a:\nA:\n_a:",
    b"a:\na:",
    b"a: ecall\na: ecall",
    b"a:\n\n\nb:\n a: ecall",
    b"a: ecall\nb: ecall\na:",
    b"a:\na: $",
    b"a:\na: bogus",
    b"a: a:",
    b"a: b:",
    b"a:b",
    b"a:b:c",
    b"a: :",
    b"a::",
    b":",
    b": a",
    b":a:",
    b"a: ecall",
    b"a:ecall",
    b"a : ecall",
    b"a: ecall ecall",
    b"a: bogus",
    b"a: add r1, r2, 5",
    b"a: addi r1, r2, x",
    b"a: lw r1, 5(a5)",
    b"a: lw a5, 5(r1)",
    b"a: 5",
    b"a: r1",
    b"a: ,",
    b"a: .text",
    b"a: .config limb_bits 20",
    b"a: $",
    b"a: # c",
    b"a #: c",
    b"a # b: c",
    b"a: ecall # b:",
    b"add: add r1, r2, r3",
    b"ecall: ecall",
    b"ecall:",
    b"ecall : ecall\necall",
    b"ADD:\nadd:\nAdd: Add r1, r2, r3",
    b"limb_bits: ecall",
    b"config:",
    b"zero:",
    b"Zero:",
    b"ra: ecall",
    b"a5:",
    b"a6: ecall",
    b"r15:",
    b"r16: ecall",
    b"R1: ecall",
    b"r1 : ecall",
    b"5:",
    b"0x1:",
    b"-1:",
    b"1a:",
    b".a:",
    b".a: ecall",
    b".text: a",
    b"a.b:",
    b"a$:",
    b"a b:",
    b"a b: ecall",
    b"ecall a:",
    b"a\x0b: ecall",
    b"a:\x0becall",
    b"a:\recall",
    b"a:\necall\nb:\necall\nc:\n",
    b"a: ecall\nb: ecall\nc: ecall",
    b"ecall\necall\nlate: ecall\nlater:\nlatest:",
    b"a:\nb:\nc: bogus",
    b"a:\nb:\nc: $",
    b"a:\nb:\nbogus\nc:",
    b"a:\nb: ecall\n\n# c:\n.c:\nc: add r1, r2\nd:",
    b"a:\nb: ecall\nc: .config limb_bits 24",
    b"a:\nb: ecall\nd: $ d:\n",
    b"ab: ecall\na: ecall\nabc: ecall\nb: ecall",
    b"a:\nb\na:",
    b"a_long_label_name_that_goes_on_and_on_0123456789_ABCDEFGHIJKLMNOPQRSTUVWXYZ: ecall",
    // Settings.
    b".config",
    b".config limb_bits",
    b".config limb_bits 20 20",
    b".config limb_bits 20,",
    b".config limb_bits, 20",
    b".config, limb_bits 20",
    b".config limb_bits = 20",
    b".config limb_bits ,",
    b".config limb_bits :",
    b".config limb_bits r1",
    b".config limb_bits a5",
    b".config limb_bits x",
    b".config limb_bits .x",
    b".config limb_bits limb_bits",
    b".config r1 20",
    b".config a5 20",
    b".config zero 20",
    b".config 20 limb_bits",
    b".config 20 20",
    b".config , 20",
    b".config : 20",
    b".config : :",
    b".config .config 20",
    b".config r1 r1",
    b".config bogus 20",
    b".config bogus x",
    b".config bogus 300",
    b".config LIMB_BITS 20",
    b".config Limb_Bits 20",
    b".config limb_bitss 20",
    b".config limb_bit 20",
    b".config limb_bits 0x14",
    b".config limb_bits 0x1E",
    b".config limb_bits 0b10100",
    b".config limb_bits 0b11110",
    b".config limb_bits -236",
    b".config limb_bits 0xffffffffffffff14",
    b".config limb_bits 0xffffffffffffffff",
    b".config limb_bits -9223372036854775788",
    b".config limb_bits 020",
    b".config limb_bits20",
    b".config limb_bits 0x 14",
    b".config\tdata_limbs\t3",
    b"  .config  addr_limbs  1  # c\r\n",
    b".configlimb_bits 20",
    b".config_ limb_bits 20",
    b".Config limb_bits 15",
    b".CONFIG limb_bits 15",
    b".CONFIG",
    b". config limb_bits 20",
    b"config limb_bits 20",
    b".config limb_bits 30\n.config limb_bits 276",
    b".config limb_bits 30\n.config limb_bits 15",
    b".config limb_bits 16\n.config limb_bits 17\n.config data_limbs 9",
    b".config limb_bits 30\n.config limb_bits 16\n.config limb_bits 24",
    b".config data_limbs 4\n.config data_limbs 5",
    b".config data_limbs 4\n.config data_limbs 258",
    b".config data_limbs 4\n.config data_limbs 0",
    b".config addr_limbs 1\n.config addr_limbs 3",
    b".config addr_limbs 1\n.config addr_limbs -254",
    b".config addr_limbs 1\n.config addr_limbs 0",
    b".config data_limbs 1\n.config addr_limbs 1\n.config limb_bits 29",
    b".config limb_bits 24\n.config bogus 1",
    b"ecall\n.config limb_bits 22\necall",
    b"l: ecall\n.config limb_bits 31",
    b"l: .config limb_bits 31",
    b"l:\n.config limb_bits 18\nm:\n.config data_limbs 3\nn:",
    b".config limb_bits 20 $",
    b".config limb_bits 99999999999999999999",
    b".config $",
    // Other directives.
    b".text",
    b".r1",
    b".a5",
    b".zero 5",
    b"._",
    b"._0",
    b".0",
    b".",
    b"..",
    b"..text",
    b".text.",
    b".text .data",
    b".text ecall",
    b".text r1: r2, (5) .x",
    b".data 1, 2 x",
    b".data 1, 2 $",
    b".data 0x",
    b".data 0xg",
    b".data 99999999999999999999",
    b".data \"a\"",
    b".text\necall",
    b".text # $",
    b".text $ # x",
    b".add r1, r2, r3",
    b".ecall",
    b"ecall .text",
    b"r1 .text",
    b".text:",
    // Long lines: the count is of all tokens, and a bad token counts wherever it stands.
    b"add r1, r2, r3, r4, r5",
    b"add r1, r2, r3 r4 r5 r6 r7",
    b"add r1, r2, r3 , , , , , , , ,",
    b"add 1 2 3 4 5 6 7 8 9 10 11 12",
    b"add r1, r2, r3 , , , , , , , $",
    b"add r1, r2, r3 , , $",
    b"add r1, r2, r3 , , , $ , ,",
    b"l: lw r1, 8(r2)",
    b"l: lw r1, 8(r2) $",
    b"l: lw r1, 8(r2) x",
    b"l: lw r1, 8(r2) x x",
    b"l: lw r1, 8(r2) x $",
    b"l: sd r15, -65536(r14)",
    b"l: add r1, r2, r3 , ,",
    b"ecall 1 2 3 4 5 6 7 8",
    b"ecall 1 2 3 4 5 6 7 8 9",
    b"ecall 1 2 3 4 5 6 7 8 9 10",
    b"ecall 1 2 3 4 5 6 7 8 $",
    b"ecall 1 2 3 4 5 6 7 8 9 $",
    b"bogus 1 2 3 4 5 6 7 8 9 10",
    b"r1 1 2 3 4 5 6 7 8 9 10",
    b".text 1 2 3 4 5 6 7 8 9 10 11",
    b".text 1 2 3 4 5 6 7 8 9 10 $",
    b".text 1 2 3 4 5 6 7 8 9 10 99999999999999999999",
    b".config limb_bits 20 1 2 3 4 5 6 7 8 9",
    b".config limb_bits 20 1 2 3 4 5 6 7 8 $",
    b"l: a b c d e f g h i j k",
    b"l: a b c d e f g h i j $",
    b"jal r1, 5 , , , , , ,\necall",
    b": : : : : : : : : : : :",
    b"l : : : : : : : : : : :",
    b",,,,,,,,,,,,,,,,,,,,",
    b"((((((((((((((((((((",
    b"1 2 3 4 5 6 7 8 9 10 11 12 13 14 15 16 17 18 19 20",
    b"add add add add add add add add add add add add add add",
];

/// Chosen sources with labels as jump targets.
const TARGETS: &[&[u8]] = &[
    // Where a target may stand, and how its line is spelled.
    b"x: jal r1,x",
    b"x:jal r1,x#x",
    b"  x : jal\tr1 , x \t# jal r1, y\r\n",
    b"x: JAL r1, x",
    b"x: Jal r1, X\nX:",
    b"x: jal r1, x\x0b",
    b"x: jal r1,\x0bx",
    b"x: jal r1, x\rx",
    b"jal r1, a_very_long_label_name_\na_very_long_label_name_: ecall",
    b"jal r1, _\n_:",
    b"jal r1, r16\nr16:",
    b"jal r1, R1\nR1:",
    b"jal r1, s2\ns2: ecall",
    b"jal r1, a6\na6: ecall",
    b"jal r1, jal\njal: jal r2, jal",
    b"jal r1, ecall\necall: ecall",
    b"jal r1, limb_bits\nlimb_bits:\n.config limb_bits 24",
    b"config: jal r1, config",
    // Where none may stand, or what is none.
    b"jal x, x\nx:",
    b"jal r1 x\nx:",
    b"jal r1 5x\nx:",
    b"jal r1 0x\nx:",
    b"jal r1, 5x\nx:",
    b"jal r1, 0x\nx:",
    b"jal r1, -x\nx:",
    b"jal r1, x5\nx5:",
    b"jal r1, x.y\nx:",
    b"jal r1, x x\nx:",
    b"jal r1, x:\nx:",
    b"jal r1, x,\nx:",
    b"jal r1, (x)\nx:",
    b"jal r1, x + 4\nx:",
    b"jal r1, .x\nx:",
    b"jal r1, r1\nx:",
    b"jal r1, sp\nx:",
    b"jal r1, a5\nx:",
    b"jal r1, ,\nx:",
    b"jal r1, $\nx:",
    b"jal x\nx:",
    b"jal r1,\nx:",
    b"jal a5, x\nx:",
    b"jal r1: x\nx:",
    b"beq x, r1, x\nx:",
    b"beq r1, x, x\nx:",
    b"beq r1, x, 4\nx:",
    b"beq r1, a5, x\nx:",
    b"beq r1, r2 x, x\nx:",
    b"beq r1, r2, x, x\nx:",
    b"beq r1, r2, r3\nx:",
    b"beq r1, r2\nx:",
    b"beqx r1, r2, x\nx:",
    b"beqz r1, x\nx:",
    b"j x\nx:",
    b"lw r1, x(r2)\nx:",
    b"sw r1, x(r2)\nx:",
    b".jal r1, x",
    b".text jal r1, x",
    b"x: .jal r1, x",
    b".config limb_bits x\nx:",
    b"addi r1, r2, x\nx:",
    // Which address is meant.
    b"a: jal r1, b\nb: jal r1, a",
    b"a:\nb:\nc: bne r1, r2, a\nbne r1, r2, b\nbne r1, r2, c",
    b"jal r1, end\n\n# c\n.text\n.config limb_bits 24\necall\nend:",
    b"jal r1, a\nab: ecall\na: ecall\nA: ecall\n_a: ecall",
    b"jal r1, ab\nab: ecall\na: ecall\nabc: ecall",
    b"a: ecall\nbeq r1, r2, a\nbeq r1, r2, -4\nbeq r1, r2, 0",
    b"ecall\nblt r1, r2, last\nbge r1, r2, last\nlast:",
    // Which refusal comes first.
    b"jal r1, x",
    b"jal r1, x\njal r1, y\n",
    b"jal r1, x\njal r1, y\nx:",
    b"jal r1, y\njal r1, x\nx:",
    b"a:\n\njal r1, x # c\n\nb:",
    b"jal r1, x\nbogus",
    b"jal r1, x\n$",
    b"jal r1, x\na:\na:",
    b"jal r1, x\n.config limb_bits 15",
    b"jal r1, x\naddi r1, r2, x\nx:",
    b"bogus\njal r1, x",
    b"x: jal r1, x\nx: jal r1, x",
    b"x: jal r1, y\nx:",
    b"y: ecall\nx: jal r1, z",
];

/// Chosen sources with numbers that are out of their ranges, or at their ends.
const RANGES: &[&[u8]] = &[
    // What decides on a line.
    b"addi r1, x, 70000",
    b"addi x, r0, 70000",
    b"addi a5, r0, 70000",
    b"addi r1, a5, 70000",
    b"addi r1 ( r0, 70000",
    b"addi r1, r0 ( 70000",
    b"addi r1, r0, 70000, x",
    b"addi r1, 70000, r0",
    b"addi 70000, r1, r0",
    b"addi r1, r0, 70000 $",
    b"addi r1, r0, 70000 # $",
    b"addi r1, r0, 99999999999999999999",
    b"bogus r1, r0, 70000",
    b"ADDI r1, r0, 65536",
    b"Slli r1, r0, 0x100",
    b"jalr r1, r2, 1048575",
    b"jal r1, 1048575",
    b"jal r1, 0x1FFFFF",
    b"jal r1, 0x200000",
    b"add r1, r2, 70000",
    b"ecall 70000",
    b"lw r1, 70000, r2)",
    b"lw r1, 70000",
    b"lw r1, 70000(r2(",
    b"lw r1, 70000(x)",
    b"lw r1, 70000(a5)",
    b"lw r1 ( 70000(r2)",
    b"lw a5, 70000(r2)",
    b"sw r1, 70000(a5)",
    b"sw a5, 70000(r1)",
    b"sw r1,-65537(r2)",
    b"sw r1 -65537(r2)",
    b"sw r1 r2-65537(r2)",
    b"lbu x a0-65537(r14)",
    b"addi r1, r0 r3-65537",
    b"addi r1 x r3-65537 $",
    b"beq r1, r2, -0xffff",
    b".text 70000, 0x20000, -65537",
    b".addi r1, r0, 70000",
    // Settings.
    b".config bogus 256",
    b".config bogus 255",
    b".config r1 256",
    b".config 256 256",
    b".config , 256",
    b".config limb_bits, 256",
    b".config limb_bits 256 1",
    b".config limb_bits 256 $",
    b".config limb_bits 256 # $",
    b".Config limb_bits 256",
    b"l: .config limb_bits 256",
    b".config limb_bits 0b100000000",
    b".config limb_bits 0b000010100",
    b".config limb_bits 18\n.config data_limbs 258\n.config limb_bits 20",
    b".config limb_bits 17\n.config data_limbs 258",
    b".config data_limbs 258\n.config limb_bits 17",
    // Labels and lines.
    b"x: addi r1, r0, 70000",
    b"  x :\taddi r1, r0, 70000 # y:",
    b"x:\nx: addi r1, r0, 70000",
    b"a:\nb: addi r1, r0, 65536\nc:",
    b"a: ecall\n\n# c\nb: srli r1, r2, -1\nc:",
    b"bogus\naddi r1, r0, 65536",
    b"addi r1, r0, 65536\nbogus",
    b"addi r1, r0, 65536\n$",
    b"addi r1, r0, 65535\r\naddi r1, r0, 65536\r\n",
    b"addi r1, x, 65536\naddi r1, r0, 65536",
    b"addi r1, r0, 65536\naddi r1, x, 65536",
    // Targets.
    b"x: jal r1, x\ny: jal r1, 1048576",
    b"jal r1, x\naddi r1, r2, 70000\nx:",
    b"addi r1, r2, 65535\nx: jal r1, x\nbeq r1, r2, x",
    b"jal r1, nope\naddi r1, r0, 65536",
    b"addi r1, r0, 65536\njal r1, nope",
    b"beq r1, x, 65536\nx:",
    b"beq r1, r2, 65536\nx: beq r1, r2, x",
    b"jal r1, x\nx: .config limb_bits 20\naddi r1, r0, 65536",
];
