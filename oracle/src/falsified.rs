//! Falsified records, which stand at the end of a list: a program that replays the list has to
//! notice every one.

/// What is falsified of a list.
pub struct Falsified {
    /// Questions that stand in the list, two by two of a kind.
    questions: &'static [&'static str],
    /// The tags of the lines of an answer that are one text.
    texts: &'static [&'static str],
}

/// Of the list of lines.
pub const TOKENS: Falsified = Falsified {
    questions: &["s 1-2", "s 9223372036854775808"],
    texts: &[],
};

/// Of the list of instructions and words.
pub const WORDS: Falsified = Falsified {
    questions: &[
        "s start: ADDI a0, zero, -1 # one\nm 2",
        "s add a5, r1, r1\nm 0",
        "w 0000d980",
        "w 5660eea6",
        "s to: jal r9 , to\nm 2",
        "s a: addi r1, r2, x\nm 2",
        "s ADDI r1, r0, 65536\nm 0",
        "s addi r1, x, 70000\nm 0",
    ],
    texts: &["u", "l"],
};

/// Of the list of sources and images.
pub const VECTORS: Falsified = Falsified {
    questions: &[
        "s ecall : ecall\\0a\ns ecall",
        "s a: ecall\nt 1\nb 35",
        "i 5a4b4952040003001402020000100000080000000000000000000000000010008885ffff3a590400\nn 194",
        "i 004b49520400030014020200001000000400000000000000000000000000100050000000\nn 0",
        "s jal ra, X\\0a\ns x: ecall",
        "s e: ecall\\0a\nx 16384 ecall\\0a\ns beq r1, r2, e",
        "s beq r1, r2, end\\0a\ns add r1, r2, r3\\0a\ns end:",
        "s a: ecall\\0a\ns jal r0, b\\0a\ns bne r1, r2, a",
        "s   x :\\09addi r1, r0, 70000 # y:",
        "s addi r1, x, 70000",
        "s .config bogus 256",
        "s .config bogus 255",
    ],
    texts: &["s"],
};

impl Falsified {
    /// The falsified records of a list: for each of the questions its answer with one thing wrong,
    /// and then the other question's answer.
    pub fn records(&self, list: &str) -> String {
        let answers: Vec<Vec<&str>> = self
            .questions
            .iter()
            .map(|it| answer_in(list, it))
            .collect();
        let mut out = String::new();
        for (at, question) in self.questions.iter().enumerate() {
            let mut wrong = self.falsehoods(&answers[at]);
            wrong.push(owned(&answers[at ^ 1]));
            for answer in wrong {
                out += &format!("\n{question}\n");
                out.extend(answer.into_iter().map(|line| line + "\n"));
            }
        }
        out
    }

    /// A list without the falsified records that it ends with.
    pub fn true_part<'l>(&self, list: &'l str) -> &'l str {
        let falsified = self.records(list);
        list.strip_suffix(&falsified).expect("falsified records")
    }

    /// The answer with each value of each line wrong, without its last line, and with that twice.
    fn falsehoods(&self, answer: &[&str]) -> Vec<Vec<String>> {
        let mut all = Vec::new();
        for (at, line) in answer.iter().enumerate() {
            for wrong in self.wrong_lines(line) {
                let mut lines = owned(answer);
                lines[at] = wrong;
                all.push(lines);
            }
        }
        let (last, others) = answer.split_last().expect("an answer");
        all.push(owned(others));
        all.push(owned(&[answer, &[*last]].concat()));
        all
    }

    /// A line with each of its values wrong.
    fn wrong_lines(&self, line: &str) -> Vec<String> {
        let Some((tag, rest)) = line.split_once(' ') else {
            return Vec::new();
        };
        if self.texts.contains(&tag) {
            return vec![format!("{tag} {}", with_another_end(rest))];
        }
        let values: Vec<&str> = rest.split(' ').collect();
        let wrong = |at: usize| {
            let mut values = owned(&values);
            values[at] = with_another_end(&values[at]);
            format!("{tag} {}", values.join(" "))
        };
        (0..values.len()).map(wrong).collect()
    }
}

/// The lines of the answer that a list has for a question.
fn answer_in<'l>(list: &'l str, question: &str) -> Vec<&'l str> {
    let mut records = list.split("\n\n").skip(1);
    let answer = records.find_map(|record| record.strip_prefix(question)?.strip_prefix('\n'));
    answer.expect("the question in the list").lines().collect()
}

fn owned(lines: &[&str]) -> Vec<String> {
    lines.iter().map(|line| line.to_string()).collect()
}

/// A value or a text whose last character is another; of a token's kind, another kind.
fn with_another_end(value: &str) -> String {
    let (end, last) = value.char_indices().last().expect("a value");
    let other = match (value, last) {
        ("n", _) => 'h',
        ("m", _) => 'n',
        (_, '0') => '1',
        _ => '0',
    };
    format!("{}{other}", &value[..end])
}
