//! Random programs as lines of text: nested DOs, jumps that know which ranges they are in.

mod transfers;

use super::Rng;
use crate::level::Level;

/// A statement before it is punched.
#[derive(Clone, Debug)]
pub struct Line {
    /// The number in columns 1-5, where it has one.
    pub number: Option<u32>,
    pub text: String,
}

/// A statement while the program is being written. In its text `@` stands for the number of a
/// statement to jump to, `#` for that of a DO's last statement and `%` for that of a FORMAT.
struct Draft {
    text: String,
    /// The DOs around it, outermost first.
    inside: Vec<usize>,
    /// The draft that is this DO's last statement.
    last: Option<usize>,
    /// The draft that is this READ's or PRINT's FORMAT.
    format: Option<usize>,
    executable: bool,
    numbered: bool,
}

struct Array {
    name: &'static str,
    rows: usize,
    columns: Option<usize>,
}

struct Writer<'r> {
    level: Level,
    rng: &'r mut Rng,
    k: u32,
    /// Whether rules may be broken.
    slips: bool,
    drafts: Vec<Draft>,
    names: Vec<&'static str>,
    arrays: Vec<Array>,
    /// The FORMATs that have an I.
    formats: Vec<usize>,
    /// The DOs around the next statement and their variables.
    around: Vec<(usize, &'static str)>,
    dos: usize,
}

const NAMES: [&str; 12] = [
    "I", "J", "K", "M", "N", "IF", "KOUNT", "NUMBER", "L9", "MDO", "IEND", "JGOTO5",
];
const ARRAYS: [&str; 5] = ["L", "LIST", "MATRIX", "NN", "K2"];

/// A program of up to some forty statements.
pub fn program(level: Level, rng: &mut Rng, k: u32, slips: bool) -> Vec<Line> {
    let count = rng.range(2, 6);
    let first = rng.below(NAMES.len());
    let names = (0..count).map(|n| NAMES[(first + n) % NAMES.len()]).collect();
    let mut writer = Writer {
        level,
        rng,
        k,
        slips,
        drafts: Vec::new(),
        names,
        arrays: Vec::new(),
        formats: Vec::new(),
        around: Vec::new(),
        dos: 0,
    };
    if writer.rng.chance(70) {
        writer.dimension();
    }
    let length = writer.rng.range(1, 9);
    writer.block(length);
    if writer.rng.chance(50) {
        writer.say("CONTINUE");
    }
    writer.say("END");
    writer.lines()
}

impl Writer<'_> {
    fn slip(&mut self, percent: usize) -> bool {
        self.slips && self.rng.chance(percent)
    }

    fn say(&mut self, text: &str) {
        self.draft(text);
    }

    /// Adds a statement and returns its index.
    fn draft(&mut self, text: &str) -> usize {
        let inside = self.around.iter().map(|(id, _)| *id).collect();
        let executable = !text.starts_with("DIMENSION") && !text.starts_with("FORMAT(") && text != "END";
        self.drafts.push(Draft {
            text: text.to_string(),
            inside,
            last: None,
            format: None,
            executable,
            numbered: false,
        });
        self.drafts.len() - 1
    }

    fn block(&mut self, length: usize) {
        for _ in 0..length {
            if self.level >= Level::Cards && self.rng.chance(35) {
                self.transfer();
                continue;
            }
            match self.rng.below(20) {
                0..=8 => self.assignment(),
                9..=11 => self.arithmetic_if(),
                12 => self.say("GOTO@"),
                13 => self.computed(),
                14..=16 => self.nest(),
                17 => self.say("CONTINUE"),
                18 => self.dimension(),
                _ => self.seldom(),
            }
        }
    }

    fn seldom(&mut self) {
        let text = if self.slip(30) {
            "END"
        } else {
            *self.rng.pick(&["STOP", "CONTINUE", "CONTINUE"])
        };
        self.say(text);
    }

    fn assignment(&mut self) {
        let target = self.target();
        let value = self.expression(3);
        self.say(&format!("{target}={value}"));
    }

    /// An element, or a plain name that is no variable of a DO around it.
    fn target(&mut self) -> String {
        if !self.arrays.is_empty() && self.rng.chance(40) {
            return self.element();
        }
        match self.free_name() {
            Some(name) => name.to_string(),
            None => "NEW".to_string(),
        }
    }

    fn free_name(&mut self) -> Option<&'static str> {
        if self.slip(5) {
            return Some(*self.rng.pick(&["A", "LONGEST", "L", "IF", "I"]));
        }
        let taken: Vec<&str> = self.around.iter().map(|(_, variable)| *variable).collect();
        let breaking = self.slip(4);
        let free: Vec<&'static str> = self
            .names
            .iter()
            .copied()
            .filter(|name| breaking || !taken.contains(name))
            .collect();
        (!free.is_empty()).then(|| *self.rng.pick(&free))
    }

    fn arithmetic_if(&mut self) {
        let value = self.expression(2);
        self.say(&format!("IF({value})@,@,@"));
    }

    fn computed(&mut self) {
        let exits = vec!["@"; self.rng.range(2, 10)].join(",");
        let selector = self.plain();
        self.say(&format!("GOTO({exits}),{selector}"));
    }

    /// One to three DOs with the same last statement.
    fn nest(&mut self) {
        let depth = self.around.len();
        let mut begun = Vec::new();
        for _ in 0..*self.rng.pick(&[1, 1, 1, 2, 2, 3]) {
            let Some(variable) = self.free_name() else { break };
            if self.around.len() == 7 {
                break;
            }
            begun.push(self.begin(variable));
            self.dos += 1;
            self.around.push((self.dos, variable));
            if self.rng.chance(40) {
                self.assignment();
            }
        }
        let length = self.rng.below(4);
        self.block(length);
        let last = self.last_statement();
        for index in begun {
            self.drafts[index].last = Some(last);
        }
        self.around.truncate(depth);
    }

    fn begin(&mut self, variable: &str) -> usize {
        let (first, limit) = (self.parameter(3), self.parameter(6));
        let mut text = format!("DO#{variable}={first},{limit}");
        if self.rng.chance(40) {
            text = format!("{text},{}", self.parameter(3));
        }
        self.draft(&text)
    }

    fn last_statement(&mut self) -> usize {
        if self.slip(5) {
            return self.draft("STOP");
        }
        if self.level >= Level::Cards && self.rng.chance(25) {
            return self.transfer();
        }
        if self.rng.chance(50) {
            return self.draft("CONTINUE");
        }
        self.assignment();
        self.drafts.len() - 1
    }

    fn parameter(&mut self, most: usize) -> String {
        match self.rng.below(30) {
            0..=2 => self.plain(),
            3 => "0".to_string(),
            4 => self.constant(),
            _ => self.rng.range(1, most).to_string(),
        }
    }

    fn dimension(&mut self) {
        let mut parts = Vec::new();
        for _ in 0..self.rng.range(1, 2) {
            let Some(name) = ARRAYS.get(self.arrays.len()) else {
                break;
            };
            let most = if self.k == 1 { 9 } else { 12 };
            let least = *self.rng.pick(&[1, 6, 6, 6]);
            let rows = self.rng.range(least, most);
            let columns = self.rng.chance(50).then(|| self.rng.range(1, 8));
            parts.push(match columns {
                Some(columns) => format!("{name}({rows},{columns})"),
                None => format!("{name}({rows})"),
            });
            self.arrays.push(Array { name, rows, columns });
        }
        if self.slip(6) {
            parts.push((*self.rng.pick(&["M(0)", "LF(2)", "I(2)", "L(3)", "LL(2,0)", "J(99,99)"])).to_string());
        }
        if !parts.is_empty() {
            let text = format!("DIMENSION{}", parts.join(","));
            self.say(&text);
        }
    }

    fn plain(&mut self) -> String {
        if self.slip(2) {
            return (*self.rng.pick(&["L", "LIST", "X", "MATRIX"])).to_string();
        }
        (*self.rng.pick(&self.names)).to_string()
    }

    fn expression(&mut self, depth: usize) -> String {
        let mut text = (*self.rng.pick(&["", "", "", "", "-", "+"])).to_string();
        text += &self.term(depth);
        while self.rng.chance(45) {
            text += *self.rng.pick(&["+", "-"]);
            text += &self.term(depth);
        }
        text
    }

    fn term(&mut self, depth: usize) -> String {
        let mut text = self.factor(depth);
        while self.rng.chance(30) {
            text += *self.rng.pick(&["*", "*", "/"]);
            text += &self.factor(depth);
        }
        text
    }

    fn factor(&mut self, depth: usize) -> String {
        match self.rng.below(10) {
            0..=3 => self.constant(),
            4..=6 => self.plain(),
            7..=8 if !self.arrays.is_empty() => self.element(),
            _ if depth > 0 => format!("({})", self.expression(depth - 1)),
            _ => self.plain(),
        }
    }

    /// A constant of at most k digits, zeros at its front among them.
    fn constant(&mut self) -> String {
        let power = 10usize.pow(self.k);
        let value = match self.rng.below(6) {
            0..=2 => self.rng.below(10),
            3 => power - 1,
            _ => self.rng.below(power),
        };
        let written = value.to_string();
        let longest = self.k as usize + usize::from(self.slip(3));
        let zeros = if self.rng.chance(15) {
            longest.saturating_sub(written.len())
        } else {
            0
        };
        format!("{}{written}", "0".repeat(zeros))
    }

    fn element(&mut self) -> String {
        let array = self.rng.below(self.arrays.len());
        let (name, rows, columns) = {
            let array = &self.arrays[array];
            (array.name, array.rows, array.columns)
        };
        let first = self.subscript(rows);
        let wrong_count = self.slip(3);
        match columns {
            Some(columns) if !wrong_count => format!("{name}({first},{})", self.subscript(columns)),
            None if wrong_count => format!("{name}({first},1)"),
            _ => format!("{name}({first})"),
        }
    }

    /// Mostly right for its dimension, and of every form.
    fn subscript(&mut self, dimension: usize) -> String {
        let most = 10usize.pow(self.k) - 1;
        let (c, d) = (self.rng.below(4), self.rng.range(1, 9));
        let v = self.subscript_name();
        if self.around.is_empty() && self.rng.chance(70) {
            return self.rng.range(1, dimension.min(most)).to_string();
        }
        match self.rng.below(26) {
            0..=13 => self.rng.range(1, dimension.min(most)).to_string(),
            14 => (*self.rng.pick(&[0, 1, 1, dimension, dimension + 1]))
                .min(most)
                .to_string(),
            15..=18 => v,
            19 => format!("{v}+{c}"),
            20 => format!("{v}-{c}"),
            21 => format!("{c}*{v}"),
            22..=23 => format!("0*{v}+{}", d.min(dimension)),
            24 => format!("{c}*{v}+{d}"),
            _ => format!("{c}*{v}-{d}"),
        }
    }

    /// A DO's variable, where there is one, more often than not.
    fn subscript_name(&mut self) -> String {
        if self.around.is_empty() || self.rng.chance(20) {
            return self.plain();
        }
        self.rng.pick(&self.around).1.to_string()
    }

    /// Chooses the numbers and where the jumps go.
    fn lines(mut self) -> Vec<Line> {
        let step = self.rng.range(1, 99_999 / (self.drafts.len() + 2));
        let base = self.rng.range(0, step - 1);
        let number = |index: usize| (base + step * (index + 1)) as u32;
        let undefined = number(self.drafts.len());
        for index in 0..self.drafts.len() {
            let mut text = std::mem::take(&mut self.drafts[index].text);
            while text.contains('@') {
                let target = self.jump(index);
                text = text.replacen('@', &target.map_or(undefined, number).to_string(), 1);
            }
            if let Some(last) = self.drafts[index].last {
                self.drafts[last].numbered = true;
                text = text.replace('#', &number(last).to_string());
            }
            if let Some(format) = self.drafts[index].format {
                self.drafts[format].numbered = true;
                text = text.replace('%', &number(format).to_string());
            }
            self.drafts[index].text = text;
        }
        (0..self.drafts.len()).map(|index| self.line(index, number)).collect()
    }

    fn line(&mut self, index: usize, number: impl Fn(usize) -> u32) -> Line {
        let draft = &self.drafts[index];
        let (text, numbered, executable) = (draft.text.clone(), draft.numbered, draft.executable);
        let shown = numbered || (executable && self.rng.chance(10)) || self.slip(1);
        let twice = self.slip(1);
        let number = shown.then(|| number(if twice { index / 2 } else { index }));
        Line { number, text }
    }

    /// A statement that the jump may go to, forward more often than not; None: one that is not.
    fn jump(&mut self, from: usize) -> Option<usize> {
        if self.slip(2) {
            return None;
        }
        let anywhere = self.slip(4);
        let allowed: Vec<usize> = (0..self.drafts.len())
            .filter(|to| self.drafts[*to].executable)
            .filter(|to| anywhere || self.drafts[from].inside.starts_with(&self.drafts[*to].inside))
            .collect();
        let forward: Vec<usize> = allowed.iter().copied().filter(|to| *to > from).collect();
        let list = if !forward.is_empty() && self.rng.chance(85) {
            forward
        } else {
            allowed
        };
        let target = *self.rng.pick(&list);
        self.drafts[target].numbered = true;
        Some(target)
    }
}
