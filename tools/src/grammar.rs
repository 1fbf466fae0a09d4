//! The forms of lines, and the words that lines consist of.
use crate::Network;

/// One form of line: its first word, how it is written, and an example.
pub struct Form {
    pub word: &'static str,
    pub line: &'static str,
    pub example: &'static str,
}

const fn form(word: &'static str, line: &'static str, example: &'static str) -> Form {
    Form { word, line, example }
}

/// The lines of a network, in the order of their kinds.
pub const RECORDS: [Form; 9] = [
    form("table", "table NAME COLUMN ...", "table catches block trap week count"),
    form("select", "select NAME = NODE where COLUMN COMPARISON VALUE", "select heavy = catches where count >= 8"),
    form("project", "project NAME = NODE give COLUMN ...", "project reached = codling give block week"),
    form(
        "join",
        "join NAME = LEFT RIGHT [on COLUMN = COLUMN [and COLUMN = COLUMN]] give SIDE.COLUMN ...",
        "join lured = heavy lures on trap = trap give left.block left.week right.species",
    ),
    form("union", "union NAME = LEFT RIGHT", "union known = sprayed exempt"),
    form("minus", "minus NAME = LEFT RIGHT", "minus unsprayed = reached sprays"),
    form("intersect", "intersect NAME = LEFT RIGHT", "intersect again = reached sprays"),
    form("watch", "watch NODE SIGN [priority NUMBER]", "watch advice both priority 3"),
    form(
        "nomatch",
        "nomatch NAME = LEFT RIGHT on COLUMN = COLUMN [and COLUMN = COLUMN]",
        "nomatch unsprayed = reached sprays on block = block and week = week",
    ),
];

/// The lines of a file of batches.
pub const EVENTS: [Form; 4] = [
    form("put", "put TABLE NUMBER ...", "put sprays 5 22"),
    form("remove", "remove TABLE NUMBER ...", "remove sprays 5 22"),
    form("end", "end", "end"),
    form("unfinished", "unfinished", "unfinished"),
];

/// Words that stand inside lines.
const INNER: [&str; 11] = ["where", "on", "and", "give", "as", "left", "right", "gained", "lost", "both", "priority"];

/// Comparisons by their codes.
pub const COMPARISONS: [&str; 6] = ["=", "!=", "<", "<=", ">", ">="];

/// Watch signs, from 1 on.
pub const SIGNS: [&str; 3] = ["gained", "lost", "both"];

/// The largest number of a field.
const LARGEST: &str = "4294967295";

/// What is wrong with a line of text.
#[derive(Clone, Debug, PartialEq, Eq)]
pub struct Problem {
    pub line: usize,
    pub text: String,
}

impl std::fmt::Display for Problem {
    fn fmt(&self, f: &mut std::fmt::Formatter) -> std::fmt::Result {
        write!(f, "{}: {}", self.line, self.text)
    }
}

pub type Checked<T> = Result<T, Problem>;

/// The words that cannot be names.
pub fn reserved() -> impl Iterator<Item = &'static str> {
    RECORDS.iter().chain(&EVENTS).map(|f| f.word).chain(INNER.iter().copied())
}

/// A number of things: `1 row`, `2 rows`.
pub fn counted(count: usize, one: &str, many: &str) -> String {
    format!("{count} {}", if count == 1 { one } else { many })
}

fn is_sign(c: char) -> bool {
    "=!<>".contains(c)
}

/// Whether a word can stand only between names.
fn is_inner(word: &str) -> bool {
    word.starts_with(is_sign) || INNER.contains(&word)
}

/// The words of a line without its comment; spaces around comparison signs may be left out.
pub fn words(line: &str) -> Vec<&str> {
    let kept = line.split('#').next().unwrap_or("");
    let mut out = Vec::new();
    for piece in kept.split_whitespace() {
        let mut rest = piece;
        while let Some(first) = rest.chars().next() {
            let end = rest.find(|c| is_sign(c) != is_sign(first)).unwrap_or(rest.len());
            out.push(&rest[..end]);
            rest = &rest[end..];
        }
    }
    out
}

/// The lines of a text that are not empty, with their numbers and words.
pub fn lines(text: &str) -> impl Iterator<Item = (usize, Vec<&str>)> {
    let text = text.strip_prefix('\u{feff}').unwrap_or(text);
    (1..).zip(text.lines()).map(|(n, line)| (n, words(line))).filter(|(_, w)| !w.is_empty())
}

/// Whether a word can be a name, or what is wrong with it.
pub fn name(word: &str) -> Result<String, String> {
    let mut letters = word.chars();
    let starts = letters.next().is_some_and(char::is_alphabetic);
    let goes_on = letters.all(|c| c.is_alphabetic() || c.is_ascii_digit() || c == '_' || c == '-');
    if !starts || !goes_on {
        return Err(format!("'{word}' is no name: a name is a letter, then letters, digits, _ and -"));
    }
    if reserved().any(|r| r == word) {
        return Err(format!("'{word}' is a word of the grammar and cannot be a name: choose another"));
    }
    Ok(word.into())
}

fn digits(word: &str) -> bool {
    !word.is_empty() && word.bytes().all(|b| b.is_ascii_digit())
}

/// A field's number.
pub fn number(word: &str) -> Result<u32, String> {
    if !digits(word) {
        return Err(format!("'{word}' is no number from 0 to {LARGEST}"));
    }
    word.parse().map_err(|_| format!("{word} is above {LARGEST}, the largest number of a field"))
}

/// A position: digits after a mark that no name begins with.
fn position(word: &str, mark: char) -> Option<usize> {
    let rest = word.strip_prefix(mark).filter(|r| digits(r))?;
    Some(rest.parse().unwrap_or(usize::MAX))
}

/// A node by its name, or by its number after `@`.
pub fn node(net: &Network, word: &str) -> Result<usize, String> {
    let found = match position(word, '@') {
        Some(i) => (i < net.nodes.len()).then_some(i),
        None => net.nodes.iter().position(|n| n.name == word),
    };
    found.ok_or_else(|| {
        let names: Vec<&str> = net.nodes.iter().map(|n| n.name.as_str()).collect();
        match names[..] {
            [] => format!("there is no node '{word}' (none yet: a network begins with a table)"),
            _ => format!("there is no node '{word}' (there are {})", names.join(", ")),
        }
    })
}

/// A column of a node by its name, or by its position after a point.
pub fn column(net: &Network, node: usize, word: &str) -> Result<usize, String> {
    let n = &net.nodes[node];
    let found = match position(word, '.') {
        Some(k) => (k < n.columns.len()).then_some(k),
        None => n.columns.iter().position(|c| c == word),
    };
    found.ok_or_else(|| {
        let hint = if digits(word) { format!("; a position is written .{word}") } else { String::new() };
        format!("'{}' has no column '{word}' (it has {}{hint})", n.name, n.columns.join(", "))
    })
}

/// The words of one line, read one after the other.
pub struct Line<'a> {
    pub number: usize,
    /// Which of the forms it has.
    pub which: usize,
    form: &'static Form,
    words: Vec<&'a str>,
    at: usize,
}

impl<'a> Line<'a> {
    /// A line whose first word has one of the forms.
    pub fn new(number: usize, words: Vec<&'a str>, forms: &'static [Form]) -> Checked<Line<'a>> {
        let first = words[0];
        match forms.iter().position(|f| f.word == first) {
            Some(which) => Ok(Line { number, which, form: &forms[which], words, at: 1 }),
            None => {
                let known: Vec<&str> = forms.iter().map(|f| f.line).collect();
                Err(Problem {
                    line: number,
                    text: format!("no line begins with '{first}'; the lines are\n    {}", known.join("\n    ")),
                })
            }
        }
    }

    pub fn word(&self) -> &'static str {
        self.form.word
    }

    /// A problem of this line.
    pub fn fail<T>(&self, text: impl Into<String>) -> Checked<T> {
        Err(Problem { line: self.number, text: text.into() })
    }

    /// The same, and how the line should look.
    fn misshapen<T>(&self, text: String) -> Checked<T> {
        self.fail(format!(
            "{text}\n    the line is written  {}\n    for example          {}",
            self.form.line, self.form.example
        ))
    }

    /// What a step answered, with this line's number where it is a problem.
    pub fn tell<T>(&self, answer: Result<T, String>) -> Checked<T> {
        answer.or_else(|text| self.fail(text))
    }

    pub fn peek(&self) -> Option<&'a str> {
        self.words.get(self.at).copied()
    }

    /// The next word.
    pub fn next(&mut self, what: &str) -> Checked<&'a str> {
        match self.peek() {
            Some(word) => {
                self.at += 1;
                Ok(word)
            }
            None => self.misshapen(format!("{what} is missing at the end")),
        }
    }

    /// The next word, which must be a given one.
    pub fn expect(&mut self, word: &str) -> Checked<()> {
        let before = self.words[self.at - 1];
        match self.next(&format!("'{word}'"))? {
            w if w == word => Ok(()),
            w => self.misshapen(format!("after '{before}' comes '{word}', not '{w}'")),
        }
    }

    /// The next word if it is a given one.
    pub fn accept(&mut self, word: &str) -> bool {
        let yes = self.peek() == Some(word);
        self.at += usize::from(yes);
        yes
    }

    /// The place of the next word in a list.
    pub fn one_of(&mut self, what: &str, list: &[&str]) -> Checked<usize> {
        let word = self.next(what)?;
        match list.iter().position(|x| *x == word) {
            Some(k) => Ok(k),
            None => self.misshapen(format!("'{word}' is no {what} ({})", list.join(" "))),
        }
    }

    /// The next word, which must not be one that shows that something is missing before it.
    fn before(&mut self, what: &str, shows: fn(&str) -> bool) -> Checked<&'a str> {
        let word = self.next(what)?;
        if shows(word) {
            return self.misshapen(format!("{what} is missing before '{word}'"));
        }
        Ok(word)
    }

    pub fn name(&mut self, what: &str) -> Checked<String> {
        let word = self.before(what, |w| w.starts_with(is_sign))?;
        self.tell(name(word))
    }

    pub fn node(&mut self, net: &Network) -> Checked<usize> {
        let word = self.before("a node", is_inner)?;
        self.tell(node(net, word))
    }

    pub fn column(&mut self, net: &Network, node: usize) -> Checked<usize> {
        let word = self.before("a column", is_inner)?;
        self.tell(column(net, node, word))
    }

    /// Nothing more may follow.
    pub fn done(&self) -> Checked<()> {
        match self.peek() {
            Some(word) => self.misshapen(format!("'{word}' is one word too many")),
            None => Ok(()),
        }
    }
}
