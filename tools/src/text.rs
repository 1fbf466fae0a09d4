//! Networks to and from text.
use bagwezin::PRIORITY;

use crate::grammar::{lines, Checked, Line, Problem, COMPARISONS, RECORDS, SIGNS};
use crate::network::{judged, Op, Operand, Record, Set, FIELDS, NODES};
use crate::{grammar, refused, Network};

/// A line's record added to a network.
type Reader = fn(&mut Network, &mut Line) -> Checked<()>;

/// The readers of the forms, in the order of `RECORDS`.
const READERS: [Reader; RECORDS.len()] = [
    Network::read_table,
    Network::read_select,
    Network::read_project,
    Network::read_join,
    |net, line| net.read_set(line, Set::Union),
    |net, line| net.read_set(line, Set::Minus),
    |net, line| net.read_set(line, Set::Intersect),
    Network::read_watch,
    Network::read_no_match,
];

impl Network {
    /// A network from its text, judged by the library.
    pub fn assemble(text: &str) -> Checked<Network> {
        let mut net = Network::default();
        let mut numbers = Vec::new();
        for (number, words) in lines(text) {
            let mut line = Line::new(number, words, &RECORDS)?;
            READERS[line.which](&mut net, &mut line)?;
            numbers.push(number);
        }
        if net.nodes.is_empty() {
            let text = "there is no node: a network has at least one table".into();
            return Err(Problem { line: 1, text });
        }
        net.accepted(&numbers)?;
        Ok(net)
    }

    /// The library's verdict, told with the line of the record at fault.
    fn accepted(&self, numbers: &[usize]) -> Checked<()> {
        let bytes = self.bytes();
        let Err(refusal) = judged(&bytes) else {
            return Ok(());
        };
        let sizes = self.records.iter().map(|&r| self.encoded(r).len());
        let ends = sizes.scan(0, |at, n| {
            *at += n;
            Some(*at)
        });
        let before = ends.take_while(|&end| end <= refusal.place as usize);
        let line = numbers.get(before.count()).copied().unwrap_or(1);
        let text = refused::network(&bytes, refusal);
        Err(Problem { line, text })
    }

    /// The name of a line's node, which no node above may have.
    fn read_name(&self, line: &mut Line) -> Checked<String> {
        let name = line.name("a name")?;
        if self.nodes.iter().any(|n| n.name == name) {
            return line.fail(format!("there is a node '{name}' already"));
        }
        if self.nodes.len() == NODES {
            return line.fail(format!("a network has at most {NODES} nodes"));
        }
        Ok(name)
    }

    fn read_table(&mut self, line: &mut Line) -> Checked<()> {
        let name = self.read_name(line)?;
        let mut columns = vec![line.name("a column")?];
        while line.peek().is_some() {
            let column = line.name("a column")?;
            add_column(line, &mut columns, column)?;
        }
        self.add(name, columns.clone(), Op::Table(columns.len()));
        Ok(())
    }

    fn read_select(&mut self, line: &mut Line) -> Checked<()> {
        let name = self.read_name(line)?;
        line.expect("=")?;
        let input = line.node(self)?;
        line.expect("where")?;
        let column = line.column(self, input)?;
        let comparison = line.one_of("comparison", &COMPARISONS)?;
        let word = line.next("a value")?;
        let operand = match word.starts_with(|c: char| c.is_ascii_digit() || c == '-' || c == '+') {
            true => Operand::Constant(line.tell(grammar::number(word))?),
            false => Operand::Column(line.tell(grammar::column(self, input, word))?),
        };
        line.done()?;
        let columns = self.nodes[input].columns.clone();
        let op = Op::Select { input, column, comparison, operand };
        self.add(name, columns, op);
        Ok(())
    }

    fn read_project(&mut self, line: &mut Line) -> Checked<()> {
        let name = self.read_name(line)?;
        line.expect("=")?;
        let input = line.node(self)?;
        line.expect("give")?;
        let (mut names, mut columns) = (Vec::new(), Vec::new());
        while line.peek().is_some() || columns.is_empty() {
            let k = line.column(self, input)?;
            columns.push(k);
            let given = read_as(line, &self.nodes[input].columns[k])?;
            add_column(line, &mut names, given)?;
        }
        self.add(name, names, Op::Project { input, columns });
        Ok(())
    }

    /// `NAME = LEFT RIGHT`
    fn read_sides(&self, line: &mut Line) -> Checked<(String, usize, usize)> {
        let name = self.read_name(line)?;
        line.expect("=")?;
        Ok((name, line.node(self)?, line.node(self)?))
    }

    fn read_join(&mut self, line: &mut Line) -> Checked<()> {
        let (name, left, right) = self.read_sides(line)?;
        let pairs = match line.accept("on") {
            true => self.read_pairs(line, left, right)?,
            false => Vec::new(),
        };
        line.expect("give")?;
        let (mut names, mut columns) = (Vec::new(), Vec::new());
        while line.peek().is_some() || columns.is_empty() {
            let k = self.read_side(line, left, right)?;
            columns.push(k);
            let (node, c) = self.side(left, right, k);
            let given = read_as(line, &self.nodes[node].columns[c])?;
            add_column(line, &mut names, given)?;
        }
        let op = Op::Join { left, right, pairs, columns };
        self.add(name, names, op);
        Ok(())
    }

    /// `COLUMN = COLUMN [and COLUMN = COLUMN]`
    fn read_pairs(&self, line: &mut Line, left: usize, right: usize) -> Checked<Vec<(usize, usize)>> {
        let mut pairs = Vec::new();
        while pairs.is_empty() || line.accept("and") {
            if pairs.len() == 2 {
                return line.fail(format!("a {} has at most two pairs", line.word()));
            }
            let l = line.column(self, left)?;
            line.expect("=")?;
            pairs.push((l, line.column(self, right)?));
        }
        Ok(pairs)
    }

    /// `left.COLUMN` or `right.COLUMN`, where COLUMN is a name or a position.
    fn read_side(&self, line: &mut Line, left: usize, right: usize) -> Checked<usize> {
        let word = line.next("a column")?;
        let (node, before, column) = match word.split_once('.') {
            Some(("left", column)) => (left, 0, column),
            Some(("right", column)) => (right, self.nodes[left].columns.len(), column),
            _ => {
                return line.fail(format!(
                    "'{word}' does not say whose column it is: a join gives left.COLUMN or right.COLUMN"
                ))
            }
        };
        let digits = column.starts_with(|c: char| c.is_ascii_digit());
        let column = if digits { format!(".{column}") } else { column.into() };
        Ok(before + line.tell(grammar::column(self, node, &column))?)
    }

    fn read_set(&mut self, line: &mut Line, set: Set) -> Checked<()> {
        let (name, left, right) = self.read_sides(line)?;
        line.done()?;
        let (l, r) = (&self.nodes[left], &self.nodes[right]);
        if l.columns.len() != r.columns.len() {
            return line.fail(format!(
                "the rows of '{}' have {}, those of '{}' have {}: they must be of one width",
                l.name,
                grammar::counted(l.columns.len(), "field", "fields"),
                r.name,
                r.columns.len()
            ));
        }
        let columns = l.columns.clone();
        self.add(name, columns, Op::Set { set, left, right });
        Ok(())
    }

    fn read_watch(&mut self, line: &mut Line) -> Checked<()> {
        let node = line.node(self)?;
        let sign = line.one_of("sign", &SIGNS)? + 1;
        let priority = match line.accept("priority") {
            true => Some(read_priority(line)?),
            false => None,
        };
        line.done()?;
        if self.sign(node).is_some() {
            return line.fail(format!("'{}' has a watch already", self.nodes[node].name));
        }
        self.records.push(Record::Watch { node, sign, priority });
        Ok(())
    }

    fn read_no_match(&mut self, line: &mut Line) -> Checked<()> {
        let (name, left, right) = self.read_sides(line)?;
        line.expect("on")?;
        let pairs = self.read_pairs(line, left, right)?;
        line.done()?;
        let columns = self.nodes[left].columns.clone();
        self.add(name, columns, Op::NoMatch { left, right, pairs });
        Ok(())
    }

    /// The text of a network: what `assemble` makes the same records from.
    pub fn text(&self) -> String {
        let lines = self.records.iter().map(|&r| self.line(r) + "\n");
        lines.collect()
    }

    fn line(&self, record: Record) -> String {
        let name = |i: usize| &self.nodes[i].name;
        let i = match record {
            Record::Watch { node, sign, priority } => {
                let priority = priority.map_or(String::new(), |p| format!(" priority {p}"));
                return format!("watch {} {}{priority}", name(node), SIGNS[sign - 1]);
            }
            Record::Node(i) => i,
        };
        match &self.nodes[i].op {
            Op::Table(_) => format!("table {} {}", name(i), self.nodes[i].columns.join(" ")),
            Op::Select { input, .. } => format!("select {} = {} where {}", name(i), name(*input), self.test(i)),
            Op::Project { input, .. } => {
                let given = self.given(i, |_| "");
                format!("project {} = {} give {given}", name(i), name(*input))
            }
            Op::Join { left, right, columns, .. } => {
                let wide = self.nodes[*left].columns.len();
                let side = |k: usize| match columns[k] < wide {
                    true => "left.",
                    false => "right.",
                };
                let given = self.given(i, side);
                let on = match self.pairs(i) {
                    pairs if pairs.is_empty() => pairs,
                    pairs => format!(" on {pairs}"),
                };
                format!("join {} = {} {}{on} give {given}", name(i), name(*left), name(*right))
            }
            Op::Set { set, left, right } => format!("{} {} = {} {}", set.word(), name(i), name(*left), name(*right)),
            Op::NoMatch { left, right, .. } => {
                format!("nomatch {} = {} {} on {}", name(i), name(*left), name(*right), self.pairs(i))
            }
        }
    }

    /// The columns that a node gives, with `as` where they get another name.
    fn given(&self, i: usize, side: impl Fn(usize) -> &'static str) -> String {
        let node = &self.nodes[i];
        let sources = self.sources(&node.op);
        let each = sources.iter().zip(&node.columns).enumerate();
        let texts: Vec<String> = each
            .map(|(k, (source, name))| match source == name {
                true => format!("{}{source}", side(k)),
                false => format!("{}{source} as {name}", side(k)),
            })
            .collect();
        texts.join(" ")
    }

    /// The test of a select, without its input; else nothing.
    pub fn test(&self, i: usize) -> String {
        let Op::Select { input, column, comparison, operand } = &self.nodes[i].op else {
            return String::new();
        };
        let columns = &self.nodes[*input].columns;
        let right = match operand {
            Operand::Constant(v) => v.to_string(),
            Operand::Column(k) => columns[*k].clone(),
        };
        format!("{} {} {right}", columns[*column], COMPARISONS[*comparison])
    }

    /// The pairs of a join or a no match; else nothing.
    pub fn pairs(&self, i: usize) -> String {
        match &self.nodes[i].op {
            Op::Join { left, right, pairs, .. } | Op::NoMatch { left, right, pairs } => {
                self.pairs_of(*left, *right, pairs)
            }
            _ => String::new(),
        }
    }

    /// Pairs of columns of two nodes.
    pub fn pairs_of(&self, left: usize, right: usize, pairs: &[(usize, usize)]) -> String {
        let (l, r) = (&self.nodes[left].columns, &self.nodes[right].columns);
        let each = pairs.iter().map(|&(a, b)| format!("{} = {}", l[a], r[b]));
        each.collect::<Vec<_>>().join(" and ")
    }
}

/// The number after `priority`.
fn read_priority(line: &mut Line) -> Checked<usize> {
    let word = line.next("a number")?;
    match grammar::number(word) {
        Ok(p) if p as usize <= PRIORITY => Ok(p as usize),
        _ => line.fail(format!("'{word}' is no priority: a priority is 0 to {PRIORITY}")),
    }
}

/// `[as NAME]` after a column: its name, else the source's.
fn read_as(line: &mut Line, source: &str) -> Checked<String> {
    match line.accept("as") {
        true => line.name("a name"),
        false => Ok(source.into()),
    }
}

/// One more column of a row: at most 4, and no name twice.
fn add_column(line: &Line, columns: &mut Vec<String>, column: String) -> Checked<()> {
    if columns.contains(&column) {
        let other = match line.word() {
            "table" => "choose another name",
            _ => "give one of them another name by 'as NAME' after it",
        };
        return line.fail(format!("there are two columns '{column}': {other}"));
    }
    if columns.len() == FIELDS {
        return line.fail(format!("a row has at most {FIELDS} fields"));
    }
    columns.push(column);
    Ok(())
}
