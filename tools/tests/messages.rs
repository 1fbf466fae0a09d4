//! What is wrong with a text is told with its line, and with how the line should look; refusals come in words.
mod common;

use bagwezin_tools::grammar::{reserved, EVENTS, RECORDS};
use bagwezin_tools::network::record;
use bagwezin_tools::{batches, Network};
use common::{Random, N};

fn network(text: &str) -> String {
    Network::assemble(text).unwrap_err().to_string()
}

fn events(text: &str) -> String {
    let net = Network::assemble(N).unwrap();
    batches::assemble(&net, text).unwrap_err().to_string()
}

/// Answers of a reader to texts.
fn answers(read: fn(&str) -> String, list: &[(&str, &str)]) {
    for (text, answer) in list {
        let told = read(text);
        assert!(told.starts_with(answer), "{text:?} gives {told:?}");
    }
}

#[test]
fn names_that_are_not_there() {
    answers(
        network,
        &[
            ("table a x\nselect b = c where x = 1\n", "2: there is no node 'c' (there are a)"),
            ("watch a both\n", "1: there is no node 'a' (none yet: a network begins with a table)"),
            ("table a x\nwatch @1 both\n", "2: there is no node '@1' (there are a)"),
            ("table a x y\nproject b = a give z\n", "2: 'a' has no column 'z' (it has x, y)"),
            ("table a x y\nproject b = a give 1\n", "2: 'a' has no column '1' (it has x, y; a position is written .1)"),
            ("table a x y\nproject b = a give .2\n", "2: 'a' has no column '.2' (it has x, y)"),
            ("table a x\njoin b = a a give left.y\n", "2: 'a' has no column 'y' (it has x)"),
            ("table a x\njoin b = a a give left.1\n", "2: 'a' has no column '.1' (it has x)"),
            (
                "table a x\njoin b = a a give x\n",
                "2: 'x' does not say whose column it is: a join gives left.COLUMN or right.COLUMN",
            ),
            ("table a x\ntable b y\nnomatch c = a b on y = y\n", "3: 'a' has no column 'y' (it has x)"),
            ("table a x\ntable b y\nnomatch c = a b on x = x\n", "3: 'b' has no column 'x' (it has y)"),
            ("table a x\ntable b y\nnomatch c = a b on x = y and x = .1\n", "3: 'b' has no column '.1' (it has y)"),
            ("table a x\nnomatch b = a b on x = x\n", "2: there is no node 'b' (there are a)"),
        ],
    );
}

#[test]
fn names_that_cannot_be() {
    answers(
        network,
        &[
            ("table 1 x\n", "1: '1' is no name: a name is a letter, then letters, digits, _ and -"),
            ("table a x.y\n", "1: 'x.y' is no name"),
            ("table a x\ntable a x\n", "2: there is a node 'a' already"),
            ("table a x y x\n", "1: there are two columns 'x': choose another name"),
            (
                "table a x\nproject b = a give x x\n",
                "2: there are two columns 'x': give one of them another name by 'as NAME' after it",
            ),
            ("table a x\njoin b = a a give left.x right.x\n", "2: there are two columns 'x'"),
        ],
    );
    for word in reserved() {
        let told = network(&format!("table a {word}\n"));
        let answer = format!("1: '{word}' is a word of the grammar and cannot be a name: choose another");
        assert_eq!(told, answer);
    }
}

#[test]
fn numbers_and_counts() {
    answers(
        network,
        &[
            (
                "table a x\nselect b = a where x = 4294967296\n",
                "2: 4294967296 is above 4294967295, the largest number of a field",
            ),
            (
                "table a x\nselect b = a where x = 99999999999999999999999\n",
                "2: 99999999999999999999999 is above 4294967295",
            ),
            ("table a x\nselect b = a where x = -1\n", "2: '-1' is no number from 0 to 4294967295"),
            ("table a x\nselect b = a where x = 1x\n", "2: '1x' is no number from 0 to 4294967295"),
            ("table a v w x y z\n", "1: a row has at most 4 fields"),
            (
                "table a x\ntable b x y\nunion c = a b\n",
                "3: the rows of 'a' have 1 field, those of 'b' have 2: they must be of one width",
            ),
            ("table a x\nwatch a both\nwatch a lost\n", "3: 'a' has a watch already"),
            ("table a x\nwatch a both priority 3\nwatch a both priority 4\n", "3: 'a' has a watch already"),
            ("table a x\nwatch a both priority 10\n", "2: '10' is no priority: a priority is 0 to 9"),
            ("table a x\nwatch a lost priority 65536\n", "2: '65536' is no priority: a priority is 0 to 9"),
            ("table a x\nwatch a both priority 4294967296\n", "2: '4294967296' is no priority"),
            ("table a x\nwatch a both priority -1\n", "2: '-1' is no priority: a priority is 0 to 9"),
            ("table a x\nwatch a both priority high\n", "2: 'high' is no priority: a priority is 0 to 9"),
            ("table a x\njoin b = a a on x = x and x = x and x = x give left.x\n", "2: a join has at most two pairs"),
            ("table a x\nnomatch b = a a on x = x and x = x and x = x\n", "2: a nomatch has at most two pairs"),
            ("# nothing\n", "1: there is no node: a network has at least one table"),
        ],
    );
    let many: String = (0..33).map(|k| format!("table t{k} x\n")).collect();
    assert_eq!(network(&many), "33: a network has at most 32 nodes");
    let full = many.replace("table t32 x\n", "nomatch last = t0 t1 on x = x\n");
    assert_eq!(network(&full), "33: a network has at most 32 nodes");
}

#[test]
fn a_wrong_line_says_how_it_should_look() {
    let form = "\n    the line is written  select NAME = NODE where COLUMN COMPARISON VALUE\n    for example          select heavy = catches where count >= 8";
    let told = |text: &str| network(&format!("table a x\n{text}\n"));
    assert_eq!(told("select b from a where x = 1"), format!("2: after 'b' comes '=', not 'from'{form}"));
    assert_eq!(told("select b = a where x ~ 1"), format!("2: '~' is no comparison (= != < <= > >=){form}"));
    assert_eq!(told("select b = a where x ="), format!("2: a value is missing at the end{form}"));
    assert_eq!(told("select b = a where x = 1 2"), format!("2: '2' is one word too many{form}"));
    assert!(told("select b = a").starts_with("2: 'where' is missing at the end\n"));
    assert!(told("project b = a give").starts_with("2: a column is missing at the end\n"));
    assert!(told("watch a all").starts_with("2: 'all' is no sign (gained lost both)\n"));
    assert!(told("table b").starts_with("2: a column is missing at the end\n"));
    assert!(told("union b = a").starts_with("2: a node is missing at the end\n"));
    assert!(told("union = a a").starts_with("2: a name is missing before '='\n"));
    assert!(told("select b = where x = 1").starts_with("2: a node is missing before 'where'\n"));
    assert!(told("select b = a where = 1").starts_with("2: a column is missing before '='\n"));
    assert!(told("join b = a on x = x give left.x").starts_with("2: a node is missing before 'on'\n"));
    let form = RECORDS.iter().find(|f| f.word == "nomatch").unwrap();
    let form = format!("\n    the line is written  {}\n    for example          {}", form.line, form.example);
    assert_eq!(told("nomatch b = a a"), format!("2: 'on' is missing at the end{form}"));
    assert_eq!(told("nomatch b = a a give left.x"), format!("2: after 'a' comes 'on', not 'give'{form}"));
    assert_eq!(told("nomatch b = a on x = x"), format!("2: a node is missing before 'on'{form}"));
    assert_eq!(told("nomatch b = a a on"), format!("2: a column is missing at the end{form}"));
    assert_eq!(told("nomatch b = a a on x x"), format!("2: after 'x' comes '=', not 'x'{form}"));
    assert_eq!(told("nomatch b = a a on x = x and"), format!("2: a column is missing at the end{form}"));
    assert_eq!(told("nomatch b = a a on x = x give left.x"), format!("2: 'give' is one word too many{form}"));
    let form = "\n    the line is written  watch NODE SIGN [priority NUMBER]\n    for example          watch advice both priority 3";
    assert_eq!(told("watch a both priority"), format!("2: a number is missing at the end{form}"));
    assert_eq!(told("watch a priority 3"), format!("2: 'priority' is no sign (gained lost both){form}"));
    assert_eq!(told("watch priority 3"), format!("2: a node is missing before 'priority'{form}"));
    assert_eq!(told("watch a both 3"), format!("2: '3' is one word too many{form}"));
    assert_eq!(told("watch a both priority 3 4"), format!("2: '4' is one word too many{form}"));
    let lines = told("tabel b x");
    assert!(lines.starts_with("2: no line begins with 'tabel'; the lines are\n    table NAME COLUMN ...\n    select "));
    assert!(events("putt catches 1 2\n")
        .starts_with("1: no line begins with 'putt'; the lines are\n    put TABLE NUMBER ...\n"));
}

#[test]
fn every_form_is_in_the_grammars_page_and_every_example_is_right() {
    let page = std::fs::read_to_string(common::root().join("docs/TEXT.md")).unwrap();
    for form in RECORDS.iter().chain(&EVENTS) {
        assert!(page.contains(form.line), "docs/TEXT.md does not have: {}", form.line);
        assert!(page.contains(form.example), "docs/TEXT.md does not have: {}", form.example);
    }
    for word in reserved() {
        assert!(page.contains(&format!("`{word}`")), "docs/TEXT.md does not list `{word}`");
    }
    let blocks: Vec<&str> = page.split("```text\n").skip(1).collect();
    let texts = blocks.iter().filter_map(|b| b.split("```").next());
    let networks: Vec<&str> = texts.filter(|t| t.starts_with("table ")).collect();
    assert!(!networks.is_empty() && networks.iter().all(|t| Network::assemble(t).is_ok()));
}

#[test]
fn events_that_do_not_fit() {
    answers(
        events,
        &[
            ("put heavy 1 2\nend\n", "1: 'heavy' is no table: events name tables alone"),
            ("put nothing 1\nend\n", "1: there is no node 'nothing'"),
            ("end\nput catches 1\nend\n", "2: 1 number, and a row of 'catches' has 2 (block, count)"),
            ("put sprays 4294967296\nend\n", "1: 4294967296 is above 4294967295, the largest number of a field"),
            ("put sprays x\nend\n", "1: 'x' is no number from 0 to 4294967295"),
            ("put sprays 4\n", "1: the last batch has no 'end'"),
            ("put sprays 4\nend 5\n", "2: '5' is one word too many"),
            ("unfinished\n", "1: 'unfinished' stands for the missing 'end'"),
            ("put sprays 4\nunfinished\nend\n", "3: nothing may follow 'unfinished'"),
        ],
    );
    let many = "put sprays 4\n".repeat(65) + "end\n";
    let told = "65: this is event 65 of its batch, and a batch has at most 64: write 'end' before it";
    assert_eq!(events(&many), told);
}

#[test]
fn refused_networks_are_told_with_the_field_at_fault() {
    let table = [6, 0, 1, 0, 2, 0];
    let told = |more: &[u8]| Network::from_bytes(&[&table[..], more].concat()).unwrap_err().1;
    let list: [(&[u8], &str); 15] = [
        (&[1], "refused 3 at byte 6: a network record's length is broken (1 byte remains, a record has at least 4)"),
        (&[9, 0, 1, 0], "refused 3 at byte 6: a network record's length is broken (it says that it has 9 bytes, and 4 are left)"),
        (&[3, 0, 1, 0], "refused 3 at byte 6: a network record's length is broken (it says that it has 3 bytes, below 4)"),
        (&[4, 0, 0, 0], "(its kind is 0)"),
        (&[4, 0, 11, 0], "(its kind is 11)"),
        (&[7, 0, 1, 0, 1, 0, 0], "(table: it has 7 bytes, and this table takes 6)"),
        (&[8, 0, 4, 0, 0, 0, 5, 0], "(project: its number of columns is 5, not 1 to 4)"),
        (&[8, 0, 5, 0, 0, 0, 0, 0], "(join: with 8 bytes it ends before its number of pairs)"),
        (&[6, 0, 1, 0, 9, 0], "(table: its width is 9, not 1 to 4)"),
        (&[8, 0, 9, 0, 3, 0, 1, 0], "(watch: its node is node 3, and the nodes before it are 0 to 0)"),
        (&[8, 0, 9, 0, 0, 0, 4, 0], "(watch: its sign is 4, not 1 (gained), 2 (lost) or 3 (both))"),
        (&[10, 0, 4, 0, 0, 0, 1, 0, 2, 0], "(project: its column is 2, and the columns are 0 to 1)"),
        (&[12, 0, 3, 0, 0, 0, 1, 0, 6, 0, 0, 0], "(select by two columns: its comparison is 6, not 0 to 5)"),
        (&[6, 0, 1, 0, 1, 0, 8, 0, 6, 0, 0, 0, 1, 0], "refused 7 at byte 12: a field of the record breaks a rule (union: its left has rows of 2 fields, its right of 1)"),
        (&[8, 0, 9, 0, 0, 0, 1, 0, 8, 0, 9, 0, 0, 0, 2, 0], "refused 7 at byte 14: a field of the record breaks a rule (watch: node 0 has a watch already)"),
    ];
    for (more, answer) in list {
        assert!(told(more).ends_with(answer), "{} for {more:?}", told(more));
    }
    assert_eq!(Network::from_bytes(&[]).unwrap_err().1, "refused 2: the network has no bytes");
}

#[test]
fn refused_no_matches_are_told_with_the_field_at_fault() {
    let tables = [6, 0, 1, 0, 2, 0, 6, 0, 1, 0, 1, 0];
    let list: [(&[usize], u32, &str); 13] = [
        (&[0, 1], 6, "with 8 bytes it ends before its number of pairs"),
        (&[0, 1, 0], 6, "its number of pairs is 0, not 1 to 2"),
        (&[0, 1, 3, 0, 0, 0, 0, 0, 0], 6, "its number of pairs is 3, not 1 to 2"),
        (&[0, 1, 1, 0], 6, "it has 12 bytes, and this no match takes 14"),
        (&[0, 1, 1, 0, 0, 0], 6, "it has 16 bytes, and this no match takes 14"),
        (&[0, 1, 2, 0, 0], 6, "it has 14 bytes, and this no match takes 18"),
        (&[2, 1, 1, 0, 0], 7, "its left is node 2, and the nodes before it are 0 to 1"),
        (&[0, 2, 1, 0, 0], 7, "its right is node 2, and the nodes before it are 0 to 1"),
        (&[0, 1, 1, 2, 0], 7, "its left column of a pair is 2, and the columns are 0 to 1"),
        (&[0, 1, 1, 1, 1], 7, "its right column of a pair is 1, and the columns are 0 to 0"),
        (&[1, 0, 1, 1, 1], 7, "its left column of a pair is 1, and the columns are 0 to 0"),
        (&[0, 1, 2, 0, 0, 2, 0], 7, "its left column of a pair is 2, and the columns are 0 to 1"),
        (&[0, 1, 2, 0, 0, 0, 1], 7, "its right column of a pair is 1, and the columns are 0 to 0"),
    ];
    for (fields, number, fault) in list {
        let bytes = [&tables[..], &record(10, fields)].concat();
        let (refusal, text) = Network::from_bytes(&bytes).unwrap_err();
        assert_eq!((refusal.number, refusal.place), (number, 12), "{fields:?}");
        assert_eq!(text, format!("{refusal} (no match: {fault})"));
    }
    let whole = record(10, &[0, 0, 1, 0, 0]);
    let first = Network::from_bytes(&whole).unwrap_err().1;
    assert!(first.ends_with("(no match: its left is node 0, and there is none yet)"), "{first}");
    let late = Network::from_bytes(&[tables.repeat(16), whole].concat()).unwrap_err().1;
    assert_eq!(late, "refused 5 at byte 192: it would be the 33rd node");
}

#[test]
fn refused_watches_are_told_with_the_field_at_fault() {
    let table = [6, 0, 1, 0, 2, 0];
    let lengths = "a watch takes 8, or 10 with a priority";
    let nine = vec![9, 0, 9, 0, 0, 0, 1, 0, 3];
    let list = [
        (record(9, &[]), 6, format!("it has 4 bytes, and {lengths}")),
        (record(9, &[0]), 6, format!("it has 6 bytes, and {lengths}")),
        (nine, 6, format!("it has 9 bytes, and {lengths}")),
        (record(9, &[7, 4, 10, 0]), 6, format!("it has 12 bytes, and {lengths}")),
        (record(9, &[0, 1, 10]), 7, "its priority is 10, not 0 to 9".into()),
        (record(9, &[0, 2, 65535]), 7, "its priority is 65535, not 0 to 9".into()),
        (record(9, &[0, 3, 256]), 7, "its priority is 256, not 0 to 9".into()),
        (record(9, &[0, 0, 9]), 7, "its sign is 0, not 1 (gained), 2 (lost) or 3 (both)".into()),
        (record(9, &[1, 1, 9]), 7, "its node is node 1, and the nodes before it are 0 to 0".into()),
    ];
    for (watch, number, fault) in list {
        let (refusal, text) = Network::from_bytes(&[&table[..], &watch].concat()).unwrap_err();
        assert_eq!((refusal.number, refusal.place), (number, 6), "{watch:?}");
        assert_eq!(text, format!("{refusal} (watch: {fault})"));
    }
    let told = |more: &[u8]| Network::from_bytes(&[&table[..], more].concat()).unwrap_err().1;
    let watch = record(9, &[0, 1, 9]);
    let second = told(&watch.repeat(2));
    assert!(second.starts_with("refused 7 at byte 16: ") && second.ends_with("(watch: node 0 has a watch already)"));
    let cut = told(&watch[..9]);
    assert!(
        cut.starts_with("refused 3 at byte 6: ") && cut.ends_with("(it says that it has 10 bytes, and 9 are left)")
    );
}

#[test]
fn every_refusal_of_a_damaged_network_says_which_field() {
    let mut told = 0;
    for seed in 0..5000 {
        let mut r = Random::new(seed);
        let mut bytes = common::network(&mut r).bytes;
        let at = r.below(bytes.len());
        bytes[at] = r.below(14) as u8;
        if let Err((refusal, text)) = Network::from_bytes(&bytes) {
            assert!(text.ends_with(')'), "{refusal:?}: {text}");
            told += 1;
        }
    }
    assert!(told > 1000);
}

#[test]
fn refused_batches_are_told_with_the_event_at_fault() {
    let net = Network::assemble(N).unwrap();
    let told = |bytes: &[u8]| batches::text(&net, bytes).unwrap_err();
    let list: [(&[u8], &str); 7] = [
        (&[4, 0, 35, 0, 4, 0, 34, 0], "batch 1 of the file, from byte 0 on: refused 11 at byte 0: the event's kind is neither 32 nor 33 (record 1: its kind is 35)"),
        (&[8, 0, 32, 0, 1, 0, 0, 0, 4, 0, 34, 0], "(record 1: node 1 (heavy) is no table)"),
        (&[6, 0, 32, 0, 9, 0, 4, 0, 34, 0], "(record 1: node 9 does not exist)"),
        (&[4, 0, 32, 0, 4, 0, 34, 0], "(record 1: with 4 bytes it names no node)"),
        (&[6, 0, 32, 0, 3, 0, 4, 0, 34, 0], "(record 1: it has 6 bytes, and a row of sprays takes 10)"),
        (&[4, 0, 34, 0, 4, 0, 35, 0], "after the last mark, from byte 4 on: refused 11 at byte 0: the event's kind is neither 32 nor 33 (record 1: its kind is 35)"),
        (&[4, 0, 34, 0, 9, 0], "after the last mark, from byte 4 on: refused 10 at byte 0: an event record's length is broken (2 bytes remain, a record has at least 4)"),
    ];
    for (bytes, answer) in list {
        assert!(told(bytes).ends_with(answer), "{} for {bytes:?}", told(bytes));
    }
    let event = [10, 0, 32, 0, 3, 0, 1, 0, 0, 0];
    let many = [event.repeat(65), vec![4, 0, 34, 0]].concat();
    assert!(told(&many).contains("refused 12 at byte 640"));
}
