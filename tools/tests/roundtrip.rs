//! Bytes to text to bytes gives the same bytes, for whatever the library accepts; what it refuses has no text.
mod common;

use std::ops::Range;

use bagwezin_tools::batches::Rest;
use bagwezin_tools::network::Record;
use bagwezin_tools::{batches, network, Network};
use common::Random;

/// Bytes to text to bytes; the refusal's number and place where the library refuses.
fn around(bytes: &[u8]) -> Result<Network, (u32, u32)> {
    let net = match Network::from_bytes(bytes) {
        Ok(net) => net,
        Err((refusal, text)) => {
            let start = format!("refused {}", refusal.number);
            assert!(text.starts_with(&start), "{text}: {bytes:?}");
            return Err((refusal.number, refusal.place));
        }
    };
    assert_eq!(net.bytes(), bytes);
    let text = net.text();
    let again = Network::assemble(&text).unwrap_or_else(|e| panic!("{e}\n{text}"));
    assert_eq!(again.bytes(), bytes, "{text}");
    assert_eq!(again, net, "{text}");
    Ok(net)
}

fn batches_around(net: &Network, file: &[u8]) -> Result<(), String> {
    let text = batches::text(net, file)?;
    let again = batches::assemble(net, &text).unwrap_or_else(|e| panic!("{e}\n{text}"));
    assert_eq!(again.bytes, file, "{text}");
    Ok(())
}

#[test]
fn random_networks_and_batches() {
    let (mut kinds, mut priorities) = ([0; 11], [0; 10]);
    for seed in 0..20_000 {
        let mut r = Random::new(seed);
        let made = common::network(&mut r);
        let net = around(&made.bytes).unwrap_or_else(|e| panic!("seed {seed}: refused {e:?}"));
        let file = common::batches(&mut r, &made);
        batches_around(&net, &file).unwrap_or_else(|e| panic!("seed {seed}: {e}"));
        for at in network::offsets(&made.bytes) {
            let field = |k: usize| network::two(&made.bytes, at + 2 * k).unwrap();
            kinds[field(1)] += 1;
            if (field(0), field(1)) == (10, 9) {
                priorities[field(4)] += 1;
            }
        }
    }
    assert!(kinds[1..].iter().all(|&n| n > 5000), "{kinds:?}");
    assert!(priorities.iter().all(|&n| n > 500), "{priorities:?}");
    assert!(kinds[9] > priorities.iter().sum::<usize>() + 5000);
}

#[test]
fn damaged_networks_are_refused_by_the_library_or_come_back() {
    let (mut accepted, mut refused) = (0, [0; 8]);
    for seed in 0..20_000 {
        let mut r = Random::new(seed + 1_000_000);
        let mut bytes = common::network(&mut r).bytes;
        for _ in 0..1 + r.below(2) {
            let at = r.below(bytes.len());
            match r.below(5) {
                0 => bytes.truncate(at + 1),
                1 => bytes[at] = r.below(256) as u8,
                _ => bytes[at] = r.below(14) as u8,
            }
        }
        let verdict = network::judged(&bytes).map_err(|e| (e.number, e.place));
        assert_eq!(around(&bytes).map(|_| ()), verdict);
        match verdict {
            Ok(()) => accepted += 1,
            Err((number, _)) => refused[number as usize] += 1,
        }
    }
    assert!(accepted > 1000 && refused[3..=7].iter().filter(|&&n| n > 0).count() >= 4);
}

/// The verdicts on a file's batches in turn, as the station tells them for 10 to 13.
fn verdicts(net: &Network, file: &[u8]) -> Vec<String> {
    let cut = batches::pieces(file);
    let judged = |range: &Range<usize>| batches::judged(net, &file[range.clone()]);
    let refused = cut.batches.iter().filter_map(|range| judged(range).err());
    let mut out: Vec<String> = refused.map(|e| format!("refused {} {}", e.number, e.place)).collect();
    if let Rest::Broken(_, place) = cut.rest {
        out.push(format!("refused 10 {place}"));
    }
    out
}

#[test]
fn damaged_files_of_batches_are_refused_by_the_library_or_come_back() {
    let (mut accepted, mut refused) = (0, 0);
    for seed in 0..5000 {
        let mut r = Random::new(seed + 2_000_000);
        let made = common::network(&mut r);
        let net = Network::from_bytes(&made.bytes).unwrap();
        let mut file = common::batches(&mut r, &made);
        if !file.is_empty() {
            let at = r.below(file.len());
            match r.below(4) {
                0 => file.truncate(at),
                _ => file[at] = r.below(40) as u8,
            }
        }
        match (batches_around(&net, &file), verdicts(&net, &file).first()) {
            (Ok(()), None) => accepted += 1,
            (Err(text), Some(verdict)) => {
                let number = verdict.split(' ').nth(1).unwrap();
                assert!(text.contains(&format!("refused {number} at byte")), "{text}, not {verdict}");
                refused += 1;
            }
            // what stands after the last mark is no batch of the station's, and no text either
            (Err(text), None) => assert!(text.starts_with("after the last mark"), "{text}"),
            (Ok(()), Some(verdict)) => panic!("a text for a file with {verdict}"),
        }
    }
    assert!(accepted > 500 && refused > 500, "{accepted} {refused}");
}

/// A text with some words or letters changed gives a network or a problem with a line of the text.
#[test]
fn damaged_texts_are_read_or_told() {
    let words: Vec<&str> = "= where give as left.x .9 @40 @ . 4294967296 -1 both priority # é !".split(' ').collect();
    let texts = [
        common::N.into(),
        common::example("orchard/network.txt"),
        common::example("orchard/no-match.txt"),
        common::example("pictures/priorities/network.txt"),
    ];
    let events = common::example("orchard/batches.txt");
    let orchard = common::example_network("orchard/network");
    let mut read = 0;
    for seed in 0..20_000 {
        let mut r = Random::new(seed + 3_000_000);
        let whole = [&texts[0], &texts[1], &texts[2], &texts[3], &events][r.below(5)];
        let mut pieces: Vec<&str> = whole.split_inclusive([' ', '\n']).collect();
        for _ in 0..1 + r.below(3) {
            let at = r.below(pieces.len());
            match r.below(3) {
                0 => drop(pieces.remove(at)),
                1 => pieces.insert(at, words[r.below(words.len())]),
                _ => pieces[at] = pieces[r.below(pieces.len())],
            }
        }
        let text = pieces.concat();
        let problem = match *whole == events {
            true => batches::assemble(&orchard, &text).err(),
            false => Network::assemble(&text).map(|net| around(&net.bytes()).unwrap()).err(),
        };
        match problem {
            None => read += 1,
            Some(p) => assert!((1..=text.lines().count().max(1)).contains(&p.line), "{p}"),
        }
    }
    assert!(read > 1000, "{read}");
}

#[test]
fn named_networks_come_back_with_their_names() {
    for path in common::EXAMPLES {
        let net = common::example_network(path);
        assert_eq!(Network::assemble(&net.text()).unwrap(), net);
    }
}

#[test]
fn the_outside_vectors() {
    let (mut networks, mut legal, mut files) = (0, 0, 0);
    for (name, network, file, stdout) in common::vectors() {
        let whole = network.len() <= batches::FILE && file.len() <= batches::FILE;
        let net = match around(&network) {
            Ok(net) => net,
            Err((number, place)) => {
                assert!(!whole || stdout == format!("refused {number} {place}\n"), "{name}");
                continue;
            }
        };
        networks += 1;
        for range in batches::pieces(&file).batches {
            let marked = &file[range.start..range.end + 4];
            match batches::judged(&net, &file[range]) {
                Ok(()) => legal += usize::from(batches_around(&net, marked) == Ok(())),
                Err(_) => assert!(batches::text(&net, marked).is_err(), "{name}"),
            }
        }
        files += usize::from(batches_around(&net, &file).is_ok());
        let told = stdout.lines().filter(|l| l.starts_with("refused 1"));
        let told: Vec<&str> = told.filter(|l| !l.starts_with("refused 14")).collect();
        assert!(!whole || verdicts(&net, &file) == told, "{name}");
    }
    assert!(networks > 100 && legal > 200 && files > 40, "{networks} {legal} {files}");
}

#[test]
fn odd_but_legal_networks() {
    let lines = [
        "table n0 c0 c1",
        "watch n0 lost",
        "project n1 = n0 give c1 c1 as c1_2 c0 c1 as c1_3",
        "select n2 = n1 where c1_2 = c1_2",
        "select n3 = n0 where c0 != 4294967295",
        "join n4 = n0 n0 on c0 = c1 and c0 = c1 give left.c0 right.c0 as c0_2",
        "watch n4 both",
        "join n5 = n4 n4 give left.c0_2 right.c0",
        "intersect n6 = n5 n5",
        "nomatch n7 = n0 n0 on c0 = c0 and c0 = c0",
        "watch n7 gained",
        "nomatch n8 = n1 n7 on c1_3 = c1",
        "nomatch n9 = n7 n1 on c1 = c1_3 and c0 = c1",
        "watch n9 both priority 9",
        "watch n8 lost priority 0",
    ];
    let text = lines.join("\n") + "\n";
    let net = Network::assemble(&text).unwrap();
    assert_eq!(Network::from_bytes(&net.bytes()).unwrap().text(), text);
}

#[test]
fn names_and_positions_give_the_same_bytes() {
    let lines = [
        ("table a x y", "table a x y"),
        ("table b x", "table b x"),
        ("select s = a where y >= 8", "select s = @0 where .1>=8"),
        ("select t = a where x < y", "select t=a where .0<.1"),
        ("project p = a give y x", "project p = @0 give .1 .0"),
        ("join j = a b on x = x give left.y right.x", "join j = @0 @1 on .0=.0 give left.1 right.0"),
        ("watch j both", "watch @5 both"),
        ("nomatch k = a b on y = x and x = x", "nomatch k=@0 @1 on .1=.0 and .0=.0"),
        ("watch k gained priority 7", "watch @6 gained priority 7"),
    ];
    let (named, placed): (Vec<&str>, Vec<&str>) = lines.into_iter().unzip();
    let read = |lines: Vec<&str>| Network::assemble(&lines.join("\n")).unwrap();
    assert_eq!(read(named), read(placed));
}

#[test]
fn the_papers_network_has_the_papers_bytes() {
    let net = Network::assemble(common::N).unwrap();
    let bytes: &[u8] = &[
        6, 0, 1, 0, 2, 0, 14, 0, 2, 0, 0, 0, 1, 0, 5, 0, 8, 0, 0, 0, 10, 0, 4, 0, 1, 0, 1, 0, 0, 0, 6, 0, 1, 0, 1, 0,
        8, 0, 7, 0, 2, 0, 3, 0, 8, 0, 9, 0, 4, 0, 3, 0,
    ];
    assert_eq!(net.bytes(), bytes);
    let levels: Vec<usize> = net.nodes.iter().map(|n| n.level).collect();
    assert_eq!(levels, [0, 1, 2, 0, 3]);
    let events: &[u8] =
        &[14, 0, 32, 0, 0, 0, 5, 0, 0, 0, 9, 0, 0, 0, 4, 0, 34, 0, 10, 0, 33, 0, 3, 0, 0, 0, 1, 0, 4, 0, 34, 0];
    let text = "put catches 5 9\nend\nremove sprays 65536\nend\n";
    assert_eq!(batches::assemble(&net, text).unwrap().bytes, events);
    assert_eq!(batches::text(&net, events).unwrap(), text);
}

/// A no match has 10 bytes and 4 for each pair, takes a node number, and has its left's columns.
#[test]
fn a_no_match_has_its_kinds_bytes() {
    let tables = "table a v w\ntable b x y z\n";
    let text = format!("{tables}nomatch c = a b on w = z\nnomatch d = c b on v = y and w = x\nwatch d lost\n");
    let net = Network::assemble(&text).unwrap();
    let bytes: &[u8] = &[
        6, 0, 1, 0, 2, 0, 6, 0, 1, 0, 3, 0, 14, 0, 10, 0, 0, 0, 1, 0, 1, 0, 1, 0, 2, 0, 18, 0, 10, 0, 2, 0, 1, 0, 2, 0,
        0, 0, 1, 0, 1, 0, 0, 0, 8, 0, 9, 0, 3, 0, 2, 0,
    ];
    assert_eq!(net.bytes(), bytes);
    assert_eq!(net.text(), text);
    let shapes: Vec<(usize, usize)> = net.nodes.iter().map(|n| (n.columns.len(), n.level)).collect();
    assert_eq!(shapes, [(2, 0), (3, 0), (2, 1), (2, 2)]);
    assert_eq!(net.nodes[3].columns, ["v", "w"]);
}

/// A watch has 8 bytes, or 10 with a priority, be it 0.
#[test]
fn a_watch_has_8_bytes_or_10() {
    let text = "table a x\nwatch a both\ntable b x\nwatch b gained priority 0\ntable c x\nwatch c lost priority 9\n";
    let net = Network::assemble(text).unwrap();
    let bytes: &[u8] = &[
        6, 0, 1, 0, 1, 0, 8, 0, 9, 0, 0, 0, 3, 0, 6, 0, 1, 0, 1, 0, 10, 0, 9, 0, 1, 0, 1, 0, 0, 0, 6, 0, 1, 0, 1, 0,
        10, 0, 9, 0, 2, 0, 2, 0, 9, 0,
    ];
    assert_eq!(net.bytes(), bytes);
    assert_eq!(net.text(), text);
    let again = around(bytes).unwrap();
    assert_eq!(again.records, net.records);
    assert_eq!(again.records[3], Record::Watch { node: 1, sign: 1, priority: Some(0) });
    assert_eq!([0, 1, 2].map(|i| again.watched(i)), [Some((3, None)), Some((1, Some(0))), Some((2, Some(9)))]);
}

#[test]
fn the_orchards_text_has_the_orchards_bytes() {
    let events = common::example("orchard/batches.txt");
    for path in ["orchard/network", "orchard/no-match"] {
        let net = common::example_network(path);
        assert_eq!(net.bytes(), common::example_bytes(&format!("{path}.bin")));
        let file = batches::assemble(&net, &events).unwrap();
        assert_eq!(file.bytes, common::example_bytes("orchard/batch.bin"));
    }
}
