//! Tests that need none of our programs: the second implementation, the unchanged Rust and the fixed answers in crates/replay/data agree.
use crate::codes::{CONDITION_WORDS, CONDITIONS, IADD, ICMP, ICONST, IMUL, OPAQUE, SELECT, SEXTEND, UEXTEND, WORDS};
use crate::cranelift;
use crate::evaluate::{greatest, ir_number, operation, row_number, word_number};
use crate::generate::{MOST, Shape, random_graph};
use crate::graph::{Graph, InstRow, ValueRow};
use crate::harvests::due_texts;
use crate::image::{RECORD, read_image, write_image};
use crate::judge::judge;
use crate::meaning::Meaning;
use crate::random::{Random, Use};
use crate::refusal::{Refusal, spelled, verdict_spelled};
use crate::translation::{Candidate, candidates, list, translate};
use crate::verdicts::damaged_image;
use std::fs;
use std::path::PathBuf;

/// Where `replay` keeps fixed answers.
fn data(folder: &str) -> PathBuf {
    PathBuf::from(env!("CARGO_MANIFEST_DIR")).with_file_name("crates").join("replay").join("data").join(folder)
}

fn read(folder: &str, name: &str) -> Vec<u8> {
    let path = data(folder).join(name);
    fs::read(&path).unwrap_or_else(|why| panic!("{}: {why}", path.display()))
}

fn read_text(folder: &str, name: &str) -> String {
    String::from_utf8(read(folder, name)).expect("text")
}

fn own_texts(found: &[Candidate]) -> String {
    found.iter().map(|candidate| candidate.translation.text("f")).collect()
}

fn random_graphs(count: u64) -> impl Iterator<Item = Graph> {
    (0..count).map(|index| random_graph(&mut Random::new(7, Use::Graph, index)))
}

/// v4 = v0 * 3 + 7
fn multiply_add() -> Graph {
    let result = |inst: usize| ValueRow::Result { ty: 32, place: 0, inst };
    let constant = |immediate: i64, of: usize| InstRow { opcode: ICONST, immediate, results: vec![of], ..Default::default() };
    let operation = |opcode: u8, operands: &[usize], of: usize| InstRow {
        opcode,
        operands: operands.to_vec(),
        results: vec![of],
        ..Default::default()
    };
    Graph {
        values: vec![ValueRow::Param { ty: 32, number: 0, block: 0 }, result(0), result(1), result(2), result(3)],
        insts: vec![constant(3, 1), operation(IMUL, &[0, 1], 2), constant(7, 3), operation(IADD, &[2, 3], 4)],
    }
}

#[test]
fn the_first_example_of_the_readme() {
    let due = "\
;; Harvested from `v4` in `grade`
%0:i32 = var
%1:i32 = mul %0, 3:i32
%2:i32 = add %1, 7:i32
infer %2

";
    let graph = multiply_add();
    assert_eq!(cranelift::harvest(&graph, "grade"), [due]);
    let meaning = Meaning::of(&graph);
    let found = candidates(&meaning);
    assert_eq!(found[0].translation.text("grade"), due);
    assert_eq!(list(&found), "root 4 rows 3 counted 2 steps 10 place 0 4\n");
    assert_eq!(ir_number(&meaning, 4, &[10, 0, 0, 0, 0]), Ok(37));
    assert_eq!(row_number(&found[0].translation.rows, 2, &[10, 0, 0]), Ok(37));
}

#[test]
fn fixed_verdicts() {
    for line in read_text("judge", "answers.txt").lines() {
        let (name, due) = line.split_once(' ').expect("a name and a verdict");
        assert_eq!(verdict_spelled(judge(&read("judge", name))), due, "{name}");
    }
}

#[test]
fn fixed_candidates() {
    for line in read_text("harvest", "MANIFEST").lines() {
        let name = line.split(' ').next().expect("a name");
        let image = read("harvest", &format!("{name}.img"));
        assert_eq!(judge(&image), Ok(()), "{name}");
        let graph = read_image(&image);
        let meaning = Meaning::of(&graph);
        let found = candidates(&meaning);
        let text = read_text("harvest", &format!("{name}.txt"));
        assert_eq!(due_texts(&graph, &meaning, "f").expect("texts").0.concat(), text, "{name}");
        assert_eq!(own_texts(&found), text, "{name}");
        assert_eq!(list(&found), read_text("harvest", &format!("{name}.list")), "{name}");
        let is_as_sent = cranelift::harvest(&graph, "f").concat() == text;
        assert_eq!(is_as_sent, line.ends_with(" comparable"), "{name}");
    }
}

#[test]
fn fixed_numbers() {
    for line in read_text("harvest", "evals.txt").lines() {
        let (question, due) = line.split_once(" = ").expect("a question and an answer");
        let words: Vec<&str> = question.split(' ').collect();
        let meaning = Meaning::of(&read_image(&read("harvest", &format!("{}.img", words[0]))));
        let value = words[2][1..].parse().expect("a value");
        let inputs = words[words.len() - 1].trim_matches(['[', ']']).split(',');
        let inputs: Vec<u64> = inputs.map(|input| input.parse().expect("a number")).collect();
        let answer = match words[1] {
            "ir" => ir_number(&meaning, value, &inputs),
            _ => row_number(&translate(&meaning, value).rows, words[3].parse().expect("a row"), &inputs),
        };
        assert_eq!(spelled(answer), due, "{question}");
    }
}

#[test]
fn random_graphs_are_accepted_and_read_back() {
    let mut largest = 0;
    for graph in random_graphs(400) {
        let image = write_image(&graph);
        assert_eq!(judge(&image), Ok(()));
        assert_eq!(read_image(&image), graph);
        largest = largest.max(graph.values.len());
    }
    assert_eq!(largest, MOST);
}

#[test]
fn the_rust_and_the_second_implementation_agree() {
    let mut set_aside_in_all = 0;
    for graph in random_graphs(200) {
        let meaning = Meaning::of(&graph);
        let (texts, set_aside) = due_texts(&graph, &meaning, "f").expect("texts");
        assert_eq!(own_texts(&candidates(&meaning)), texts.concat());
        set_aside_in_all += set_aside;
    }
    assert!(set_aside_in_all > 0, "no shift of two widths");
}

#[test]
fn damage_follows_from_the_seed() {
    let images = |seed: u64| (0..50).map(|index| damaged_image(seed, index)).collect::<Vec<_>>();
    assert_eq!(images(1), images(1));
    assert_ne!(images(1), images(2));
}

#[test]
fn damage_meets_every_refusal_of_an_image() {
    let mut met: Vec<u8> = (0..3000).filter_map(|index| judge(&damaged_image(1, index)).err()).map(|refusal| refusal.number).collect();
    met.sort();
    met.dedup();
    assert_eq!(met, [1, 2, 3, 4, 5, 9, 12, 13]);
}

#[test]
fn a_loop_through_an_alias_is_refused_at_its_lowest_value() {
    let param = ValueRow::Param { ty: 32, number: 0, block: 0 };
    let alias = ValueRow::Alias { ty: 32, to: 2 };
    let product = ValueRow::Result { ty: 32, place: 0, inst: 0 };
    let imul = InstRow { opcode: IMUL, operands: vec![1, 0], results: vec![2], ..Default::default() };
    let graph = Graph { values: vec![param, alias, product], insts: vec![imul] };
    assert_eq!(judge(&write_image(&graph)), Err(Refusal::at(9, 1)));
    // an alias that leads into a circle does not go round
    let alias_to = |to: usize| ValueRow::Alias { ty: 8, to };
    let circle = Graph { values: vec![alias_to(2), alias_to(2), alias_to(3), alias_to(2)], insts: vec![] };
    assert_eq!(judge(&write_image(&circle)), Err(Refusal::at(9, 2)));
}

#[test]
fn past_1024_records_of_a_kind() {
    let param = ValueRow::Param { ty: 8, number: 0, block: 0 };
    let values = |count: usize| write_image(&Graph { values: vec![param; count], insts: vec![] });
    assert_eq!(judge(&values(MOST)), Ok(()));
    assert_eq!(judge(&values(MOST + 1)), Err(Refusal::because(12)));
    assert_eq!(judge(&values(1)[..RECORD - 1]), Err(Refusal::because(12)));
    let opaque = InstRow { opcode: OPAQUE, ..Default::default() };
    let insts = |count: usize| write_image(&Graph { values: vec![], insts: vec![opaque.clone(); count] });
    assert_eq!(judge(&insts(MOST)), Ok(()));
    assert_eq!(judge(&insts(MOST + 1)), Err(Refusal::because(12)));
}

#[test]
fn pins_are_refused_in_order() {
    let mut meaning = Meaning::of(&multiply_add());
    assert_eq!(meaning.pin(5, 0), Err(Refusal::because(1)));
    assert_eq!(meaning.pin(4, -1), Err(Refusal::because(5)));
    assert_eq!(meaning.pin(4, 0), Err(Refusal::because(10)));
    assert_eq!(meaning.pin(0, 4294967295), Ok(()));
    assert_eq!(meaning.pin(0, 0), Err(Refusal::because(10)));
    assert_eq!(
        translate(&meaning, 4).text("f"),
        ";; Harvested from `v4` in `f`\n%0:i32 = mul 4294967295:i32, 3:i32\n%1:i32 = add %0, 7:i32\ninfer %1\n\n"
    );
    let params = (0..17).map(|number| ValueRow::Param { ty: 8, number, block: 0 }).collect();
    let mut meaning = Meaning::of(&Graph { values: params, insts: vec![] });
    for variable in 0..16 {
        assert_eq!(meaning.pin(variable, 255), Ok(()));
    }
    assert_eq!(meaning.pin(16, 255), Err(Refusal::because(11)));
}

/// Asserts that a word that is defined has the operation's number, and that it is undefined where the operation traps.
fn assert_alike(opcode: u8, condition: u8, width: u16, operands: &[(u64, u16)]) {
    let number = operation(opcode, condition, width, operands);
    let word = match opcode {
        ICMP => CONDITION_WORDS[usize::from(condition)].and_then(|word| word_number(word, 1, operands)),
        // `bnot` is `xor` with -1, and the condition of `select` has one bit
        10 => word_number("xor", width, &[operands[0], (greatest(width), width)]),
        SELECT => word_number("select", width, &[(u64::from(operands[0].0 != 0), 1), operands[1], operands[2]]),
        _ => word_number(WORDS[usize::from(opcode)], width, operands),
    };
    if word.is_some() || number.is_none() {
        assert_eq!(word, number, "opcode {opcode}, condition {condition}, {operands:?}");
    }
}

#[test]
fn operations_and_words_agree_at_width_8() {
    for x in 0..256 {
        for opcode in [10, 18, 19, 20, 21] {
            assert_alike(opcode, 0, 8, &[(x, 8)]);
        }
        for width in [16, 32, 64] {
            assert_alike(UEXTEND, 0, width, &[(x, 8)]);
            assert_alike(SEXTEND, 0, width, &[(x, 8)]);
        }
        for y in 0..256 {
            for opcode in [1, 2, 3, 4, 5, 6, 7, 8, 9, 11, 12, 13, 22, 23, 24] {
                assert_alike(opcode, 0, 8, &[(x, 8), (y, 8)]);
            }
            for condition in 0..CONDITIONS {
                assert_alike(ICMP, condition as u8, 8, &[(x, 8), (y, 8)]);
            }
            assert_alike(SELECT, 0, 8, &[(x, 8), (y, 8), (y ^ 1, 8)]);
        }
    }
}

#[test]
fn shapes_have_the_values_asked_for() {
    for shape in Shape::ALL {
        for size in [128, MOST] {
            let graph = shape.graph(size, &mut Random::new(1, Use::Bench, 0));
            assert_eq!(judge(&write_image(&graph)), Ok(()));
            let count = graph.values.len();
            assert!(size <= count && count < size + 6, "{}: {count} values", shape.name());
        }
    }
}
