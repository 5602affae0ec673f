//! Worked examples, all from the rules and none from the program's own output.

use crate::{order, Console, Input, RangeRule, Refusal, Station, Tree, Verdict, Wiring};

const HEAD: u32 = 0x8000_0000;
const FLOOD: u32 = 0xa000_0000;
const TAIL: u32 = 0x4000_0000;

fn full(levels: u16, rules: &[(u16, u16, u8, u8, Verdict)]) -> Tree {
    let rules = rules
        .iter()
        .map(|&(a, b, j, k, verdict)| RangeRule::new((a, b), (j, k), verdict).unwrap())
        .collect();
    Tree::new(Wiring::full(levels).unwrap(), rules)
}

fn no<T>(number: u8) -> Result<T, Refusal> {
    Err(Refusal::of(number))
}

fn no_at<T>(number: u8, place: usize) -> Result<T, Refusal> {
    Err(Refusal::at(number, place))
}

/// Fires everything until nothing more moves, and takes nothing.
fn run(tree: &mut Tree) -> u32 {
    let mut granted = 0;
    loop {
        let before = granted;
        for card in 0..31 {
            for (station, input) in ALL {
                granted += u32::from(tree.fire(card, station, input).is_ok());
            }
        }
        if granted == before {
            return granted;
        }
    }
}

const ALL: [(Station, Input); 5] = [
    (Station::Up, Input::Left),
    (Station::Up, Input::Right),
    (Station::Up, Input::Queue),
    (Station::Down, Input::Parent),
    (Station::Down, Input::Turn),
];

#[test]
fn a_targeted_packet_is_carried() {
    let mut tree = full(2, &[(1, 2, 0x11, 0x11, Verdict::Class(2))]);
    assert_eq!(tree.send(1, &[HEAD | 0x80, 0x11, TAIL | 5]), Ok(()));
    assert_eq!(tree.owed(), 6);
    assert_eq!(tree.fire(1, Station::Up, Input::Queue), Ok(2));
    assert_eq!(tree.fire(1, Station::Down, Input::Turn), Ok(0));
    assert_eq!(tree.fire(1, Station::Up, Input::Queue), Ok(2));
    assert_eq!(tree.fire(1, Station::Down, Input::Turn), Ok(16));
    assert_eq!(tree.take(1), Ok(0x11));
    assert_eq!(tree.fire(1, Station::Down, Input::Turn), no(14));
    assert_eq!(tree.owed(), 2);
}

#[test]
fn a_flood_reaches_a_subtree_with_a_class_of_each_card() {
    let rules = [
        (5, 5, 0, 255, Verdict::Class(3)),
        (6, 6, 0, 255, Verdict::Refuse),
        (0, 30, 0x11, 0x11, Verdict::Class(1)),
    ];
    let mut tree = full(3, &rules);
    let head = order(tree.wiring(), 3, &[5, 6]).unwrap();
    assert_eq!(head, FLOOD | 0x1b0);
    assert_eq!(tree.send(3, &[head, 0x11, 7, TAIL | 9]), Ok(()));
    assert_eq!(tree.owed(), 28);
    assert_eq!(run(&mut tree), 28);
    assert_eq!(tree.owed(), 0);
    let mut words = |card| -> Vec<u32> { std::iter::from_fn(|| tree.take(card).ok()).collect() };
    assert_eq!(words(2), [0x1000_0011, 7, TAIL | 9]);
    assert_eq!(words(5), [0x3000_0011, 7, TAIL | 9]);
    for card in [0, 1, 3, 4, 6] {
        assert_eq!(words(card), []);
    }
}

#[test]
fn orders() {
    let tree = Wiring::full(3).unwrap();
    assert_eq!(order(&tree, 3, &[5, 6]), Ok(0xa000_01b0));
    assert_eq!(order(&tree, 3, &[3]), Ok(0x8000_0080));
    assert_eq!(order(&tree, 3, &[4]), Ok(0x8000_0160));
    assert_eq!(order(&tree, 3, &[1, 4]), Ok(0xa000_0140));
    assert_eq!(order(&tree, 3, &[4, 4]), Ok(0x8000_0160));
    assert_eq!(order(&tree, 3, &[]), no(19));
    assert_eq!(order(&tree, 7, &[]), no(5));
    assert_eq!(order(&tree, 3, &[7]), no(5));
    let tree = Wiring::full(5).unwrap();
    assert_eq!(order(&tree, 15, &[14]), Ok(0x8000_01ef));
    assert_eq!(order(&tree, 15, &[30]), no(20));
}

#[test]
fn sends_refused() {
    let mut tree = full(3, &[]);
    let mut send = |card, words: &[u32]| tree.send(card, words);
    assert_eq!(send(7, &[]), no(5));
    assert_eq!(send(0, &[HEAD | 0x80]), no(6));
    assert_eq!(send(0, &[0; 65]), no(6));
    assert_eq!(send(0, &[0x80, TAIL]), no_at(7, 0));
    assert_eq!(send(0, &[HEAD | 0x80, 0]), no_at(7, 1));
    assert_eq!(send(0, &[HEAD | 0x2000, 0, HEAD, TAIL]), no_at(7, 2));
    assert_eq!(send(0, &[HEAD | 0x200, 0x100, TAIL]), no_at(8, 0));
    assert_eq!(send(0, &[HEAD | 0x80, 0x100, TAIL]), no_at(8, 1));
    for route in [
        0, 0x100, 0x180, 0x1c0, 0x1e0, 0x1f0, 0x1f8, 0x1fc, 0x1fe, 0x1ff,
    ] {
        assert_eq!(send(3, &[HEAD | route, TAIL]), no_at(9, 3));
    }
    assert_eq!(send(0, &[HEAD | 0x1a0, TAIL]), no_at(10, 0));
    assert_eq!(send(3, &[HEAD | 0x40, TAIL]), no_at(11, 3));
    let mut long = [5; 62];
    long[0] = HEAD | 0x80;
    long[61] = TAIL;
    assert_eq!(send(3, &long), Ok(()));
    assert_eq!(send(3, &[HEAD | 0x80, TAIL, TAIL]), no_at(7, 1));
    assert_eq!(send(3, &[HEAD | 0x80, 0, TAIL]), no(12));
    assert_eq!(send(3, &[HEAD | 0x80, TAIL]), Ok(()));
    assert_eq!(send(3, &[HEAD | 0x80, TAIL]), no(12));
}

#[test]
fn fires_refused() {
    let mut tree = full(2, &[(0, 30, 0, 255, Verdict::Class(0))]);
    assert_eq!(tree.fire(3, Station::Up, Input::Parent), no(5));
    assert_eq!(tree.fire(0, Station::Up, Input::Parent), no(13));
    assert_eq!(tree.fire(1, Station::Up, Input::Left), no(13));
    assert_eq!(tree.fire(0, Station::Down, Input::Parent), no(13));
    assert_eq!(tree.fire(0, Station::Up, Input::Left), no(14));
    assert_eq!(tree.take(0), no(18));
    assert_eq!(tree.take(3), no(5));
    // A packet from 1 to itself and a flood from 0 over all: the turn link of 0 stays occupied, and a second head waits.
    assert_eq!(tree.send(0, &[FLOOD | 0x80, 1, TAIL]), Ok(()));
    assert_eq!(tree.send(1, &[HEAD | 0x140, TAIL]), Ok(()));
    assert_eq!(tree.fire(0, Station::Up, Input::Queue), Ok(2));
    assert_eq!(tree.fire(0, Station::Up, Input::Queue), no(16));
    assert_eq!(tree.fire(1, Station::Up, Input::Queue), Ok(1));
    assert_eq!(tree.fire(0, Station::Up, Input::Left), no(15));
    assert_eq!(tree.fire(0, Station::Down, Input::Turn), Ok(12));
    assert_eq!(tree.fire(0, Station::Up, Input::Queue), Ok(2));
    // One occupied link is enough.
    assert_eq!(tree.fire(1, Station::Down, Input::Parent), Ok(0));
    assert_eq!(tree.fire(0, Station::Down, Input::Turn), no(16));
    assert_eq!(tree.fire(2, Station::Down, Input::Parent), Ok(0));
    assert_eq!(tree.fire(0, Station::Down, Input::Turn), Ok(28));
}

#[test]
fn a_full_inbox_refuses_only_what_is_kept() {
    let mut tree = full(1, &[(0, 0, 1, 1, Verdict::Class(2))]);
    let packet = |key| [FLOOD | 0x80, key, TAIL];
    for _ in 0..32 {
        assert_eq!(tree.send(0, &packet(1)), Ok(()));
        assert_eq!(run(&mut tree), 6);
    }
    assert_eq!(tree.send(0, &packet(2)), Ok(()));
    assert_eq!(run(&mut tree), 6);
    assert_eq!(tree.send(0, &packet(1)), Ok(()));
    assert_eq!(run(&mut tree), 3);
    assert_eq!(tree.fire(0, Station::Down, Input::Turn), no(17));
    assert_eq!(tree.take(0), Ok(0x2000_0001));
    assert_eq!(tree.fire(0, Station::Down, Input::Turn), Ok(16));
}

#[test]
fn tables() {
    let no = |number| Some(Refusal::of(number));
    let fault = |table: &[u8]| Wiring::table(table).err();
    assert_eq!(
        fault(&[1, 2, 3, 4, 5, 6, 255, 255, 255, 255, 255, 255, 255, 255]),
        None
    );
    assert_eq!(fault(&[255, 255]), None);
    assert_eq!(fault(&[]), no(1));
    assert_eq!(fault(&[255]), no(1));
    assert_eq!(fault(&[255; 64]), no(1));
    assert_eq!(fault(&[2, 255, 255, 255]), no(2));
    assert_eq!(fault(&[0, 255]), no(2));
    assert_eq!(fault(&[1, 1, 255, 255]), no(2));
    assert_eq!(fault(&[255, 255, 255, 255]), no(2));
    assert_eq!(Wiring::full(0).err(), no(1));
    assert_eq!(Wiring::full(6).err(), no(1));
}

fn console(input: &str) -> String {
    let mut console = Console::default();
    let mut out = Vec::new();
    for line in input.lines() {
        console.line(line.as_bytes(), &mut out);
    }
    String::from_utf8(out).unwrap()
}

#[test]
fn the_console_answers_the_worked_deck() {
    let input = "tree 2\nrule 1 2 11 11 2\ngo\nsend 1 T DS 11 5\nowed\nfire 1 u q\nfire 1 d t\nfire 1 u q\nfire 1 d t\ntake 1\nfire 1 d t\nowed\n";
    let output = "ok\nok\nok\nok\nok 6\nok 2\nok 0\nok 2\nok 16\nok 00000011\nno 14\nok 2\n";
    assert_eq!(console(input), output);
}

#[test]
fn the_console_refuses_what_it_does_not_understand() {
    let deck = [
        ("go", "no 21"),
        ("tree 6", "no 1"),
        ("tree 1000", "no 21"),
        ("tree 2 2", "no 21"),
        ("tree 003", "ok"),
        ("tree 0", "no 21"),
        ("rule 0 30 0 ff 1", "no 21"),
        ("rule 0 30 00 fF 256", "no 3"),
        ("rule 2 1 00 ff n", "no 3"),
        ("rule 2 1 00 ff N", "no 21"),
        ("rule 0 999 00 ff 0", "ok"),
        ("go x", "no 21"),
        ("go", "ok"),
        ("", "no 21"),
        ("owed ", "no 21"),
        (" owed", "no 21"),
        ("send 0 T S", "no 21"),
        ("send 0 T UUUUUUUUU 00", "no 9 0"),
        ("send 0 T URS 00", "no 9 0"),
        ("send 0 T UDS 00", "no 10 0"),
        ("send 3 T DLS 00", "no 11 3"),
        ("send 7 T DS 00", "no 5"),
        ("send 0 T DSDLLLLLLD 00", "no 21"),
        ("send 0 T DS 00 40000000", "no 21"),
        ("send 0 T DS 00 3fffffff", "ok"),
        ("fire 0 u p", "no 13"),
        ("fire 0 u q", "ok 2"),
        ("take 0", "no 18"),
        ("owed", "ok 5"),
    ];
    let input: String = deck.iter().flat_map(|(line, _)| [line, "\n"]).collect();
    let wanted: String = deck.iter().flat_map(|(_, answer)| [answer, "\n"]).collect();
    assert_eq!(console(&input), wanted);
}

#[test]
fn the_console_holds_lines_to_200_bytes() {
    let start = "tree 1\ngo\n";
    let line = format!("send 0 T DS 00{}", " 1".repeat(93));
    assert_eq!(line.len(), 200);
    assert_eq!(console(&format!("{start}{line}")), "ok\nok\nno 6\n");
    assert_eq!(console(&format!("{start}{line} ")), "ok\nok\nno 21\n");
}

#[test]
fn the_console_takes_64_rules() {
    let rules = "rule 0 0 00 00 0\n".repeat(64);
    let input = format!("tree 1\n{rules}rule 0 0 00 00 0\nrule 0 0 00 00 4\nrule\ngo");
    let wanted = format!("{}no 4\nno 3\nno 21\nok\n", "ok\n".repeat(65));
    assert_eq!(console(&input), wanted);
}
