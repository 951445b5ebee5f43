use nambroit::{
    Block, BlockFault, CompileFault, Description, Event, Form, Kind, Misfit, Reading, Role, Stream,
    TreeFault,
};

const TEXT: &str = "<M> ::= <A : bit (3)> 0 <B : bit (4)> ;";
const SHOWN: &str = "[<A>=3'5 . <B>=4'5]";

fn compile(text: &str, name: &str) -> Result<Description, CompileFault> {
    Description::compile(text, name, Reading::Received)
}

fn rule() -> Description {
    compile(TEXT, "M").unwrap()
}

#[test]
fn the_versions_are_the_same() {
    assert_eq!(nambroit::version(), nambroit::VERSION);
}

#[test]
fn blocks_are_shown_and_refused() {
    let mut rule = rule();
    assert_eq!(rule.show(Block::whole(&[0xA5]), Form::Text), Ok(SHOWN));
    assert_eq!(rule.judge(Block::whole(&[0xA5])), Ok(()));
    assert_eq!(
        rule.judge(Block::whole(&[0xB5])),
        Err(BlockFault::Refused { place: 3 })
    );
    let short = Block {
        octets: &[0xA5],
        bits: 7,
    };
    assert_eq!(
        rule.show(short, Form::Json),
        Err(BlockFault::Refused { place: 7 })
    );
    let long = Block {
        octets: &[0xA5],
        bits: 9,
    };
    assert_eq!(rule.judge(long), Err(BlockFault::NoBlock));
}

const A: Event = Event {
    node: 2,
    kind: Kind::Field,
    role: Role::Part,
    place: 0,
    bits: 3,
    value: Some(5),
};

#[test]
fn leaves_are_told() {
    let mut rule = rule();
    let told = rule.events(Block::whole(&[0xA5])).unwrap();
    assert_eq!((told.refused(), told.len()), (None, 9));
    let zero = Event {
        node: 3,
        kind: Kind::Literal,
        place: 3,
        bits: 1,
        value: Some(0),
        ..A
    };
    let b = Event {
        node: 5,
        place: 4,
        bits: 4,
        ..A
    };
    assert_eq!(told.leaves().collect::<Vec<_>>(), [A, zero, b]);
}

#[test]
fn turns_and_alternatives_are_told() {
    let mut rule = compile("<M> ::= { 1 <A : bit> | 0 } ** ;", "M").unwrap();
    let short = Block {
        octets: &[0xD0],
        bits: 5,
    };
    let roles = rule.events(short).unwrap().filter_map(|it| match it.role {
        Role::Turn(number) | Role::Alternative(number) if it.kind != Kind::End => {
            Some((it.place, number))
        }
        _ => None,
    });
    let wanted = [(0, 0), (0, 0), (2, 1), (2, 1), (3, 2), (3, 0)];
    assert_eq!(roles.collect::<Vec<_>>(), wanted);
}

#[test]
fn events_before_a_refusal_are_told() {
    let mut rule = rule();
    let told = rule.events(Block::whole(&[0xB5])).unwrap();
    assert_eq!((told.refused(), told.len()), (Some(3), 4));
    assert_eq!(told.leaves().collect::<Vec<_>>(), [A]);
}

#[test]
fn many_events_have_room() {
    let mut rule = compile("<M> ::= { 1 <ITEM : bit (7)> } ** ;", "M").unwrap();
    let octets = vec![0xA5; 5000];
    let told = rule.events(Block::whole(&octets)).unwrap();
    let places: Vec<_> = told.leaves().map(|leaf| leaf.place).collect();
    let wanted: Vec<_> = (0..5000).flat_map(|n| [8 * n, 8 * n + 1]).collect();
    assert_eq!(places, wanted);
}

#[test]
fn trees_are_written_or_told() {
    let mut rule = rule();
    let json = rule
        .show(Block::whole(&[0xA5]), Form::Json)
        .unwrap()
        .to_string();
    assert_eq!(rule.write(SHOWN, Form::Text), Ok((vec![0xA5], 8)));
    assert_eq!(rule.write(json, Form::Json), Ok((vec![0xA5], 8)));
    let wide = rule.write("[<A>=3'5 . <B>=5'5]", Form::Text);
    let misfit = TreeFault::NoBlock {
        why: Misfit::WrongWidth,
        path: vec![2, 0],
    };
    assert_eq!(wide, Err(misfit));
    assert_eq!(
        rule.write("[<A>=3'5 . <B>=", Form::Text),
        Err(TreeFault::NoText { place: 15 })
    );
    assert_eq!(rule.write("{", Form::Json), Err(TreeFault::NoJson));
    assert_eq!(rule.write("{}", Form::Json), Err(TreeFault::NoTree));
}

#[test]
fn blocks_come_in_pieces() {
    let mut stream = Stream::new(rule()).unwrap();
    let piece = |octets, bits| Block { octets, bits };
    for _ in 0..2 {
        assert_eq!(stream.push(piece(&[0xA0], 3)), Ok(()));
        assert_eq!(stream.push(piece(&[0x28], 5)), Ok(()));
        assert_eq!(stream.end(), Ok(()));
    }
    assert_eq!(stream.push(piece(&[0xA0], 3)), Ok(()));
    let refused = Err(BlockFault::Refused { place: 3 });
    assert_eq!(stream.push(piece(&[0x80], 1)), refused);
    assert_eq!(stream.push(piece(&[0x00], 8)), refused);
    assert_eq!(stream.end(), refused);
    assert_eq!(stream.push(piece(&[0xB5], 4)), refused);
    stream.begin();
    assert_eq!(stream.push(piece(&[0xA5], 7)), Ok(()));
    assert_eq!(stream.end(), Err(BlockFault::Refused { place: 7 }));
}

#[test]
fn rules_are_refused() {
    assert_eq!(
        compile("<M> ::= ", "M").err(),
        Some(CompileFault::Syntax { place: 8 })
    );
    assert_eq!(
        compile(TEXT, "N").err(),
        Some(CompileFault::Description {
            number: 1,
            place: 0
        })
    );
    let two = compile("<M> ::= { null | null } ;", "M");
    assert_eq!(
        two.err(),
        Some(CompileFault::Conflict { number: 1, node: 0 })
    );
    assert_eq!(
        compile(&" ".repeat(262_145), "M").err(),
        Some(CompileFault::TooLong)
    );
}

#[test]
fn labels_are_told() {
    let mut rule = rule();
    let labels: Vec<_> = (0..rule.nodes())
        .filter_map(|i| rule.label(i).map(str::to_string))
        .collect();
    assert_eq!(labels, ["A", "B"]);
    assert_eq!(rule.label(6), None);
}

#[test]
fn long_texts_have_room() {
    let mut rule = compile("<M> ::= { 1 <ITEM : bit (7)> } ** ;", "M").unwrap();
    let octets = vec![0xA5; 5000];
    let text = rule
        .show(Block::whole(&octets), Form::Text)
        .unwrap()
        .to_string();
    assert_eq!(text.len(), 5000 * "[. <ITEM>=7'37] ".len() + 1);
    assert_eq!(rule.write(text, Form::Text), Ok((octets, 40_000)));
}

#[test]
fn a_rule_goes_to_another_thread() {
    let mut rule = rule();
    let other = std::thread::spawn(move || {
        rule.show(Block::whole(&[0xA5]), Form::Text)
            .map(str::to_string)
    });
    assert_eq!(other.join().unwrap().as_deref(), Ok(SHOWN));
}
