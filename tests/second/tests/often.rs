//! How often what request 2 adds comes up in the cases that the engine is compared on: refusals of scripts, moves, and
//! damage to the values of blocks. With `--nocapture` it prints the numbers.

use second::block::Area;
use second::block_damage::{Edit, ValueDamage};
use second::cases::{any_case, Origin};
use second::expr::{Expr, NUMBER, SUM};
use second::generate::{any, Rng};
use second::machine::Machine;
use second::program::Program;
use second::script::{Script, Section};
use second::state::{Focus, State, Value};
use second::wellformed::state_of;
use second::{check, offer, Reply};
use std::collections::BTreeMap;

const CASES: u32 = 20_000;

/// One in so many is often enough.
const RARE: u32 = 2_000;

#[derive(Default)]
struct Tally(BTreeMap<&'static str, u32>);

impl Tally {
    fn count(&mut self, what: &'static str, is_so: bool) {
        *self.0.entry(what).or_default() += u32::from(is_so);
    }

    /// As many kinds of things came up as are looked for, and each often.
    fn is_often(&self, kinds: usize) {
        for (what, times) in &self.0 {
            println!("{times:8} {what}");
        }
        assert_eq!(self.0.len(), kinds);
        assert!(self.0.values().all(|&times| times > CASES / RARE));
    }
}

/// The node at a place, with its number, if a node is there.
fn node_at(script: &Script, place: u16) -> Option<(usize, [u16; 4])> {
    let first = script.place(Section::Nodes, 0);
    let index = usize::from(place.checked_sub(first)? / 8);
    Some((index, *script.nodes.get(index)?))
}

/// Whether the script with another node there gets another answer: then the no is that node's own.
fn is_own(script: &Script, index: usize, node: [u16; 4], reply: Reply) -> bool {
    let mut other = script.clone();
    other.nodes[index] = node;
    check(&other.encode()) != reply
}

#[test]
fn refusals_of_scripts() {
    let mut rng = Rng::new(4);
    let mut tally = Tally::default();
    for _ in 0..CASES {
        let file = any(&mut rng);
        let reply = check(&file);
        let Ok(script) = Script::read(&file) else { continue };
        let int = script.int_type();
        let (index, [kind, a, b, c]) = node_at(&script, reply.place).unwrap_or((0, [u16::MAX; 4]));
        let number = reply.number;
        let type_past = |types: &[u16]| types.contains(&(int + 1));
        let signature_past = script.signatures.iter().any(|record| type_past(&record[1..]));
        let field_past = script.fields.iter().any(|record| type_past(&record[1..]));
        let method_past = script.methods.iter().any(|record| type_past(&record[1..3]));
        tally.count("accepted with type Int", number == 0 && reply.ty == int);
        tally.count("6: I+C+2 as a type", number == 6 && (signature_past || field_past || method_past));
        tally.count("6: I+C+2 in a cast", number == 6 && kind == 7 && a == int + 1);
        tally.count("6: new of Int", number == 6 && kind == 6 && a == int);
        tally.count("6: Int as a class's interface", number == 6 && script.classes.iter().any(|class| class[0] == int));
        tally.count("7: an unused word of a constant", number == 7 && kind == NUMBER && c != 0);
        tally.count("7: an unused word of a sum", number == 7 && kind == SUM && c != 0);
        tally.count("7: kind 12", number == 7 && kind == 12);
        tally.count("11: a sum", number == 11 && kind == SUM);
        tally.count("13: a lock on Int", number == 13 && kind == 9);
        tally.count("13: a field of Int", number == 13 && kind == 2 && is_own(&script, index, [SUM, a, a, 0], reply));
        tally.count("14: null at Int", number == 14 && kind == 0);
        let is_sum = number == 14 && kind == SUM;
        tally.count("14: a sum of what is not Int", is_sum && is_own(&script, index, [NUMBER, 0, 0, 0], reply));
        tally.count("14: a number where another type is wanted", number == 14 && kind == NUMBER);
        let shares = |side: u16| script.nodes.get(side as usize).is_some_and(|node| node[0] == SUM);
        tally.count("15: an async that is a sum", number == 15 && (shares(a) || shares(b)));
    }
    tally.is_often(15);
}

/// What the chosen move was about, if it was about numbers.
fn count_move(program: &Program, before: &State, after: &State, choice: u8, tally: &mut Tally) {
    let positions = before.tree.positions();
    let Some(Focus::Node(at)) = positions.get(choice as usize).map(|position| &position.tree.focus) else { return };
    let moved = after.tree.positions();
    let failed = moved[choice as usize].tree.is_failed();
    let number = match moved[choice as usize].tree.focus {
        Focus::Value(Value::Number(number)) => Some(number),
        _ => None,
    };
    let holds = before.objects.iter().any(|object| object.shut);
    let is_int = |class: u16| program.types.fields(class).iter().any(|field| field[1] == program.types.int);
    match program.expressions[at.node as usize] {
        Expr::Number { .. } => tally.count("a constant becomes a value", true),
        Expr::Sum { .. } => {
            tally.count("a sum", number.is_some());
            tally.count("a sum that is the greatest number", number == Some(i32::MAX));
            tally.count("a sum that is the least number", number == Some(i32::MIN));
            tally.count("a sum that fails", failed);
            tally.count("a sum that fails while an object is shut", failed && holds);
        }
        Expr::New { class } => tally.count("new with a field of type Int", is_int(class)),
        Expr::Read { .. } => tally.count("a read of a number", number.is_some()),
        Expr::Variable { .. } => tally.count("a variable that is a number", number.is_some()),
        _ => {}
    }
}

#[test]
fn moves() {
    let mut rng = Rng::new(5);
    let mut tally = Tally::default();
    for _ in 0..CASES {
        let case = any_case(&mut rng);
        if ![Origin::Reached, Origin::Made].contains(&case.origin) {
            continue;
        }
        let Ok(program) = Program::read(&case.script) else { unreachable!("these scripts are accepted") };
        let state = state_of(&program, &case.block).expect("these blocks are well formed");
        let numbers = state.bindings.iter().filter(|binding| matches!(binding.value, Value::Number(_))).count();
        let is_number = |value: &Value| matches!(value, Value::Number(_));
        tally.count("a block with a binding of a number", numbers > 0);
        tally.count(
            "a block with a field of a number",
            state.objects.iter().any(|object| object.fields.iter().any(is_number)),
        );
        let mut machine = Machine { program: &program, state };
        for &choice in case.choices.iter().take(60) {
            let before = machine.state.clone();
            if machine.step(choice).is_ok() {
                count_move(&program, &before, &machine.state, choice, &mut tally);
            }
        }
    }
    tally.is_often(11);
}

#[test]
fn damaged_values() {
    let mut rng = Rng::new(6);
    let mut tally = Tally::default();
    for _ in 0..CASES {
        let case = any_case(&mut rng);
        let number = offer(&case.script, &case.block, &mut case.flags.clone()).number;
        tally.count("20: a block of 49,152 bytes", number == 20 && case.block.len() == 49_152);
        let high_byte = |area: Area| case.origin == Origin::Damaged(Edit::HighByte(area));
        tally.count("21: a class with another high byte", number == 21 && high_byte(Area::Objects));
        tally.count("26: a type with another high byte", number == 26 && high_byte(Area::Bindings));
        let Origin::Damaged(Edit::Value { damage, .. }) = case.origin else { continue };
        let is_refused = [21, 26, 27].contains(&number);
        for (wanted, refused, accepted) in [
            (ValueDamage::Null, "refused: null at Int", "null in place of an object or a number"),
            (
                ValueDamage::Object,
                "refused: an object that does not fit, or is not there",
                "an object in place of another value",
            ),
            (ValueDamage::Number, "refused: a number that does not fit", "a number in place of another value"),
            (ValueDamage::Word(1), "refused: a value's low word", "a value's low word, and it still fits"),
            (ValueDamage::Word(2), "refused: a value's high word", "a value's high word, and it still fits"),
        ] {
            tally.count(refused, damage == wanted && is_refused);
            tally.count(accepted, damage == wanted && number == 0);
        }
        tally.count("refused: a kind of 3 or more", damage == ValueDamage::Kind && is_refused);
        tally.count("refused: a value's first word", damage == ValueDamage::Word(0) && is_refused);
    }
    tally.is_often(15);
}
