//! Accepted scripts, printed and read again. What comes back has the numbers that request 4 gives: it is the same file just where that had them before, and else it has the same type and
//! runs alike.

use second::generate::{long_running, Rng};
use second::machine::Machine;
use second::print::{renumbered, text};
use second::program::Program;
use second::script::{Script, LONGEST};
use second::state::{Binding, Object, State, Value};
use second::text::read;
use second::texts::accepted;
use second::walk::walk;

fn read_back(text: &[u8]) -> Vec<u8> {
    let mut file = vec![7; LONGEST];
    let reply = read(text, &mut file);
    assert_eq!((reply.number, reply.place), (0, 0), "{}", String::from_utf8_lossy(text));
    assert!(file[reply.length as usize..].iter().all(|&byte| byte == 0));
    file.truncate(reply.length as usize);
    file
}

fn any_accepted(rng: &mut Rng) -> Script {
    if !rng.one_in(3) {
        return accepted(rng);
    }
    let Ok(script) = Script::read(&long_running(rng)) else { unreachable!("accepted scripts can be read") };
    script
}

#[test]
fn what_is_read_has_the_numbers_of_request_4() {
    let mut rng = Rng::new(1);
    let mut changed = 0;
    for _ in 0..4_000 {
        let script = any_accepted(&mut rng);
        let file = script.encode();
        let back = read_back(&text(&script, &mut rng));
        assert_eq!(back, renumbered(&script).encode());
        changed += u32::from(back != file);
        // A file with those numbers comes back as it was, however it is printed.
        let Ok(script) = Script::read(&back) else { unreachable!("files of texts can be read") };
        assert_eq!(read_back(&text(&script, &mut rng)), back);
    }
    assert!((3_000..4_000).contains(&changed), "{changed}");
}

/// All of a state but names and nodes.
fn values(state: &State) -> (&[Object], Vec<Binding>, Vec<Option<Value>>) {
    let unnamed = |binding: &Binding| Binding { name: 0, ..*binding };
    let value = |focus: &second::state::Focus| match *focus {
        second::state::Focus::Value(value) => Some(value),
        _ => None,
    };
    let positions = state.tree.positions();
    let threads = positions.iter().map(|position| value(&position.tree.focus)).collect();
    (&state.objects, state.bindings.iter().map(unnamed).collect(), threads)
}

#[test]
fn what_is_read_is_accepted_and_runs_alike() {
    let mut rng = Rng::new(2);
    let mut moves = 0;
    for _ in 0..1_500 {
        let script = any_accepted(&mut rng);
        let back = read_back(&text(&script, &mut rng));
        let [Ok(before), Ok(after)] = [&script.encode(), &back].map(|file| Program::read(file)) else {
            panic!("a script that was printed and read is refused")
        };
        assert_eq!(before.start_type, after.start_type);
        let (choices, _) = walk(&before, State::initial(), 300, &mut rng);
        let mut one = Machine { program: &before, state: State::initial() };
        let mut other = Machine { program: &after, state: State::initial() };
        for choice in choices {
            assert_eq!(one.offer(), other.offer());
            let outcome = one.run(&[choice]);
            assert_eq!(outcome, other.run(&[choice]));
            assert_eq!(values(&one.state), values(&other.state));
            moves += u32::from(outcome.moves);
        }
    }
    assert!(moves > 20_000, "{moves}");
}
