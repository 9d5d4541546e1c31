//! The generators: well-typed scripts are accepted, faulty ones get their number.

use second::damage::damage;
use second::directed::{directed, limits};
use second::generate::{well_typed, Rng};
use second::script::{Script, LIMITS};
use second::{check, Reply};

#[test]
fn well_typed_scripts_are_accepted_and_varied() {
    let mut rng = Rng::new(1);
    let mut kinds = [0; 12];
    let mut most = [0; 6];
    let (mut twice, mut diamonds, mut null_arguments, mut shadowing, mut null_ends) = (0, 0, 0, 0, [0; 3]);
    for _ in 0..3_000 {
        let file = well_typed(&mut rng);
        let reply = check(&file);
        assert_eq!((reply.number, reply.place), (0, 0));
        let Ok(script) = Script::read(&file) else { unreachable!("accepted scripts can be read") };
        most.iter_mut().zip(script.counts()).for_each(|(most, count)| *most = count.max(*most));
        script.nodes.iter().for_each(|node| kinds[node[0] as usize] += 1);
        twice += script.interfaces.iter().filter(|&&[form, left, right]| form == 1 && left == right).count();
        let parents = |ty: u16| match script.interfaces[ty as usize - 1] {
            [1, left, right] => vec![left, right],
            _ => vec![],
        };
        let meet = |left: u16, right: u16| left != right && parents(left).iter().any(|ty| parents(right).contains(ty));
        diamonds += script.interfaces.iter().filter(|&&[form, left, right]| form == 1 && meet(left, right)).count();
        let is_null = |node: u16| script.nodes[node as usize][0] == 0;
        null_arguments += script.nodes.iter().filter(|&&[kind, _, _, part]| kind == 4 && is_null(part)).count();
        let binds = |node: u16, variable: u16| script.nodes[node as usize][..2] == [5, variable];
        shadowing +=
            script.nodes.iter().filter(|&&[kind, variable, _, body]| kind == 5 && binds(body, variable)).count();
        for &node in &script.nodes {
            match node {
                [5, _, _, last] if is_null(last) => null_ends[0] += 1,
                [8, _, _, last] if is_null(last) => null_ends[1] += 1,
                [9, _, last, _] if is_null(last) => null_ends[2] += 1,
                _ => {}
            }
        }
    }
    assert!(null_ends.iter().all(|&count| count > 100), "{null_ends:?}");
    assert!(kinds.iter().all(|&count| count > 1_000), "{kinds:?}");
    assert_eq!(most, LIMITS);
    assert!([twice, diamonds, null_arguments, shadowing].iter().all(|&count| count > 100));
}

#[test]
fn directed_faults_get_their_number_and_place() {
    let mut rng = Rng::new(2);
    for number in 1..=15 {
        for _ in 0..400 {
            let faulty = directed(number, &mut rng);
            let reply = check(&faulty.script);
            assert_eq!((reply.number, reply.ty, reply.silent), (number, 0, 0));
            assert_eq!(reply.place, faulty.place.unwrap_or(reply.place));
            let has_place = ![1, 2, 3, 5].contains(&number);
            assert_eq!(reply.place > 0, has_place);
        }
    }
}

#[test]
fn limits_from_both_sides() {
    for (script, number) in limits() {
        assert_eq!(check(&script).number, number, "{} bytes", script.len());
    }
    let lengths: Vec<usize> = limits().iter().map(|(script, _)| script.len()).collect();
    assert!([0, 23, 24, 13_592, 13_593].iter().all(|length| lengths.contains(length)));
}

#[test]
fn any_bytes_get_an_answer() {
    let mut rng = Rng::new(3);
    for _ in 0..20_000 {
        let script = well_typed(&mut rng);
        let Reply { number, place, ty, silent } = check(&damage(&script, &mut rng));
        assert!(number <= 15 && (number == 0 || (ty, silent) == (0, 0)) && (number != 0 || place == 0));
    }
    for length in [0, 1, 23, 24, 25, 40, 13_592, 13_593, 70_000] {
        let noise: Vec<u8> = (0..length).map(|_| rng.bits() as u8).collect();
        assert!((1..=3).contains(&check(&noise).number));
    }
    assert_eq!(check(&[]), Reply { number: 1, place: 0, ty: 0, silent: 0 });
}

#[test]
fn the_same_seed_gives_the_same_scripts() {
    let scripts = |seed| -> Vec<Vec<u8>> {
        (0..50)
            .map({
                let mut rng = Rng::new(seed);
                move |_| well_typed(&mut rng)
            })
            .collect()
    };
    assert!(scripts(7) == scripts(7) && scripts(7) != scripts(8));
}
