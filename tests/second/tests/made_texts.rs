//! The generators of texts: what is derived is never 34, what is printed is read, and every kind of text meets every number that it can.

use second::generate::Rng;
use second::script::{Script, LIMITS, LONGEST};
use second::text::read;
use second::text_damage::Damage;
use second::texts::{any_text, Kind};
use std::collections::BTreeMap;

/// The numbers that texts of a kind get; damaged ones rarely get others too.
fn numbers(kind: Kind) -> &'static [u16] {
    match kind {
        Kind::Derived => &[0, 35],
        Kind::Printed => &[0],
        Kind::Deep | Kind::Long => &[0, 34, 35, 36],
        Kind::Large | Kind::Declarations | Kind::Integers => &[0, 35, 36],
        Kind::Buffer => &[36],
        Kind::Misfit => &[0, 34, 35],
        Kind::Damaged(Damage::TokenDeleted | Damage::TokenDoubled) | Kind::Noise => &[34],
        Kind::Damaged(Damage::ProductionInserted) => &[0, 34],
        Kind::Damaged(_) => &[0, 34, 35],
    }
}

#[test]
fn each_kind_gets_its_numbers() {
    let mut rng = Rng::new(1);
    let mut tally: BTreeMap<(Kind, u16), u32> = BTreeMap::new();
    for _ in 0..12_000 {
        let text = any_text(&mut rng);
        let mut file = vec![0; text.room];
        let reply = read(&text.bytes, &mut file);
        let shown = text.bytes.escape_ascii();
        let is_made_whole = ![Kind::Deep, Kind::Long, Kind::Misfit, Kind::Noise].contains(&text.kind);
        if is_made_whole && !matches!(text.kind, Kind::Damaged(_)) {
            assert!(numbers(text.kind).contains(&reply.number), "{:?}, {reply:?}: {shown}", text.kind);
        }
        if reply.number == 0 {
            assert!(Script::read(&file[..reply.length as usize]).is_ok(), "{shown}");
        }
        *tally.entry((text.kind, reply.number)).or_default() += 1;
    }
    let times = |kind, number| tally.get(&(kind, number)).copied().unwrap_or(0);
    for kind in Kind::all() {
        assert!(numbers(kind).iter().all(|&number| times(kind, number) > 0), "{kind:?}: {tally:?}");
    }
}

#[test]
fn large_texts_fill_every_section() {
    let mut rng = Rng::new(2);
    let mut most = [0; 6];
    let large = std::iter::repeat_with(|| any_text(&mut rng)).filter(|text| text.kind == Kind::Large);
    for text in large.take(1_000) {
        let mut file = vec![0; LONGEST];
        let reply = read(&text.bytes, &mut file);
        if let Ok(script) = Script::read(&file[..reply.length as usize]) {
            most.iter_mut().zip(script.counts()).for_each(|(most, count)| *most = count.max(*most));
        }
    }
    assert_eq!(most, LIMITS);
}
