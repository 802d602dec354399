//! The cases reach what they are made for, the table is met, and the stored stream is what it must be.
use crate::cases::{aims, dice::Dice, flats, nets, nets::Scale, Cases};
use crate::coverage::{table, Seen};
use crate::plain;
use crate::stream::{printed, read_all, Call, Case, Said};

#[test]
fn sound_files_are_sound() {
    for seed in 0..3000 {
        for scale in [Scale::Small, Scale::Any] {
            assert!(plain::net_sizes(&nets::sound(&mut Dice::new(seed, 0), scale)).is_ok());
            assert!(plain::flat_sizes(&flats::sound(&mut Dice::new(seed, 1), scale)).is_ok());
        }
    }
}

#[test]
fn files_are_refused_as_aimed() {
    let aims = aims::file_aims();
    for seed in 0..4 {
        for (i, aim) in aims.iter().enumerate().filter(|(_, aim)| aim.number != 0) {
            let file = (aim.make)(&mut Dice::new(seed, i as u64), Scale::Any);
            let refusal = if aim.flat { plain::flat_sizes(&file).err() } else { plain::net_sizes(&file).err() };
            assert_eq!(refusal.map(|refusal| refusal.number), Some(aim.number), "{i}");
        }
    }
}

#[test]
fn the_table_has_each_line_once() {
    let mut lines = table();
    let count = lines.len();
    lines.sort();
    lines.dedup();
    assert_eq!(lines.len(), count);
}

#[test]
fn one_round_meets_the_table() {
    for seed in [3, 4, 5] {
        for scale in [Scale::Small, Scale::Any] {
            let (cases, mut seen) = (Cases::new(seed, scale), Seen::default());
            for number in 0..cases.aimed() + 2000 {
                let case = cases.case(number);
                seen.note(&case, &case.expected());
            }
            assert_eq!(seen.faults(), Vec::<String>::new());
        }
    }
}

#[test]
fn what_is_left_out_or_beyond_shows() {
    let (cases, mut seen) = (Cases::new(1, Scale::Small), Seen::default());
    for number in 0..cases.aimed() - 300 {
        let case = cases.case(number);
        seen.note(&case, &case.expected());
    }
    assert!(seen.faults().iter().any(|line| line.starts_with("did not occur")));
    let case = Case::new(Call::NetSizes, vec![0x01, 1, 0x10, 2, 0x1F]);
    let mut wrong = case.expected();
    wrong.said = Said::Refused { number: 9, place: 2 };
    seen.note(&case, &wrong);
    assert!(seen.faults().contains(&"is not in the table: net 9 at 0x10".to_string()));
}

#[test]
fn a_case_comes_out_the_same_again() {
    let (one, two) = (Cases::new(77, Scale::Any), Cases::new(77, Scale::Any));
    for number in [0, 500, 3500, 3600, 4000, 4001, 5002] {
        let case = one.case(number);
        assert!(case == two.case(number));
        let mut stream = vec![];
        case.write(&mut stream);
        assert!(read_all(&stream) == Some(vec![case]));
    }
}

#[test]
fn the_stored_stream() {
    let stored = std::fs::read("crates/cases/stdin").expect("run at the repository's top");
    let cases = read_all(&stored).expect("a stream");
    let mut seen = Seen::default();
    cases.iter().for_each(|case| seen.note(case, &case.expected()));
    assert_eq!(seen.faults(), Vec::<String>::new());
    assert!(printed(&cases) == std::fs::read_to_string("crates/cases/stdout").expect("what it must print"));
}
