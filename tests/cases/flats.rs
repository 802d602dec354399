//! Random flat files without fault.
use super::dice::Dice;
use super::nets::{some_count, Scale};

pub fn sound(dice: &mut Dice, scale: Scale) -> Vec<u8> {
    let large = scale == Scale::Any && dice.percent(2);
    let places = if large { dice.among(&[1000, 4096]) } else { dice.among(&[0, 1, 2, 3, 4, 5, 7]) };
    let rows = if large { dice.among(&[300, 2000]) } else { dice.among(&[0, 1, 2, 3, 5, 8]) };
    let rows = if scale == Scale::Small { rows.min(3) } else { rows };
    let mut out = vec![0x02, 1];
    for _ in 0..places {
        let [low, high] = some_count(dice, &[1, 2, 3]).to_le_bytes();
        out.extend([0x50, low, high]);
    }
    let all: Vec<u16> = (0..places as u16).collect();
    for _ in 0..rows {
        out.push(0x51);
        for kind in 0x52..=0x54 {
            let count = dice.among(&[0, 1, 1, 2, 3]);
            let mut here = if large { (0..count).map(|_| dice.among(&all)).collect() } else { dice.sample(&all, count) };
            here.sort_unstable();
            here.dedup();
            for place in here {
                let weight = if kind == 0x54 { dice.among(&[1, 2, 3, 4, 65535]) } else { dice.among(&[1, 1, 1, 2, 3, 65535]) };
                put_arc(&mut out, kind, place, weight);
            }
        }
    }
    out.push(0x5F);
    out
}

/// Writes one arc.
pub fn put_arc(out: &mut Vec<u8>, kind: u8, place: u16, weight: u16) {
    let ([p, q], [v, w]) = (place.to_le_bytes(), weight.to_le_bytes());
    out.extend([kind, p, q, v, w]);
}
