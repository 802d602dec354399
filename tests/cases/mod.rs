//! Cases by a seed: each case of a seed has a number, and comes out the same whenever it is made again.
pub mod aims;
pub mod calls;
pub mod damage;
pub mod dice;
pub mod flats;
pub mod lists;
pub mod nets;

use crate::stream::{Call, Case};
use aims::{file_aims, FileAim};
use calls::{call_aims, calls, case_on, fixed, MakeCase};
use dice::Dice;
use nets::Scale;

/// Makes the cases of a seed.
pub struct Cases {
    seed: u64,
    scale: Scale,
    fixed: Vec<Case>,
    files: Vec<FileAim>,
    calls: Vec<MakeCase>,
}

impl Cases {
    pub fn new(seed: u64, scale: Scale) -> Cases {
        Cases { seed, scale, fixed: fixed(), files: file_aims(), calls: call_aims() }
    }

    /// How many cases there are before the random ones: those made for one line of the table each.
    pub fn aimed(&self) -> usize {
        self.fixed.len() + self.files.len() + self.calls.len()
    }

    /// The case with this number. Behind the aimed ones, every third is aimed again, and the others are random.
    pub fn case(&self, number: usize) -> Case {
        let mut dice = Dice::new(self.seed, number as u64);
        let aimed = self.aimed();
        if number < aimed {
            return self.aimed_case(&mut dice, number);
        }
        if number % 3 == 0 {
            let number = dice.below(aimed);
            return self.aimed_case(&mut dice, number);
        }
        self.random_case(&mut dice)
    }

    fn aimed_case(&self, dice: &mut Dice, number: usize) -> Case {
        if number < self.fixed.len() {
            return self.fixed[number].clone();
        }
        let number = number - self.fixed.len();
        let Some(aim) = self.files.get(number) else { return (self.calls[number - self.files.len()])(dice, self.scale) };
        let file = (aim.make)(dice, self.scale);
        let lean = self.scale == Scale::Small && (aim.number == 3 || file.len() > 2000);
        let call = match (lean, aim.flat) {
            (true, true) => Call::FlatSizes,
            (true, false) => Call::NetSizes,
            _ => dice.among(&calls(aim.flat)),
        };
        case_on(dice, call, file)
    }

    /// A case on a sound file, a damaged one, or one that breaks a rule or two.
    fn random_case(&self, dice: &mut Dice) -> Case {
        let flat = dice.percent(35);
        let file = match dice.below(10) {
            0..=1 if flat => unfolded(dice, self.scale),
            0..=4 if flat => flats::sound(dice, self.scale),
            0..=4 => nets::sound(dice, self.scale),
            5..=6 if !flat => nets::careless(dice, self.scale),
            _ => {
                let file = if flat { flats::sound(dice, self.scale) } else { nets::sound(dice, self.scale) };
                damage::damaged(dice, &file, flat)
            }
        };
        let call = dice.among(&calls(flat));
        case_on(dice, call, file)
    }
}

/// The flat file of a random net.
fn unfolded(dice: &mut Dice, scale: Scale) -> Vec<u8> {
    let mut flat = vec![0; if scale == Scale::Small { 200 } else { 1 << 16 }];
    match crate::plain::unfold(&nets::sound(dice, scale), &mut flat) {
        Ok(length) => {
            flat.truncate(length);
            flat
        }
        Err(_) => flats::sound(dice, scale),
    }
}
