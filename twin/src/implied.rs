// What the rating of a case implies: its loss factors, the losses in W/m and the
// temperatures that they make. No rating depends on them. Every product is checked,
// and one that does not fit ends the program.

use crate::rating::{three_cores, value, Rated, Words};

/// The number nearest to a/b, a half rounded upwards. `b` is above 0.
pub fn near(a: u128, b: u128) -> u128 {
    let twice = times(2, a).checked_add(b).expect("the sum has 128 bits");
    twice / times(2, b)
}

fn times(a: u128, b: u128) -> u128 {
    a.checked_mul(b).expect("the product has 128 bits")
}

/// The losses of a metre of one core in 10^-6 W/m: of the conductor, in the sheath, in the
/// armour and of the insulation.
#[derive(Clone, Copy, Debug, PartialEq, Eq)]
pub struct Losses {
    pub conductor: u128,
    pub sheath: u128,
    pub armour: u128,
    pub insulation: u128,
}

impl Losses {
    fn of(rated: &Rated) -> Losses {
        let [_, _, _, _, _, _, r, _, s, w, wd, _, _] = rated.sheet.map(u128::from);
        let squared = times(rated.rating.into(), rated.rating.into());
        let by_current = |ohms| near(times(squared, ohms), 10_u128.pow(16));
        Losses {
            conductor: by_current(r),
            sheath: by_current(s),
            armour: by_current(w),
            insulation: near(wd, 1_000_000),
        }
    }

    /// D1, D2 and D3: how much colder than the conductor sheath, armour and surface are, in
    /// halves of 10^-12 K.
    fn falls(&self, case: &Words) -> [u128; 3] {
        let [t1, t2, t3] = [22, 23, 24].map(|field| u128::from(case[field]));
        let cores = if three_cores(case) { 3 } else { 1 };
        let within_sheath = self.conductor + self.sheath + self.insulation;
        let first = times(2 * self.conductor + self.insulation, t1);
        let second = first + times(2 * cores * within_sheath, t2);
        let third = second + times(2 * cores * (within_sheath + self.armour), t3);
        [first, second, third]
    }
}

/// Loss factors in 10^-6, falls in halves of 10^-12 K and temperatures in 10^-2 degrees.
#[derive(Clone, Copy, Debug, PartialEq, Eq)]
pub struct Implied {
    pub sheath_factor: u128,
    pub armour_factor: u128,
    pub losses: Losses,
    pub falls: [u128; 3],
    pub temperatures: [i128; 3],
}

impl Implied {
    /// Of a case that is rated.
    pub fn of(case: &Words, rated: &Rated) -> Implied {
        let [r, s, w] = [6, 8, 9].map(|place| u128::from(rated.sheet[place]));
        let losses = Losses::of(rated);
        let falls = losses.falls(case);
        let colder = |fall| {
            let fall = i128::try_from(near(fall, 20_000_000_000)).expect("a fall of that size");
            i128::from(value(case, 3)) - fall
        };
        Implied {
            sheath_factor: near(times(1_000_000, s), r),
            armour_factor: near(times(1_000_000, w), r),
            losses,
            falls,
            temperatures: falls.map(colder),
        }
    }
}
