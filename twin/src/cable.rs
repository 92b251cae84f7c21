// The stages put together for one case, without any refusal: so each refusal's
// test can be asked by itself, also where another holds too.

use crate::rating::{
    armoured, direct, dry_soil, loss_counts, three_cores, value, Words, DIRECT_CURRENT,
};
use crate::stages::{self, Insulation, Thermal};
use crate::tables;

/// A case with the resistances of stage 1 and the two ends of B worked out. Of direct
/// current there is R' alone.
pub struct Cable<'a> {
    words: &'a Words,
    pub rc: u128,
    pub rs: u128,
    pub ra: u128,
    pub b_high: u128,
    b_low: u128,
}

impl Cable<'_> {
    pub fn of(words: &Words) -> Cable<'_> {
        let conductor = tables::conductor_coefficient(words[1]);
        let rc = stages::resistance(u128::from(words[5]), conductor, value(words, 3));
        let mut cable = Cable { words, rc, rs: 0, ra: 0, b_high: 0, b_low: 0 };
        if !direct(words) {
            let frequency = u128::from(words[2]);
            let sheath = tables::metal_coefficient(words[14]);
            cable.rs = stages::resistance(u128::from(words[15]), sheath, value(words, 16));
            cable.b_high = stages::reactance_unit_high(frequency);
            cable.b_low = stages::reactance_unit_low(frequency);
        }
        if armoured(words) {
            let armour = tables::metal_coefficient(words[17]);
            cable.ra = stages::resistance(u128::from(words[18]), armour, value(words, 19));
        }
        cable
    }

    fn field(&self, index: usize) -> u128 {
        u128::from(self.words[index])
    }

    /// Hundredths of a degree between a temperature and the ambient, 0 where the
    /// ambient is the hotter: refusals 6 and 31 are tried before the stages.
    fn above_ambient(&self, temperature: usize) -> u128 {
        u128::try_from(value(self.words, temperature) - value(self.words, 4)).unwrap_or(0)
    }

    /// v, which is that of moist soil where none dries out.
    fn soil_ratio(&self) -> u128 {
        if dry_soil(self.words) {
            self.field(27)
        } else {
            stages::MOIST
        }
    }

    /// What refusal 10 weighs the rise without current against, and what N is left of.
    pub fn permitted_rise(&self) -> u128 {
        stages::permitted_rise(self.above_ambient(3), self.soil_ratio(), self.above_ambient(28))
    }

    pub fn thermal(&self) -> Thermal {
        Thermal {
            t1: self.field(22),
            t2: self.field(23),
            t3: self.field(24),
            t4: self.field(25),
            soil_ratio: self.soil_ratio(),
            cores: if three_cores(self.words) { 3 } else { 1 },
        }
    }

    fn skin_argument(&self, k: u128) -> u128 {
        let reactance = stages::skin_reactance(self.field(2), k);
        stages::skin_argument(reactance, self.rc)
    }

    /// z with ks and z with kp, which are 0 where there is no skin effect.
    pub fn skin_arguments(&self) -> [u128; 2] {
        if direct(self.words) {
            return [0; 2];
        }
        let code = self.words[1];
        [tables::skin_coefficient(code), tables::proximity_coefficient(code)]
            .map(|k| self.skin_argument(k))
    }

    /// ys, yp and R, from z with ks and z with kp. R of direct current is R'.
    pub fn conductor(&self, [z_skin, z_proximity]: [u128; 2]) -> (u128, u128, u128) {
        if direct(self.words) {
            return (0, 0, self.rc);
        }
        let ys = stages::skin_factor_of(z_skin);
        let factor = stages::skin_factor_of(z_proximity);
        let u = stages::diameter_ratio_squared(self.field(6), self.field(7));
        let h = stages::proximity_main_term(factor);
        let g = stages::proximity_small_term(u, factor);
        let yp = stages::proximity_factor(u, g, h);
        (ys, yp, stages::ac_resistance(self.rc, ys, yp))
    }

    pub fn bonded_at_one_point(&self) -> bool {
        matches!(self.words[0], 3 | 4)
    }

    /// X and S. X is 0 where no current circulates in the sheaths.
    pub fn sheath(&self) -> (u128, u128) {
        match self.words[0] {
            3 => (0, self.eddy_loss(1)),
            4 => (0, self.eddy_loss(2)),
            5 => {
                let (x, s) = self.circulating_loss();
                (x, stages::three_halves(s))
            }
            6 => (0, self.common_sheath_loss()),
            DIRECT_CURRENT => (0, 0),
            _ => self.circulating_loss(),
        }
    }

    fn circulating_loss(&self) -> (u128, u128) {
        let log = stages::spacing_log_high(self.words[0], self.field(7), self.field(13));
        let x = stages::sheath_reactance_high(self.b_high, log);
        let v = stages::circulating_ratio_high(x, self.rs);
        let v2 = stages::circulating_ratio_squared_high(v);
        (x, stages::circulating_loss(self.rs, v2))
    }

    fn eddy_loss(&self, trefoils: u128) -> u128 {
        let m = stages::eddy_ratio(self.b_high, self.rs);
        let e_prime = stages::eddy_share(stages::eddy_ratio_squared(m));
        let g_prime = stages::sheath_ratio_squared(self.field(13), self.field(7));
        stages::eddy_loss(trefoils, self.rs, e_prime, g_prime)
    }

    fn common_sheath_loss(&self) -> u128 {
        let b = stages::axis_ratio_squared(self.field(20), self.field(13));
        stages::common_sheath_loss(self.rs, self.b_high, b)
    }

    /// W, which only the SL cable has.
    pub fn armour_loss(&self) -> u128 {
        if !armoured(self.words) {
            return 0;
        }
        let y2 = stages::armour_ratio_squared(stages::armour_ratio(self.ra, self.b_high));
        let r = stages::armour_reduced_resistance(self.ra, y2);
        let bare = stages::armour_loss_unscreened(r, self.field(20), self.field(21));
        let log = stages::spacing_log_low(self.words[0], self.field(7), self.field(13));
        let x_low = stages::sheath_reactance_low(self.b_low, log);
        let v = stages::circulating_ratio_low(x_low, self.rs);
        stages::armour_loss_screened(bare, stages::circulating_ratio_squared_low(v))
    }

    /// Wd, which is 0 where the loss does not count.
    fn dielectric_loss(&self) -> u128 {
        if !loss_counts(self.words) {
            return 0;
        }
        let insulation = Insulation {
            permittivity: self.field(11),
            volts: self.field(10),
            loss_factor: self.field(12),
            log_low: stages::log_low(self.field(9), self.field(8)),
        };
        stages::dielectric_loss(&insulation, self.b_high)
    }

    /// Wd and dd.
    pub fn dielectric(&self) -> (u128, u128) {
        let wd = self.dielectric_loss();
        (wd, stages::dielectric_rise(wd, &self.thermal()))
    }

    /// The rise by the sun's heat.
    pub fn solar_rise(&self) -> u128 {
        stages::solar_rise(self.field(29), self.field(25))
    }

    /// d0.
    pub fn rise_without_current(&self) -> u128 {
        stages::rise_without_current(self.dielectric().1, self.solar_rise())
    }

    /// The current of stage 10 in mA, be it over refusal 11's limit or not;
    /// nothing where the rise without current is more than the permitted one.
    pub fn current(&self) -> Option<u128> {
        let n_left = self.permitted_rise().checked_sub(self.rise_without_current())?;
        let (_, _, r) = self.conductor(self.skin_arguments());
        let (_, s) = self.sheath();
        let e = stages::effective_resistance(r, s, self.armour_loss(), &self.thermal());
        Some(stages::largest_current(n_left, e))
    }
}
