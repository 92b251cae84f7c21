// The exact rise of a rated case: the documents' stages with the rounding
// erased, in fractions, for chosen fractions in place of pi, ln 2 and the
// logarithms. Ohms are in 10^-16 ohm/m; ratios are themselves, not parts of T.

use crate::ends::Chosen;
use crate::fraction::Fraction;
use crate::rating::{
    armoured, direct, dry_soil, loss_counts, three_cores, value, Words, DIRECT_CURRENT,
};
use crate::stages;
use crate::tables;

/// The exact E, dd and d0, in the units of the rounded ones.
pub struct Heating {
    pub e: Fraction,
    pub dd: Fraction,
    pub d0: Fraction,
}

impl Heating {
    pub fn of(case: &Words, chosen: &Chosen) -> Heating {
        let cable = Cable { words: case, chosen };
        let dd = cable.dielectric_rise();
        let d0 = dd.plus(&cable.solar_rise());
        Heating { e: cable.effective_resistance(), dd, d0 }
    }

    /// The rise at a current in mA, in 10^-9 K: I^2 E/10^13 + d0.
    pub fn rise(&self, current: u128) -> Fraction {
        let squared = Fraction::new(current * current, 10_000_000_000_000);
        squared.times(&self.e).plus(&self.d0)
    }

    /// The square, in mA^2, of the current at which the rise is the permitted
    /// one. d0 of a rated case is at most nine tenths of that.
    pub fn limit_squared(&self, permitted: &Fraction) -> Option<Fraction> {
        let left = permitted.minus(&self.d0)?;
        Some(left.times(&Fraction::whole(10_000_000_000_000)).over(&self.e))
    }
}

/// Hundredths of a degree between a temperature of a rated case and the ambient.
fn above_ambient(case: &Words, temperature: usize) -> Fraction {
    Fraction::whole((value(case, temperature) - value(case, 4)).unsigned_abs().into())
}

/// v as a ratio: 1 where no soil dries out.
fn soil_ratio(case: &Words) -> Fraction {
    if dry_soil(case) {
        Fraction::new(case[27].into(), 1000)
    } else {
        Fraction::whole(1)
    }
}

/// The permitted rise of a rated case in 10^-9 K: θc - θa + (v - 1)(θx - θa).
pub fn permitted_rise(case: &Words) -> Fraction {
    let beyond_moist = soil_ratio(case).minus(&Fraction::whole(1)).expect("v of a rated case");
    let dry_zone = beyond_moist.times(&above_ambient(case, 28));
    above_ambient(case, 3).plus(&dry_zone).times(&Fraction::whole(10_000_000))
}

/// x/(1 + x).
fn share(x: &Fraction) -> Fraction {
    x.over(&Fraction::whole(1).plus(x))
}

struct Cable<'a> {
    words: &'a Words,
    chosen: &'a Chosen,
}

impl Cable<'_> {
    fn field(&self, index: usize) -> Fraction {
        Fraction::whole(u128::from(self.words[index]))
    }

    fn cores(&self) -> Fraction {
        Fraction::whole(if three_cores(self.words) { 3 } else { 1 })
    }

    // Stage 1, which rounds nothing.

    fn resistance(&self, field: usize, coefficient: i64, theta: usize) -> Fraction {
        let theta = value(self.words, theta);
        Fraction::whole(stages::resistance(u128::from(self.words[field]), coefficient, theta))
    }

    fn dc_resistance(&self) -> Fraction {
        self.resistance(5, tables::conductor_coefficient(self.words[1]), 3)
    }

    fn sheath_resistance(&self) -> Fraction {
        self.resistance(15, tables::metal_coefficient(self.words[14]), 16)
    }

    fn armour_resistance(&self) -> Fraction {
        self.resistance(18, tables::metal_coefficient(self.words[17]), 19)
    }

    // Stage 2.

    /// B = 4 pi f 10^-7 ohm/m, f being in hundredths of Hz.
    fn reactance_unit(&self) -> Fraction {
        let pi = self.chosen.pi.as_ref().expect("the current alternates");
        self.field(2).times(&Fraction::whole(40_000_000)).times(pi)
    }

    // Stages 3 and 4.

    /// z = 8 pi f k 10^-7 / R', k being in thousandths; then with its square w
    /// the factor w/(192 + 0.8 w).
    fn skin_factor(&self, k: u128) -> Fraction {
        let twice_k = Fraction::new(2 * k, 1000);
        let z = self.reactance_unit().times(&twice_k).over(&self.dc_resistance());
        let w = z.squared();
        w.over(&Fraction::whole(192).plus(&w.times(&Fraction::new(8, 10))))
    }

    /// yp = u (0.312 u G + 1.18 G/(G + 0.27)), u = (dc/s)^2.
    fn proximity_factor(&self) -> Fraction {
        let factor = self.skin_factor(tables::proximity_coefficient(self.words[1]));
        let u = self.field(6).over(&self.field(7)).squared();
        let g = Fraction::new(312, 1000).times(&u).times(&factor);
        let h = Fraction::new(118, 100).times(&factor);
        u.times(&g.plus(&h.over(&factor.plus(&Fraction::new(27, 100)))))
    }

    /// R, which is R' where the current is direct.
    fn conductor_resistance(&self) -> Fraction {
        if direct(self.words) {
            return self.dc_resistance();
        }
        let ys = self.skin_factor(tables::skin_coefficient(self.words[1]));
        let sum = Fraction::whole(1).plus(&ys).plus(&self.proximity_factor());
        self.dc_resistance().times(&sum)
    }

    // Stages 5 to 7.

    /// L of arrangements 1, 2 and 5; only 2 adds a third of ln 2.
    fn spacing_log(&self) -> Fraction {
        let log = self.chosen.spacing_log.as_ref().expect("currents circulate");
        match &self.chosen.ln_2 {
            Some(ln_2) => log.plus(&ln_2.over(&Fraction::whole(3))),
            None => log.clone(),
        }
    }

    /// v squared, v = X/Rs.
    fn circulating_ratio_squared(&self) -> Fraction {
        let x = self.reactance_unit().times(&self.spacing_log());
        x.over(&self.sheath_resistance()).squared()
    }

    fn circulating_loss(&self) -> Fraction {
        self.sheath_resistance().times(&share(&self.circulating_ratio_squared()))
    }

    /// 3j Rs m^2/(1 + m^2) (d/2s)^2, m = B/2Rs.
    fn eddy_loss(&self, trefoils: u128) -> Fraction {
        let rs = self.sheath_resistance();
        let two = Fraction::whole(2);
        let m = self.reactance_unit().over(&rs.times(&two));
        let ratio = self.field(13).over(&self.field(7).times(&two));
        let leading = Fraction::whole(3 * trefoils).times(&rs);
        leading.times(&share(&m.squared())).times(&ratio.squared())
    }

    /// 3 Rs (b/(1 + y^2) + b^2/(1 + 4 y^2)), b = (2c/d)^2, y = 2Rs/B, up to 100
    /// micro-ohm/m; above that 4 B^2 b/(5 Rs). Rs has no error that could blur
    /// which of the two it is.
    fn common_sheath_loss(&self) -> Fraction {
        let [one, two, three, four, five] = [1, 2, 3, 4, 5].map(Fraction::whole);
        let (rs, unit) = (self.sheath_resistance(), self.reactance_unit());
        let b = self.field(20).times(&two).over(&self.field(13)).squared();
        if rs > Fraction::whole(stages::LARGEST_RS_OF_SUM) {
            return unit.squared().times(&four).times(&b).over(&rs.times(&five));
        }
        let y2 = rs.times(&two).over(&unit).squared();
        let first = b.over(&one.plus(&y2));
        let second = b.squared().over(&one.plus(&y2.times(&four)));
        rs.times(&three).times(&first.plus(&second))
    }

    fn sheath_loss(&self) -> Fraction {
        match self.words[0] {
            3 => self.eddy_loss(1),
            4 => self.eddy_loss(2),
            5 => self.circulating_loss().times(&Fraction::new(3, 2)),
            6 => self.common_sheath_loss(),
            DIRECT_CURRENT => Fraction::whole(0),
            _ => self.circulating_loss(),
        }
    }

    // Stage 8.

    /// 1.23 RA/(1 + y^2) (2c/dA)^2/(1 + v^2), y = 0.554 RA/B.
    fn armour_loss(&self) -> Fraction {
        if !armoured(self.words) {
            return Fraction::whole(0);
        }
        let one = Fraction::whole(1);
        let ra = self.armour_resistance();
        let y = ra.times(&Fraction::new(554, 1000)).over(&self.reactance_unit());
        let position = self.field(20).times(&Fraction::whole(2)).over(&self.field(21));
        let leading = Fraction::new(123, 100).times(&ra).times(&position.squared());
        let bare = leading.over(&one.plus(&y.squared()));
        bare.over(&one.plus(&self.circulating_ratio_squared()))
    }

    // Stage 9.

    /// Wd = e U0^2 t B/(360 l) in 10^-12 W/m, where l is T times the logarithm; 0
    /// where the loss does not count.
    fn dielectric_loss(&self) -> Fraction {
        if !loss_counts(self.words) {
            return Fraction::whole(0);
        }
        let leading = self.field(11).times(&self.field(10).squared()).times(&self.field(12));
        let log = self.chosen.insulation_log.as_ref().expect("the current alternates");
        let below = Fraction::whole(360 * stages::T).times(log);
        leading.times(&self.reactance_unit()).over(&below)
    }

    /// T3 + v T4.
    fn outside(&self) -> Fraction {
        self.field(24).plus(&soil_ratio(self.words).times(&self.field(25)))
    }

    /// Wd (T1/2 + n (T2 + T3 + v T4)) in 10^-9 K.
    fn dielectric_rise(&self) -> Fraction {
        let outer = self.field(23).plus(&self.outside());
        let half_t1 = self.field(22).over(&Fraction::whole(2));
        let thermal = half_t1.plus(&self.cores().times(&outer));
        self.dielectric_loss().times(&thermal).over(&Fraction::whole(1_000_000_000))
    }

    /// Q T4 in 10^-9 K: of mW/m and 10^-6 K m/W.
    fn solar_rise(&self) -> Fraction {
        self.field(29).times(&self.field(25))
    }

    // Stage 10.

    /// E = (R T1 + n (R + S) T2 + n (R + S + W)(T3 + v T4))/10^6.
    fn effective_resistance(&self) -> Fraction {
        let r = self.conductor_resistance();
        let with_sheath = r.plus(&self.sheath_loss());
        let with_armour = with_sheath.plus(&self.armour_loss());
        let bedding = with_sheath.times(&self.field(23));
        let outer = with_armour.times(&self.outside());
        let all_cores = self.cores().times(&bedding.plus(&outer));
        r.times(&self.field(22)).plus(&all_cores).over(&Fraction::whole(1_000_000))
    }
}
