// The standard's own formulas in floating point, written from IEC 60287-1-1
// and its amendments in SI units. They share nothing with the stages, neither
// code nor tables, and serve only to cross-check the whole-number rating.

use std::f64::consts::PI;

/// The fields of a case, in ohm/m, K m/W, V, Hz, degrees, mm and W/m; v is a ratio, 1
/// where no soil dries out.
pub struct Cable {
    pub arrangement: u32,
    pub conductor: u32,
    pub frequency: f64,
    pub theta_c: f64,
    pub theta_a: f64,
    pub r0: f64,
    pub dc: f64,
    pub s: f64,
    pub ds: f64,
    pub di: f64,
    pub u0: f64,
    pub permittivity: f64,
    pub tan_delta: f64,
    pub d: f64,
    pub rs: f64,
    pub ra: f64,
    pub c: f64,
    pub d_armour: f64,
    pub thermal: [f64; 4],
    pub loss_voltage: f64,
    pub v: f64,
    pub theta_x: f64,
    pub solar_heat: f64,
}

/// Table 1: temperature coefficient at 20 degrees, per K.
fn alpha20(metal: u32) -> f64 {
    match metal {
        1 => 4.0e-3,
        2 => 4.03e-3,
        3 => 3.93e-3,
        4 => 3.0e-3,
        6 => 4.5e-3,
        _ => 0.0,
    }
}

/// Table 2 of amendment 2: ks and kp, kp of aluminium as for similar copper.
fn ks_kp(conductor: u32) -> (f64, f64) {
    match conductor {
        1 | 4 => (1.0, 0.8),
        2 | 5 => (1.0, 1.0),
        3 => (0.435, 0.37),
        6 => (0.28, 0.37),
        7 => (0.19, 0.37),
        _ => (0.12, 0.37),
    }
}

fn degrees(word: u32) -> f64 {
    f64::from(word as i32) / 100.0
}

/// 2.1.1, for conductor, sheath and armour alike; nano-ohms become ohms.
fn at_temperature(nano_ohms: u32, metal: u32, theta: f64) -> f64 {
    f64::from(nano_ohms) * 1e-9 * (1.0 + alpha20(metal) * (theta - 20.0))
}

impl Cable {
    pub fn from_fields(f: &[u32; 30]) -> Cable {
        let mm = |word: u32| f64::from(word) / 100.0;
        let k_m_per_w = |word: u32| f64::from(word) * 1e-6;
        Cable {
            arrangement: f[0],
            conductor: f[1],
            frequency: f64::from(f[2]) / 100.0,
            theta_c: degrees(f[3]),
            theta_a: degrees(f[4]),
            r0: f64::from(f[5]) * 1e-9,
            dc: mm(f[6]),
            s: mm(f[7]),
            ds: mm(f[8]),
            di: mm(f[9]),
            u0: f64::from(f[10]),
            permittivity: f64::from(f[11]) / 100.0,
            tan_delta: f64::from(f[12]) * 1e-5,
            d: mm(f[13]),
            rs: at_temperature(f[15], f[14], degrees(f[16])),
            ra: at_temperature(f[18], f[17], degrees(f[19])),
            c: mm(f[20]),
            d_armour: mm(f[21]),
            thermal: [k_m_per_w(f[22]), k_m_per_w(f[23]), k_m_per_w(f[24]), k_m_per_w(f[25])],
            loss_voltage: f64::from(f[26]),
            v: if f[27] == 0 { 1.0 } else { f64::from(f[27]) * 1e-3 },
            theta_x: degrees(f[28]),
            solar_heat: f64::from(f[29]) * 1e-3,
        }
    }

    pub fn omega(&self) -> f64 {
        2.0 * PI * self.frequency
    }

    /// 2.1.1: R' = R0 (1 + alpha20 (theta - 20)).
    pub fn dc_resistance(&self) -> f64 {
        let alpha = if self.conductor <= 3 { 3.93e-3 } else { 4.03e-3 };
        self.r0 * (1.0 + alpha * (self.theta_c - 20.0))
    }

    /// x^4 / (192 + 0.8 x^4) with x^2 = 8 pi f 10^-7 k / R'.
    fn skin_function(&self, k: f64) -> f64 {
        let x2 = 8.0 * PI * self.frequency / self.dc_resistance() * 1e-7 * k;
        let x4 = x2 * x2;
        x4 / (192.0 + 0.8 * x4)
    }

    /// 2.1.2.
    pub fn ys(&self) -> f64 {
        self.skin_function(ks_kp(self.conductor).0)
    }

    /// 2.1.4.1.
    pub fn yp(&self) -> f64 {
        let x = self.skin_function(ks_kp(self.conductor).1);
        let ratio2 = (self.dc / self.s).powi(2);
        x * ratio2 * (0.312 * ratio2 + 1.18 / (x + 0.27))
    }

    /// 2.1: R = R' (1 + ys + yp).
    pub fn ac_resistance(&self) -> f64 {
        self.dc_resistance() * (1.0 + self.ys() + self.yp())
    }

    /// 2.3.1 and 2.3.10, or 2.3.2 for the transposed flat formation.
    pub fn sheath_reactance(&self) -> f64 {
        let inside = match self.arrangement {
            2 => 2.0 * 2f64.cbrt() * (self.s / self.d),
            _ => 2.0 * self.s / self.d,
        };
        2.0 * self.omega() * 1e-7 * inside.ln()
    }

    /// 2.3.1's loss factor, without the 1.5 of the SL cable.
    fn lambda1_bonded(&self) -> f64 {
        let ratio = self.rs / self.sheath_reactance();
        self.rs / self.ac_resistance() / (1.0 + ratio * ratio)
    }

    /// 2.3.6.1 for lead: g_s = 1, the thickness term and, up to m = 0.1, the
    /// corrections left out.
    fn lambda1_eddy(&self, leading: f64) -> f64 {
        let m = self.omega() / self.rs * 1e-7;
        let lambda0 = leading * (m * m / (1.0 + m * m)) * (self.d / (2.0 * self.s)).powi(2);
        self.rs / self.ac_resistance() * lambda0
    }

    /// 2.3.8 for round conductors: one formula up to 100 micro-ohm/m, another
    /// above. A case's Rs is a whole number of 10^-16 ohm/m, so half of one more
    /// keeps a float's error from taking the wrong formula.
    fn lambda1_common_sheath(&self) -> f64 {
        let (r, rs) = (self.ac_resistance(), self.rs);
        let axes = 2.0 * self.c / self.d;
        if rs > 100e-6 + 0.5e-16 {
            return 3.2 * self.omega().powi(2) / (r * rs) * axes.powi(2) * 1e-14;
        }
        let ratio = rs / self.omega() * 1e7;
        let first = axes.powi(2) / (1.0 + ratio.powi(2));
        let second = axes.powi(4) / (1.0 + 4.0 * ratio.powi(2));
        3.0 * rs / r * (first + second)
    }

    pub fn lambda1(&self) -> f64 {
        match self.arrangement {
            3 => self.lambda1_eddy(3.0),
            4 => self.lambda1_eddy(6.0),
            5 => 1.5 * self.lambda1_bonded(),
            6 => self.lambda1_common_sheath(),
            _ => self.lambda1_bonded(),
        }
    }

    /// 2.4.2.3.1 with the screening of 2.4.2.5 (amendment 2).
    pub fn lambda2(&self) -> f64 {
        if self.arrangement != 5 {
            return 0.0;
        }
        let r = self.ac_resistance();
        let shift = 2.77 * self.ra * 1e6 / self.omega();
        let bare =
            1.23 * (self.ra / r) * (2.0 * self.c / self.d_armour).powi(2) / (shift * shift + 1.0);
        bare * (1.0 - r / self.rs * self.lambda1_bonded())
    }

    /// 2.2: Wd = omega C U0^2 tan delta, from the voltage of Table 3 on.
    pub fn dielectric_loss(&self) -> f64 {
        if self.u0 < self.loss_voltage {
            return 0.0;
        }
        let capacitance = self.permittivity / (18.0 * (self.di / self.ds).ln()) * 1e-9;
        self.omega() * capacitance * self.u0 * self.u0 * self.tan_delta
    }

    /// 1.4.2.1's rise at which the rating is reached, what the dry zone adds to it
    /// among it: with v = 1 that of 1.4.1.1.
    pub fn permitted_rise(&self) -> f64 {
        self.theta_c - self.theta_a + (self.v - 1.0) * (self.theta_x - self.theta_a)
    }

    /// The rating in amperes by the formula for the kind of current.
    pub fn rating(&self) -> f64 {
        if self.arrangement == 7 {
            self.dc_rating()
        } else {
            self.ac_rating()
        }
    }

    /// d.c. up to 5 kV, of single-core cables: in dry soil by 1.4.2.2, in the sun by
    /// 1.4.4.2. With v = 1 and no heat both are 1.4.1.2.
    fn dc_rating(&self) -> f64 {
        let [t1, t2, t3, t4] = self.thermal;
        let left = self.permitted_rise() - self.solar_heat * t4;
        (left / (self.dc_resistance() * (t1 + t2 + t3 + self.v * t4))).sqrt()
    }

    /// a.c.: in dry soil by 1.4.2.1, in the sun, where T4 is T4* and the heat taken up
    /// σ De* H, by 1.4.4.1. With v = 1 and no heat both are 1.4.1.1.
    fn ac_rating(&self) -> f64 {
        let three_cores = matches!(self.arrangement, 5 | 6);
        let n = if three_cores { 3.0 } else { 1.0 };
        let [t1, t2, t3, t4] = self.thermal;
        let r = self.ac_resistance();
        let solar_rise = self.solar_heat * t4;
        let t4 = self.v * t4;
        let dielectric_rise = self.dielectric_loss() * (0.5 * t1 + n * (t2 + t3 + t4));
        let left = self.permitted_rise() - dielectric_rise - solar_rise;
        let sheath = 1.0 + self.lambda1();
        let armour = sheath + self.lambda2();
        (left / (r * t1 + n * r * sheath * t2 + n * r * armour * (t3 + t4))).sqrt()
    }
}
