// worked: prints every number of the worked cases in docs/RATING.md, one
// `name value` a line, in that page's order and with its names. What stages.rs
// keeps inside a function is worked out here again and held to that function.

use std::fmt::Display;
use twin::cable::Cable;
use twin::implied::{near, Implied};
use twin::rating::{rate, value, Rated, Words, WIDTH};
use twin::sample_cables::{COMMON_ALUMINIUM_SHEATH, COMMON_SHEATH, DRY_SOIL, FEEDER, IN_THE_SUN};
use twin::stages::{self, Insulation, Thermal, LN_2_HIGH, LN_2_LOW, MOIST, T};
use twin::tables;
use twin::whole::{down, up};

/// The page's three-core SL cable.
const CASE: Words = [
    5, 1, 5000, 8500, 1500, 124_000, 1450, 4200, 1750, 3600, 19000, 350, 1000, 4000, 1, 1_000_000,
    6000, 6, 250_000, 5500, 2500, 11000, 350_000, 40_000, 60_000, 450_000, 0, 0, 0, 0,
];

const FIELD_NAMES: [&str; WIDTH] = [
    "arrangement",
    "conductor",
    "f",
    "θc",
    "θa",
    "R0",
    "dc",
    "s",
    "ds",
    "Di",
    "U0",
    "e",
    "t",
    "d",
    "sheath-metal",
    "Rs0",
    "θs",
    "armour-metal",
    "RA0",
    "θA",
    "c",
    "dA",
    "T1",
    "T2",
    "T3",
    "T4",
    "Ud",
    "ρ",
    "θx",
    "Q",
];

const THERMAL: Thermal = thermal(&CASE, 3);

/// T1 to T4 of a case in moist soil or in the sun.
const fn thermal(case: &Words, cores: u128) -> Thermal {
    Thermal {
        t1: case[22] as u128,
        t2: case[23] as u128,
        t3: case[24] as u128,
        t4: case[25] as u128,
        soil_ratio: MOIST,
        cores,
    }
}

// The same cable in soil that dries out, for which stages 1 to 8 have the same numbers.
const DRY_CASE: Words = DRY_SOIL;
const DRY_THERMAL: Thermal = Thermal { soil_ratio: DRY_CASE[27] as u128, ..THERMAL };

// The second table's single-core cables, those of `values`.
const SINGLE_FREQUENCY: u128 = 5000;
const SINGLE_SPACING: u128 = 12000;
const SINGLE_SHEATH_DIAMETER: u128 = 4000;

fn field(index: usize) -> u128 {
    u128::from(CASE[index])
}

fn show(name: impl Display, number: impl Display) {
    println!("{name} {number}");
}

/// Shows a number and hands it on.
fn shown(name: impl Display, number: u128) -> u128 {
    show(name, number);
    number
}

fn show_fields() {
    for (index, name) in FIELD_NAMES.iter().enumerate() {
        show(name, value(&CASE, index));
    }
    show("n", THERMAL.cores);
}

// Stages 1 and 2.

/// One resistance of stage 1, with its coefficient and its temperature factor.
fn show_resistance(name: &str, part: &str, coefficient: i64, fields: [usize; 2]) -> u128 {
    let theta = value(&CASE, fields[1]);
    show(format_args!("α({part})"), coefficient);
    show(format_args!("factor({part})"), stages::temperature_factor(coefficient, theta));
    shown(name, stages::resistance(field(fields[0]), coefficient, theta))
}

fn show_resistances() -> [u128; 3] {
    let metal = tables::metal_coefficient;
    [
        show_resistance("R'", "conductor", tables::conductor_coefficient(CASE[1]), [5, 3]),
        show_resistance("Rs", "sheath", metal(CASE[14]), [15, 16]),
        show_resistance("RA", "armour", metal(CASE[17]), [18, 19]),
    ]
}

// Stages 3 and 4.

/// The factor of stage 3: ys with ks, G with kp.
fn show_factor(name: &str, k_name: &str, k: u128, rc: u128) -> u128 {
    show(k_name, k);
    let a = shown(format_args!("A({k_name})"), stages::skin_reactance(field(2), k));
    let z = shown(format_args!("z({k_name})"), stages::skin_argument(a, rc));
    let w = shown(format_args!("w({k_name})"), stages::skin_argument_squared(z));
    shown(name, stages::skin_factor(w))
}

/// ys, yp and R.
fn show_conductor(rc: u128) -> [u128; 3] {
    let ys = show_factor("ys", "ks", tables::skin_coefficient(CASE[1]), rc);
    let factor = show_factor("G", "kp", tables::proximity_coefficient(CASE[1]), rc);
    let u = shown("u", stages::diameter_ratio_squared(field(6), field(7)));
    let h = shown("h", stages::proximity_main_term(factor));
    let g = shown("g", stages::proximity_small_term(u, factor));
    let yp = shown("yp", stages::proximity_factor(u, g, h));
    [ys, yp, shown("R", stages::ac_resistance(rc, ys, yp))]
}

// Stage 5.

/// What sets an upper end of a logarithm apart from a lower one.
struct End {
    round: fn(u128, u128) -> u128,
    ln_2: u128,
    added: u128,
    whole: fn(u128, u128) -> u128,
}

const UPPER: End = End { round: up, ln_2: LN_2_HIGH, added: 1, whole: stages::log_high };
const LOWER: End = End { round: down, ln_2: LN_2_LOW, added: 0, whole: stages::log_low };

/// The end of the logarithm of a/b with its series: k, q, each p and each term.
struct Series {
    k: u32,
    q: u128,
    p: [u128; 13],
    terms: [u128; 13],
    sum: u128,
    end: u128,
}

impl Series {
    fn of(a: u128, b: u128, end: &End) -> Series {
        let k = stages::halvings(a, b);
        let doubled = b << k;
        let mut p = [(end.round)((a - doubled) * T, a + doubled); 13];
        let q = (end.round)(p[0] * p[0], T);
        for j in 1..p.len() {
            p[j] = (end.round)(p[j - 1] * q, T);
        }
        let mut odd = 1;
        let terms = p.map(|p| {
            let term = (end.round)(2 * p, odd);
            odd += 2;
            term
        });
        let sum = terms.iter().sum();
        let total = sum + end.added + end.ln_2 * u128::from(k);
        // stages.rs sums the series without showing it.
        assert_eq!(total, (end.whole)(a, b));
        Series { k, q, p, terms, sum, end: total }
    }
}

fn show_log(name: &str, a: u128, b: u128, end: &End) -> u128 {
    let series = Series::of(a, b, end);
    show(format_args!("k.{name}"), series.k);
    for (j, (p, term)) in series.p.iter().zip(series.terms).enumerate() {
        show(format_args!("p{j}.{name}"), p);
        if j == 0 {
            show(format_args!("q.{name}"), series.q);
        }
        show(format_args!("term{j}.{name}"), term);
    }
    show(format_args!("sum.{name}"), series.sum);
    shown(format_args!("ln.{name}"), series.end)
}

/// Both ends for 2s/d, and the lower end for Di/ds.
fn show_logs() -> [u128; 3] {
    let (twice_s, d) = (2 * field(7), field(13));
    [
        show_log("upper", twice_s, d, &UPPER),
        show_log("lower", twice_s, d, &LOWER),
        show_log("insulation", field(9), field(8), &LOWER),
    ]
}

// Stages 6 and 7.

/// X and X-, with both ends of L.
fn show_reactances(b: [u128; 2], logs: [u128; 3]) -> [u128; 2] {
    let (s, d) = (field(7), field(13));
    let upper = shown("L.upper", stages::spacing_log_high(CASE[0], s, d));
    let lower = shown("L.lower", stages::spacing_log_low(CASE[0], s, d));
    // Only arrangement 2 adds to the logarithm.
    assert_eq!([upper, lower], [logs[0], logs[1]]);
    [
        shown("X", stages::sheath_reactance_high(b[0], upper)),
        shown("X-", stages::sheath_reactance_low(b[1], lower)),
    ]
}

fn show_sheath(x: u128, rs: u128) -> u128 {
    let v = shown("v", stages::circulating_ratio_high(x, rs));
    let v2 = shown("v2", stages::circulating_ratio_squared_high(v));
    let before = shown("S.before", stages::circulating_loss(rs, v2));
    shown("S", stages::three_halves(before))
}

// Stage 8.

/// W before the screening.
fn show_unscreened(ra: u128, b: u128) -> u128 {
    let y = shown("y", stages::armour_ratio(ra, b));
    let y2 = shown("y2", stages::armour_ratio_squared(y));
    let r = shown("r", stages::armour_reduced_resistance(ra, y2));
    let (c, diameter) = (field(20), field(21));
    let position = shown("up(4c²T/dA²)", stages::axis_ratio_squared(c, diameter));
    let before = shown("W.before", stages::armour_loss_unscreened(r, c, diameter));
    assert_eq!(before, up(123 * r * position, 100 * T));
    before
}

/// W after the screening, whose factor is inside the stage's function.
fn show_screened(before: u128, x_low: u128, rs: u128) -> u128 {
    let v = shown("v.screening", stages::circulating_ratio_low(x_low, rs));
    let v2 = shown("v2.screening", stages::circulating_ratio_squared_low(v));
    let screening = shown("up(T²/(T+v2))", up(T * T, T + v2));
    let after = shown("W", stages::armour_loss_screened(before, v2));
    assert_eq!(after, up(before * screening, T));
    after
}

// Stages 9 and 10.

/// Wd.
fn show_dielectric_loss(b: u128, l: u128) -> u128 {
    let insulation = Insulation {
        permittivity: field(11),
        volts: field(10),
        loss_factor: field(12),
        log_low: shown("l", l),
    };
    shown("Wd", stages::dielectric_loss(&insulation, b))
}

/// A cable in its surroundings, with what its numbers' names end in.
struct Laid {
    case: Words,
    thermal: Thermal,
    end: &'static str,
}

const MOIST_SOIL: Laid = Laid { case: CASE, thermal: THERMAL, end: "" };
const DRIED_SOIL: Laid = Laid { case: DRY_CASE, thermal: DRY_THERMAL, end: ".dry" };
const SUN: Laid = Laid { case: IN_THE_SUN, thermal: THERMAL, end: ".sun" };
const DIRECT: Laid = Laid { case: FEEDER, thermal: thermal(&FEEDER, 1), end: ".direct" };

impl Laid {
    /// Shows a number and hands it on.
    fn shown(&self, name: &str, number: u128) -> u128 {
        shown(format_args!("{name}{}", self.end), number)
    }

    /// dd.
    fn show_dielectric_rise(&self, wd: u128) -> u128 {
        let Thermal { t1, t2, t3, cores, .. } = self.thermal;
        let soil = self.shown("ρT4", self.thermal.soil());
        let outer = 1000 * (t2 + t3) + soil;
        let path = self.shown("1000T1+2n(1000(T2+T3)+ρT4)", 1000 * t1 + 2 * cores * outer);
        let dd = self.shown("dd", stages::dielectric_rise(wd, &self.thermal));
        assert_eq!(dd, up(wd * path, 2 * T));
        dd
    }

    /// Q T4, which is 0 in the shade.
    fn solar_rise(&self) -> u128 {
        stages::solar_rise(self.case[29].into(), self.thermal.t4)
    }

    /// d0.
    fn show_rise_without_current(&self, dd: u128) -> u128 {
        self.shown("d0", stages::rise_without_current(dd, self.solar_rise()))
    }

    /// P.
    fn permitted_rise(&self) -> u128 {
        let [rise, isotherm_rise] = [3, 28].map(|field| {
            // An isotherm without dry soil is 0, and adds nothing.
            u128::try_from(value(&self.case, field) - value(&self.case, 4)).unwrap_or(0)
        });
        let permitted = stages::permitted_rise(rise, self.thermal.soil_ratio, isotherm_rise);
        assert_eq!(permitted, Cable::of(&self.case).permitted_rise());
        permitted
    }

    /// N.
    fn show_rise_left(&self, permitted: u128, d0: u128) -> u128 {
        let n_left = self.shown("N", stages::rise_left(permitted, d0));
        self.shown("10d0", 10 * d0);
        self.shown("9P", 9 * permitted);
        n_left
    }

    fn show_effective_resistance(&self, [r, s, w]: [u128; 3]) -> u128 {
        let Thermal { t1, t2, t3, cores, .. } = self.thermal;
        let outer = 1000 * t3 + self.thermal.soil();
        let parts = [
            self.shown("E1", up(r * t1, 1_000_000)),
            self.shown("E2", up(cores * (r + s) * t2, 1_000_000)),
            self.shown("E3", up(cores * (r + s + w) * outer, 1_000_000_000)),
        ];
        let e = self.shown("E", stages::effective_resistance(r, s, w, &self.thermal));
        assert_eq!(e, parts.iter().sum());
        e
    }

    /// I, and the three numbers that show it to be the largest.
    fn show_current(&self, n_left: u128, e: u128) -> u128 {
        let most = 10 * T * n_left;
        let current = stages::largest_current(n_left, e);
        let (at, next) = (current * current * e, (current + 1) * (current + 1) * e);
        assert!(at <= most && most < next);
        self.shown("down(10^13N/E)", down(most, e));
        self.shown("I", current);
        self.shown("I²E", at);
        self.shown("10^13N", most);
        self.shown("(I+1)²E", next);
        current
    }

    /// From Wd to I: dd, E and I.
    fn show_rating(&self, wd: u128, ohms: [u128; 3]) -> [u128; 3] {
        let dd = self.show_dielectric_rise(wd);
        let d0 = self.show_rise_without_current(dd);
        let permitted = self.shown("P", self.permitted_rise());
        let n_left = self.show_rise_left(permitted, d0);
        let e = self.show_effective_resistance(ohms);
        [dd, e, self.show_current(n_left, e)]
    }

    /// From dd and E, which are those of the shade, to I.
    fn show_rating_in_sun(&self, [dd, e]: [u128; 2]) -> u128 {
        self.shown("QT4", self.solar_rise());
        let d0 = self.show_rise_without_current(dd);
        let n_left = self.show_rise_left(self.permitted_rise(), d0);
        self.show_current(n_left, e)
    }
}

/// The feeder with direct current: R is R', and the sun and the insulation heat nothing.
fn show_direct_current() {
    let rc = DIRECT.shown("R'", Cable::of(&FEEDER).rc);
    let r = DIRECT.shown("R", rc);
    let e = DIRECT.show_effective_resistance([r, 0, 0]);
    let permitted = DIRECT.shown("P", DIRECT.permitted_rise());
    let d0 = DIRECT.show_rise_without_current(0);
    let n_left = DIRECT.shown("N", stages::rise_left(permitted, d0));
    let current = DIRECT.show_current(n_left, e);
    let sheet = [rc, 0, 0, 0, 0, 0, r, 0, 0, 0, 0, 0, e].map(|number: u128| number as u64);
    assert_eq!(rate(&FEEDER), Rated { answer: 0, rating: current as u32, sheet });
}

/// The losses of the cable above and their falls, worked out here again from its rating.
fn show_losses([r, s, w, wd, current]: [u128; 5]) -> [u128; 3] {
    let by_current = |name, ohms| shown(name, near(current * current * ohms, 10_000 * T));
    let [pc, ps, pa] = [by_current("Pc", r), by_current("Ps", s), by_current("PA", w)];
    let pd = shown("Pd", near(wd, 1_000_000));
    let Thermal { t1, t2, t3, cores, .. } = THERMAL;
    let first = shown("D1", (2 * pc + pd) * t1);
    let second = shown("D2", first + 2 * cores * (pc + ps + pd) * t2);
    [first, second, shown("D3", second + 2 * cores * (pc + ps + pa + pd) * t3)]
}

/// What its rating implies.
fn show_implied([r, s, w, wd, current]: [u128; 5]) {
    let implied = Implied::of(&CASE, &rate(&CASE));
    show("λ1", implied.sheath_factor);
    show("λ2", implied.armour_factor);
    assert_eq!(implied.sheath_factor, near(1_000_000 * s, r));
    assert_eq!(implied.armour_factor, near(1_000_000 * w, r));
    assert_eq!(implied.falls, show_losses([r, s, w, wd, current]));
    for (name, temperature) in ["θs", "θA", "θe"].iter().zip(implied.temperatures) {
        show(name, temperature);
    }
}

fn show_cable() {
    show_fields();
    let [rc, rs, ra] = show_resistances();
    let b = shown("B", stages::reactance_unit_high(field(2)));
    let b_low = shown("B-", stages::reactance_unit_low(field(2)));
    let [ys, yp, r] = show_conductor(rc);
    let logs = show_logs();
    let [x, x_low] = show_reactances([b, b_low], logs);
    let s = show_sheath(x, rs);
    let w = show_screened(show_unscreened(ra, b), x_low, rs);
    let wd = show_dielectric_loss(b, logs[2]);
    let [dd, e, current] = MOIST_SOIL.show_rating(wd, [r, s, w]);
    // The steps above are those that `rate` takes.
    let rated = |dd, e, current| Rated {
        answer: 0,
        rating: current as u32,
        sheet: [rc, rs, ra, b, ys, yp, r, x, s, w, wd, dd, e].map(|number: u128| number as u64),
    };
    assert_eq!(rate(&CASE), rated(dd, e, current));
    show_implied([r, s, w, wd, current]);
    show("ρ.dry", DRY_CASE[27]);
    show("θx.dry", value(&DRY_CASE, 28));
    let [dry_dd, dry_e, dry_current] = DRIED_SOIL.show_rating(wd, [r, s, w]);
    assert_eq!(rate(&DRY_CASE), rated(dry_dd, dry_e, dry_current));
    show("Q.sun", IN_THE_SUN[29]);
    let current = SUN.show_rating_in_sun([dd, e]);
    assert_eq!(rate(&IN_THE_SUN), rated(dd, e, current));
}

// The stages that the cable above does not use.

/// The logarithm's end of 2s/d and L of arrangement 2 with it.
fn show_flat_log(name: &str, end: &End, with_third: u128) {
    let series = Series::of(2 * SINGLE_SPACING, SINGLE_SHEATH_DIAMETER, end);
    show(format_args!("k.single.{name}"), series.k);
    show(format_args!("p0.single.{name}"), series.p[0]);
    show(format_args!("q.single.{name}"), series.q);
    show(format_args!("sum.single.{name}"), series.sum);
    show(format_args!("ln.single.{name}"), series.end);
    show(format_args!("L.single.{name}"), with_third);
}

fn show_eddies(b: u128, rs: u128) {
    let m = shown("m.single", stages::eddy_ratio(b, rs));
    let m2 = shown("m2.single", stages::eddy_ratio_squared(m));
    let e_prime = shown("e'.single", stages::eddy_share(m2));
    let g_prime = stages::sheath_ratio_squared(SINGLE_SHEATH_DIAMETER, SINGLE_SPACING);
    show("g'.single", g_prime);
    let ohms = shown("up(Rse'/T).single", up(rs * e_prime, T));
    for (arrangement, j) in [(3, 1), (4, 2)] {
        let loss = stages::eddy_loss(j, rs, e_prime, g_prime);
        assert_eq!(loss, up(3 * j * ohms * g_prime, T));
        show(format_args!("S{arrangement}.single"), loss);
    }
}

fn show_single_core() {
    let (s, d) = (SINGLE_SPACING, SINGLE_SHEATH_DIAMETER);
    show("f.single", SINGLE_FREQUENCY);
    show("s.single", s);
    show("d.single", d);
    let lead = tables::metal_coefficient(tables::LEAD);
    let rs = shown("Rs.single", stages::resistance(1_000_000, lead, 6000));
    let b = shown("B.single", stages::reactance_unit_high(SINGLE_FREQUENCY));
    show("5B.single", 5 * b);
    show_flat_log("upper", &UPPER, stages::spacing_log_high(2, s, d));
    show_flat_log("lower", &LOWER, stages::spacing_log_low(2, s, d));
    show_eddies(b, rs);
}

/// What both formulas of a common sheath begin with: Rs, B and b.
fn show_common_sheath(case: &Words, name: &str) -> [u128; 3] {
    let Cable { rs, b_high, .. } = Cable::of(case);
    let [f, c, d] = [2, 20, 13].map(|index| u128::from(case[index]));
    show(format_args!("f.{name}"), f);
    show(format_args!("c.{name}"), c);
    show(format_args!("d.{name}"), d);
    show(format_args!("Rs.{name}"), rs);
    show(format_args!("B.{name}"), b_high);
    [rs, b_high, shown(format_args!("b.{name}"), stages::axis_ratio_squared(c, d))]
}

/// S, which is the one on the sheet.
fn show_common_sheath_loss(case: &Words, name: &str, loss: u128) {
    assert_eq!(u128::from(rate(case).sheet[8]), loss);
    show(format_args!("S.{name}"), loss);
}

/// The aluminium sheath, by the sum of two terms.
fn show_common_aluminium_sheath() {
    let [rs, b_high, b] = show_common_sheath(&COMMON_ALUMINIUM_SHEATH, "aluminium");
    let b2 = shown("b2.aluminium", stages::axis_ratio_fourth(b));
    let y = shown("y.aluminium", stages::common_sheath_ratio(rs, b_high));
    let y2 = shown("y2.aluminium", stages::common_sheath_ratio_squared(y));
    let first = stages::common_sheath_first_term(b, y2);
    let second = stages::common_sheath_second_term(b2, y2);
    show("up(bT/(T+y2)).aluminium", first);
    show("up(b2T/(T+4y2)).aluminium", second);
    let loss = stages::common_sheath_loss_by_sum(rs, first, second);
    show_common_sheath_loss(&COMMON_ALUMINIUM_SHEATH, "aluminium", loss);
}

/// The lead sheath, by the formula for a larger Rs.
fn show_common_lead_sheath() {
    let [rs, b_high, b] = show_common_sheath(&COMMON_SHEATH, "lead");
    let above = shown("4B²b.lead", 4 * b_high * b_high * b);
    let below = shown("5RsT.lead", 5 * rs * T);
    show_common_sheath_loss(&COMMON_SHEATH, "lead", up(above, below));
}

fn main() {
    show_cable();
    show_single_core();
    show_common_aluminium_sheath();
    show_common_lead_sheath();
    show_direct_current();
}
