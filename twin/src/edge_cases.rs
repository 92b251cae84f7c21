// Cases at the edges of every refusal, each with the answer it is made for: at
// a limit and one step beyond, and where two refusals hold at once. A limit, a
// relation or an order that is stated wrongly changes some answer here, even
// where drawn cases hardly ever come so near.

mod codes;
pub mod common_sheath;
mod current;
mod dielectric;
pub mod direct_current;
pub mod dry_soil;
mod eddy;
mod limits;
mod loss_voltage;
pub mod pairs;
mod relations;
pub mod skin;
pub mod sun;

use crate::rating::Words;

/// A case and the answer it is made for: 0 where it must be rated.
pub struct Edge {
    pub case: Words,
    pub answer: u32,
}

/// Edges of one kind, and a line that says of which.
pub struct Group {
    pub remark: &'static str,
    pub edges: Vec<Edge>,
}

/// Every group, in the order of the refusals, and of direct current once more so.
pub fn groups() -> Vec<Group> {
    let mut groups = vec![
        codes::arrangements(),
        codes::conductors(),
        limits::limits(),
        codes::metals(),
        codes::stray(),
        dry_soil::ratios(),
        dry_soil::isotherm_limits(),
        sun::heats(),
        relations::geometry(),
        relations::heat(),
        dry_soil::isotherms(),
        dry_soil::below_zero(),
        sun::with_ratio(),
        skin::skin(),
        eddy::eddy(),
        common_sheath::formulas(),
        common_sheath::roundings(),
        loss_voltage::loss_voltage(),
        dry_soil::moist(),
        dry_soil::thousandths(),
        sun::sheets(),
        dielectric::dielectric(),
        dry_soil::dielectric(),
        sun::dielectric_alone(),
        sun::dielectric_together(),
        sun::ends(),
        current::current(),
    ];
    groups.extend(direct_current::groups());
    groups.push(pairs::pairs());
    groups
}
