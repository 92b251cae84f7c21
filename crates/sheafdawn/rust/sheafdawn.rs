// Sheafdawn's proved rating and book, for Rust: safe functions over the static library libsheafdawn.a, which `rt lib` in crates/sheafdawn
// writes. Every slice passed to it has the length that it asks for, so that it never answers that a length is wrong.
#![allow(dead_code)] // a program needs some of what is here, not all

/// The words of a case, in the order of docs/FIELDS.md; temperatures as two's complement.
pub type Case = [u32; 30];

/// A record: the 30 inputs, the answer and the rating. In a book of RBK1 the inputs from 26 on are
/// zeros.
pub type Record = [u32; 32];

/// The fields of a case; docs/RATING.md has their units and limits, and the codes.
pub mod field {
    /// one of the arrangements below
    pub const ARRANGEMENT: usize = 0;
    /// a conductor's code
    pub const CONDUCTOR: usize = 1;
    /// f; in arrangements 1 to 6 only
    pub const FREQUENCY: usize = 2;
    /// theta_c
    pub const CONDUCTOR_TEMPERATURE: usize = 3;
    /// theta_a
    pub const AMBIENT_TEMPERATURE: usize = 4;
    /// R0
    pub const CONDUCTOR_RESISTANCE: usize = 5;
    /// dc
    pub const CONDUCTOR_DIAMETER: usize = 6;
    /// s; in arrangements 1 to 6 only
    pub const SPACING: usize = 7;
    /// ds
    pub const SCREEN_DIAMETER: usize = 8;
    /// Di
    pub const INSULATION_DIAMETER: usize = 9;
    /// U0; at most 5000 V in arrangement 7
    pub const VOLTAGE: usize = 10;
    /// e; in arrangements 1 to 6 only
    pub const PERMITTIVITY: usize = 11;
    /// t; in arrangements 1 to 6 only
    pub const LOSS_FACTOR: usize = 12;
    /// d; in arrangements 1 to 6 only
    pub const SHEATH_DIAMETER: usize = 13;
    /// a metal's code; in arrangements 1 to 6 only
    pub const SHEATH_METAL: usize = 14;
    /// Rs0; in arrangements 1 to 6 only
    pub const SHEATH_RESISTANCE: usize = 15;
    /// theta_s; in arrangements 1 to 6 only
    pub const SHEATH_TEMPERATURE: usize = 16;
    /// a metal's code; in arrangement 5 only
    pub const ARMOUR_METAL: usize = 17;
    /// RA0; in arrangement 5 only
    pub const ARMOUR_RESISTANCE: usize = 18;
    /// theta_A; in arrangement 5 only
    pub const ARMOUR_TEMPERATURE: usize = 19;
    /// c; in arrangements 5 and 6 only
    pub const AXIS_DISTANCE: usize = 20;
    /// dA; in arrangement 5 only
    pub const ARMOUR_DIAMETER: usize = 21;
    /// conductor to sheath, of one core; in arrangement 7 to screen or covering
    pub const T1: usize = 22;
    /// sheath to armour
    pub const T2: usize = 23;
    /// outer covering
    pub const T3: usize = 24;
    /// cable surface to ambient
    pub const T4: usize = 25;
    /// the U0 from which the dielectric loss counts; without effect in arrangement 7
    pub const LOSS_VOLTAGE: usize = 26;
    /// rho, dry over moist soil's resistivity in thousandths; 0: no soil dries out
    pub const DRY_RATIO: usize = 27;
    /// theta_x, the critical isotherm's temperature; 0 where rho is 0
    pub const ISOTHERM: usize = 28;
    /// Q, the sun's heat taken up in mW/m, T4 then adjusted for it; 0 where rho is not 0
    pub const SOLAR_HEAT: usize = 29;
}

/// The fields of a record behind those of its case.
pub mod record {
    /// 0, or the refusal's number
    pub const ANSWER: usize = 30;
    /// in mA
    pub const RATING: usize = 31;
}

/// The arrangements.
pub mod arrangement {
    /// single-core, trefoil, sheaths bonded at both ends
    pub const TREFOIL_BOTH_ENDS: u32 = 1;
    /// single-core, flat and transposed, sheaths bonded at both ends
    pub const FLAT_BOTH_ENDS: u32 = 2;
    /// single-core, trefoil, sheaths bonded at one point
    pub const TREFOIL_ONE_POINT: u32 = 3;
    /// single-core, flat, sheaths bonded at one point; the centre cable
    pub const FLAT_ONE_POINT: u32 = 4;
    /// three-core, a lead sheath on each core, steel wire armour
    pub const SL_TYPE: u32 = 5;
    /// three-core, one sheath around all cores, no armour
    pub const COMMON_SHEATH: u32 = 6;
    /// one single-core cable of a d.c. feeder
    pub const DIRECT_CURRENT: u32 = 7;
}

/// Where the numbers of the sheet stand in `Rated::sheet`. In arrangement 7 it is 0 but for R', R and E.
pub mod sheet {
    /// R', conductor, d.c.
    pub const R_DC: usize = 0;
    /// Rs, sheath
    pub const RS: usize = 1;
    /// RA, armour; 0 except in arrangement 5
    pub const RA: usize = 2;
    /// B, 4 pi f / 10^7
    pub const B: usize = 3;
    /// ys, skin effect factor
    pub const YS: usize = 4;
    /// yp, proximity effect factor
    pub const YP: usize = 5;
    /// R, conductor, a.c.; in arrangement 7 R'
    pub const R_AC: usize = 6;
    /// X, sheath reactance; 0 in arrangements 3, 4, 6 and 7
    pub const X: usize = 7;
    /// S, sheath loss / I^2
    pub const S: usize = 8;
    /// W, armour loss / I^2; 0 except in arrangement 5
    pub const W: usize = 9;
    /// Wd, dielectric loss of a core
    pub const WD: usize = 10;
    /// dd, rise by the dielectric loss
    pub const DD: usize = 11;
    /// E, rise by the current / I^2
    pub const E: usize = 12;
}

/// The refusals: of a case (docs/RATING.md), in the order in which they are tried, and then of a book
/// (docs/BOOK.md).
pub mod refusal {
    pub const ARRANGEMENT: u32 = 1;
    pub const CONDUCTOR: u32 = 2;
    pub const LIMIT: u32 = 3;
    pub const STRAY: u32 = 4;
    pub const GEOMETRY: u32 = 5;
    pub const HEAT: u32 = 6;
    pub const ISOTHERM: u32 = 31;
    pub const SUN: u32 = 32;
    pub const METAL: u32 = 7;
    pub const DC_VOLTAGE: u32 = 33;
    pub const SKIN: u32 = 8;
    pub const EDDY: u32 = 9;
    pub const DIELECTRIC: u32 = 10;
    pub const CURRENT: u32 = 11;
    pub const LENGTH: u32 = 20;
    pub const MARK: u32 = 21;
    pub const TRAILER: u32 = 22;
    pub const DISAGREES: u32 = 23;
    pub const SPACE: u32 = 24;
    pub const FULL: u32 = 25;
    pub const INDEX: u32 = 26;
}

/// A refusal's word; an empty text for a number that is no refusal's.
pub fn word(refusal: u32) -> &'static str {
    match refusal {
        refusal::ARRANGEMENT => "arrangement",
        refusal::CONDUCTOR => "conductor",
        refusal::LIMIT => "limit",
        refusal::STRAY => "stray",
        refusal::GEOMETRY => "geometry",
        refusal::HEAT => "heat",
        refusal::ISOTHERM => "isotherm",
        refusal::SUN => "sun",
        refusal::METAL => "metal",
        refusal::DC_VOLTAGE => "d.c. voltage",
        refusal::SKIN => "skin",
        refusal::EDDY => "eddy",
        refusal::DIELECTRIC => "dielectric",
        refusal::CURRENT => "current",
        refusal::LENGTH => "length",
        refusal::MARK => "mark",
        refusal::TRAILER => "trailer",
        refusal::DISAGREES => "disagrees",
        refusal::SPACE => "space",
        refusal::FULL => "full",
        refusal::INDEX => "index",
        _ => "",
    }
}

/// The answer, 0 or the refusal's number; the rating in mA; and the sheet.
#[derive(Clone, Copy, Debug, PartialEq, Eq)]
pub struct Rated {
    pub answer: u32,
    pub rating: u64,
    pub sheet: [u64; 13],
}

/// What an accepted book holds.
#[derive(Clone, Copy, Debug, PartialEq, Eq)]
pub struct Accepted {
    pub count: usize,
    pub note: usize,
}

/// A refusal's number, and for 23 the first record, counted from 1, whose answer or
/// rating is not its case's; 0 for the others.
#[derive(Clone, Copy, Debug, PartialEq, Eq)]
pub struct Refused {
    pub number: u32,
    pub record: usize,
}

#[link(name = "sheafdawn", kind = "static")]
extern "C" {
    fn sheafdawn_rate(
        case: *const u32,
        case_length: usize,
        out: *mut u64,
        out_length: usize,
    ) -> u32;
    fn sheafdawn_start(
        buffer: *mut u8,
        length: usize,
        note: usize,
        out: *mut usize,
        out_length: usize,
    ) -> u32;
    fn sheafdawn_append(
        buffer: *mut u8,
        length: usize,
        used: usize,
        case: *const u32,
        case_length: usize,
        out: *mut usize,
        out_length: usize,
    ) -> u32;
    fn sheafdawn_read(
        buffer: *const u8,
        length: usize,
        used: usize,
        index: usize,
        out: *mut u32,
        out_length: usize,
    ) -> u32;
    fn sheafdawn_accept(
        buffer: *const u8,
        length: usize,
        used: usize,
        out: *mut usize,
        out_length: usize,
    ) -> u32;
}

fn answered<T>(number: u32, record: usize, value: T) -> Result<T, Refused> {
    if number == 0 {
        Ok(value)
    } else {
        Err(Refused { number, record })
    }
}

pub fn rate(case: &Case) -> Rated {
    let mut out = [0; 14];
    // Each pointer goes with the length of the array that it points to.
    let answer = unsafe { sheafdawn_rate(case.as_ptr(), case.len(), out.as_mut_ptr(), out.len()) };
    let [rating, sheet @ ..] = out;
    Rated { answer, rating, sheet }
}

/// Starts a book of RBK2 after a note whose bytes stand at the front of the buffer. Answers the used
/// length.
pub fn start(buffer: &mut [u8], note: usize) -> Result<usize, Refused> {
    let mut out = [0; 1];
    let number = unsafe {
        sheafdawn_start(buffer.as_mut_ptr(), buffer.len(), note, out.as_mut_ptr(), out.len())
    };
    answered(number, 0, out[0])
}

/// Appends a case to a book of RBK2; 21 refuses one of RBK1. Answers the new used length.
pub fn append(buffer: &mut [u8], used: usize, case: &Case) -> Result<usize, Refused> {
    let mut out = [0; 1];
    let number = unsafe {
        sheafdawn_append(
            buffer.as_mut_ptr(),
            buffer.len(),
            used,
            case.as_ptr(),
            case.len(),
            out.as_mut_ptr(),
            out.len(),
        )
    };
    answered(number, 0, out[0])
}

/// The record of an index from 0, as written, of a book of either mark.
pub fn read(buffer: &[u8], used: usize, index: usize) -> Result<Record, Refused> {
    let mut out = [0; 32];
    let number = unsafe {
        sheafdawn_read(buffer.as_ptr(), buffer.len(), used, index, out.as_mut_ptr(), out.len())
    };
    answered(number, 0, out)
}

/// Accepts a book of either mark. In one of RBK1 a case of arrangement 7 is refused by 1.
pub fn accept(buffer: &[u8], used: usize) -> Result<Accepted, Refused> {
    let mut out = [0; 3];
    let number = unsafe {
        sheafdawn_accept(buffer.as_ptr(), buffer.len(), used, out.as_mut_ptr(), out.len())
    };
    let [count, note, record] = out;
    answered(number, record, Accepted { count, note })
}
