// The work sheet, whose text and numbers are those of the pages of the sheet and of the rating.

use twin::implied::{near, Implied, Losses};
use twin::lines::case_line;
use twin::rating::{rate, Rated, Words};
use twin::sample_cables::{with, COMMON_SHEATH, DRY_SOIL, FEEDER, SL_TYPE, TREFOIL};
use twin::sheet::{work_sheet, work_sheets};

fn sheets(input: &[u8]) -> String {
    let mut output = Vec::new();
    work_sheets(input, &mut output).expect("memory takes every byte");
    String::from_utf8(output).expect("headings and sheets are UTF-8")
}

/// The lines of a case's sheet.
fn lines(case: &Words) -> Vec<String> {
    work_sheet(case, 1, None).lines().map(str::to_string).collect()
}

/// Those of them that are marked, up to their value.
fn marked(case: &Words) -> Vec<String> {
    let all = lines(case);
    let marked = all.iter().filter(|line| line.starts_with("> "));
    marked.map(|line| line[2..13].trim_end().to_string()).collect()
}

const WORKED_SHEET: &str = "\
CASE on line 1: worked
  arrangement         5         [1 to 7]  three-core SL type, steel wire armour
  conductor           1         [1 to 8]  copper, round, dried
  f                  50.00      Hz        frequency [10 to 65]
  theta_c            85.00      deg C     conductor [40 to 250]
  theta_a            15.00      deg C     ambient [-40 to 60]
  R0                124.000     uohm/m    conductor, d.c., at 20 deg C [5 to 20000]
  dc                 14.50      mm        conductor diameter [1 to 100]
  s                  42.00      mm        spacing of the axes [1 to 10000]
  ds                 17.50      mm        diameter over conductor screen [1 to 200]
  Di                 36.00      mm        diameter over insulation [1 to 300]
  U0              19000         V         voltage to earth [0 to 300000]
  e                   3.50                relative permittivity [1 to 8]
  t                   0.01000             loss factor [0.00001 to 0.1]
  d                  40.00      mm        mean sheath diameter [1 to 500]
  sheath              1         [1 to 6]  lead
  Rs0              1000.000     uohm/m    sheath, at 20 deg C [1 to 20000]
  theta_s            60.00      deg C     sheath [-40 to 250]
  armour              6         [1 to 6]  steel
  RA0               250.000     uohm/m    armour, a.c., at 20 deg C [1 to 20000]
  theta_A            55.00      deg C     armour [-40 to 250]
  c                  25.00      mm        core axis to cable axis [1 to 500]
  dA                110.00      mm        mean armour diameter [1 to 500]
  T1                  0.350000  K.m/W     conductor to sheath [0.001 to 10]
  T2                  0.040000  K.m/W     sheath to armour [0 to 10]
  T3                  0.060000  K.m/W     outer covering [0 to 10]
  T4                  0.450000  K.m/W     surface to ambient [0.01 to 20]
  Ud                  0         V         dielectric loss counts from [0 to 300000]
  rho                 0.000               dry to moist soil resistivity [1 to 5, 0 for none]
  theta_x             0.00      deg C     critical isotherm, if rho is not 0 [-40 to 250]
  Q                   0.000     W/m       sun's heat taken up [0 to 200]
SHEET
  R'                155.6758000000        uohm/m    conductor, d.c., at theta_c
  Rs               1160.0000000000        uohm/m    sheath, at theta_s
  RA                289.3750000000        uohm/m    armour, a.c., at theta_A
  B                  62.8318530720        uohm/m    4 pi f / 10^7
  ys                  0.003384533249                skin effect factor
  yp                  0.001130039126                proximity effect factor
  R                 156.3786096662        uohm/m    conductor, effective, at theta_c
  X                  46.6172982335        uohm/m    sheath reactance
  S                   2.8056057354        uohm/m    sheath loss / I^2
  W                   9.7764071631        uohm/m    armour loss / I^2
  Wd                  0.305721378649      W/m       dielectric loss of a core
  dd                  0.557941517         K         rise by the dielectric loss
  E                   0.0003323443717554  K/A^2     rise by the current / I^2
RATING              457.106               A         largest continuous current
AT THE RATING
  lambda1             0.017941                      sheath loss factor, S / R
  lambda2             0.062518                      armour loss factor, W / R
  Pc                 32.674669            W/m       conductor loss of a core
  Ps                  0.586220            W/m       sheath loss of a core
  PA                  2.042740            W/m       armour loss of a core
  Pd                  0.305721            W/m       dielectric loss of a core
  theta_s            73.51                deg C     sheath, given as 60.00
  theta_A            69.48                deg C     armour, given as 55.00
  theta_e            63.07                deg C     surface

";

#[test]
fn the_worked_case() {
    assert_eq!(work_sheet(&SL_TYPE, 1, Some("worked")), WORKED_SHEET);
}

/// The feeder of the page, which has no row of what direct current has not.
#[test]
fn direct_current() {
    let expected = "\
CASE on line 12
  arrangement         7         [1 to 7]  single-core, direct current
  conductor           2         [1 to 8]  copper, round, not dried
  theta_c            90.00      deg C     conductor [40 to 250]
  theta_a            20.00      deg C     ambient [-40 to 60]
  R0                 36.600     uohm/m    conductor, d.c., at 20 deg C [5 to 20000]
  dc                 26.30      mm        conductor diameter [1 to 100]
  ds                 26.30      mm        diameter over conductor screen [1 to 200]
  Di                 30.70      mm        diameter over insulation [1 to 300]
  U0               1500         V         voltage to earth [0 to 300000]
  T1                  0.086171  K.m/W     conductor to sheath [0.001 to 10]
  T2                  0.000000  K.m/W     sheath to armour [0 to 10]
  T3                  0.119012  K.m/W     outer covering [0 to 10]
  T4                  1.791461  K.m/W     surface to ambient [0.01 to 20]
  Ud                  0         V         dielectric loss counts from [0 to 300000]
  rho                 0.000               dry to moist soil resistivity [1 to 5, 0 for none]
  theta_x             0.00      deg C     critical isotherm, if rho is not 0 [-40 to 250]
  Q                   0.000     W/m       sun's heat taken up [0 to 200]
SHEET
  R'                 46.6686600000        uohm/m    conductor, d.c., at theta_c
  R                  46.6686600000        uohm/m    conductor, effective, at theta_c
  E                   0.0000931806999771  K/A^2     rise by the current / I^2
RATING              866.734               A         largest continuous current
AT THE RATING
  Pc                 35.058796            W/m       conductor loss of a core
  theta_e            82.81                deg C     surface

";
    assert_eq!(work_sheet(&FEEDER, 12, None), expected);
}

/// The numbers are those that the page has for the worked case in such soil.
#[test]
fn soil_that_dries_out() {
    let said = lines(&DRY_SOIL);
    let at = said.iter().position(|line| line.starts_with("RATING")).expect("a rating");
    let expected = [
        "  dd                  1.177027308         K         rise by the dielectric loss",
        "  E                   0.0006744896324490  K/A^2     rise by the current / I^2",
        "RATING              424.115               A         largest continuous current",
        "  In soil that dries out the smaller counts of this rating and the one with rho and theta_x 0.",
        "AT THE RATING",
    ];
    assert_eq!(said[at - 2..at + 3], expected);
    assert_eq!(said[28], "  rho                 2.500               dry to moist soil resistivity [1 to 5, 0 for none]");
}

#[test]
fn temperatures_below_zero() {
    let said = lines(&with(&TREFOIL, &[(4, -500_i32 as u32), (16, -5_i32 as u32)]));
    assert_eq!(said[5], "  theta_a            -5.00      deg C     ambient [-40 to 60]");
    assert_eq!(said[17], "  theta_s            -0.05      deg C     sheath [-40 to 250]");
    let given = said.iter().filter(|line| line.ends_with("sheath, given as -0.05"));
    assert_eq!(given.count(), 1);
}

#[test]
fn the_ends_of_32_bits() {
    let said = lines(&[u32::MAX; 30]);
    assert_eq!(said[1], "> arrangement4294967295         [1 to 7]");
    assert_eq!(said[2], "  conductor  4294967295         [1 to 8]");
    assert_eq!(said[4], "  theta_c            -0.01      deg C     conductor [40 to 250]");
    assert_eq!(said[5], "  theta_a            -0.01      deg C     ambient [-40 to 60]");
    assert_eq!(
        said[23],
        "  T1               4294.967295  K.m/W     conductor to sheath [0.001 to 10]"
    );
    let lowest = lines(&[1 << 31; 30]);
    assert_eq!(lowest[17], "  theta_s     -21474836.48      deg C     sheath [-40 to 250]");
}

#[test]
fn refusal_1_marks_the_arrangement() {
    for code in [0, 8] {
        let case = with(&TREFOIL, &[(0, code), (1, 9)]);
        assert_eq!(marked(&case), ["arrangement"]);
        let said = lines(&case);
        assert_eq!(said[1], format!("> arrangement         {code}         [1 to 7]"));
        assert_eq!(said[2], "  conductor           9         [1 to 8]");
        assert_eq!(
            said.len(),
            34,
            "a heading, 30 fields, two lines of the refusal and an empty one"
        );
        assert_eq!(said[31], "REFUSED  1 arrangement");
        assert_eq!(said[32], "  The arrangement must be one of 1 to 7.");
        assert_eq!(said[33], "");
    }
}

#[test]
fn refusal_2_marks_the_conductor() {
    let case = with(&TREFOIL, &[(1, 9), (3, 3999)]);
    assert_eq!(marked(&case), ["conductor"]);
    let said = lines(&case);
    assert_eq!(said[2], "> conductor           9         [1 to 8]");
    assert_eq!(said[31], "REFUSED  2 conductor");
    assert_eq!(said[32], "  The conductor's code must be one of 1 to 8.");
}

/// Fields that the arrangement has not are outside no limits.
#[test]
fn refusal_3_marks_each_field_outside_its_limits() {
    let case = with(&TREFOIL, &[(3, 3999), (4, -4001_i32 as u32), (14, 7), (17, 7), (27, 999)]);
    assert_eq!(marked(&case), ["theta_c", "theta_a", "sheath", "rho"]);
    let said = lines(&case);
    assert_eq!(said[5], "> theta_a           -40.01      deg C     ambient [-40 to 60]");
    assert_eq!(said[15], "> sheath              7         [1 to 6]");
    assert_eq!(said[18], "  armour              7         [1 to 6]");
    assert_eq!(said[31], "REFUSED  3 limit");
    assert_eq!(said[32], "  A field marked > is outside its limits, which stand in brackets.");
    let armoured = with(&SL_TYPE, &[(17, 0), (20, 99), (21, 50001)]);
    assert_eq!(marked(&armoured), ["armour", "c", "dA"]);
    assert_eq!(lines(&armoured)[18], "> armour              0         [1 to 6]  none");
    let direct = with(&FEEDER, &[(2, 1), (10, 300_001), (22, 999)]);
    assert_eq!(marked(&direct), ["U0", "T1"]);
    // The isotherm has its limits without dry soil too.
    assert_eq!(marked(&with(&TREFOIL, &[(28, 25001)])), ["theta_x"]);
}

#[test]
fn refusal_4_marks_each_field_that_must_be_zero() {
    let case = with(&TREFOIL, &[(17, 6), (20, 1), (28, 5000)]);
    assert_eq!(marked(&case), ["armour", "c", "theta_x"]);
    let said = lines(&case);
    assert_eq!(said[18], "> armour              6         [1 to 6]  steel");
    assert_eq!(said[31], "REFUSED  4 stray");
    let rule =
        "  A field marked > must be 0: the arrangement does not have it, or, of theta_x, rho is 0.";
    assert_eq!(said[32], rule);
    assert_eq!(marked(&with(&COMMON_SHEATH, &[(19, 1)])), ["theta_A"]);
    assert_eq!(marked(&with(&FEEDER, &[(2, 5000), (16, 1), (21, 1)])), ["f", "theta_s", "dA"]);
    assert_eq!(marked(&with(&FEEDER, &[(7, 1), (27, 1000), (28, 3000)])), ["s"]);
}

#[test]
fn later_refusals_mark_nothing() {
    let said = lines(&with(&SL_TYPE, &[(14, 2)]));
    assert!(said.iter().all(|line| !line.starts_with('>')));
    assert_eq!(said[31], "REFUSED  7 metal");
    let rule = "  The sheath must be lead in arrangements 3, 4 and 5, and the armour steel in 5.";
    assert_eq!(said[32], rule);
    let said = lines(&with(&FEEDER, &[(10, 5001)]));
    assert_eq!(said[31], "REFUSED  33 d.c. voltage");
    assert_eq!(said[32], "  In arrangement 7, direct current, U0 must be at most 5000 V.");
}

/// The first lines of the sheets, and what is said of unreadable lines.
fn headings(input: &[u8]) -> Vec<String> {
    let said = sheets(input);
    let first = said.lines().filter(|line| line.starts_with("CASE") || line.starts_with("line"));
    first.map(str::to_string).collect()
}

#[test]
fn a_comment_heads_the_cases_up_to_the_next() {
    let zeros = "0 ".repeat(30);
    let input =
        format!("{zeros}\n# a cable\n{zeros}\n\n12 men\n{zeros}\n#\n{zeros}\n#b \r\n{zeros}");
    let expected = [
        "CASE on line 1",
        "CASE on line 3: a cable",
        "line 5: unreadable",
        "CASE on line 6: a cable",
        "CASE on line 8",
        "CASE on line 10: b ",
    ];
    assert_eq!(headings(input.as_bytes()), expected);
}

#[test]
fn headings_of_every_kind() {
    let zeros = "0 ".repeat(30);
    let heading_under = |comment: &[u8]| {
        let input = [b"# old\n", comment, b"\n", zeros.as_bytes()].concat();
        headings(&input).pop().expect("a case").split_off("CASE on line 3".len())
    };
    assert_eq!(heading_under("# \t 20 °C\t".as_bytes()), ": 20 °C\t");
    assert_eq!(heading_under(b"##"), ": #");
    assert_eq!(heading_under(b"#\x0bx"), ": \x0bx");
    assert_eq!(heading_under(b"#\xa0x"), "", "no UTF-8");
    assert_eq!(heading_under(b"# x\xed\xa0\x80"), "", "no UTF-8");
    assert_eq!(heading_under("#\u{a0}x".as_bytes()), ": \u{a0}x", "neither blank nor tab");
    for no_text in [&b"#"[..], b"#\r", b"# ", b"#\t \r"] {
        assert_eq!(heading_under(no_text), "", "{}", no_text.escape_ascii());
    }
    // What is no comment leaves the heading as it is.
    assert_eq!(heading_under(b""), ": old");
    assert_eq!(heading_under(b" # new"), ": old");
    assert_eq!(heading_under(&[b'#'; 1024]), ": old");
    assert_eq!(heading_under(&[b'#'; 1023]), format!(": {}", "#".repeat(1022)));
}

#[test]
fn lines_that_print_nothing_and_unreadable_ones() {
    assert_eq!(sheets(b""), "");
    assert_eq!(sheets(b"\n\r\n \t\n# a word\n#\n"), "");
    assert_eq!(sheets(b"# x\n1 2\n\nz"), "line 2: unreadable\nline 4: unreadable\n");
    let input = format!("# worked\n\n{}\r\n?", case_line(&SL_TYPE));
    let expected = WORKED_SHEET.replacen("line 1", "line 3", 1) + "line 4: unreadable\n";
    assert_eq!(sheets(input.as_bytes()), expected);
}

#[test]
fn the_nearest_number() {
    let nearest = [(0, 1, 0), (1, 2, 1), (1, 3, 0), (2, 3, 1), (3, 2, 2), (4, 10, 0), (5, 10, 1)];
    for (a, b, expected) in nearest {
        assert_eq!(near(a, b), expected, "{a}/{b}");
    }
}

/// Round numbers: 1000 A through 100, 20 and 5 microohm/m, and 10 W/m of the insulation, in
/// three cores of 1 K.m/W each way.
#[test]
fn what_a_rating_implies() {
    let mut rated = Rated { answer: 0, rating: 1_000_000, sheet: [0; 13] };
    for (place, number) in [(6, 10_u64.pow(12)), (8, 2 * 10_u64.pow(11)), (9, 5 * 10_u64.pow(10))] {
        rated.sheet[place] = number;
    }
    rated.sheet[10] = 10 * 10_u64.pow(12);
    let case = with(&SL_TYPE, &[(22, 1_000_000), (23, 1_000_000), (24, 1_000_000)]);
    let implied = Implied::of(&case, &rated);
    assert_eq!((implied.sheath_factor, implied.armour_factor), (200_000, 50_000));
    let losses = Losses {
        conductor: 100_000_000,
        sheath: 20_000_000,
        armour: 5_000_000,
        insulation: 10_000_000,
    };
    assert_eq!(implied.losses, losses);
    // 105 K, then 3 x 130 K and 3 x 135 K, from a conductor of 85 degrees
    assert_eq!(implied.falls, [105, 495, 900].map(|kelvin| 2 * kelvin * 10_u128.pow(12)));
    assert_eq!(implied.temperatures, [-2000, -41000, -81500]);
}

#[test]
fn what_the_worked_rating_implies() {
    let rated = rate(&SL_TYPE);
    let implied = Implied::of(&SL_TYPE, &rated);
    assert_eq!(implied.falls, [22979270650000, 31035257050000, 43854623050000]);
    assert_eq!(implied.temperatures, [7351, 6948, 6307]);
    assert_eq!((implied.sheath_factor, implied.armour_factor), (17941, 62518));
}
