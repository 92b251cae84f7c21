/* Sheafdawn's proved rating and book, for C. Link libsheafdawn.a, which `rt lib` in crates/sheafdawn writes.
 *
 * Each function answers 0 or a refusal's number (docs/CLAIMS.md says what is proved of it), or SHEAFDAWN_WRONG_LENGTH where a length that
 * is passed is not the one named here; then nothing is written. So a program that still passes cases of 26 words or records of 28 is told.
 * A pointer and the length after it must belong together, as everywhere in C.
 *
 * A book bears one of two marks (docs/BOOK.md). sheafdawn_start writes RBK2, and sheafdawn_append takes no other. sheafdawn_read and
 * sheafdawn_accept also take a book of RBK1, whose records have inputs 0 to 25 alone: the others are read as zeros. In such a book a case
 * of arrangement 7 is refused by 1.
 */
#ifndef SHEAFDAWN_H
#define SHEAFDAWN_H

#include <stddef.h>
#include <stdint.h>

#ifdef __cplusplus
extern "C" {
#endif

#define SHEAFDAWN_CASE 30        /* words of a case */
#define SHEAFDAWN_RATED 14       /* the rating in mA, and the 13 numbers of the sheet */
#define SHEAFDAWN_RECORD 32      /* the case, the answer and the rating */
#define SHEAFDAWN_ACCEPTED 3     /* the count, the note's length, and for 23 the first record that disagrees */
#define SHEAFDAWN_WRONG_LENGTH UINT32_MAX

/* The fields of a case; docs/RATING.md has their units and limits, and the codes. */
enum {
    SHEAFDAWN_FIELD_ARRANGEMENT = 0,            /* one of the arrangements below */
    SHEAFDAWN_FIELD_CONDUCTOR = 1,              /* a conductor's code */
    SHEAFDAWN_FIELD_FREQUENCY = 2,              /* f; in arrangements 1 to 6 only */
    SHEAFDAWN_FIELD_CONDUCTOR_TEMPERATURE = 3,  /* theta_c */
    SHEAFDAWN_FIELD_AMBIENT_TEMPERATURE = 4,    /* theta_a */
    SHEAFDAWN_FIELD_CONDUCTOR_RESISTANCE = 5,   /* R0 */
    SHEAFDAWN_FIELD_CONDUCTOR_DIAMETER = 6,     /* dc */
    SHEAFDAWN_FIELD_SPACING = 7,                /* s; in arrangements 1 to 6 only */
    SHEAFDAWN_FIELD_SCREEN_DIAMETER = 8,        /* ds */
    SHEAFDAWN_FIELD_INSULATION_DIAMETER = 9,    /* Di */
    SHEAFDAWN_FIELD_VOLTAGE = 10,               /* U0; at most 5000 V in arrangement 7 */
    SHEAFDAWN_FIELD_PERMITTIVITY = 11,          /* e; in arrangements 1 to 6 only */
    SHEAFDAWN_FIELD_LOSS_FACTOR = 12,           /* t; in arrangements 1 to 6 only */
    SHEAFDAWN_FIELD_SHEATH_DIAMETER = 13,       /* d; in arrangements 1 to 6 only */
    SHEAFDAWN_FIELD_SHEATH_METAL = 14,          /* a metal's code; in arrangements 1 to 6 only */
    SHEAFDAWN_FIELD_SHEATH_RESISTANCE = 15,     /* Rs0; in arrangements 1 to 6 only */
    SHEAFDAWN_FIELD_SHEATH_TEMPERATURE = 16,    /* theta_s; in arrangements 1 to 6 only */
    SHEAFDAWN_FIELD_ARMOUR_METAL = 17,          /* a metal's code; in arrangement 5 only */
    SHEAFDAWN_FIELD_ARMOUR_RESISTANCE = 18,     /* RA0; in arrangement 5 only */
    SHEAFDAWN_FIELD_ARMOUR_TEMPERATURE = 19,    /* theta_A; in arrangement 5 only */
    SHEAFDAWN_FIELD_AXIS_DISTANCE = 20,         /* c; in arrangements 5 and 6 only */
    SHEAFDAWN_FIELD_ARMOUR_DIAMETER = 21,       /* dA; in arrangement 5 only */
    SHEAFDAWN_FIELD_T1 = 22,                    /* conductor to sheath, of one core; in arrangement 7 to screen or covering */
    SHEAFDAWN_FIELD_T2 = 23,                    /* sheath to armour */
    SHEAFDAWN_FIELD_T3 = 24,                    /* outer covering */
    SHEAFDAWN_FIELD_T4 = 25,                    /* cable surface to ambient */
    SHEAFDAWN_FIELD_LOSS_VOLTAGE = 26,          /* the U0 from which the dielectric loss counts; without effect in arrangement 7 */
    SHEAFDAWN_FIELD_DRY_RATIO = 27,             /* rho, dry over moist soil's resistivity in thousandths; 0: no soil dries out */
    SHEAFDAWN_FIELD_ISOTHERM = 28,              /* theta_x, the critical isotherm's temperature; 0 where rho is 0 */
    SHEAFDAWN_FIELD_SOLAR_HEAT = 29             /* Q, the sun's heat taken up in mW/m, T4 then adjusted for it; 0 where rho is not 0 */
};

/* The fields of a record behind those of its case. */
enum {
    SHEAFDAWN_RECORD_ANSWER = 30,  /* 0, or the refusal's number */
    SHEAFDAWN_RECORD_RATING = 31   /* in mA */
};

/* The arrangements. */
enum {
    SHEAFDAWN_ARRANGEMENT_TREFOIL_BOTH_ENDS = 1,  /* single-core, trefoil, sheaths bonded at both ends */
    SHEAFDAWN_ARRANGEMENT_FLAT_BOTH_ENDS = 2,     /* single-core, flat and transposed, sheaths bonded at both ends */
    SHEAFDAWN_ARRANGEMENT_TREFOIL_ONE_POINT = 3,  /* single-core, trefoil, sheaths bonded at one point */
    SHEAFDAWN_ARRANGEMENT_FLAT_ONE_POINT = 4,     /* single-core, flat, sheaths bonded at one point; the centre cable */
    SHEAFDAWN_ARRANGEMENT_SL_TYPE = 5,            /* three-core, a lead sheath on each core, steel wire armour */
    SHEAFDAWN_ARRANGEMENT_COMMON_SHEATH = 6,      /* three-core, one sheath around all cores, no armour */
    SHEAFDAWN_ARRANGEMENT_DIRECT_CURRENT = 7      /* one single-core cable of a d.c. feeder */
};

/* Where sheafdawn_rate writes the rating and the numbers of the sheet. In arrangement 7 the sheet is 0 but for R', R and E. */
enum {
    SHEAFDAWN_RATING = 0,      /* in mA */
    SHEAFDAWN_SHEET_R_DC = 1,  /* R', conductor, d.c. */
    SHEAFDAWN_SHEET_RS = 2,    /* Rs, sheath */
    SHEAFDAWN_SHEET_RA = 3,    /* RA, armour; 0 except in arrangement 5 */
    SHEAFDAWN_SHEET_B = 4,     /* B, 4 pi f / 10^7 */
    SHEAFDAWN_SHEET_YS = 5,    /* ys, skin effect factor */
    SHEAFDAWN_SHEET_YP = 6,    /* yp, proximity effect factor */
    SHEAFDAWN_SHEET_R_AC = 7,  /* R, conductor, a.c.; in arrangement 7 R' */
    SHEAFDAWN_SHEET_X = 8,     /* X, sheath reactance; 0 in arrangements 3, 4, 6 and 7 */
    SHEAFDAWN_SHEET_S = 9,     /* S, sheath loss / I^2 */
    SHEAFDAWN_SHEET_W = 10,    /* W, armour loss / I^2; 0 except in arrangement 5 */
    SHEAFDAWN_SHEET_WD = 11,   /* Wd, dielectric loss of a core */
    SHEAFDAWN_SHEET_DD = 12,   /* dd, rise by the dielectric loss */
    SHEAFDAWN_SHEET_E = 13     /* E, rise by the current / I^2 */
};

/* The refusals: of a case, 1 to 11 and 31 to 33 (docs/RATING.md), in the order of trial; of a book, 20 to 26 (docs/BOOK.md). */
enum {
    SHEAFDAWN_REFUSAL_ARRANGEMENT = 1,
    SHEAFDAWN_REFUSAL_CONDUCTOR = 2,
    SHEAFDAWN_REFUSAL_LIMIT = 3,
    SHEAFDAWN_REFUSAL_STRAY = 4,
    SHEAFDAWN_REFUSAL_GEOMETRY = 5,
    SHEAFDAWN_REFUSAL_HEAT = 6,
    SHEAFDAWN_REFUSAL_ISOTHERM = 31,
    SHEAFDAWN_REFUSAL_SUN = 32,
    SHEAFDAWN_REFUSAL_METAL = 7,
    SHEAFDAWN_REFUSAL_DC_VOLTAGE = 33,
    SHEAFDAWN_REFUSAL_SKIN = 8,
    SHEAFDAWN_REFUSAL_EDDY = 9,
    SHEAFDAWN_REFUSAL_DIELECTRIC = 10,
    SHEAFDAWN_REFUSAL_CURRENT = 11,
    SHEAFDAWN_REFUSAL_LENGTH = 20,
    SHEAFDAWN_REFUSAL_MARK = 21,
    SHEAFDAWN_REFUSAL_TRAILER = 22,
    SHEAFDAWN_REFUSAL_DISAGREES = 23,
    SHEAFDAWN_REFUSAL_SPACE = 24,
    SHEAFDAWN_REFUSAL_FULL = 25,
    SHEAFDAWN_REFUSAL_INDEX = 26
};

/* A refusal's word; an empty text for a number that is no refusal's. */
static inline const char *sheafdawn_word(uint32_t refusal) {
    switch (refusal) {
    case SHEAFDAWN_REFUSAL_ARRANGEMENT: return "arrangement";
    case SHEAFDAWN_REFUSAL_CONDUCTOR: return "conductor";
    case SHEAFDAWN_REFUSAL_LIMIT: return "limit";
    case SHEAFDAWN_REFUSAL_STRAY: return "stray";
    case SHEAFDAWN_REFUSAL_GEOMETRY: return "geometry";
    case SHEAFDAWN_REFUSAL_HEAT: return "heat";
    case SHEAFDAWN_REFUSAL_ISOTHERM: return "isotherm";
    case SHEAFDAWN_REFUSAL_SUN: return "sun";
    case SHEAFDAWN_REFUSAL_METAL: return "metal";
    case SHEAFDAWN_REFUSAL_DC_VOLTAGE: return "d.c. voltage";
    case SHEAFDAWN_REFUSAL_SKIN: return "skin";
    case SHEAFDAWN_REFUSAL_EDDY: return "eddy";
    case SHEAFDAWN_REFUSAL_DIELECTRIC: return "dielectric";
    case SHEAFDAWN_REFUSAL_CURRENT: return "current";
    case SHEAFDAWN_REFUSAL_LENGTH: return "length";
    case SHEAFDAWN_REFUSAL_MARK: return "mark";
    case SHEAFDAWN_REFUSAL_TRAILER: return "trailer";
    case SHEAFDAWN_REFUSAL_DISAGREES: return "disagrees";
    case SHEAFDAWN_REFUSAL_SPACE: return "space";
    case SHEAFDAWN_REFUSAL_FULL: return "full";
    case SHEAFDAWN_REFUSAL_INDEX: return "index";
    default: return "";
    }
}

/* Rates a case: case_length is 30, out_length 14. */
uint32_t sheafdawn_rate(const uint32_t *case_words, size_t case_length, uint64_t *out, size_t out_length);

/* Starts a book of RBK2 after a note whose bytes stand at the front of the buffer: out_length is 1, out gets the used length. */
uint32_t sheafdawn_start(uint8_t *buffer, size_t length, size_t note, size_t *out, size_t out_length);

/* Appends a case to a book of RBK2; 21 refuses one of RBK1. case_length is 30, out_length 1, out gets the new used length. */
uint32_t sheafdawn_append(uint8_t *buffer, size_t length, size_t used, const uint32_t *case_words, size_t case_length, size_t *out,
                          size_t out_length);

/* Reads the record of an index from 0, as written, of a book of either mark: out_length is 32. */
uint32_t sheafdawn_read(const uint8_t *buffer, size_t length, size_t used, size_t index, uint32_t *out, size_t out_length);

/* Accepts a book of either mark: out_length is 3. Where it answers 23, the first two numbers are 0 and the third is the first record,
   counted from 1, whose answer or rating is not its case's. */
uint32_t sheafdawn_accept(const uint8_t *buffer, size_t length, size_t used, size_t *out, size_t out_length);

#ifdef __cplusplus
}
#endif

#endif
