/* Wall loads of a gravity-emptied silo, slender or squat, by ENV 1991-4. Link with libsilo.a.
 *
 * A sheet is six or seven records, one after another. A record is a two-byte payload length, a two-byte kind, then the payload; all
 * numbers are little-endian and unsigned. In this order:
 *
 *   kind 1  circle     u32 diameter d (mm)                          or
 *   kind 2  rectangle  u32 side a, u32 side b (mm)
 *   kind 3  product    u32 weight (N/m3); u16 mean ratio Ks, u16 mean friction mu, u16 factor C0 (hundredths; C0 = 0 is 155, by
 *                      equation 7.4 at an internal friction angle of 40 degrees; a soft product, up to 30 degrees, is sent with 135)
 *   kind 4  filling    u32 e_i, u32 e_o: eccentricities at filling and at the outlet (mm)
 *   kind 5  bottom     u32 hopper height H, u32 run r (mm); both 0 is a flat floor
 *   kind 6  strakes    1 to 24 u16 heights, top first (mm)
 *   kind 7  depths     1 to 200 u32 depths z below the brim, strictly rising (mm)
 *   kind 8  headroom   u32 headroom g, from the brim down to the level surface of the grain (mm); a sheet may end before this record,
 *                      and then g = 0
 *
 * A load is taken as far below the surface as its place lies: at z - g for a depth z, at V - g for floor and hopper, at its lower edge
 * less g for a strake, V being the sum of the strakes; at 0 for a place above the surface, where every load is 0.
 *
 * d_c is d or the shorter side, h = V - g + H. On discharge p_he = C_h p_hf and p_we = C_w p_wf, each rounded up once; with C0 as a
 * ratio:
 *
 *   slender, 2h >= 3 d_c            C_h = C0                           C_w = 1.1
 *   squat, 2h < 3 d_c, and h > d_c  C_h = 1 + 2 (C0 - 1) (h/d_c - 1)   C_w = 1 + 0.2 (h/d_c - 1)
 *   squat, and h <= d_c             C_h = 1                            C_w = 1
 *
 * An answer list is of u32 numbers. For D depths:
 *
 *   eight columns of D:     z (mm) as in the sheet, p_hf, p_wf, p_vf (Pa), P_w (N/m of perimeter), p_he, p_we, p_p (Pa), each in the
 *                           order of the depths; column l has depth i at l D + i, all counted from 0
 *   then ten for the bottom: the load on a flat floor (Pa) and nine zeros; or a hopper's P_n at k = 0..4 and then its P_t at
 *                           k = 0..4 (Pa), k quarters of the slope counted up from the outlet
 *   then one per strake:    p_he at its lower edge (Pa)
 *
 * For whoever upgrades: before version 2 a depth's eight numbers stood in a row, number l of depth i at 8 i + l. The numbers and the
 * length are the same, so that neither compiler nor linker shows the change. Replace header and library together, compile again, and put
 * these lines behind the #include:
 *
 *   #if SILO_VERSION_MAJOR != 2
 *   #error "written for version 2 of silo.h, answer lists in columns"
 *   #endif
 *
 * With them a host does not compile with the header of rows, which had no version; an unchanged host without these lines compiles as
 * before, and reads wrong numbers. They tell of the header alone: nothing shows a library of rows linked under this header, or an old
 * object file linked with this library.
 *
 * A page is the same numbers as text, in ASCII. Each line ends with one line feed, and each field is right-justified with spaces in nine
 * characters, a number in decimal without leading zeros:
 *
 *   a heading, eight fields:  z phf pwf pvf PW phe pwe pp
 *   for each depth a line:    its eight numbers, each under its name
 *   then ten for the bottom and one per strake, one field a line
 *
 * No number has more than nine digits, and none of a depth more than eight, so that a space stands before each of its fields.
 *
 * A reply list, for a circle and one depth given beside the sheet, is of 361 i32 numbers: the patch round the shell (5.11), in Pa, at
 * each whole degree from 0 to 359, and then its total force (5.12), in N. p_p being the patch at the given depth, as in an answer list:
 *
 *   at theta degrees          p_p cos theta, its size rounded up, outward positive and inward negative; 0 at 90 and at 270
 *   the force                 F_p = pi/2 s d_c p_p with s = 0.2 d_c, the patch's height, and 355/113 for pi; rounded up once
 *
 * The depth for a pressure is the greatest whole mm from 0 to V, below the brim, at which p_he is not above it, p_he being that of an
 * answer list; 0 always qualifies, so there is always one. At every greater depth down to V p_he is above the pressure, and a strake's
 * number is at most the pressure exactly where its lower edge is at most the depth. It speaks of p_he alone, without p_p.
 *
 * Refusals, tried in this order; a refused call changes no memory that it was lent:
 *
 *    1  sheet over 1,024 bytes
 *    2  a header or a payload cut short; an empty sheet too
 *    3  a record's kind is not the one due
 *    4  a payload's length is not one that its kind allows
 *    5  bytes left over after the seventh record; what follows the sixth is judged as the seventh, by 2, 3 and 4
 *    6  d, a or b outside 500..50,000 mm
 *   20  of a and b the longer over three times the shorter; not tried by the calls that tell a length
 *    7  weight outside 1,000..30,000 N/m3, Ks outside 20..100, mu outside 10..100, or C0 neither 0 nor 100..200
 *    8  an eccentricity e with 4e > d_c
 *    9  a bottom that is neither flat nor a hopper with r >= 1, 2r < d_c, H <= 25,000 and 1,000,000 H >= 363,971 r (a slope
 *       of over 20 degrees)
 *   10  a strake outside 200..3,000 mm
 *   11  a depth over V, or not greater than the one before it; a depth given beside the sheet over V
 *   17  g >= V
 *   12  h >= 10 d_c
 *   13  retired: no call answers it, and the number is not used again
 *   19  the section is a rectangle (silo_shell_patch only)
 *   14  the list is not exactly of the length due (silo_loads and silo_shell_patch only)
 *   15  no such row or wall in the catalogue (silo_catalogue only)
 *   16  the catalogue buffer is not of 14 bytes (silo_catalogue only)
 *   18  the page buffer is shorter than the page (silo_page only)
 *   21  the pressure list is empty, longer than SILO_PRESSURES_MOST, or falls (silo_depths_for only)
 *   22  the depth list is not as long as the pressure list (silo_depths_for only)
 *
 * A pointer is never null, whatever its length, and points to that many elements; a list or page that is written overlaps no sheet, and
 * the depth list no pressures.
 */
#ifndef SILO_H
#define SILO_H

#include <stddef.h>
#include <stdint.h>

#ifdef __cplusplus
extern "C" {
#endif

/* This header's version: the first number is raised where a host has to be changed, the second where something is added. */
#define SILO_VERSION_MAJOR 2
#define SILO_VERSION_MINOR 1

/* The columns of an answer list: z in mm, SILO_P_W, which is P_w, in N/m, the others in Pa. That of p_he begins at
 * answers + SILO_P_HE * depths and has depths numbers, depths being D, how many depths the sheet lists, not the list's length. The names
 * are never offsets in a row. */
enum silo_column { SILO_Z, SILO_P_HF, SILO_P_WF, SILO_P_VF, SILO_P_W, SILO_P_HE, SILO_P_WE, SILO_P_P };

/* silo_answers_length and silo_page_length add this to a length, and silo_depth_for to a depth, so that neither is a refusal's number. */
#define SILO_LENGTH_MARK (UINT64_C(1) << 32)

/* Bytes of the product record that silo_catalogue writes. */
#define SILO_PRODUCT_RECORD 14

/* Numbers of a reply list of silo_shell_patch. */
#define SILO_SHELL_REPLY 361

/* The most pressures of one silo_depths_for. */
#define SILO_PRESSURES_MOST 32

/* Fills the answer list of answers_len numbers for the sheet of sheet_len bytes.
 * Returns 0; or a refusal, 1 to 12, 14, 17 or 20, and the list is as it was. */
uint32_t silo_loads(const uint8_t *sheet, size_t sheet_len, uint32_t *answers, size_t answers_len);

/* The answer list's length in numbers, 8 times the depths plus 10 plus the strakes. It is no promise of loads: 20 is not tried here, so
 * silo_loads refuses some sheets that have a length, and may answer 20 where a later rule is answered here.
 * Returns SILO_LENGTH_MARK plus that length; or a refusal, 1 to 12 or 17. */
uint64_t silo_answers_length(const uint8_t *sheet, size_t sheet_len);

/* The page's length in bytes, 73 times the depths plus 73, plus 10 times the strakes plus 100; no buffer is asked for. It is no promise of
 * a page, as the list's length is none of loads.
 * Returns SILO_LENGTH_MARK plus that length; or a refusal, 1 to 12 or 17. */
uint64_t silo_page_length(const uint8_t *sheet, size_t sheet_len);

/* Writes the page of the sheet at the start of the buffer of page_len bytes; the bytes past the page keep what they held.
 * Returns 0; or a refusal, 1 to 12, 17, 18 or 20, and the buffer is as it was. */
uint32_t silo_page(const uint8_t *sheet, size_t sheet_len, uint8_t *page, size_t page_len);

/* Fills the reply list of reply_len numbers with the patch round the circular shell that the sheet describes, depth mm below the brim;
 * the depth need not be listed in the sheet.
 * Returns 0; or a refusal, 1 to 12, 17, 20, 19 or 14, and the list is as it was. */
uint32_t silo_shell_patch(const uint8_t *sheet, size_t sheet_len, uint32_t depth, int32_t *reply, size_t reply_len);

/* The depth for one pressure in Pa, which may be any.
 * Returns SILO_LENGTH_MARK plus that depth in mm; or a refusal, 1 to 12, 17 or 20. */
uint64_t silo_depth_for(const uint8_t *sheet, size_t sheet_len, uint32_t pressure);

/* Fills the depth list of depths_len numbers with the depth for each of 1 to SILO_PRESSURES_MOST pressures in Pa that never fall, in
 * their order and in mm, without the mark: those that silo_depth_for has for each, in one pass down the wall. Equal pressures are
 * allowed; the depths never fall either.
 * Returns 0; or a refusal, 1 to 12, 17, 20, 21 or 22, and the list is as it was. */
uint32_t silo_depths_for(const uint8_t *sheet, size_t sheet_len, const uint32_t *pressures, size_t pressures_len, uint32_t *depths,
                         size_t depths_len);

/* Writes the product record of a row of table 7.1 of ENV 1991-4, rows counted from 0 in its order: barley, cement, clinker, dry
 * sand, flour, fly ash, maize, sugar, wheat, coal. Wall 0 is steel, wall 1 concrete.
 * Returns 0; or a refusal, 15 or 16, and the buffer is as it was. */
uint32_t silo_catalogue(uint32_t row, uint32_t wall, uint8_t *record, size_t record_len);

/* For a bin with two products: of two strake lists, each the last numbers of an answer list, the one that governs is the one with the
 * greater last number, the first when equal. Neither list is changed.
 * Returns 1 for the first, 2 for the second; 0, an empty part of the first, if the lengths differ or are 0. */
uint32_t silo_governing(const uint32_t *first, size_t first_len, const uint32_t *second, size_t second_len);

#ifdef __cplusplus
}
#endif

#endif
