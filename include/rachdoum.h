/* The planner's entries, proved in Rattle, for C and for whatever calls C.
 *
 * Each function answers the number of the question that failed, 0 for none, and writes `answer` whole: 0 where there is no number. There
 * is one exception: `rachdoum_skeleton` answers 0 for a refused sheet too, whose refusal is the line that it prints.
 *
 * A slice is a pointer and a length; the pointer is never null and, where the length is not 0, points to so much memory. The length of a
 * level table counts levels, all others count bytes. Slices that are written do not overlap others. Nothing else is assumed: counts and
 * lengths may have any value.
 *
 * Threads: no function keeps anything between calls. Several threads may call them at once, each with memory of its own to write to.
 * Stack: it is the only memory that they take. Read off the machine code, `rachdoum_skeleton` takes 110 kB, `rachdoum_full_design` 65 kB,
 * `rachdoum_convert` 51 kB, `rachdoum_plot_design` 42 kB, `rachdoum_formula` 38 kB, `rachdoum_name` 15 kB, `rachdoum_compare` 12 kB,
 * `rachdoum_strata` 8 kB, the others less than 4 kB. Only the reading of a formula calls itself, at most once a byte.
 *
 * Build the archive with `scripts/make rachdoum` and link target/staticlib/librachdoum.a. */
#ifndef RACHDOUM_H
#define RACHDOUM_H

#include <stddef.h>
#include <stdint.h>

#ifdef __cplusplus
extern "C" {
#endif

/* At most so many. */
#define RACHDOUM_PLOTS 240
#define RACHDOUM_COLUMNS 6 /* of one kind, plot or treatment */
#define RACHDOUM_INTERACTION 6 /* the interaction level k */
#define RACHDOUM_MEMBERS 32 /* of a family */
#define RACHDOUM_TEXT 32768 /* bytes of a sheet */
#define RACHDOUM_FORMULA 256 /* bytes of a formula */

/* At least so long is what a caller lends. */
#define RACHDOUM_LEVELS 2880 /* numbers of a level table: 240 for each of 12 columns */
#define RACHDOUM_FAMILY 7680 /* bytes of a family buffer: 240 for each of 32 members */
#define RACHDOUM_NAME 160 /* bytes of a name buffer; the longest name has 158 */
#define RACHDOUM_TABLE 32768 /* bytes for the printed table */
#define RACHDOUM_SHEET 32768 /* bytes for a sheet that is converted or made of a formula */

/* A level: only a label. A sheet has levels from 1 to 4294967295; 0 stands for a missing one. */
typedef uint32_t rachdoum_level;

/* What a function answers. docs/REFUSALS.md has each question with an example and a remedy. */
enum rachdoum_refusal {
  RACHDOUM_ACCEPTED = 0,
  RACHDOUM_REFUSED_LEVEL_TABLE = 1, /* the lent level table is too short */
  RACHDOUM_REFUSED_LENGTH_OF_TEXT = 2,
  RACHDOUM_REFUSED_FORM_OF_FIRST_LINE = 3,
  RACHDOUM_REFUSED_FORM_OF_LINE = 4, /* a later line */
  RACHDOUM_REFUSED_NUMBER_OF_PLOTS = 5, /* lines of the sheet */
  RACHDOUM_REFUSED_CALL = 6, /* a count, k or a place out of its limits, or a lent slice too short */
  RACHDOUM_REFUSED_LEVEL_ZERO = 7, /* a level that is used is 0 */
  RACHDOUM_REFUSED_TOO_MANY_PLOT_MEMBERS = 8,
  RACHDOUM_REFUSED_CLASS_SIZES = 9, /* a plot member has classes of different sizes */
  RACHDOUM_REFUSED_PLOTS_NOT_ORTHOGONAL = 10, /* two plot members */
  RACHDOUM_REFUSED_TOO_MANY_TREATMENT_MEMBERS = 11, /* in the first treatment family */
  RACHDOUM_REFUSED_TREATMENTS_NOT_ORTHOGONAL = 12, /* two treatment members */
  RACHDOUM_REFUSED_PLOT_AND_TREATMENT_NOT_ORTHOGONAL = 13, /* a plot member and a treatment member */
  RACHDOUM_REFUSED_TOO_MANY_FINAL_MEMBERS = 14, /* in the final treatment family */
  RACHDOUM_REFUSED_FORM_OF_FAMILY = 15, /* a family handed in is none that a design leaves */
  RACHDOUM_REFUSED_NO_STRATUM = 16, /* a treatment member has no stratum */
  RACHDOUM_REFUSED_FORM_OF_FORMULA = 17,
  RACHDOUM_REFUSED_SIZE_OF_FORMULA = 18, /* too many names or plots */
  RACHDOUM_REFUSED_PARENT = 23 /* a parent is no plot column further left */
};

/* How one factor stands to another, by `rachdoum_compare`: the first that fits, each said of the first factor. 0 after a refusal. */
enum rachdoum_comparison {
  RACHDOUM_EQUIVALENT = 1, /* the same classes */
  RACHDOUM_FINER = 2, /* plots that share its class always share one of the second factor */
  RACHDOUM_COARSER = 3, /* the other way round */
  RACHDOUM_ORTHOGONAL = 4, /* without either being finer */
  RACHDOUM_NOT_ORTHOGONAL = 5
};

/* Reads a sheet into a level table: questions 1 to 5. Column c, plot u (from 0) is number 240 * c + u; plot columns take c = 0 to 5,
 * treatment columns 6 to 11. Answer: plots, plot columns, treatment columns. A refusal writes no level. */
uint32_t rachdoum_read_sheet(const uint8_t *text, size_t text_len, rachdoum_level *levels, size_t levels_len, uint64_t answer[3]);

/* Closes and judges the plot columns of a level table: questions 6 to 10. Member i (from 1) stands in the family buffer from byte
 * 240 * (i - 1) on. Answer: the first place at fault, the second, the size of the family written. */
uint32_t rachdoum_plot_design(const rachdoum_level *levels, size_t levels_len, size_t plots, size_t columns, uint8_t *family,
                              size_t family_len, uint64_t answer[3]);

/* The full design with interaction level k: questions 6 to 14. Answer: the first place at fault, the second, the sizes of the plot
 * family and of the treatment family written. */
uint32_t rachdoum_full_design(const rachdoum_level *levels, size_t levels_len, size_t plots, size_t plot_columns,
                              size_t treatment_columns, size_t k, uint8_t *plot_family, size_t plot_family_len,
                              uint8_t *treatment_family, size_t treatment_family_len, uint64_t answer[4]);

/* Who is strictly coarser than whom in a family: questions 6 and 15. Answer: the size; 32 words, bit j - 1 of member i's word for
 * member j; 32 words that keep the neighbours directly above; 32 numbers of these. */
uint32_t rachdoum_relation(const uint8_t *family, size_t family_len, size_t plots, size_t size,
                           uint32_t answer[1 + 3 * RACHDOUM_MEMBERS]);

/* Degrees of freedom of each member: questions 6 and 15. */
uint32_t rachdoum_degrees(const uint8_t *family, size_t family_len, size_t plots, size_t size, int64_t answer[RACHDOUM_MEMBERS]);

/* Strata: questions 6, 15 and 16. Answer: for each treatment member the place of its stratum; for each plot member, from number 32 on,
 * its residual degrees of freedom. */
uint32_t rachdoum_strata(const uint8_t *plot_family, size_t plot_family_len, size_t plot_size, const uint8_t *treatment_family,
                         size_t treatment_family_len, size_t treatment_size, size_t plots, int64_t answer[2 * RACHDOUM_MEMBERS]);

/* How the member at a place (from 1) of one family stands to the member at a place of another family, or of the same: questions 6 and 15.
 * 15 judges both families whole, whichever members are asked about; they need not be closed. Two members are orthogonal when for each class
 * K of their supremum, and each class A of the first and B of the second inside K, the number of plots that A and B share times that of K is
 * that of A times that of B. A design is refused by 10, 12 or 13 for two members that are not orthogonal, and the relation has a bit where
 * the answer is finer. Answer: one of `enum rachdoum_comparison`. */
uint32_t rachdoum_compare(const uint8_t *first_family, size_t first_family_len, size_t first_size, size_t first_place,
                          const uint8_t *second_family, size_t second_family_len, size_t second_size, size_t second_place, size_t plots,
                          uint64_t answer[1]);

/* The name of the member at a place (from 1) of a family: questions 2, 3, 6, 7 and 15. `kind` is 0 for a plot family, any other number
 * for a treatment family; the sheet's first line gives the column names, the level table the columns. The name is the first of these that
 * fits: `U` for one class; `E` for a class for each plot; the name of an equivalent column; `I(Hut,Week)` for the combinations of columns;
 * `S(Hut,Week)` for the grouping that columns share, in which a chain joins two plots, each step within a hut or within a week; `#` and the
 * place. `S(..)` looks at the plot columns and, in a treatment family, at the treatment columns after them; question 7 covers all of these.
 * The other names look at columns of the family's kind. Bytes of the name buffer past the name are not touched. Answer: the name's length. */
uint32_t rachdoum_name(const uint8_t *text, size_t text_len, const rachdoum_level *levels, size_t levels_len, const uint8_t *family,
                       size_t family_len, size_t plots, size_t size, uint32_t kind, size_t place, uint8_t *name, size_t name_len,
                       uint64_t answer[1]);

/* What is printed for a sheet's text: the skeleton table with k = 6, or the line of the sheet's refusal. 6: `out` is too short; bytes
 * past the text are not touched. Answer: the length of the text. */
uint32_t rachdoum_skeleton(const uint8_t *text, size_t text_len, uint8_t *out, size_t out_len, uint64_t answer[1]);

/* Converts a sheet in which plot columns are numbered anew within each level of a parent, written `p:Section/Bench` in the first line, to
 * one that the other functions read: questions 6 (`sheet` is too short), then 2 to 5 with this addition to the first line, then 23. A
 * column with a parent gets a level for each combination of itself and its converted parent, from 1 by first appearance; all others are
 * copied. A sheet without a parent comes back as it is. Bytes of `sheet` past the converted one, and all of them after a refusal, are not
 * touched. Answer: the length of the converted sheet, at most 31860. */
uint32_t rachdoum_convert(const uint8_t *old, size_t old_len, uint8_t *sheet, size_t sheet_len, uint64_t answer[1]);

/* Writes the sheet of a block formula such as `Hut=4/Pier=3` or `(Row=3*Column=3)/Sub=2`: questions 6 (`sheet` is too short), then 17 (the
 * text is no formula), then 18 (more than 6 names or 240 plots). A formula is one or more items, all joined by `/` (nesting: what comes
 * later lies inside all that comes before) or all by `*` (crossing). An item is a name, `=` and a count from 2 to 240, or a formula in round
 * brackets. Names have the form of a column's and all differ; there are no blanks. The plots are all combinations, the first name slowest.
 * Each name becomes a plot column, in the order written: plots share its level where they agree in that name and in every name that it is
 * nested in; levels are numbered from 1 by first appearance. Bytes of `sheet` past the one written, and all of them after a refusal, are not
 * touched. Answer: the sheet's length. */
uint32_t rachdoum_formula(const uint8_t *formula, size_t formula_len, uint8_t *sheet, size_t sheet_len, uint64_t answer[1]);

#ifdef __cplusplus
}
#endif

#endif
