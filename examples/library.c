/* Prints the table of a sheet and, after an empty line, against what each treatment is tested. After a refusal it exits with 1 and, where
 * members are not orthogonal, says which. A sheet that is numbered within parents (`p:Section/Bench`) is converted first. In place of a sheet
 * a formula may be given.
 *
 *     cc -Iinclude -o library examples/library.c target/staticlib/librachdoum.a
 *     ./library examples/huts.sheet
 *     ./library --formula Hut=4/Pier=3 */
#include "rachdoum.h"

#include <inttypes.h>
#include <stdio.h>
#include <string.h>

enum { PLOT, TREATMENT };

/* One byte more than a sheet may have: a file that is too long is refused and not cut. */
static uint8_t text[RACHDOUM_TEXT + 1];
static size_t text_len;
static rachdoum_level levels[RACHDOUM_LEVELS];
static uint8_t families[2][RACHDOUM_FAMILY];
static size_t sizes[2];
static size_t plots;

/* A function that makes a sheet of a text: `rachdoum_convert` of one that is numbered within parents, and any other comes back as it is;
 * `rachdoum_formula` of a formula. */
typedef uint32_t maker(const uint8_t *, size_t, uint8_t *, size_t, uint64_t *);

/* The sheet that a function makes becomes the text. Answers the refusal, 0 for none, whose line is printed. */
static uint32_t make_sheet(maker *make, const uint8_t *given, size_t given_len) {
  static uint8_t sheet[RACHDOUM_SHEET];
  uint64_t length;
  uint32_t refusal = make(given, given_len, sheet, sizeof sheet, &length);
  if (refusal != RACHDOUM_ACCEPTED)
    printf("refused\t%" PRIu32 "\t-\t-\n", refusal);
  memcpy(text, sheet, length);
  text_len = length;
  return refusal;
}

static void print_table(void) {
  static uint8_t table[RACHDOUM_TABLE];
  uint64_t length;
  /* It has no refusal here, since the buffer is long enough: a sheet's refusal is a line of the text. */
  rachdoum_skeleton(text, text_len, table, sizeof table, &length);
  fwrite(table, 1, length, stdout);
}

static void print_name(int kind, size_t place) {
  uint8_t name[RACHDOUM_NAME];
  uint64_t length;
  rachdoum_name(text, text_len, levels, RACHDOUM_LEVELS, families[kind], sizeof families[kind], plots, sizes[kind], kind, place,
                name, sizeof name, &length);
  fwrite(name, 1, length, stdout);
}

/* Reads the sheet and makes both families. Answers the refusal, 0 for none. */
static uint32_t design(void) {
  uint64_t read[3], made[4];
  uint32_t refusal = rachdoum_read_sheet(text, text_len, levels, RACHDOUM_LEVELS, read);
  if (refusal != RACHDOUM_ACCEPTED)
    return refusal;
  plots = read[0];
  refusal = rachdoum_full_design(levels, RACHDOUM_LEVELS, plots, read[1], read[2], RACHDOUM_INTERACTION, families[PLOT],
                                 sizeof families[PLOT], families[TREATMENT], sizeof families[TREATMENT], made);
  /* After some refusals a family is written too; the answer has its size. */
  sizes[PLOT] = made[2];
  sizes[TREATMENT] = made[3];
  return refusal;
}

/* A treatment is tested against the residual of its stratum. Where that has none the treatment cannot be tested. */
static void print_tests(void) {
  int64_t degrees[RACHDOUM_MEMBERS], strata[2 * RACHDOUM_MEMBERS];
  size_t place;
  rachdoum_degrees(families[TREATMENT], sizeof families[TREATMENT], plots, sizes[TREATMENT], degrees);
  rachdoum_strata(families[PLOT], sizeof families[PLOT], sizes[PLOT], families[TREATMENT], sizeof families[TREATMENT],
                  sizes[TREATMENT], plots, strata);
  /* The first member is U, the mean, which nobody tests. */
  for (place = 2; place <= sizes[TREATMENT]; place++) {
    size_t stratum = (size_t)strata[place - 1];
    int64_t residual = strata[RACHDOUM_MEMBERS + stratum - 1];
    print_name(TREATMENT, place);
    printf(" (%" PRId64 " df) %s ", degrees[place - 1], residual != 0 ? "is tested in" : "cannot be tested: no residual in");
    print_name(PLOT, stratum);
    if (residual != 0)
      printf(" against %" PRId64 " df", residual);
    printf("\n");
  }
}

/* All members of a family, or of two, that are not orthogonal: the refusal has the places of the first pair only. */
static void print_pairs(int first, int second) {
  uint64_t stands;
  size_t i, j;
  for (i = 1; i <= sizes[first]; i++)
    for (j = first == second ? i + 1 : 1; j <= sizes[second]; j++) {
      rachdoum_compare(families[first], sizeof families[first], sizes[first], i, families[second], sizeof families[second], sizes[second],
                       j, plots, &stands);
      if (stands == RACHDOUM_NOT_ORTHOGONAL) {
        print_name(first, i);
        printf(" and ");
        print_name(second, j);
        printf(" are not orthogonal\n");
      }
    }
}

static void print_refusal(uint32_t refusal) {
  printf("Question %" PRIu32 " fails (docs/REFUSALS.md).\n", refusal);
  if (refusal == RACHDOUM_REFUSED_PLOTS_NOT_ORTHOGONAL)
    print_pairs(PLOT, PLOT);
  if (refusal == RACHDOUM_REFUSED_TREATMENTS_NOT_ORTHOGONAL)
    print_pairs(TREATMENT, TREATMENT);
  if (refusal == RACHDOUM_REFUSED_PLOT_AND_TREATMENT_NOT_ORTHOGONAL)
    print_pairs(PLOT, TREATMENT);
}

/* Reads a file into the text. Answers whether it could. */
static int read_text(const char *path) {
  FILE *file = fopen(path, "rb");
  int failed;
  if (file == NULL)
    return 0;
  text_len = fread(text, 1, sizeof text, file);
  failed = ferror(file);
  fclose(file);
  return !failed;
}

int main(int count, char **arguments) {
  uint32_t refusal;
  if (count == 3 && strcmp(arguments[1], "--formula") == 0) {
    refusal = make_sheet(rachdoum_formula, (const uint8_t *)arguments[2], strlen(arguments[2]));
  } else if (count == 2 && read_text(arguments[1])) {
    refusal = make_sheet(rachdoum_convert, text, text_len);
  } else {
    fprintf(stderr, "usage: library SHEET, a file that can be read, or library --formula FORMULA\n");
    return 2;
  }
  if (refusal == RACHDOUM_ACCEPTED) {
    print_table();
    refusal = design();
  }
  printf("\n");
  if (refusal != RACHDOUM_ACCEPTED) {
    print_refusal(refusal);
    return 1;
  }
  print_tests();
  return 0;
}
