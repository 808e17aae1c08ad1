/* The header against the library: memory of the stated length is enough and one less is refused, names look at the columns that it says,
 * levels of 32 bits are taken whole, each refusal and each way in which two members stand has the number that its name stands for, and
 * threads with small stacks may call at once. Called from the root of the repository. */
#include "../include/rachdoum.h"

#include <pthread.h>
#include <stdio.h>
#include <string.h>

static const char sheet[] = "p:Hut\tt:Gain\n1\t1\n1\t2\n2\t1\n2\t2\n";
enum { SHEET = sizeof sheet - 1, PLOTS = 4 };

/* One more than is ever asked for. */
static uint8_t text[RACHDOUM_TEXT + 1];
static rachdoum_level levels[RACHDOUM_LEVELS];
static uint8_t plot_family[RACHDOUM_FAMILY], treatment_family[RACHDOUM_FAMILY];
static uint8_t name[RACHDOUM_NAME], table[RACHDOUM_TABLE], converted[RACHDOUM_SHEET], written[RACHDOUM_SHEET];
static uint64_t read_counts[3], made[4], length[1];
static int64_t degrees[RACHDOUM_MEMBERS], strata[2 * RACHDOUM_MEMBERS];
static uint32_t relation[1 + 3 * RACHDOUM_MEMBERS];
static int bad;

static void answers(const char *what, uint32_t found, enum rachdoum_refusal wanted) {
  if (found != (uint32_t)wanted) {
    printf("header: %s: %u, not %u\n", what, (unsigned)found, (unsigned)wanted);
    bad = 1;
  }
}

static uint32_t read_text(size_t text_len, size_t levels_len) {
  return rachdoum_read_sheet(text, text_len, levels, levels_len, read_counts);
}

static uint32_t full(size_t levels_len, size_t plots, size_t columns, size_t k, size_t family_len) {
  return rachdoum_full_design(levels, levels_len, plots, columns, read_counts[2], k, plot_family, family_len, treatment_family,
                              RACHDOUM_FAMILY, made);
}

static uint32_t plot(size_t plots, size_t columns) {
  return rachdoum_plot_design(levels, RACHDOUM_LEVELS, plots, columns, plot_family, RACHDOUM_FAMILY, made);
}

static uint32_t name_at(size_t place, size_t name_len) {
  return rachdoum_name(text, SHEET, levels, RACHDOUM_LEVELS, plot_family, RACHDOUM_FAMILY, PLOTS, made[2], 0, place, name, name_len,
                       length);
}

static void lengths(void) {
  memcpy(text, sheet, SHEET);
  answers("a level table", read_text(SHEET, RACHDOUM_LEVELS), RACHDOUM_ACCEPTED);
  answers("a level table, one less", read_text(SHEET, RACHDOUM_LEVELS - 1), RACHDOUM_REFUSED_LEVEL_TABLE);
  answers("no text", read_text(0, RACHDOUM_LEVELS), RACHDOUM_REFUSED_LENGTH_OF_TEXT);
  answers("the longest text", read_text(RACHDOUM_TEXT, RACHDOUM_LEVELS), RACHDOUM_REFUSED_FORM_OF_LINE);
  answers("a longer text", read_text(RACHDOUM_TEXT + 1, RACHDOUM_LEVELS), RACHDOUM_REFUSED_LENGTH_OF_TEXT);
  read_text(SHEET, RACHDOUM_LEVELS);
  answers("levels, one less", full(RACHDOUM_LEVELS - 1, PLOTS, 1, 1, RACHDOUM_FAMILY), RACHDOUM_REFUSED_CALL);
  answers("a family, one less", full(RACHDOUM_LEVELS, PLOTS, 1, 1, RACHDOUM_FAMILY - 1), RACHDOUM_REFUSED_CALL);
  answers("k too high", full(RACHDOUM_LEVELS, PLOTS, 1, RACHDOUM_INTERACTION + 1, RACHDOUM_FAMILY), RACHDOUM_REFUSED_CALL);
  answers("too many plots", full(RACHDOUM_LEVELS, RACHDOUM_PLOTS + 1, 1, 1, RACHDOUM_FAMILY), RACHDOUM_REFUSED_CALL);
  answers("too many columns", plot(PLOTS, RACHDOUM_COLUMNS + 1), RACHDOUM_REFUSED_CALL);
  answers("a column without levels", plot(PLOTS, RACHDOUM_COLUMNS), RACHDOUM_REFUSED_LEVEL_ZERO);
  answers("the highest k", full(RACHDOUM_LEVELS, PLOTS, 1, RACHDOUM_INTERACTION, RACHDOUM_FAMILY), RACHDOUM_ACCEPTED);
  answers("a name", name_at(1, RACHDOUM_NAME), RACHDOUM_ACCEPTED);
  answers("a name, one less", name_at(1, RACHDOUM_NAME - 1), RACHDOUM_REFUSED_CALL);
  answers("a place too far", name_at(made[2] + 1, RACHDOUM_NAME), RACHDOUM_REFUSED_CALL);
  answers("a table", rachdoum_skeleton(text, SHEET, table, RACHDOUM_TABLE, length), RACHDOUM_ACCEPTED);
  answers("a table, one less", rachdoum_skeleton(text, SHEET, table, RACHDOUM_TABLE - 1, length), RACHDOUM_REFUSED_CALL);
  /* The exception: a refused sheet, here an empty one. */
  answers("the table of no text", rachdoum_skeleton(text, 0, table, RACHDOUM_TABLE, length), RACHDOUM_ACCEPTED);
  answers("its line", memcmp(table, "refused\t2\t", 10) != 0, RACHDOUM_ACCEPTED);
}

/* The plot family U, Hut, E, taken for a treatment family. */
static uint32_t treatment_name(size_t place) {
  return rachdoum_name(text, SHEET, levels, RACHDOUM_LEVELS, plot_family, RACHDOUM_FAMILY, PLOTS, made[2], 1, place, name, RACHDOUM_NAME,
                       length);
}

static void member_names(void) {
  static const char wanted[] = "S(Hut)";
  rachdoum_level *plot_level = levels, *treatment_level = levels + RACHDOUM_COLUMNS * RACHDOUM_PLOTS;
  answers("a treatment member that is a plot column", treatment_name(2), RACHDOUM_ACCEPTED);
  answers("its length", length[0] != sizeof wanted - 1, RACHDOUM_ACCEPTED);
  answers("its name", memcmp(name, wanted, sizeof wanted - 1) != 0, RACHDOUM_ACCEPTED);
  *treatment_level = 0;
  answers("a plot member beside a treatment without a level", name_at(2, RACHDOUM_NAME), RACHDOUM_ACCEPTED);
  answers("a treatment without a level", treatment_name(2), RACHDOUM_REFUSED_LEVEL_ZERO);
  *treatment_level = 1;
  *plot_level = 0;
  answers("a treatment member beside a plot column without a level", treatment_name(2), RACHDOUM_REFUSED_LEVEL_ZERO);
  *plot_level = 1;
}

/* A column for each bit of the plot's number: 2, 4, .. members. */
static void crossed(size_t columns) {
  size_t c, u;
  for (c = 0; c < columns; c++)
    for (u = 0; u < RACHDOUM_PLOTS; u++)
      levels[RACHDOUM_PLOTS * c + u] = (rachdoum_level)(1 + ((u >> c) & 1));
}

static void families(void) {
  crossed(RACHDOUM_COLUMNS);
  answers("the largest family", plot(32, 5), RACHDOUM_ACCEPTED);
  answers("its size", made[2] != RACHDOUM_MEMBERS, RACHDOUM_ACCEPTED);
  answers("its degrees", rachdoum_degrees(plot_family, RACHDOUM_FAMILY, 32, RACHDOUM_MEMBERS, degrees), RACHDOUM_ACCEPTED);
  answers("its relation", rachdoum_relation(plot_family, RACHDOUM_FAMILY, 32, RACHDOUM_MEMBERS, relation), RACHDOUM_ACCEPTED);
  answers("one member more", rachdoum_degrees(plot_family, RACHDOUM_FAMILY, 32, RACHDOUM_MEMBERS + 1, degrees),
          RACHDOUM_REFUSED_FORM_OF_FAMILY);
  /* Its first member, U, as the whole plot family: no treatment but U has a stratum. */
  answers("no stratum",
          rachdoum_strata(plot_family, RACHDOUM_FAMILY, 1, plot_family, RACHDOUM_FAMILY, RACHDOUM_MEMBERS, 32, strata),
          RACHDOUM_REFUSED_NO_STRATUM);
}

/* The length of a family's buffer, its size, and the place that is asked about. */
struct asked {
  size_t family_len, size, place;
};

/* A member of the plot family beside one of the treatment family. */
static uint32_t compare(struct asked first, struct asked second, size_t plots) {
  return rachdoum_compare(plot_family, first.family_len, first.size, first.place, treatment_family, second.family_len, second.size,
                          second.place, plots, length);
}

static const struct asked good = {RACHDOUM_FAMILY, 4, 2};

/* What is refused in the first family is in the second, and nothing is answered then. */
static void refused(const char *what, size_t family_len, size_t size, size_t place, enum rachdoum_refusal wanted) {
  struct asked other = {family_len, size, place};
  answers(what, compare(other, good, PLOTS), wanted);
  answers(what, length[0] != 0, RACHDOUM_ACCEPTED);
  answers(what, compare(good, other, PLOTS), wanted);
  answers(what, length[0] != 0, RACHDOUM_ACCEPTED);
}

static void stands(const char *what, size_t first, size_t second, enum rachdoum_comparison wanted) {
  struct asked f = {RACHDOUM_FAMILY, 4, first}, g = {RACHDOUM_FAMILY, 4, second};
  answers(what, compare(f, g, PLOTS), RACHDOUM_ACCEPTED);
  answers(what, length[0] != (uint64_t)wanted, RACHDOUM_ACCEPTED);
}

static void comparisons(void) {
  /* U, two halves, and the plots one by one; then U, the first of the halves, one plot apart, and the plots one by one. */
  static const uint8_t first[4][PLOTS] = {{1, 1, 1, 1}, {1, 1, 2, 2}, {1, 2, 1, 2}, {1, 2, 3, 4}};
  static const uint8_t second[4][PLOTS] = {{1, 1, 1, 1}, {1, 1, 1, 2}, {1, 1, 2, 2}, {1, 2, 3, 4}};
  size_t i;
  for (i = 0; i < 4; i++) {
    memcpy(plot_family + RACHDOUM_PLOTS * i, first[i], PLOTS);
    memcpy(treatment_family + RACHDOUM_PLOTS * i, second[i], PLOTS);
  }
  stands("equivalent members", 2, 3, RACHDOUM_EQUIVALENT);
  stands("a finer member", 4, 3, RACHDOUM_FINER);
  stands("a coarser member", 1, 2, RACHDOUM_COARSER);
  stands("orthogonal members", 3, 3, RACHDOUM_ORTHOGONAL);
  stands("members that are not orthogonal", 2, 2, RACHDOUM_NOT_ORTHOGONAL);
  refused("a family to compare, one less", RACHDOUM_FAMILY - 1, 4, 2, RACHDOUM_REFUSED_CALL);
  refused("place 0", RACHDOUM_FAMILY, 4, 0, RACHDOUM_REFUSED_CALL);
  refused("a place behind the last", RACHDOUM_FAMILY, 4, 5, RACHDOUM_REFUSED_CALL);
  refused("a place in no members", RACHDOUM_FAMILY, 0, 1, RACHDOUM_REFUSED_CALL);
  refused("33 members and their last", RACHDOUM_FAMILY, 33, 33, RACHDOUM_REFUSED_FORM_OF_FAMILY);
  refused("33 members and one behind", RACHDOUM_FAMILY, 33, 34, RACHDOUM_REFUSED_CALL);
  refused("the largest size and place", RACHDOUM_FAMILY, SIZE_MAX, SIZE_MAX, RACHDOUM_REFUSED_FORM_OF_FAMILY);
  answers("no plots to compare", compare(good, good, 0), RACHDOUM_REFUSED_CALL);
  answers("too many plots to compare", compare(good, good, RACHDOUM_PLOTS + 1), RACHDOUM_REFUSED_CALL);
  treatment_family[3 * RACHDOUM_PLOTS] = 2;
  answers("a member that is none elsewhere", compare(good, good, PLOTS), RACHDOUM_REFUSED_FORM_OF_FAMILY);
}

static uint32_t read_lines(const char *lines) {
  size_t text_len = strlen(lines);
  memcpy(text, lines, text_len);
  return read_text(text_len, RACHDOUM_LEVELS);
}

static void wide_levels(void) {
  answers("the highest level", read_lines("p:Hut\n4294967295\n4294967295\n65535\n65535\n"), RACHDOUM_ACCEPTED);
  answers("levels as they were read", levels[0] != UINT32_MAX || levels[2] != UINT16_MAX, RACHDOUM_ACCEPTED);
  answers("lower halves alike", plot(PLOTS, 1), RACHDOUM_ACCEPTED);
  answers("two huts between U and E", made[2] != 3, RACHDOUM_ACCEPTED);
  answers("a level too high", read_lines("p:Hut\n4294967296\n"), RACHDOUM_REFUSED_FORM_OF_LINE);
  answers("a level of zero", read_lines("p:Hut\n0\n"), RACHDOUM_REFUSED_FORM_OF_LINE);
  answers("levels as they were", levels[0] != UINT32_MAX, RACHDOUM_ACCEPTED);
}

static uint32_t convert(const char *lines, size_t sheet_len) {
  return rachdoum_convert((const uint8_t *)lines, strlen(lines), converted, sheet_len, length);
}

static void parents(void) {
  static const char old[] = "p:Hut\tp:Pier/Hut\n1\t1\n2\t1\n";
  static const char wanted[] = "p:Hut\tp:Pier\n1\t1\n2\t2\n";
  answers("a slash for the reader", read_lines(old), RACHDOUM_REFUSED_FORM_OF_FIRST_LINE);
  answers("a sheet, one less", convert(old, RACHDOUM_SHEET - 1), RACHDOUM_REFUSED_CALL);
  answers("nothing written", converted[0] != 0 || length[0] != 0, RACHDOUM_ACCEPTED);
  answers("no old sheet", convert("", RACHDOUM_SHEET), RACHDOUM_REFUSED_LENGTH_OF_TEXT);
  answers("no old sheet and one less", convert("", RACHDOUM_SHEET - 1), RACHDOUM_REFUSED_CALL);
  answers("a parent further right", convert("p:Pier/Hut\tp:Hut\n1\t1\n", RACHDOUM_SHEET), RACHDOUM_REFUSED_PARENT);
  answers("nothing written after 23", converted[0] != 0 || length[0] != 0, RACHDOUM_ACCEPTED);
  answers("a converted sheet", convert(old, RACHDOUM_SHEET), RACHDOUM_ACCEPTED);
  answers("its length", length[0] != sizeof wanted - 1, RACHDOUM_ACCEPTED);
  answers("its text", memcmp(converted, wanted, sizeof wanted) != 0, RACHDOUM_ACCEPTED);
}

static uint32_t write_sheet(const char *formula, size_t sheet_len) {
  return rachdoum_formula((const uint8_t *)formula, strlen(formula), written, sheet_len, length);
}

/* A formula of this length with its item in brackets: 4 bytes of the item, or 5, and an even number of brackets. */
static const char *bracketed(size_t formula_len) {
  static char formula[RACHDOUM_FORMULA + 2];
  size_t depth = (formula_len - 4) / 2;
  memset(formula, '(', depth);
  strcpy(formula + depth, formula_len % 2 ? "Hut=2" : "Aa=2");
  memset(formula + formula_len - depth, ')', depth);
  formula[formula_len] = '\0';
  return formula;
}

static void formulas(void) {
  static const char wanted[] = "p:Hut\tp:Pier\n1\t1\n1\t2\n2\t3\n2\t4\n";
  answers("a formula's sheet, one less", write_sheet("Hut=2/Pier=2", RACHDOUM_SHEET - 1), RACHDOUM_REFUSED_CALL);
  answers("no formula and one less", write_sheet("", RACHDOUM_SHEET - 1), RACHDOUM_REFUSED_CALL);
  answers("no formula", write_sheet("", RACHDOUM_SHEET), RACHDOUM_REFUSED_FORM_OF_FORMULA);
  answers("two operators", write_sheet("Row=2*Column=2/Sub=2", RACHDOUM_SHEET), RACHDOUM_REFUSED_FORM_OF_FORMULA);
  answers("a longer formula", write_sheet(bracketed(RACHDOUM_FORMULA + 1), RACHDOUM_SHEET), RACHDOUM_REFUSED_FORM_OF_FORMULA);
  answers("seven names", write_sheet("Aa=2/Bb=2/Cc=2/Dd=2/Ee=2/Ff=2/Gg=2", RACHDOUM_SHEET), RACHDOUM_REFUSED_SIZE_OF_FORMULA);
  answers("seven names and a blank", write_sheet("Aa=2/Bb=2/Cc=2/Dd=2/Ee=2/Ff=2/Gg=2 ", RACHDOUM_SHEET), RACHDOUM_REFUSED_FORM_OF_FORMULA);
  answers("242 plots", write_sheet("Hut=121/Pier=2", RACHDOUM_SHEET), RACHDOUM_REFUSED_SIZE_OF_FORMULA);
  answers("nothing written", written[0] != 0 || length[0] != 0, RACHDOUM_ACCEPTED);
  answers("the longest formula", write_sheet(bracketed(RACHDOUM_FORMULA), RACHDOUM_SHEET), RACHDOUM_ACCEPTED);
  answers("240 plots", write_sheet("Hut=120/Pier=2", RACHDOUM_SHEET), RACHDOUM_ACCEPTED);
  memset(written, 0, sizeof written);
  answers("a formula", write_sheet("Hut=2/Pier=2", RACHDOUM_SHEET), RACHDOUM_ACCEPTED);
  answers("the length of its sheet", length[0] != sizeof wanted - 1, RACHDOUM_ACCEPTED);
  answers("its sheet", memcmp(written, wanted, sizeof wanted) != 0, RACHDOUM_ACCEPTED);
}

static uint32_t refusal_of(const char *path) {
  FILE *file = fopen(path, "rb");
  size_t text_len = file != NULL ? fread(text, 1, sizeof text, file) : 0;
  uint32_t refusal = read_text(text_len, RACHDOUM_LEVELS);
  if (file != NULL)
    fclose(file);
  return refusal != 0 ? refusal : full(RACHDOUM_LEVELS, read_counts[0], read_counts[1], RACHDOUM_INTERACTION, RACHDOUM_FAMILY);
}

static void names(void) {
  answers("3", refusal_of("examples/refused-03.sheet"), RACHDOUM_REFUSED_FORM_OF_FIRST_LINE);
  answers("4", refusal_of("examples/refused-04.sheet"), RACHDOUM_REFUSED_FORM_OF_LINE);
  answers("5", refusal_of("examples/refused-05.sheet"), RACHDOUM_REFUSED_NUMBER_OF_PLOTS);
  answers("8", refusal_of("examples/refused-08.sheet"), RACHDOUM_REFUSED_TOO_MANY_PLOT_MEMBERS);
  answers("9", refusal_of("examples/refused-09.sheet"), RACHDOUM_REFUSED_CLASS_SIZES);
  answers("10", refusal_of("examples/refused-10.sheet"), RACHDOUM_REFUSED_PLOTS_NOT_ORTHOGONAL);
  answers("11", refusal_of("examples/refused-11.sheet"), RACHDOUM_REFUSED_TOO_MANY_TREATMENT_MEMBERS);
  answers("12", refusal_of("examples/refused-12.sheet"), RACHDOUM_REFUSED_TREATMENTS_NOT_ORTHOGONAL);
  answers("13", refusal_of("examples/refused-13.sheet"), RACHDOUM_REFUSED_PLOT_AND_TREATMENT_NOT_ORTHOGONAL);
  answers("14", refusal_of("examples/refused-14.sheet"), RACHDOUM_REFUSED_TOO_MANY_FINAL_MEMBERS);
}

enum { THREADS = 8, STACK = 128 * 1024 };

struct caller {
  pthread_t thread;
  const char *path;
  uint8_t text[RACHDOUM_TEXT], first[RACHDOUM_TABLE], table[RACHDOUM_TABLE];
  size_t text_len;
  int differs;
};

static void *call(void *given) {
  struct caller *own = given;
  uint64_t first_length, again;
  int i;
  rachdoum_skeleton(own->text, own->text_len, own->first, RACHDOUM_TABLE, &first_length);
  for (i = 0; i < 500; i++) {
    rachdoum_skeleton(own->text, own->text_len, own->table, RACHDOUM_TABLE, &again);
    own->differs |= again != first_length || memcmp(own->first, own->table, again) != 0;
  }
  return NULL;
}

static void threads(void) {
  static struct caller callers[THREADS];
  static const char *const paths[] = {"examples/example-4-extension.sheet", "examples/refused-14.sheet", "examples/huts.sheet"};
  pthread_attr_t small;
  int i;
  pthread_attr_init(&small);
  pthread_attr_setstacksize(&small, STACK);
  for (i = 0; i < THREADS; i++) {
    FILE *file = fopen(paths[i % 3], "rb");
    if (file != NULL) {
      callers[i].text_len = fread(callers[i].text, 1, RACHDOUM_TEXT, file);
      fclose(file);
    }
    answers("a thread begins", pthread_create(&callers[i].thread, &small, call, &callers[i]) != 0, RACHDOUM_ACCEPTED);
  }
  for (i = 0; i < THREADS; i++) {
    pthread_join(callers[i].thread, NULL);
    answers("a thread's tables", callers[i].differs != 0, RACHDOUM_ACCEPTED);
  }
}

int main(void) {
  lengths();
  member_names();
  families();
  comparisons();
  wide_levels();
  parents();
  formulas();
  names();
  threads();
  return bad;
}
