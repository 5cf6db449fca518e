// A tree walk as one writes it by hand in C: nodes with numbered slots in place of names, a switch on their kinds,
// cells row-major in one vector, each subscript compared with its extent as its cell is accessed, accesses and turns
// counted. It runs the tree that benches/tree.py wrote of a source or a printed text, by docs/MEANING.md.
//
//   walk TREE ROUNDS < DATA
//
// It writes what `balance run` writes, and on standard error the accesses, the turns and the seconds of the fastest
// round.
#include "timed.h"
#include <setjmp.h>
#include <stdbool.h>

typedef unsigned __int128 wide;

// Operators of words, those of them that an assignment may have, and relations of words and of signed values.
#define ASSIGNED(X) X(SUM, a + b) X(DIFFERENCE, a - b) X(PRODUCT, a * b) X(AND, a & b) X(XOR, a ^ b) X(OR, a | b)
#define OPERATORS(X) ASSIGNED(X) \
  X(QUOTIENT, a / b) X(REMAINDER, a % b) X(LEFT, a << b) X(RIGHT, a >> b) X(MIN, a < b ? a : b) X(MAX, a < b ? b : a)
#define RELATIONS(X) \
  X(IS_BELOW, a < b) X(IS_UP_TO, a <= b) X(IS_ABOVE, a > b) X(IS_FROM, a >= b) X(IS_EQUAL, a == b) X(IS_UNEQUAL, a != b)
#define TESTS(X) X(BELOW, a < b) X(UP_TO, a <= b) X(ABOVE, a > b) X(FROM, a >= b) X(EQUAL, a == b) X(UNEQUAL, a != b)

#define KINDS(X) \
  X(NUMBER, ) X(VALUE, ) X(NEGATED, ) X(PLUS, ) X(MINUS, ) X(TIMES, ) X(LEAST, ) X(GREATEST, ) \
  X(LITERAL, ) X(WORD, ) X(CELL, ) X(CAST, ) X(NEGATIVE, ) X(INVERSE, ) OPERATORS(X) RELATIONS(X) \
  X(BIG, ) X(WIDE, ) X(WIDENED, ) X(WIDENED_VALUE, ) X(WIDE_SUM, ) X(WIDE_PRODUCT, ) X(WIDE_QUOTIENT, ) \
  X(WORDS, ) TESTS(X) \
  X(LOOP, ) X(CHOICE, ) X(SET_WORD, ) X(ADD_TO_WORD, ) X(SET_WIDE, ) X(ADD_TO_WIDE, ) X(STORE, ) \
  X(UPDATE_SUM, ) X(UPDATE_DIFFERENCE, ) X(UPDATE_PRODUCT, ) X(UPDATE_AND, ) X(UPDATE_XOR, ) X(UPDATE_OR, ) \
  X(BEGIN, ) X(VERDICT, )

#define AS_ITSELF(NAME, VALUE) NAME,
#define AS_TEXT(NAME, VALUE) #NAME,
enum kind { KINDS(AS_ITSELF) NO_KIND };
static const char *const kinds[] = { KINDS(AS_TEXT) };

struct node {
  enum kind kind;
  int slot;                              // of a value, a word, a wide number or an array
  uint64_t number;
  struct node *a, *b, *c;                // its parts
  struct node *next;                     // the next subscript, extent, test or statement
};

struct array {
  char name[300];
  int constant;
  int definitions, uses;                 // the slots of its totals
  struct node *extents_of;
  uint64_t base, count;
  int64_t extents[3];
};

enum { MOST_SLOTS = 64, MOST_ARRAYS = 16 };
enum { GOES_ON, JUDGED, OUTSIDE };
static const uint64_t NOWHERE = UINT64_MAX;

static int64_t values[MOST_SLOTS];       // of parameters, then of the loops around
static uint64_t words[MOST_SLOTS];
static wide wides[MOST_SLOTS];
static struct array arrays[MOST_ARRAYS];
static uint64_t *cells;
static bool begun;
static uint64_t accesses, turns[2];      // turns before and after `begin`
static int outside;                      // the array of an access outside its extents
static jmp_buf stop;

static int64_t composed_value(const struct node *e);

static inline int64_t signed_of(const struct node *e) {
  switch (e->kind) {
  case VALUE: return values[e->slot];
  case NUMBER: return (int64_t)e->number;
  default: return composed_value(e);
  }
}

static int64_t composed_value(const struct node *e) {
  if (e->kind == NEGATED) return (int64_t)-(uint64_t)signed_of(e->a);
  int64_t a = signed_of(e->a), b = signed_of(e->b);
  switch (e->kind) {
  case PLUS: return (int64_t)((uint64_t)a + (uint64_t)b);
  case MINUS: return (int64_t)((uint64_t)a - (uint64_t)b);
  case TIMES: return (int64_t)((uint64_t)a * (uint64_t)b);
  case LEAST: return a < b ? a : b;
  case GREATEST: return a < b ? b : a;
  default: abort();
  }
}

// Where a cell lies.
static uint64_t place_of(const struct node *cell) {
  const struct array *array = &arrays[cell->slot];
  const int64_t *extent = array->extents;
  uint64_t row = 0;
  for (const struct node *at = cell->a; at; at = at->next, extent++) {
    int64_t c = signed_of(at);
    if (c < 0 || c >= *extent) return NOWHERE;
    row = row * (uint64_t)*extent + (uint64_t)c;
  }
  return array->base + row;
}

// One more access.
static void access_to(const struct node *cell, uint64_t place) {
  if (place == NOWHERE) {
    outside = cell->slot;
    longjmp(stop, OUTSIDE);
  }
  if (begun) accesses++;
}

static uint64_t load(const struct node *cell, uint64_t place) {
  access_to(cell, place);
  return cells[place];
}

static void store(const struct node *cell, uint64_t place, uint64_t word) {
  access_to(cell, place);
  cells[place] = word;
}

static uint64_t composed_word(const struct node *e);

static inline uint64_t word_of(const struct node *e) {
  switch (e->kind) {
  case LITERAL: return e->number;
  case WORD: return words[e->slot];
  case CELL: return load(e, place_of(e));
  default: return composed_word(e);
  }
}

static uint64_t composed_word(const struct node *e) {
  switch (e->kind) {
  case CAST: return (uint64_t)signed_of(e->a);
  case NEGATIVE: return -word_of(e->a);
  case INVERSE: return ~word_of(e->a);
  default: break;
  }
  uint64_t a = word_of(e->a), b = word_of(e->b);
  switch (e->kind) {
#define AS_VALUE(NAME, VALUE) case NAME: return VALUE;
  OPERATORS(AS_VALUE)
  RELATIONS(AS_VALUE)
  default: abort();
  }
}

static wide wide_of(const struct node *e) {
  switch (e->kind) {
  case BIG: return (wide)e->a->number << 64 | e->number;
  case WIDE: return wides[e->slot];
  case WIDENED: return word_of(e->a);
  case WIDENED_VALUE: return (wide)signed_of(e->a);
  default: break;
  }
  wide a = wide_of(e->a), b = wide_of(e->b);
  switch (e->kind) {
  case WIDE_SUM: return a + b;
  case WIDE_PRODUCT: return a * b;
  case WIDE_QUOTIENT: return a / b;
  default: abort();
  }
}

static bool holds(const struct node *test) {
  if (test->kind == WORDS) return word_of(test->a) != 0;
  int64_t a = signed_of(test->a), b = signed_of(test->b);
  switch (test->kind) {
  TESTS(AS_VALUE)
  default: abort();
  }
}

static bool all_hold(const struct node *test) {
  for (; test; test = test->next)
    if (!holds(test)) return false;
  return true;
}

static void run(const struct node *step) {
  for (; step; step = step->next)
    switch (step->kind) {
    case LOOP: {
      int64_t v = signed_of(step->a), end = signed_of(step->b) + (int64_t)step->number;
      for (; v < end; v++) {
        turns[begun]++;
        values[step->slot] = v;
        run(step->c);
      }
      break;
    }
    case CHOICE: run(all_hold(step->a) ? step->b : step->c); break;
    case SET_WORD: words[step->slot] = word_of(step->a); break;
    case ADD_TO_WORD: words[step->slot] += word_of(step->a); break;
    case SET_WIDE: wides[step->slot] = wide_of(step->a); break;
    case ADD_TO_WIDE: wides[step->slot] += wide_of(step->a); break;
    case STORE: {
      uint64_t place = place_of(step->a);
      store(step->a, place, word_of(step->b));
      break;
    }
#define AS_UPDATE(NAME, VALUE) \
    case UPDATE_##NAME: { \
      uint64_t place = place_of(step->a), a = load(step->a, place), b = word_of(step->b); \
      store(step->a, place, VALUE); \
      break; \
    }
    ASSIGNED(AS_UPDATE)
    case BEGIN: begun = true; break;
    case VERDICT: longjmp(stop, JUDGED);
    default: abort();
    }
}

// ---- the tree

static FILE *tree;

static const char *token(void) {
  static char text[300];
  if (fscanf(tree, "%299s", text) != 1) exit(2);
  return text;
}

static uint64_t number(void) { return strtoull(token(), NULL, 10); }

static uint64_t number_up_to(uint64_t most) {
  uint64_t n = number();
  if (n > most) exit(2);
  return n;
}

static enum kind kind_of(const char *name) {
  int kind = 0;
  while (kind < NO_KIND && strcmp(kinds[kind], name) != 0) kind++;
  if (kind == NO_KIND) exit(2);
  return kind;
}

// The nodes up to a closing parenthesis: each is its kind, its slot, its number, and lists of parts in parentheses.
static struct node *list(void) {
  struct node *first = NULL, *last = NULL;
  int parts = 0;
  for (;;) {
    const char *text = token();
    if (strcmp(text, ")") == 0) return first;
    if (strcmp(text, "(") == 0) {
      struct node *part = list();
      *(parts == 0 ? &last->a : parts == 1 ? &last->b : &last->c) = part;
      parts++;
      continue;
    }
    struct node *e = memory_for(1, sizeof *e);
    e->kind = kind_of(text);
    e->slot = (int)number();
    e->number = number();
    *(last ? &last->next : &first) = e;
    last = e;
    parts = 0;
  }
}

static struct node *list_in_parentheses(void) {
  if (strcmp(token(), "(") != 0) exit(2);
  return list();
}

// ---- the unit

static bool is_printed;
static uint64_t array_count, cell_count;
static uint64_t first_words[MOST_SLOTS], *first_cells;
static struct node *body;

static void read_array(struct array *array) {
  strcpy(array->name, token());
  array->constant = (int)number();
  array->definitions = (int)number_up_to(MOST_SLOTS - 1);
  array->uses = (int)number_up_to(MOST_SLOTS - 1);
  array->extents_of = list_in_parentheses();
}

static void read_tree(const char *name) {
  tree = fopen(name, "r");
  if (!tree) exit(2);
  is_printed = strcmp(token(), "printed") == 0;
  uint64_t count = number_up_to(MOST_SLOTS);
  for (uint64_t k = 0; k < count; k++) values[k] = int_of(token());
  count = number_up_to(MOST_SLOTS);
  for (uint64_t k = 0; k < count; k++) first_words[k] = number();
  number_up_to(MOST_SLOTS);              // wides
  array_count = number_up_to(MOST_ARRAYS);
  for (uint64_t k = 0; k < array_count; k++) read_array(&arrays[k]);
  number_up_to(MOST_SLOTS);              // values
  body = list_in_parentheses();
  fclose(tree);
}

// Places the arrays, and takes their cells from the data.
static void place_arrays(void) {
  for (uint64_t k = 0; k < array_count; k++) {
    struct array *array = &arrays[k];
    array->base = cell_count;
    array->count = 1;
    int64_t *extent = array->extents;
    for (const struct node *e = array->extents_of; e; e = e->next) array->count *= (uint64_t)(*extent++ = signed_of(e));
    cell_count += array->count;
  }
  first_cells = memory_for(cell_count, sizeof *cells);
  for (uint64_t k = 0; k < array_count; k++) read_cells(arrays[k].name, arrays[k].count, first_cells + arrays[k].base);
}

// ---- runs

static void start(void) {
  memcpy(cells, first_cells, cell_count * sizeof *cells);
  memcpy(words, first_words, sizeof words);
  memset(wides, 0, sizeof wides);
  accesses = turns[0] = turns[1] = 0;
  begun = !is_printed;
}

static int ended(void) {
  int stopped = setjmp(stop);
  if (stopped == GOES_ON) run(body);
  return stopped;
}

static void write_verdict(int stopped) {
  const char *word = "fault";
  if (stopped == GOES_ON) puts("plain");
  else if (stopped == OUTSIDE) printf("outside %s\n", arrays[outside].name);
  else {
    for (uint64_t k = 0; k < array_count; k++)
      if (wides[arrays[k].definitions] != wides[arrays[k].uses]) {
        printf("%s %s", word, arrays[k].name);
        word = "";
      }
    puts(*word ? "balanced" : "");
  }
}

int main(int argc, char **argv) {
  int rounds = argc == 3 ? atoi(argv[2]) : 0;
  if (rounds < 1) return 2;
  read_data();
  read_tree(argv[1]);
  place_arrays();
  cells = memory_for(cell_count, sizeof *cells);
  int stopped = GOES_ON;
  double best = 0;
  for (int round = 0; round < rounds; round++) {
    start();
    double begin = processor();
    stopped = ended();
    double seconds = processor() - begin;
    if (round == 0 || seconds < best) best = seconds;
  }
  for (uint64_t k = 0; k < array_count; k++)
    if (!arrays[k].constant) write_cells(arrays[k].name, arrays[k].count, cells + arrays[k].base);
  write_verdict(stopped);
  fprintf(stderr, "%lu %lu %.9f\n", accesses, turns[0] + turns[1], best);
  return 0;
}
