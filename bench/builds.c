/* Two builds of the library beside each other: the same random boards and positions through both in one process, in turns of fifty, and every answer and every
 * lent byte compared on the way. Each build stands at four places in memory, one after another in the rounds. Prints for each call the time of the first build
 * and that of the second, of the quickest round at each place and on the average of the places, and their ratio (above 1: the second is quicker), then the least
 * and the greatest ratio of a round. Run by bench/builds.
 *
 * With --before-without-rounds the first build is one from before the verdict had its slice for the rounds of cells: its verdict is called without the slice, and
 * the rounds of the second are not compared. The verdict with the mine total shown is passed over where one of the builds does not have it yet. */
#define _POSIX_C_SOURCE 200809L
#include <dlfcn.h>
#include <stdint.h>
#include <stdio.h>
#include <stdlib.h>
#include <string.h>
#include <time.h>

enum { CELLS = 1024, TABLE = 16384, TURN = 50, PLACES = 4, ROUNDS = 8, CALLS = 8, VERDICT_TOTAL = 7, VERDICT_WITHOUT_ROUNDS = CALLS };

typedef uint8_t Verdict(size_t, size_t, size_t, size_t, const uint8_t *, size_t, uint8_t *, size_t, uint16_t *, size_t, uint64_t *, size_t);
typedef uint8_t VerdictWithoutRounds(size_t, size_t, size_t, size_t, const uint8_t *, size_t, uint8_t *, size_t, uint64_t *, size_t);
typedef uint8_t Look(size_t, size_t, const uint8_t *, size_t, uint64_t *, size_t);
typedef uint8_t Rule(size_t, size_t, uint8_t *, size_t, uint16_t *, size_t, uint16_t *, size_t, uint64_t *, size_t);
typedef uint8_t Table(size_t, size_t, const uint8_t *, size_t, size_t, uint8_t *, size_t, uint64_t *, size_t);

static const char *const NAMES[CALLS] = {"verdict", "pattern", "frontier", "direct", "minus", "enumerate", "table", "verdict_total"};

static int before_without_rounds = 0;

/* A board with its start, and a position of it: what its verdict shows, some open cells closed again. */
typedef struct {
  size_t rows, columns, start;
  uint8_t cells[CELLS], position[CELLS];
} Input;

/* All that a call writes. */
typedef struct {
  uint8_t number, bytes[TABLE];
  uint16_t safe[CELLS], mines[CELLS], opened_in[CELLS];
  uint64_t counts[4];
} Answer;

static void *call_of(void *build, int call) {
  char name[64];
  snprintf(name, sizeof name, "lihvompa_%s", NAMES[call]);
  void *found = dlsym(build, name);
  if (!found) { fprintf(stderr, "builds: no %s\n", name); exit(2); }
  return found;
}

/* Has a build the verdict with the mine total shown? */
static int has_total(void *build) {
  return dlsym(build, "lihvompa_verdict_total") != NULL;
}

/* The number of the call as a build has it. */
static int shape_of(int side, int call) {
  return call == 0 && side == 0 && before_without_rounds ? VERDICT_WITHOUT_ROUNDS : call;
}

static void ask(void *function, int shape, const Input *in, Answer *out) {
  size_t n = in->rows * in->columns, row = in->start / in->columns, column = in->start % in->columns;
  memset(out->counts, 0, sizeof out->counts);
  memcpy(out->bytes, in->position, n);
  switch (shape) {
    case 0:
    case VERDICT_TOTAL: out->number = ((Verdict *)function)(in->rows, in->columns, row, column, in->cells, n, out->bytes, n, out->opened_in, n, out->counts, 4); break;
    case VERDICT_WITHOUT_ROUNDS:
      out->number = ((VerdictWithoutRounds *)function)(in->rows, in->columns, row, column, in->cells, n, out->bytes, n, out->counts, 4);
      break;
    case 1: out->number = ((Look *)function)(in->rows, in->columns, in->cells, n, out->counts, 4); break;
    case 2: out->number = ((Look *)function)(in->rows, in->columns, in->position, n, out->counts, 4); break;
    case 6: out->number = ((Table *)function)(in->rows, in->columns, in->position, n, 0, out->bytes, TABLE, out->counts, 4); break;
    default: out->number = ((Rule *)function)(in->rows, in->columns, out->bytes, n, out->safe, CELLS, out->mines, CELLS, out->counts, 4);
  }
}

static double now(void) {
  struct timespec t;
  clock_gettime(CLOCK_MONOTONIC, &t);
  return t.tv_sec + t.tv_nsec * 1e-9;
}

static int mine_at(const Input *in, long row, long column) {
  if (row < 0 || column < 0 || row >= (long)in->rows || column >= (long)in->columns) return 0;
  return in->cells[row * in->columns + column] == 255;
}

/* A random board with so many mines, its start the first 0 or else the first safe cell; and its position, by the first build's verdict. */
static void draw(Input *in, size_t rows, size_t columns, size_t mines, void *verdict) {
  static Answer answer;
  size_t n = rows * columns;
  memset(in, 0, sizeof *in);
  in->rows = rows;
  in->columns = columns;
  while (mines > 0) {
    size_t c = rand() % n;
    if (in->cells[c] != 255) { in->cells[c] = 255; mines--; }
  }
  for (size_t c = n; c-- > 0;) {
    if (in->cells[c] == 255) continue;
    for (long i = -1; i < 2; i++)
      for (long j = -1; j < 2; j++) in->cells[c] += mine_at(in, (long)(c / columns) + i, (long)(c % columns) + j);
  }
  for (size_t c = n; c-- > 0;)
    if (in->cells[c] == 0 || (in->cells[c] != 255 && in->cells[in->start] != 0)) in->start = c;
  ask(verdict, shape_of(0, 0), in, &answer);
  memcpy(in->position, answer.bytes, n);
  for (size_t c = 0; c < n; c++)
    if (in->position[c] < 9 && rand() % 12 == 0) in->position[c] = 10;
}

static int measure(void *builds[2][PLACES], int call, const Input *inputs, int count) {
  static Answer answers[2];
  if (call == VERDICT_TOTAL && !(has_total(builds[0][0]) && has_total(builds[1][0]))) {
    printf("  %-13s not in both builds\n", NAMES[call]);
    return 0;
  }
  double quickest[2][PLACES], average[2] = {0, 0}, least = 1e9, greatest = 0;
  for (int place = 0; place < PLACES; place++) quickest[0][place] = quickest[1][place] = 1e9;
  for (int round = 0; round < ROUNDS; round++) {
    int place = round % PLACES;
    double taken[2] = {0, 0};
    for (int from = 0; from < count; from += TURN)
      for (int k = 0; k < 2; k++) {
        int side = (k + from / TURN + round) % 2;
        void *function = call_of(builds[side][place], call);
        double begin = now();
        for (int i = from; i < from + TURN && i < count; i++) ask(function, shape_of(side, call), &inputs[i], &answers[side]);
        taken[side] += now() - begin;
      }
    double ratio = taken[0] / taken[1];
    for (int side = 0; side < 2; side++) if (taken[side] < quickest[side][place]) quickest[side][place] = taken[side];
    if (ratio < least) least = ratio;
    if (ratio > greatest) greatest = ratio;
  }
  int differ = 0;
  for (int i = 0; i < count; i++) {
    memset(answers, 0, sizeof answers);
    for (int side = 0; side < 2; side++) ask(call_of(builds[side][i % PLACES], call), shape_of(side, call), &inputs[i], &answers[side]);
    if (before_without_rounds) memset(answers[1].opened_in, 0, sizeof answers[1].opened_in);
    differ += memcmp(&answers[0], &answers[1], sizeof answers[0]) != 0;
  }
  for (int side = 0; side < 2; side++)
    for (int place = 0; place < PLACES; place++) average[side] += quickest[side][place] * 1e6 / count / PLACES;
  printf("  %-13s %9.2f %9.2f   %.3f   %.3f to %.3f   %d differ\n", NAMES[call], average[0], average[1], average[0] / average[1], least, greatest, differ);
  return differ;
}

int main(int argc, char **argv) {
  before_without_rounds = argc > 1 && strcmp(argv[1], "--before-without-rounds") == 0;
  argv += before_without_rounds;
  if (argc - before_without_rounds != 3) { fprintf(stderr, "usage: builds [--before-without-rounds] BEFORE AFTER, for BEFORE.0.so to BEFORE.48.so\n"); return 2; }
  void *builds[2][PLACES];
  for (int side = 0; side < 2; side++)
    for (int place = 0; place < PLACES; place++) {
      char name[4096];
      snprintf(name, sizeof name, "%s.%d.so", argv[side + 1], place * 16);
      if (!(builds[side][place] = dlopen(name, RTLD_NOW | RTLD_LOCAL))) { fprintf(stderr, "builds: %s\n", dlerror()); return 2; }
    }
  static const size_t sets[][4] = {{16, 30, 99, 1500}, {16, 16, 40, 3000}, {8, 8, 10, 10000}, {32, 32, 200, 600}};
  int differ = 0;
  srand(20);
  for (size_t k = 0; k < sizeof sets / sizeof sets[0]; k++) {
    int count = (int)sets[k][3];
    Input *inputs = malloc(count * sizeof *inputs);
    for (int i = 0; i < count; i++) draw(&inputs[i], sets[k][0], sets[k][1], sets[k][2], call_of(builds[0][0], 0));
    printf("%d of %zu x %zu with %zu mines: call, us before, us after, ratio, ratios of the rounds\n", count, sets[k][0], sets[k][1], sets[k][2]);
    for (int call = 0; call < CALLS; call++) differ += measure(builds, call, inputs, count);
    free(inputs);
  }
  return differ != 0;
}
