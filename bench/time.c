/* Times the proved machine and the interpreter in C on the same codes, one after another, many times over, and
   prints the middle of the times that each took and how many times as long the better C took. */
#include <stddef.h>
#include <stdint.h>
#include <stdio.h>
#include <stdlib.h>
#include <string.h>
#include <time.h>

typedef uint8_t Run(const uint16_t *code, size_t len, uint64_t elapsed, uint64_t *vars, size_t size, uint64_t *fault);

/* each stands at four places: where a loop lies in memory alone moves its time by up to a fifth */
enum { PLACES = 4, ROUNDS = 31, TIMES = 50, VARS = 64 };

Run ours_0, ours_1, ours_2, ours_3, gcc_0, gcc_1, gcc_2, gcc_3;
#ifdef CLANG
Run clang_0, clang_1, clang_2, clang_3;
#endif

static const struct { const char *name; Run *at[PLACES]; } MACHINES[] = {
  {"ours", {ours_0, ours_1, ours_2, ours_3}},
  {"gcc", {gcc_0, gcc_1, gcc_2, gcc_3}},
#ifdef CLANG
  {"clang", {clang_0, clang_1, clang_2, clang_3}},
#endif
};
enum { COUNT = sizeof MACHINES / sizeof *MACHINES };

static const struct { const char *name; size_t instructions; uint16_t code[19][4]; } LOADS[] = {
  /* 2,222 times: v0 := v0 + v1; v2 := v0 * 3 */
  {"sums", 10, {{7, 2222, 9}, {1, 0}, {1, 1}, {4, 0}, {2, 0}, {1, 0}, {0, 3}, {4, 2}, {2, 2}, {8, 9}}},
  /* 70 times: 90 times: v1 := v0 */
  {"loops", 6, {{7, 70, 5}, {7, 90, 3}, {1, 0}, {2, 1}, {8, 3}, {8, 5}}},
  /* 1,200 times: v0 := v0 + 1; if v0 / 3 * 3 = v0 then v3 := 7 else v3 := 8 end */
  {"choices", 19, {{7, 1200, 18}, {1, 0}, {0, 1}, {4, 0}, {2, 0}, {1, 0}, {0, 3}, {4, 3}, {0, 3}, {4, 2}, {1, 0}, {4, 5},
    {6, 3}, {0, 7}, {2, 3}, {5, 2}, {0, 8}, {2, 3}, {8, 18}}},
  /* 2,400 times: delay v4, v5, v0 < 100, 50; delay v6, v7, not v4, 30 */
  {"delays", 9, {{7, 2400, 8}, {1, 0}, {0, 100}, {4, 4}, {9, 4, 5, 50}, {1, 4}, {3}, {9, 6, 7, 30}, {8, 8}}},
};

static double seconds(void) {
  struct timespec t;
  clock_gettime(CLOCK_THREAD_CPUTIME_ID, &t);
  return t.tv_sec + t.tv_nsec * 1e-9;
}

static int by_size(const void *a, const void *b) {
  double x = *(const double *)a, y = *(const double *)b;
  return (x > y) - (x < y);
}

int main(void) {
  int same = 1;
  printf("microseconds a run");
  for (int m = 0; m < COUNT; m++) printf("%8s", MACHINES[m].name);
  printf("   C / ours\n");
  for (size_t l = 0; l < sizeof LOADS / sizeof *LOADS; l++) {
    static double took[COUNT][PLACES * ROUNDS];
    uint64_t first[VARS + 2] = {0};
    for (int k = 0; k < PLACES * ROUNDS; k++)
      for (int m = 0; m < COUNT; m++) {
        uint64_t left[VARS + 2] = {0, 7}, *vars = left, *fault = left + VARS;
        Run *run = MACHINES[m].at[k % PLACES];
        double start = seconds();
        for (int i = 0; i < TIMES; i++) left[VARS + 1] += run(LOADS[l].code[0], 4 * LOADS[l].instructions, 1, vars, VARS, fault);
        took[m][k] = seconds() - start;
        if (k == 0 && m == 0) memcpy(first, left, sizeof first);
        if (memcmp(first, left, sizeof first)) same = 0;
      }
    printf("%-18s", LOADS[l].name);
    double best = 0, our = 0;
    for (int m = 0; m < COUNT; m++) {
      qsort(took[m], PLACES * ROUNDS, sizeof(double), by_size);
      double middle = took[m][PLACES * ROUNDS / 2] / TIMES * 1e6;
      printf("%8.1f", middle);
      if (m == 0) our = middle;
      else if (best == 0 || middle < best) best = middle;
    }
    printf("%11.2f   (%u of %d runs finished)\n", best / our, (unsigned)first[VARS + 1], TIMES);
  }
  if (!same) puts("the machines do not leave the same values");
  return !same;
}
