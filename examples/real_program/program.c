// A program whose path is traced, by tests/real_program and in docs/GUIDE.md ("A program of one's own"). It has loops, recursion,
// calls by pointers, an ISB, and what the C library does to begin, to print and to end; and where it is compiled with
// -mbranch-protection=standard, branches by addresses that are signed with a key.
#include <stdio.h>
#include <stdlib.h>
#include <string.h>

enum { BELOW = 1000, WORDS = 8, DISCS = 8 };

static int primes_below(int end) {
  static char crossed[BELOW];
  int primes = 0;
  for (int n = 2; n < end; n++) {
    if (crossed[n]) continue;
    primes++;
    for (int many = n * n; many < end; many += n) crossed[many] = 1;
  }
  return primes;
}

// How many moves take a tower of discs from one place to another; the three places are 1, 2 and 3.
static int moves(int discs, int from, int to) {
  if (discs == 0) return 0;
  int other = 6 - from - to;
  return moves(discs - 1, from, other) + 1 + moves(discs - 1, other, to);
}

static int rising(const void *one, const void *other) { return strcmp(*(char *const *)one, *(char *const *)other); }
static int falling(const void *one, const void *other) { return rising(other, one); }

// Calls and goes on by signed addresses; the compiler itself writes none but returns.
static void branch_by_keys(void) {
#ifdef __ARM_FEATURE_PAC_DEFAULT
  __asm__ volatile(
      "adr x16, 1f; paciza x16; blraaz x16;"
      "adr x17, 2f; pacia x17, sp; braa x17, sp;"
      "1: hint 34; ret;"
      "2: hint 36;" ::: "x16", "x17", "x30");
#endif
}

int main(void) {
  int (*const orders[])(const void *, const void *) = {rising, falling};
  const char *words[WORDS] = {"trace", "unit", "atom", "frame", "branch", "path", "core", "image"};
  for (int order = 0; order < 2; order++) {
    qsort(words, WORDS, sizeof *words, orders[order]);
    printf("from %s to %s\n", words[0], words[WORDS - 1]);
  }
  __asm__ volatile("isb");
  branch_by_keys();
  printf("%d primes below %d\n", primes_below(BELOW), BELOW);
  printf("%d moves of %d discs\n", moves(DISCS, 1, 3), DISCS);
  return 0;
}
