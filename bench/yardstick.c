/* yardstick IMAGE: the same path for the bench's captures alone, as a plain C loop, to compare times with.
   It knows the packets and instructions of the bench, checks nothing, and is no part of the program. */
#include <stdint.h>
#include <stdio.h>
#include <stdlib.h>

#define MOST_WORDS 64
#define PIECE 4096
#define NOP 0xd503201fu
#define BUFFER 65536
#define START_BYTES 26 /* A-sync, trace info, trace on, and the address with its context */

static uint32_t words[MOST_WORDS];
static uint64_t base;

static void read_image(const char *name) {
  FILE *file = fopen(name, "r");
  unsigned b[4];
  if (file == NULL || fscanf(file, "@%lx", &base) != 1) exit(2);
  for (int n = 0; n < MOST_WORDS && fscanf(file, "%2x%2x%2x%2x", &b[0], &b[1], &b[2], &b[3]) == 4; n++)
    words[n] = b[0] | b[1] << 8 | b[2] << 16 | b[3] << 24;
  fclose(file);
}

static void put_line(uint64_t address) {
  char line[32];
  int at = sizeof line;
  line[--at] = '\n';
  do {
    line[--at] = "0123456789abcdef"[address & 15];
    address >>= 4;
  } while (address != 0);
  line[--at] = ' ';
  line[--at] = '1';
  line[--at] = '0';
  fwrite(line + at, 1, sizeof line - at, stdout);
}

/* The instructions up to the next branch, which is taken: where the branch goes. */
static uint64_t walk(uint64_t pc) {
  while (words[(pc - base) / 4] == NOP) {
    put_line(pc);
    pc += 4;
  }
  put_line(pc);
  int32_t words_on = (int32_t)(words[(pc - base) / 4] << 6) >> 6;
  return pc + 4 * (int64_t)words_on;
}

int main(int count, char **given) {
  static unsigned char piece[PIECE];
  static char buffer[BUFFER];
  if (count != 2) return 1;
  read_image(given[1]);
  setvbuf(stdout, buffer, _IOFBF, BUFFER);
  if (fread(piece, 1, START_BYTES, stdin) != START_BYTES) return 3;
  uint64_t pc = base;
  fputs("01 on\n01 ctx el1 ns 0 0\n", stdout);
  for (size_t got; (got = fread(piece, 1, PIECE, stdin)) > 0;)
    for (size_t i = 0; i < got; i++)
      if (piece[i] == 0xf7) pc = walk(pc);
  fputs("01 end\n", stdout);
  return fflush(stdout) == 0 ? 0 : 6;
}
