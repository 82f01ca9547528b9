/* packets < STREAM: reads the packets of a stream and counts them by kind, as a plain C loop to compare times with.
   Written by hand from the table of packets in docs/FORMATS.md, for VMIDs of one byte and context IDs of four.
   Printed are the number of packets, how the stream ends, a digest of the values told, and each kind with its count. */
#include <inttypes.h>
#include <stdint.h>
#include <stdio.h>

enum { PIECE = 65536, ZEROS = 11, VMID_BYTES = 1, CID_BYTES = 4 };

enum kind {
  ASYNC, DISCARD, OVERFLOW, INFO, TIME, ON, EXC, COMMIT, CANCEL, MISPREDICT, CANCEL2, CANCEL3, IGNORE, EVENT,
  CTX_SAME, CTX_INFO, ADDR, ATOMS, KINDS, CUT, FAULT
};

static const char *const names[KINDS] = {
    "async", "discard", "overflow", "info", "time", "on", "exc", "commit", "cancel", "mispredict", "cancel2", "cancel3",
    "ignore", "event", "ctx same", "ctx", "addr", "atoms"};

static unsigned char piece[PIECE];
static size_t got, at;
static uint64_t digest, counts[KINDS];

static int refill(void) {
  got = fread(piece, 1, PIECE, stdin);
  at = 0;
  return got > 0 ? piece[at++] : -1;
}

/* The next byte, or -1 at the end. */
static inline int next_byte(void) { return at < got ? piece[at++] : refill(); }

static inline void add(uint64_t value) { digest = digest * 31 + value; }

/* Whether the stream has an A-sync, which then is read. */
static int find_sync(void) {
  int byte, zeros = 0;
  while ((byte = next_byte()) >= 0) {
    if (byte == 0x80 && zeros == ZEROS) return 1;
    zeros = byte != 0 ? 0 : zeros < ZEROS ? zeros + 1 : ZEROS;
  }
  return 0;
}

/* Bytes with the low one first, each of which gives its low 7 bits at the places of `seven`, else 8 bits. */
static enum kind fixed(int count, int seven, enum kind kind) {
  uint64_t value = 0;
  for (int i = 0, shift = 0; i < count; i++) {
    int byte = next_byte();
    if (byte < 0) return CUT;
    value |= (uint64_t)(seven >> i & 1 ? byte & 0x7f : byte) << shift;
    shift += seven >> i & 1 ? 7 : 8;
  }
  add(value);
  return kind;
}

static enum kind number(enum kind kind, uint32_t *value) {
  *value = 0;
  for (int shift = 0;; shift += 7) {
    int byte = next_byte();
    if (byte < 0) return CUT;
    if (shift == 28 && byte >= 0x10) return FAULT;
    *value |= (uint32_t)(byte & 0x7f) << shift;
    if (byte < 0x80) break;
  }
  add(*value);
  return kind;
}

static enum kind after_zero(void) {
  int byte, zeros = 1;
  while ((byte = next_byte()) == 0x00 && zeros < ZEROS) zeros++;
  if (byte < 0) return CUT;
  if (zeros == 1) return byte == 0x03 ? DISCARD : byte == 0x05 ? OVERFLOW : FAULT;
  return zeros == ZEROS && byte == 0x80 ? ASYNC : FAULT;
}

static enum kind info(void) {
  int control = next_byte();
  uint32_t value;
  if (control < 0) return CUT;
  if (control > 0x0f) return FAULT;
  for (int bit = 0; bit < 4; bit++) {
    if (!(control >> bit & 1)) continue;
    enum kind kind = number(INFO, &value);
    if (kind != INFO) return kind;
    if (bit == 0 && value != 0) return FAULT;
  }
  return INFO;
}

static enum kind timestamp(void) {
  uint64_t value = 0;
  for (int i = 0; i < 9; i++) {
    int byte = next_byte();
    if (byte < 0) return CUT;
    value |= (uint64_t)(i < 8 ? byte & 0x7f : byte) << 7 * i;
    if (byte < 0x80) break;
  }
  add(value);
  return TIME;
}

static enum kind context(enum kind kind) {
  int byte = next_byte();
  if (byte < 0) return CUT;
  if (!(byte & 0x10)) return FAULT;
  add(byte & 0x23);
  if (byte & 0x40 && fixed(VMID_BYTES, 0, kind) == CUT) return CUT;
  if (byte & 0x80 && fixed(CID_BYTES, 0, kind) == CUT) return CUT;
  return kind;
}

static enum kind short_address(void) {
  int low = next_byte(), high = 0;
  if (low >= 0x80) high = next_byte();
  if (low < 0 || high < 0) return CUT;
  add((low & 0x7f) | high << 7);
  return ADDR;
}

static enum kind exception(void) {
  int byte = next_byte();
  if (byte < 0) return CUT;
  if ((byte & 0xc1) != 0x01) return FAULT;
  add(byte >> 1 & 31);
  return EXC;
}

static enum kind packet(int header) {
  uint32_t value;
  switch (header) {
  case 0x00: return after_zero();
  case 0x01: return info();
  case 0x02: return timestamp();
  case 0x04: return ON;
  case 0x06: return exception();
  case 0x2d: return number(COMMIT, &value);
  case 0x2e: case 0x2f: return number(CANCEL, &value);
  case 0x30 ... 0x33: return MISPREDICT;
  case 0x34 ... 0x37: return CANCEL2;
  case 0x38 ... 0x3f: return CANCEL3;
  case 0x70: return IGNORE;
  case 0x71 ... 0x7f: return EVENT;
  case 0x80: return CTX_SAME;
  case 0x81: return context(CTX_INFO);
  case 0x82: return fixed(4, 3, ADDR) == CUT ? CUT : context(ADDR);
  case 0x85: return fixed(8, 3, ADDR) == CUT ? CUT : context(ADDR);
  case 0x90 ... 0x92: return ADDR;
  case 0x95: return short_address();
  case 0x9a: return fixed(4, 3, ADDR);
  case 0x9d: return fixed(8, 3, ADDR);
  case 0xc0 ... 0xff: return ATOMS;
  default: return FAULT;
  }
}

/* How the stream ends. */
static const char *read_stream(void) {
  int header;
  if (!find_sync()) return "nosync";
  counts[ASYNC]++;
  while ((header = next_byte()) >= 0) {
    enum kind kind = packet(header);
    if (kind == CUT) return "cut";
    if (kind == FAULT) return "fault";
    add(header);
    counts[kind]++;
  }
  return "end";
}

int main(void) {
  const char *end = read_stream();
  uint64_t all = 0;
  for (int kind = 0; kind < KINDS; kind++) all += counts[kind];
  printf("%" PRIu64 " %s %016" PRIx64 "\n", all, end, digest);
  for (int kind = 0; kind < KINDS; kind++)
    if (counts[kind] > 0) printf("%s %" PRIu64 "\n", names[kind], counts[kind]);
  return 0;
}
