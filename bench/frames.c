/* The work of crates/frame_speed as plain C loops, to be timed beside it. Words: unframe N or frame N. */
#include <inttypes.h>
#include <stdint.h>
#include <stdio.h>
#include <stdlib.h>
#include <string.h>

enum { FRAME = 16, RUN = 8, NO_ID = 0x80 };

static uint64_t state = 1, count, digest;

static uint8_t next_byte(void) {
  state = state * 6364136223846793005u + 1442695040888963407u;
  return (uint8_t)(state >> 56);
}

static void add(uint8_t byte) { digest = digest * 31 + byte; }

static void add_pair(uint8_t id, uint8_t byte) {
  if (id == NO_ID) return;
  add(id);
  add(byte);
  count++;
}

static void unframe(uint64_t frames) {
  uint8_t current = NO_ID;
  for (uint64_t n = 0; n < frames; n++) {
    uint8_t frame[FRAME];
    for (int i = 0; i < FRAME; i++) frame[i] = next_byte();
    uint8_t bits = frame[15];
    for (int i = 0; i < 15; i += 2, bits >>= 1) {
      uint8_t mixed = frame[i];
      if (!(mixed & 1)) {
        add_pair(current, mixed | (bits & 1));
        if (i < 14) add_pair(current, frame[i + 1]);
      } else if (i < 14 && (bits & 1)) {
        add_pair(current, frame[i + 1]);
        current = mixed >> 1;
      } else {
        current = mixed >> 1;
        if (i < 14) add_pair(current, frame[i + 1]);
      }
    }
  }
}

static uint8_t frame[FRAME];
static int place;

static void write_frame(void) {
  for (int i = 0; i < FRAME; i++) add(frame[i]);
  count += FRAME;
  memset(frame, 0, FRAME);
  place = 0;
}

static void put_data(uint8_t byte) {
  if (place % 2) {
    frame[place] = byte;
  } else {
    frame[place] = byte & 0xfe;
    frame[15] |= (byte & 1) << place / 2;
  }
  if (++place == 15) write_frame();
}

static void put_id(uint8_t id) {
  if (place % 2) {
    int before = place - 1;
    frame[place] = frame[before] | (frame[15] >> before / 2 & 1);
    frame[before] = id << 1 | 1;
    frame[15] |= 1 << before / 2;
  } else {
    frame[place] = id << 1 | 1;
  }
  if (++place == 15) write_frame();
}

static void frame_bytes(uint64_t bytes) {
  uint8_t current = NO_ID, id = 1 + next_byte() % 111;
  for (uint64_t n = 0; n < bytes; n++) {
    if (n % RUN == 0) id = 1 + next_byte() % 111;
    uint8_t byte = next_byte();
    if (id != current) put_id(id);
    current = id;
    put_data(byte);
  }
  if (place != 0) {
    put_id(0);
    while (place != 0) put_data(0);
  }
}

int main(int argc, char **argv) {
  uint64_t bytes = (uint64_t)(argc > 2 ? atoi(argv[2]) : 1) << 20;
  if (argc > 1 && strcmp(argv[1], "frame") == 0)
    frame_bytes(bytes);
  else
    unframe(bytes / FRAME);
  printf("%" PRIu64 " %016" PRIx64 "\n", count, digest);
  return 0;
}
