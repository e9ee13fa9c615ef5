/* Joins two ports by a noisy wire, and checks that what leaves at the one is what was sent at the other, in order, with
   characters one by one or in runs. A port reports as many packets held as leave.
   usage: wire PACKETS SEED NOISE RUNS    NOISE: one character in so many is another, 0 for none; RUNS: 1, or 0 for
   characters one by one */
#include "kigvarp.h"
#include <stdio.h>
#include <stdlib.h>
#include <string.h>
#include <time.h>

enum { WIRE = 1 << 14, WINDOW = 12 };

static struct kigvarp_port ports[2];
static kigvarp_char wire[2][WIRE], answers[KIGVARP_ANSWER * WIRE];
static size_t length[2];
static unsigned long characters, held;
static uint32_t state, noise;
static int runs;

static uint32_t chance(uint32_t below) {
  state ^= state << 13, state ^= state >> 17, state ^= state << 5;
  return state % below;
}

static void want(int well, const char *what) {
  if (well) return;
  printf("not so: %s\n", what);
  exit(1);
}

static kigvarp_char disturbed(kigvarp_char c) {
  if (!noise || chance(noise)) return c;
  return c < 256 && chance(2) ? (kigvarp_char)(c ^ 1u << chance(8)) : 512;
}

/* Puts characters of an end on its wire. */
static void put(int end, const kigvarp_char *chars, size_t count) {
  want(length[end] + count <= WIRE, "there is room on the wire");
  for (size_t i = 0; i < count; i++) wire[end][length[end]++] = disturbed(chars[i]);
}

static void turn(int end) {
  kigvarp_char out[KIGVARP_TURN];
  size_t count;
  want(kigvarp_port_turn(&ports[end], out, KIGVARP_TURN, &count) == KIGVARP_OK, "a turn is taken");
  put(end, out, count);
}

/* Has the far end take what is on the wire of an end. */
static void deliver(int end) {
  static kigvarp_char got[WIRE];
  size_t count = length[end];
  memcpy(got, wire[end], count * sizeof *got);
  length[end] = 0, characters += count;
  if (runs) {
    struct kigvarp_run_did did;
    want(kigvarp_port_got(&ports[!end], got, count, answers, KIGVARP_ANSWER * count, &did) == KIGVARP_OK, "a run is taken");
    held += did.held;
    put(!end, answers, did.sent);
    return;
  }
  for (size_t i = 0; i < count; i++) {
    struct kigvarp_char_did did;
    want(kigvarp_port_take(&ports[!end], got[i], &did) == KIGVARP_OK, "a character is taken");
    held += did.held != 0;
    put(!end, did.chars, did.sent);
  }
}

static long send(long sent, long packets, long left) {
  struct kigvarp_header header = {0, 15, 0, 1, 2};
  uint8_t rest[80] = {0};
  uint32_t number = (uint32_t)sent;
  if (sent == packets || sent - left == WINDOW) return sent;
  memcpy(rest, &number, sizeof number);
  return sent + (kigvarp_port_send(&ports[0], &header, rest, 4 + 2 * chance(38)) == KIGVARP_OK);
}

static long collect(long left) {
  uint8_t packet[KIGVARP_PACKET];
  size_t count;
  uint32_t number;
  while (kigvarp_port_collect(&ports[1], packet, sizeof packet, &count) == KIGVARP_OK) {
    memcpy(&number, packet + 4, sizeof number);
    want(count >= 12 && number == (uint32_t)left++, "the next packet leaves");
  }
  return left;
}

/* The time-out comes at ends that wait, and now and then without need. */
static void time_out(long round) {
  struct kigvarp_state told;
  for (int end = 0; end < 2 && round % 8 == 0; end++) {
    want(kigvarp_port_state(&ports[end], &told) == KIGVARP_OK, "the state is told");
    if (told.output == 2 || round % 64 == 0) want(kigvarp_port_time_out(&ports[end]) == KIGVARP_OK, "a time-out is taken");
  }
}

int main(int count, char **words) {
  want(count == 5, "usage: wire PACKETS SEED NOISE RUNS");
  long packets = atol(words[1]), sent = 0, left = 0;
  state = (uint32_t)atol(words[2]) * 2654435761u | 1, noise = (uint32_t)atol(words[3]), runs = atoi(words[4]);
  for (int end = 0; end < 2; end++) want(kigvarp_port_open(&ports[end], end ? 9 : 6, 0) == KIGVARP_OK, "a port opens");
  clock_t begun = clock();
  for (long round = 1; left < packets && round < packets * 100; round++) {
    sent = send(sent, packets, left);
    for (int end = 0; end < 2; end++) turn(end);
    for (int i = 0; i < 8; i++) deliver(i % 2);
    left = collect(left);
    time_out(round);
  }
  double seconds = (double)(clock() - begun) / CLOCKS_PER_SEC;
  for (int end = 0; end < 2; end++) want(kigvarp_port_close(&ports[end]) == KIGVARP_OK, "a port closes");
  printf("%ld of %ld packets left in order, %lu characters, %.1f million a second\n", left, sent, characters,
         (double)characters / seconds / 1e6);
  return left == packets && held == (unsigned long)left ? 0 : 1;
}
