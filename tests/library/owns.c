/* Draws accesses to registers of an endpoint, and has two fabrics do them: in one another endpoint asks by packets, in the other
   the endpoint itself by calls. Both tell the same, and what either writes the other way reads.
   usage: owns SEED ACCESSES */
#include "kigvarp.h"
#include <stdio.h>
#include <stdlib.h>
#include <string.h>

static const char *const LINES[] = {"endpoint H 0", "endpoint A 1", "endpoint B 2", "switch S 4", "link H.0 S.0",
                                    "link A.0 S.1", "link B.0 S.2", "route S 0 0", "route S 1 1", "route S 2 2",
                                    "large A 258", "default S 1", "serve all", "quiet"};

static struct kigvarp_fabric by_packets, by_itself;
static struct kigvarp_own it;
static unsigned long kinds[KIGVARP_NOT_ASKED + 1];
static uint64_t state;

static uint32_t chance(uint32_t below) {
  state ^= state << 13, state ^= state >> 7, state ^= state << 17;
  return (uint32_t)((state >> 11) % below);
}

static void want(int well, const char *what) {
  if (well) return;
  printf("not so: %s: %s of %06x, %08x\n", what, it.write ? "write" : "read", it.offset, it.value);
  exit(1);
}

static struct kigvarp_own drawn(void) {
  static const uint32_t offsets[] = {0, 4, 8, 0xc, 0x10, 0x14, 0x34, 0x60, 0x68, 0x69, 0x6c, 0x70, 0x74, 0x100, 0x158, 0x178};
  struct kigvarp_own own = {.write = (uint8_t)chance(3), .value = chance(2) ? chance(3) : (uint32_t)state};
  own.offset = chance(8) ? offsets[chance(sizeof offsets / sizeof *offsets)] : chance(1 << 24);
  if (own.offset == 0x60) own.write = 0;
  return own;
}

/* The same access by the host H, over the switch. */
static struct kigvarp_reply packets(struct kigvarp_fabric *fabric, struct kigvarp_own own) {
  static uint8_t tid;
  struct kigvarp_ask ask = {.hop = 255, .tid = tid++, .dest = 1, .write = own.write, .offset = own.offset, .value = own.value};
  struct kigvarp_reply reply = {7, 7};
  want(kigvarp_fabric_ask(fabric, (const uint8_t *)"H", 1, &ask, &reply) == KIGVARP_OK, "the host asks");
  return reply;
}

static struct kigvarp_reply itself(struct kigvarp_fabric *fabric, struct kigvarp_own own) {
  struct kigvarp_reply reply = {7, 7};
  want(kigvarp_fabric_own(fabric, (const uint8_t *)"A", 1, &own, &reply) == KIGVARP_OK, "the node does it");
  return reply;
}

static int same(struct kigvarp_reply one, struct kigvarp_reply other) {
  return one.kind == other.kind && one.value == other.value;
}

/* Both tell the same, and a read the other way in each fabric does. */
static void accesses(void) {
  it = drawn();
  struct kigvarp_reply reply = packets(&by_packets, it);
  kinds[reply.kind]++;
  want(same(reply, itself(&by_itself, it)), "both tell the same");
  struct kigvarp_own read = {.offset = it.offset};
  want(same(itself(&by_packets, read), packets(&by_itself, read)), "both have the same then");
}

/* Other endpoints keep theirs. */
static void others(void) {
  struct kigvarp_own read = {.offset = 0x6c};
  struct kigvarp_reply reply = {7, 7};
  want(kigvarp_fabric_own(&by_itself, (const uint8_t *)"B", 1, &read, &reply) == KIGVARP_OK, "another reads its tag");
  want(reply.kind == KIGVARP_VALUE && !reply.value, "which nobody wrote");
}

/* A node with another ID gets the packets to it. */
static void numbered(void) {
  struct kigvarp_own own = {1, 0x60, 9 << 16}, read = {.offset = 0x60};
  it = own;
  want(itself(&by_itself, own).kind == KIGVARP_WRITTEN, "an ID is written");
  struct kigvarp_reply reply = packets(&by_itself, read);
  want(reply.kind == KIGVARP_VALUE && reply.value == (9 << 16 | 258), "and read by packets");
}

int main(int count, char **words) {
  if (count != 3) return 2;
  state = (uint64_t)atoll(words[1]) * 0x9e3779b97f4a7c15u | 1;
  struct kigvarp_fabric *const both[] = {&by_packets, &by_itself};
  for (int i = 0; i < 2; i++) {
    want(!kigvarp_fabric_open(both[i]), "a fabric opens");
    for (size_t at = 0; at < sizeof LINES / sizeof *LINES; at++)
      want(!kigvarp_fabric_line(both[i], (const uint8_t *)LINES[at], strlen(LINES[at])), LINES[at]);
  }
  for (long i = 0; i < atol(words[2]); i++) accesses();
  others(), numbered();
  for (int i = 0; i < 2; i++) want(!kigvarp_fabric_close(both[i]), "a fabric closes");
  for (int kind = KIGVARP_VALUE; kind <= KIGVARP_NOT_DONE; kind++) want(kinds[kind], "each kind was told");
  printf("%lu read, %lu written, %lu not done\n", kinds[1], kinds[2], kinds[3]);
  return 0;
}
