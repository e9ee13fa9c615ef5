/* The sizes and places that the library has: numbers for the compiler, and each field by what a call writes or reads there.
   Nothing is written beside a struct. The packet's bytes are those of the standard's format. */
#include "kigvarp.h"
#include <stdio.h>
#include <string.h>

#define IS(what, number) _Static_assert((what) == (number), #what)
#define AT(type, field, place) IS(offsetof(struct kigvarp_##type, field), place)

IS(sizeof(struct kigvarp_port), 2 * sizeof(void *));
IS(sizeof(struct kigvarp_fabric), 2 * sizeof(void *));
IS(sizeof(struct kigvarp_char_did), 20);
IS(sizeof(struct kigvarp_run_did), 12);
IS(sizeof(struct kigvarp_clocks_did), 16);
IS(sizeof(struct kigvarp_header), 8);
IS(sizeof(struct kigvarp_state), 16);
IS(sizeof(struct kigvarp_checker), 2 * sizeof(void *));
IS(sizeof(struct kigvarp_symbol), 5);
IS(sizeof(struct kigvarp_event), 296);
IS(sizeof(struct kigvarp_reading), 8);
IS(sizeof(struct kigvarp_packet), 8);
IS(sizeof(struct kigvarp_hit), 8);
IS(sizeof(struct kigvarp_ask), 16);
IS(sizeof(struct kigvarp_own), 12);
IS(sizeof(struct kigvarp_reply), 8);
IS(sizeof(kigvarp_char), 2);
AT(port, at, 0); AT(port, open, sizeof(void *));
AT(fabric, at, 0); AT(fabric, open, sizeof(void *));
AT(char_did, held, 0); AT(char_did, freed, 4); AT(char_did, sent, 8); AT(char_did, chars, 12);
AT(run_did, held, 0); AT(run_did, freed, 4); AT(run_did, sent, 8);
AT(clocks_did, clocks, 0); AT(clocks_did, held, 4); AT(clocks_did, freed, 8); AT(clocks_did, fired, 12);
AT(header, prio, 0); AT(header, ftype, 1); AT(header, large, 2); AT(header, source, 4); AT(header, dest, 6);
AT(checker, at, 0); AT(checker, open, sizeof(void *));
AT(symbol, stype0, 0); AT(symbol, parameter0, 1); AT(symbol, parameter1, 2); AT(symbol, stype1, 3); AT(symbol, cmd, 4);
AT(event, place, 0); AT(event, kind, 4); AT(event, length, 8); AT(event, symbol, 12); AT(event, ack, 17); AT(event, cause, 18);
AT(event, bytes, 19);
AT(reading, events, 0); AT(reading, cut, 4);
AT(packet, ack, 0); AT(packet, prio, 1); AT(packet, tt, 2); AT(packet, ftype, 3); AT(packet, source, 4); AT(packet, dest, 6);
AT(hit, line, 0); AT(hit, reason, 4);
AT(ask, prio, 0); AT(ask, hop, 1); AT(ask, tid, 2); AT(ask, large, 3); AT(ask, write, 4); AT(ask, dest, 6); AT(ask, offset, 8);
AT(ask, value, 12);
AT(own, write, 0); AT(own, offset, 4); AT(own, value, 8);
AT(reply, kind, 0); AT(reply, value, 4);
AT(state, output, 0); AT(state, input, 4); AT(state, outstanding, 8); AT(state, waiting, 12);

enum { GUARD = 0x5a5a5a5a };

static int failed;

static void want(int well, const char *what) {
  if (well) return;
  printf("not so: %s\n", what);
  failed = 1;
}

static struct { uint32_t before; struct kigvarp_port it; uint32_t behind; } a = {GUARD, {0}, GUARD}, b = {GUARD, {0}, GUARD};
static struct { uint32_t before; struct kigvarp_char_did it; uint32_t behind; } did = {GUARD, {0}, GUARD};
static struct { uint32_t before; struct kigvarp_run_did it; uint32_t behind; } run = {GUARD, {0}, GUARD};
static struct { uint32_t before; struct kigvarp_clocks_did it; uint32_t behind; } clocks = {GUARD, {0}, GUARD};
static struct { uint32_t before; struct kigvarp_state it; uint32_t behind; } told = {GUARD, {0}, GUARD};

#define KEPT(it) ((it).before == GUARD && (it).behind == GUARD)

static kigvarp_char burst[KIGVARP_TURN];
static size_t count;

/* Priority 2 and large IDs: 10 01 1011, and then destination before source. */
static void header(void) {
  struct kigvarp_header it = {2, 11, 1, 0x1234, 0xabcd};
  static const uint8_t rest[4] = {0xca, 0xfe, 0, 1};
  static const kigvarp_char packet[] = {0x00, 0x9b, 0xab, 0xcd, 0x12, 0x34, 0xca, 0xfe, 0x00, 0x01};
  want(kigvarp_port_send(&a.it, &it, rest, 4) == KIGVARP_OK, "a packet is put");
  want(kigvarp_port_turn(&a.it, burst, KIGVARP_TURN, &count) == KIGVARP_OK && count == 20, "it is sent");
  want(burst[0] == 0x17c && !memcmp(burst + 4, packet, sizeof packet) && burst[16] == 0x17c, "with its fields");
}

/* The last character of a packet holds it and is answered, which frees it. */
static void characters(void) {
  for (size_t i = 0; i < count; i++) want(kigvarp_port_take(&b.it, burst[i], &did.it) == KIGVARP_OK, "a character is taken");
  want(did.it.held == 12 && did.it.freed == 0 && did.it.sent == 4, "it is held");
  want(did.it.chars[0] == 0x11c && did.it.chars[1] == 0 && did.it.chars[2] == 0xff, "and accepted");
  struct kigvarp_char_did was = did.it;
  for (int i = 0; i < 4; i++) want(kigvarp_port_take(&a.it, was.chars[i], &did.it) == KIGVARP_OK, "an answer is taken");
  want(did.it.held == 0 && did.it.freed == 1 && did.it.sent == 0 && did.it.chars[0] == 0, "it is freed");
}

/* The same by runs. */
static void runs(void) {
  kigvarp_char answers[4 * KIGVARP_TURN], none[16];
  struct kigvarp_header it = {0, 11, 0, 1, 2};
  want(kigvarp_port_send(&a.it, &it, (const uint8_t *)"\0\1", 2) == KIGVARP_OK, "one more is put");
  want(kigvarp_port_turn(&a.it, burst, KIGVARP_TURN, &count) == KIGVARP_OK, "it is sent");
  want(kigvarp_port_got(&b.it, burst, count, answers, 4 * count, &run.it) == KIGVARP_OK, "a run is taken");
  want(run.it.held == 1 && run.it.freed == 0 && run.it.sent == 4, "it is held");
  want(kigvarp_port_got(&a.it, answers, 4, none, 16, &run.it) == KIGVARP_OK, "the answer is taken");
  want(run.it.held == 0 && run.it.freed == 1 && run.it.sent == 0, "it is freed");
}

/* By clocks: three packets of 20 characters are held in 62 clocks, and the answer to the third ends behind them. */
static void by_clocks(void) {
  struct kigvarp_port near = {0}, far = {0};
  kigvarp_char given[62], back[62], idles[62];
  struct kigvarp_header it = {0, 11, 0, 1, 2};
  const uint8_t *rest = (const uint8_t *)"\0\1\2\3";
  for (int i = 0; i < 62; i++) idles[i] = 0x1bc;
  want(kigvarp_port_open(&near, 8, 0) == KIGVARP_OK && kigvarp_port_open(&far, 8, 0) == KIGVARP_OK, "two ports open");
  for (int i = 0; i < 3; i++) want(kigvarp_port_send(&near, &it, rest, 4) == KIGVARP_OK, "three are put");
  want(kigvarp_port_clock(&near, idles, 62, given, 62, &clocks.it) == KIGVARP_OK && clocks.it.clocks == 62, "62 clocks");
  want(given[0] == 0x17c && given[20] == 0x17c && given[60] == 0x1bc && given[61] == 0x1bc, "three packets and idles");
  want(kigvarp_port_clock(&far, given, 62, back, 62, &clocks.it) == KIGVARP_OK && clocks.it.held == 3, "three are held");
  want(back[19] == 0x11c && back[39] == 0x11c && back[59] == 0x11c, "and accepted");
  want(kigvarp_port_clock(&near, back, 62, given, 62, &clocks.it) == KIGVARP_OK && clocks.it.freed == 2, "two are freed");
  want(kigvarp_port_clock(&far, idles, 1, back, 1, &clocks.it) == KIGVARP_OK && clocks.it.clocks == 1, "one clock more");
  want(kigvarp_port_clock(&near, back, 1, given, 1, &clocks.it) == KIGVARP_OK && clocks.it.freed == 1, "the third is freed");
  want(kigvarp_port_patience(&near, 2) == KIGVARP_OK && kigvarp_port_send(&near, &it, rest, 4) == KIGVARP_OK, "a fourth");
  want(kigvarp_port_clock(&near, idles, 20, given, 20, &clocks.it) == KIGVARP_OK && !clocks.it.fired, "it is given");
  want(kigvarp_port_clock(&near, idles, 2, given, 2, &clocks.it) == KIGVARP_OK && clocks.it.fired == 1, "and has no answer");
  want(kigvarp_port_close(&near) == KIGVARP_OK && kigvarp_port_close(&far) == KIGVARP_OK, "they close");
}

static void state(void) {
  struct kigvarp_header it = {0, 11, 0, 1, 2};
  for (int i = 0; i < 3; i++) want(kigvarp_port_send(&a.it, &it, (const uint8_t *)"\0\1", 2) == KIGVARP_OK, "three are put");
  for (int i = 0; i < 2; i++) kigvarp_port_turn(&a.it, burst, KIGVARP_TURN, &count);
  kigvarp_port_take(&a.it, 0x17c, &did.it);
  kigvarp_port_take(&a.it, 0x17c, &did.it);
  kigvarp_port_time_out(&a.it);
  want(kigvarp_port_state(&a.it, &told.it) == KIGVARP_OK, "the state is told");
  want(told.it.output == 2 && told.it.input == 2 && told.it.outstanding == 2 && told.it.waiting == 1, "field by field");
}

static struct { uint32_t before; struct kigvarp_event it[3]; uint32_t behind; } said = {GUARD, {{0}}, GUARD};
static struct { uint32_t before; struct kigvarp_reading it; uint32_t behind; } reading = {GUARD, {0}, GUARD};
static struct { uint32_t before; struct kigvarp_symbol it; uint32_t behind; } symbol = {GUARD, {0}, GUARD};
static struct { uint32_t before; struct kigvarp_packet it; uint32_t behind; } packet = {GUARD, {0}, GUARD};
static struct { uint32_t before; struct kigvarp_checker it; uint32_t behind; } checker = {GUARD, {0}, GUARD};
static struct { uint32_t before; struct kigvarp_hit it; uint32_t behind; } hit = {GUARD, {0}, GUARD};

/* packet-not-accepted, which expects ackID 3, with cause 5: 010 00011, 00101 111, 000 and the CRC. */
static void symbols(void) {
  struct kigvarp_symbol is = {2, 3, 5, 7, 0};
  kigvarp_char chars[4];
  want(kigvarp_symbol_write(&is, chars, 4) == KIGVARP_OK, "a symbol is written");
  want(chars[0] == 0x11c && chars[1] == 0x43 && chars[2] == 0x2f && chars[3] < 32, "field by field");
  want(kigvarp_symbol_read(chars, 4, &symbol.it) == KIGVARP_OK && !memcmp(&symbol.it, &is, sizeof is), "and read back");
  want(kigvarp_decode(chars, 4, said.it, 1, &reading.it) == KIGVARP_OK && reading.it.events == 1, "it is one event");
  want(said.it[0].kind == KIGVARP_IS_SYMBOL && said.it[0].place == 3 && !memcmp(&said.it[0].symbol, &is, sizeof is), "a symbol");
  chars[3] ^= 1;
  want(kigvarp_symbol_read(chars, 4, &symbol.it) == KIGVARP_BAD, "a wrong bit is seen");
  want(kigvarp_decode(chars, 4, said.it, 1, &reading.it) == KIGVARP_OK && said.it[0].kind == KIGVARP_IS_BAD, "it is bad");
  want(said.it[0].cause == 2 && said.it[0].symbol.stype0 == 0 && said.it[0].length == 0, "by its CRC");
  want(kigvarp_decode(chars, 2, said.it, 1, &reading.it) == KIGVARP_OK && !reading.it.events && reading.it.cut == 1, "cut");
}

/* AckID 21, priority 1, large IDs: 10101 0 00, 01 01 1011, and then destination before source. */
static void packets(void) {
  static const uint8_t front[] = {0xa8, 0x5b, 0xab, 0xcd, 0x12, 0x34, 0xca, 0xfe};
  struct kigvarp_header it = {1, 11, 1, 0x1234, 0xabcd};
  uint8_t bytes[KIGVARP_PACKET];
  want(kigvarp_packet_write(&it, 21, front + 6, 2, bytes, KIGVARP_PACKET, &count) == KIGVARP_OK && count == 12, "a packet");
  want(!memcmp(bytes, front, sizeof front), "with its fields");
  want(kigvarp_packet_read(bytes, count, &packet.it) == KIGVARP_OK && packet.it.ack == 21 && packet.it.prio == 1, "read back");
  want(packet.it.tt == 1 && packet.it.ftype == 11 && packet.it.source == 0x1234 && packet.it.dest == 0xabcd, "field by field");
  bytes[7] ^= 1;
  want(kigvarp_packet_read(bytes, count, &packet.it) == KIGVARP_BAD, "a wrong bit is seen");
}

/* What a port sends for a packet is three events, of which the room has the first two. */
static void events(void) {
  kigvarp_char answers[4 * KIGVARP_TURN], none[16];
  struct kigvarp_header it = {0, 11, 0, 1, 2};
  want(kigvarp_port_send(&a.it, &it, (const uint8_t *)"\0\1", 2) == KIGVARP_OK, "one is put");
  want(kigvarp_port_turn(&a.it, burst, KIGVARP_TURN, &count) == KIGVARP_OK && count == 16, "it is sent");
  want(kigvarp_decode(burst, count, said.it, 2, &reading.it) == KIGVARP_OK && reading.it.events == 3 && !reading.it.cut, "read");
  want(said.it[0].kind == KIGVARP_IS_SYMBOL && said.it[0].symbol.stype1 == 0, "a start-of-packet");
  want(said.it[1].kind == KIGVARP_IS_PACKET && said.it[1].place == 15 && said.it[1].length == 8, "a packet");
  want(!memcmp(said.it[1].bytes, "\0\13\2\1\0\1", 6) && !said.it[1].bytes[8] && said.it[1].ack == 2, "with its bytes");
  want(said.it[2].kind == 0, "and no third");
  want(kigvarp_port_got(&b.it, burst, count, answers, 4 * count, &run.it) == KIGVARP_OK && run.it.held == 1, "it is held");
  want(kigvarp_port_got(&a.it, answers, run.it.sent, none, 16, &run.it) == KIGVARP_OK && run.it.freed == 1, "and freed");
}

static uint32_t takes(const char *line) {
  return kigvarp_checker_take(&checker.it, (const uint8_t *)line, strlen(line), &hit.it);
}

static void checks(void) {
  static const char set_up[] = "endpoint A 1\nendpoint B 2\nlink A.0 B.0\n", refused[] = "endpoint A 1\nendpoint A 2\n";
  uint32_t steps = GUARD;
  want(kigvarp_checker_open(&checker.it, (const uint8_t *)refused, sizeof refused - 1, &hit.it) == KIGVARP_REFUSED, "refused");
  want(hit.it.line == 2 && hit.it.reason && !checker.it.open, "the second line");
  want(kigvarp_checker_open(&checker.it, (const uint8_t *)set_up, sizeof set_up - 1, &hit.it) == KIGVARP_OK, "a checker opens");
  want(takes("take A 000f0201cafe0001a9bb0000") == KIGVARP_OK && !hit.it.line && !hit.it.reason, "a line is lawful");
  want(takes("end") == KIGVARP_OK, "the last one");
  want(kigvarp_checker_end(&checker.it, &hit.it, &steps) == KIGVARP_OK && steps == 1, "one step");
  want(takes("end") == KIGVARP_SPENT && kigvarp_checker_close(&checker.it) == KIGVARP_OK, "and it has ended");
  want(kigvarp_checker_open(&checker.it, (const uint8_t *)set_up, sizeof set_up - 1, &hit.it) == KIGVARP_OK, "it opens again");
  want(takes("got B.0 k7c") == KIGVARP_UNLAWFUL && hit.it.line == 1 && hit.it.reason == 22, "the first line is hit");
  want(takes("end") == KIGVARP_SPENT && !hit.it.line && kigvarp_checker_close(&checker.it) == KIGVARP_OK, "and no other");
}

int main(void) {
  want(kigvarp_port_open(&a.it, 8, 0) == KIGVARP_OK && kigvarp_port_open(&b.it, 8, 0) == KIGVARP_OK, "two ports open");
  want(a.it.open == 1 && a.it.at && b.it.at != a.it.at, "open is 1");
  header();
  characters();
  runs();
  by_clocks();
  symbols();
  packets();
  events();
  checks();
  state();
  want(KEPT(a) && KEPT(b) && KEPT(did) && KEPT(run) && KEPT(clocks) && KEPT(told), "nothing is written beside");
  want(KEPT(said) && KEPT(reading) && KEPT(symbol) && KEPT(packet) && KEPT(checker) && KEPT(hit), "nor there");
  want(kigvarp_port_close(&a.it) == KIGVARP_OK && kigvarp_port_close(&b.it) == KIGVARP_OK, "they close");
  want(a.it.open == 0 && !a.it.at && KEPT(a), "open is 0");
  return failed;
}
