/* Draws calls of all functions of the library for some seconds, with drawn arguments: lines that are harmed, characters of one
   port to another, rooms of any length. What a call reads and writes ends where memory ends that must not be touched, so that
   one place too far ends the program. Checked are the statuses, that no count passes its room, that nothing is written behind a
   count, and that a closed handle says so.
   usage: fuzz SECONDS SEED */
#define _DEFAULT_SOURCE
#include "kigvarp.h"
#include <stdio.h>
#include <stdlib.h>
#include <string.h>
#include <sys/mman.h>
#include <time.h>
#include <unistd.h>

enum { AREA = 1 << 20, CHARS = 600, EVENTS = 40, LINE = 200, MARK = 0xa5 };

static const char *const LINES[] = {
    "endpoint A 1", "endpoint B 2", "switch S 4 0 1 2 3", "link A.0 B.0", "link A.0 S.0", "link B.0 S.1", "route S 1 0",
    "route S 2 1", "stop", "send A 0 15 2 cafe0001", "send 0 15 1 2 cafe0001", "collect B", "run 5", "settle A.0", "turn 3",
    "state", "take", "timeout", "got k1c d00 dff d16", "alter A.0 0 k7c", "insert B.0 0 d00", "erase A.0 1", "fire A.0", "end",
    "take A 000f0201cafe0001a9bb0000", "sent A.0 k7c d80 df8 d1f", "got B.0 k7c d80", "hold B.0 000f0201cafe0001a9bb0000",
    "free A 000f0201cafe0001a9bb0000", "leave B 000f0201cafe0001a9bb0000", "> run 1", "short", "read A 0 2 0 1 0",
    "write A 0 2 0 1 000068 00000001", "noise A.0 100 1", "hold A.0", "discover A", "own A 000000", "", "# a remark", "---",
    "quiet", "loud", "serve all", "serve B", "ask read A 0 2 255 7 000068", "ask write B 0 1 255 8 00006c 0000beef", "ask run 1"};

static uint64_t state;
static struct kigvarp_port ports[2];
static struct kigvarp_fabric fabric;
static struct kigvarp_checker checker;
static uint8_t *areas[4];
static kigvarp_char wire[2][CHARS];
static size_t on_wire[2];
static const char *name;
static unsigned long calls;

static uint32_t chance(uint32_t below) {
  state ^= state << 13, state ^= state >> 7, state ^= state << 17;
  return (uint32_t)((state >> 11) % below);
}

static void want(int well, const char *what) {
  if (well) return;
  printf("call %lu, %s: not so: %s\n", calls, name, what);
  exit(1);
}

/* So many bytes, behind which nothing may be touched. */
static void *edge(int area, size_t size) {
  memset(areas[area] + AREA - size, MARK, size);
  return areas[area] + AREA - size;
}

static void are_marks(const void *from, size_t size) {
  for (size_t i = 0; i < size; i++) want(((const uint8_t *)from)[i] == MARK, "nothing is written behind a count");
}

static size_t drawn_length(size_t most) { return chance(4) ? chance((uint32_t)most + 1) : most - chance(3) % (most + 1); }

/* A line, of which one in three is harmed. */
static const uint8_t *drawn_line(size_t *length) {
  char text[LINE];
  const char *line = LINES[chance(sizeof LINES / sizeof *LINES)];
  *length = strlen(line);
  memcpy(text, line, *length);
  for (uint32_t harms = chance(3) ? 0 : 1 + chance(3); harms; harms--) {
    uint32_t kind = chance(3);
    char other = (char)(chance(4) ? "0123 .ABdfk-"[chance(12)] : (char)chance(256));
    if (kind == 0 && *length) text[chance((uint32_t)*length)] = other;
    if (kind == 1 && *length) *length = chance((uint32_t)*length);
    if (kind == 2 && *length + 4 < LINE) memcpy(text + *length, " 17\n", 4), *length += 1 + chance(4);
  }
  return memcpy(edge(0, *length), text, *length);
}

static kigvarp_char drawn_char(void) {
  static const kigvarp_char likely[] = {0x11c, 0x17c, 0x1bc, 0x1fd, 0x1fb, 0x200, 0, 0x80, 0xff};
  return chance(2) ? likely[chance(9)] : (kigvarp_char)chance(chance(8) ? 0x201 : 0x10000);
}

/* Characters that a port sent, some of them harmed, or any. */
static const kigvarp_char *drawn_chars(int from, size_t *count) {
  int any = chance(3) == 0;
  *count = any ? chance(CHARS / 4) : on_wire[from];
  kigvarp_char *chars = edge(0, *count * sizeof *chars);
  for (size_t i = 0; i < *count; i++) chars[i] = any || chance(200) == 0 ? drawn_char() : wire[from][i];
  if (!any) on_wire[from] = 0;
  return chars;
}

static void put(int end, const kigvarp_char *chars, size_t count) {
  for (size_t i = 0; i < count && on_wire[end] < CHARS; i++) wire[end][on_wire[end]++] = chars[i];
}

static uint32_t is(const char *call, uint32_t status) {
  name = call, calls++;
  want(status <= KIGVARP_REFUSED, "the status is one of them");
  return status;
}

static void is_closed(int open, uint32_t status) {
  want((status == KIGVARP_CLOSED) == !open, "closed is said of what is closed");
}

static struct kigvarp_header drawn_header(void) {
  int wild = chance(6) == 0;
  struct kigvarp_header it = {(uint8_t)chance(4 + wild), (uint8_t)chance(16 + wild), (uint8_t)(chance(4) == 0), 0, 0};
  uint32_t most = it.large || wild ? 65536 : 256;
  it.source = (uint16_t)chance(most), it.dest = (uint16_t)chance(most);
  return it;
}

static void port_characters(int end) {
  size_t count, room;
  struct kigvarp_char_did *did = edge(1, sizeof *did);
  struct kigvarp_run_did *run = edge(2, sizeof *run);
  int open = ports[end].open != 0;
  if (chance(2)) {
    uint32_t status = is("port_take", kigvarp_port_take(&ports[end], drawn_char(), did));
    is_closed(open, status);
    if (!open) return;
    want(status == KIGVARP_OK && did->sent <= KIGVARP_ANSWER && did->held <= KIGVARP_PACKET, "counts are within bounds");
    put(end, did->chars, did->sent);
    return;
  }
  const kigvarp_char *chars = drawn_chars(!end, &count);
  room = chance(4) ? KIGVARP_ANSWER * count : drawn_length(KIGVARP_ANSWER * count + 4);
  kigvarp_char *out = edge(3, room * sizeof *out);
  uint32_t status = is("port_got", kigvarp_port_got(&ports[end], chars, count, out, room, run));
  is_closed(open, status);
  want(status == KIGVARP_OK || (room >= KIGVARP_ANSWER * count ? !open : 1), "a run with room is taken");
  if (status != KIGVARP_OK) run->sent = 0;
  want(run->sent <= room, "the answers have room");
  are_marks(out + run->sent, (room - run->sent) * sizeof *out);
  put(end, out, run->sent);
}

static void port_clocks(int end) {
  size_t count;
  struct kigvarp_clocks_did *did = edge(1, sizeof *did);
  const kigvarp_char *chars = drawn_chars(!end, &count);
  size_t room = chance(4) ? count : drawn_length(count + 4);
  kigvarp_char *out = edge(3, room * sizeof *out);
  uint32_t status = is("port_clock", kigvarp_port_clock(&ports[end], chars, count, out, room, did));
  is_closed(ports[end].open != 0, status);
  want(status == KIGVARP_OK || room < count || !ports[end].open, "clocks with room are done");
  if (status == KIGVARP_OK) want(did->clocks == count && did->held <= count && did->fired <= count, "counts are within bounds");
  size_t given = status == KIGVARP_OK ? count : 0;
  are_marks(out + given, (room - given) * sizeof *out);
  put(end, out, given);
  if (chance(8) == 0) is_closed(ports[end].open != 0, is("port_patience", kigvarp_port_patience(&ports[end], chance(30))));
}

static void port_turns(int end) {
  size_t *count = edge(1, sizeof *count), room = drawn_length(KIGVARP_TURN + 8);
  kigvarp_char *out = edge(2, room * sizeof *out);
  uint32_t status = is("port_turn", kigvarp_port_turn(&ports[end], out, room, count));
  is_closed(ports[end].open != 0, status);
  want(*count <= room && (status == KIGVARP_OK || !*count), "a turn has room");
  are_marks(out + *count, (room - *count) * sizeof *out);
  put(end, out, *count);
  if (chance(8) == 0) is_closed(ports[end].open != 0, is("port_time_out", kigvarp_port_time_out(&ports[end])));
}

static void port_packets(int end) {
  size_t length = drawn_length(280), room = drawn_length(KIGVARP_PACKET + 8), *count = edge(3, sizeof *count);
  struct kigvarp_header *it = edge(1, sizeof *it);
  *it = drawn_header();
  is_closed(ports[end].open != 0, is("port_send", kigvarp_port_send(&ports[end], it, edge(0, length), length)));
  uint8_t *out = edge(2, room);
  uint32_t status = is("port_collect", kigvarp_port_collect(&ports[end], out, room, count));
  is_closed(ports[end].open != 0, status);
  want(*count <= room && (status == KIGVARP_OK || !*count), "a packet has room");
  are_marks(out + *count, room - *count);
  struct kigvarp_state *told = edge(1, sizeof *told);
  status = is("port_state", kigvarp_port_state(&ports[end], told));
  if (status == KIGVARP_OK) want(told->output < 4 && told->input < 3 && told->waiting < 2, "the state is one of them");
}

static void port_opens(int end) {
  uint8_t buffers = (uint8_t)(chance(4) ? 4 + chance(27) : chance(256));
  int open = ports[end].open != 0;
  uint8_t tells = (uint8_t)chance(3);
  if (chance(2)) is_closed(open, is("port_close", kigvarp_port_close(&ports[end])));
  else want((is("port_open", kigvarp_port_open(&ports[end], buffers, tells)) == KIGVARP_OPEN) == open, "open is said");
}

static void texts(int of_fabric, int end) {
  size_t room = drawn_length(chance(8) ? 64 : 4000), *count = edge(1, sizeof *count);
  uint8_t *out = edge(2, room);
  uint32_t status = of_fabric ? is("fabric_text", kigvarp_fabric_text(&fabric, out, room, count))
                              : is("port_text", kigvarp_port_text(&ports[end], out, room, count));
  is_closed((of_fabric ? fabric.open : ports[end].open) != 0, status);
  want(*count <= room, "a text has room");
  are_marks(out + *count, room - *count);
}

static void lines(int end) {
  size_t length;
  const uint8_t *line = drawn_line(&length);
  if (chance(2)) is_closed(ports[end].open != 0, is("port_line", kigvarp_port_line(&ports[end], line, length)));
  else is_closed(fabric.open != 0, is("fabric_line", kigvarp_fabric_line(&fabric, line, length)));
  int open = fabric.open != 0;
  if (chance(40) == 0) is_closed(open, is("fabric_close", kigvarp_fabric_close(&fabric)));
  if (chance(20) == 0) is("fabric_open", kigvarp_fabric_open(&fabric));
}

static void asks(void) {
  static const char *const hosts[] = {"A", "B", "S", "", "A1", "Abcdefghi", "A B"};
  const char *host = hosts[chance(sizeof hosts / sizeof *hosts)];
  size_t length = strlen(host);
  struct kigvarp_ask *it = edge(1, sizeof *it);
  struct kigvarp_reply *told = edge(2, sizeof *told);
  int wild = chance(6) == 0;
  it->prio = (uint8_t)chance(4 + wild), it->hop = (uint8_t)chance(256), it->tid = (uint8_t)chance(256);
  it->large = (uint8_t)(chance(4) == 0), it->write = (uint8_t)chance(3), it->dest = (uint16_t)chance(wild ? 65536 : 256);
  it->offset = chance((1u << 24) + (wild ? 1u << 24 : 0)), it->value = (uint32_t)state;
  uint32_t status = is("fabric_ask", kigvarp_fabric_ask(&fabric, memcpy(edge(0, length), host, length), length, it, told));
  is_closed(fabric.open != 0, status);
  if (status == KIGVARP_OK) want(told->kind - 1 < KIGVARP_NOT_ASKED, "what came of it is one of them");
  else if (status != KIGVARP_CLOSED) want(!told->kind && !told->value, "nothing is told");
}

static void owns(void) {
  static const char *const nodes[] = {"A", "B", "S", "", "A1", "Abcdefghi", "A B", "A\nB", " A", "A # it"};
  const char *node = nodes[chance(sizeof nodes / sizeof *nodes)];
  size_t length = strlen(node);
  struct kigvarp_own *it = edge(1, sizeof *it);
  struct kigvarp_reply *told = edge(2, sizeof *told);
  it->write = (uint8_t)chance(3), it->value = (uint32_t)state;
  it->offset = chance(2) ? 4 * chance(0x60) : chance((1u << 24) + (chance(6) ? 0 : 1u << 24));
  uint32_t status = is("fabric_own", kigvarp_fabric_own(&fabric, memcpy(edge(0, length), node, length), length, it, told));
  is_closed(fabric.open != 0, status);
  if (status == KIGVARP_OK)
    want(told->kind - 1 < KIGVARP_NOT_ASKED && told->kind != KIGVARP_UNANSWERED, "what came of it is one of them");
  else if (status != KIGVARP_CLOSED) want(!told->kind && !told->value, "nothing is told");
}

static void checks(void) {
  struct kigvarp_hit *hit = edge(1, sizeof *hit);
  uint32_t *steps = edge(2, sizeof *steps);
  int open = checker.open != 0;
  size_t length = 0;
  if (chance(12) == 0) {
    char script[4 * LINE];
    for (uint32_t count = chance(5); count; count--) {
      size_t more;
      const uint8_t *line = drawn_line(&more);
      memcpy(script + length, line, more), length += more, script[length++] = '\n';
    }
    uint32_t status = is("checker_open", kigvarp_checker_open(&checker, memcpy(edge(0, length), script, length), length, hit));
    want((status == KIGVARP_OPEN) == open, "open is said");
    if (status == KIGVARP_REFUSED) want(hit->line && hit->reason, "the line that is refused is told");
  } else if (chance(12) == 0) {
    is_closed(open, is("checker_end", kigvarp_checker_end(&checker, hit, steps)));
    if (chance(2)) is_closed(open, is("checker_close", kigvarp_checker_close(&checker)));
  } else {
    const uint8_t *line = drawn_line(&length);
    uint32_t status = is("checker_take", kigvarp_checker_take(&checker, line, length, hit));
    is_closed(open, status);
    if (status == KIGVARP_UNLAWFUL) want(hit->line && hit->reason > 20, "the line that is hit is told");
  }
}

static void readings(void) {
  size_t count, room = chance(EVENTS);
  const kigvarp_char *chars = drawn_chars((int)chance(2), &count);
  struct kigvarp_event *events = edge(1, room * sizeof *events);
  struct kigvarp_reading *did = edge(2, sizeof *did);
  want(is("decode", kigvarp_decode(chars, count, events, room, did)) == KIGVARP_OK, "characters are read");
  want(did->events <= 2 * count && did->cut < 2, "no more than two events are said by a character");
  for (size_t i = 0; i < room && i < did->events; i++)
    want(events[i].place < count && events[i].kind - 1 < 3 && events[i].length <= KIGVARP_PACKET, "an event is within bounds");
  if (did->events < room) are_marks(events + did->events, (room - did->events) * sizeof *events);
}

/* What is written is read back. */
static void words(void) {
  struct kigvarp_symbol *it = edge(0, sizeof *it), *back = edge(1, sizeof *back);
  it->stype0 = (uint8_t)chance(9), it->parameter0 = (uint8_t)chance(33), it->parameter1 = (uint8_t)chance(33);
  it->stype1 = (uint8_t)chance(9), it->cmd = (uint8_t)chance(9);
  size_t room = chance(6), *count = edge(2, sizeof *count);
  kigvarp_char *out = edge(3, room * sizeof *out);
  if (is("symbol_write", kigvarp_symbol_write(it, out, room)) == KIGVARP_OK)
    want(is("symbol_read", kigvarp_symbol_read(out, 4, back)) == KIGVARP_OK && !memcmp(it, back, sizeof *it), "it is read back");
  else is("symbol_read", kigvarp_symbol_read(out, room, back));
  struct kigvarp_header *header = edge(1, sizeof *header);
  struct kigvarp_packet *packet = edge(0, sizeof *packet);
  *header = drawn_header();
  size_t length = drawn_length(280), large = drawn_length(KIGVARP_PACKET + 8);
  uint8_t ack = (uint8_t)chance(34), rest[300] = {0}, *bytes = edge(3, large);
  for (size_t i = 0; i < length; i++) rest[i] = (uint8_t)chance(256);
  if (is("packet_write", kigvarp_packet_write(header, ack, rest, length, bytes, large, count)) == KIGVARP_OK) {
    are_marks(bytes + *count, large - *count);
    want(is("packet_read", kigvarp_packet_read(bytes, *count, packet)) == KIGVARP_OK, "a packet is read back");
    want(packet->ack == ack && packet->prio == header->prio && packet->ftype == header->ftype && packet->tt == !!header->large
         && packet->source == header->source && packet->dest == header->dest, "with its fields");
    bytes[chance((uint32_t)*count)] ^= (uint8_t)(1 + chance(255));
  }
  is("packet_read", kigvarp_packet_read(bytes, large, packet));
}

static void one(void) {
  int end = (int)chance(2);
  switch (chance(13)) {
    case 0: case 1: port_characters(end); break;
    case 10: port_clocks(end); break;
    case 2: port_turns(end); break;
    case 3: port_packets(end); break;
    case 4: if (chance(20) == 0) port_opens(end); break;
    case 5: texts((int)chance(2), end); break;
    case 6: lines(end); break;
    case 7: checks(); break;
    case 8: readings(); break;
    case 9: words(); break;
    case 11: asks(); break;
    case 12: owns(); break;
  }
}

int main(int count, char **given) {
  name = "main";
  want(count == 3, "usage: fuzz SECONDS SEED");
  state = (uint64_t)atoll(given[2]) * 0x9e3779b97f4a7c15u | 1;
  size_t page = (size_t)sysconf(_SC_PAGESIZE);
  for (int i = 0; i < 4; i++) {
    areas[i] = mmap(0, AREA + page, PROT_READ | PROT_WRITE, MAP_PRIVATE | MAP_ANONYMOUS, -1, 0);
    want(areas[i] != MAP_FAILED && !mprotect(areas[i] + AREA, page, PROT_NONE), "there is memory");
  }
  time_t ends = time(0) + atol(given[1]);
  while (time(0) < ends) for (int i = 0; i < 1000; i++) one();
  for (int end = 0; end < 2; end++) is("port_close", kigvarp_port_close(&ports[end]));
  is("fabric_close", kigvarp_fabric_close(&fabric));
  is("checker_close", kigvarp_checker_close(&checker));
  printf("%lu calls\n", calls);
  return 0;
}
