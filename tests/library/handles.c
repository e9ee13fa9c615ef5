/* Tries each call on a closed handle, opening and closing twice, and arguments out of range, which change nothing. */
#include "kigvarp.h"
#include <stdio.h>
#include <stdlib.h>
#include <string.h>

static int failed;

static void want(int well, const char *what) {
  if (well) return;
  printf("not so: %s\n", what);
  failed = 1;
}

static struct kigvarp_port port;
static struct kigvarp_fabric fabric;
static struct kigvarp_checker checker;
static const uint8_t line[] = "state";
static kigvarp_char wire[KIGVARP_TURN], run[KIGVARP_ANSWER];
static uint8_t bytes[KIGVARP_PACKET], packet[KIGVARP_PACKET];
static size_t count;
static struct kigvarp_char_did did;
static struct kigvarp_run_did run_did;
static struct kigvarp_clocks_did clocks = {7, 7, 7, 7};
static struct kigvarp_state told;
static const struct kigvarp_header header = {0, 15, 0, 1, 2};
static const struct kigvarp_ask ask = {.dest = 1, .hop = 255, .offset = 0x68};
static const struct kigvarp_own own = {.offset = 0x68};
static struct kigvarp_reply reply = {7, 7};

/* Whether the rooms have what was put there, and nothing is counted. */
static int untouched(void) {
  for (size_t i = 0; i < KIGVARP_TURN; i++) if (wire[i] != 0x1234) return 0;
  for (size_t i = 0; i < KIGVARP_PACKET; i++) if (bytes[i] != 0xa5) return 0;
  return count == 0;
}

static void fill(void) {
  for (size_t i = 0; i < KIGVARP_TURN; i++) wire[i] = 0x1234;
  memset(bytes, 0xa5, sizeof bytes);
  count = 99;
}

static void closed_port(void) {
  fill();
  want(kigvarp_port_close(&port) == KIGVARP_CLOSED, "a closed port is not closed");
  want(kigvarp_port_line(&port, line, 5) == KIGVARP_CLOSED, "no line of a closed port");
  want(kigvarp_port_text(&port, bytes, sizeof bytes, &count) == KIGVARP_CLOSED, "no text of a closed port");
  want(kigvarp_port_take(&port, 0x11c, &did) == KIGVARP_CLOSED, "no character of a closed port");
  want(kigvarp_port_got(&port, run, 1, wire, 4, &run_did) == KIGVARP_CLOSED, "no run of a closed port");
  want(kigvarp_port_clock(&port, run, 1, wire, 1, &clocks) == KIGVARP_CLOSED && clocks.fired == 7, "no clock of a closed port");
  want(kigvarp_port_patience(&port, 1) == KIGVARP_CLOSED, "no patience of a closed port");
  want(kigvarp_port_turn(&port, wire, KIGVARP_TURN, &count) == KIGVARP_CLOSED, "no turn of a closed port");
  want(kigvarp_port_time_out(&port) == KIGVARP_CLOSED, "no time-out of a closed port");
  want(kigvarp_port_send(&port, &header, bytes, 4) == KIGVARP_CLOSED, "nothing is sent by a closed port");
  want(kigvarp_port_collect(&port, bytes, sizeof bytes, &count) == KIGVARP_CLOSED, "a closed port holds nothing");
  want(kigvarp_port_state(&port, &told) == KIGVARP_CLOSED, "no state of a closed port");
  want(untouched() && !port.open && !port.at, "a closed port changes nothing");
}

static void closed_fabric(void) {
  fill();
  want(kigvarp_fabric_close(&fabric) == KIGVARP_CLOSED, "a closed fabric is not closed");
  want(kigvarp_fabric_line(&fabric, line, 5) == KIGVARP_CLOSED, "no line of a closed fabric");
  want(kigvarp_fabric_text(&fabric, bytes, sizeof bytes, &count) == KIGVARP_CLOSED, "no text of a closed fabric");
  want(kigvarp_fabric_ask(&fabric, line, 1, &ask, &reply) == KIGVARP_CLOSED && reply.kind == 7, "no ask of a closed fabric");
  want(kigvarp_fabric_own(&fabric, line, 1, &own, &reply) == KIGVARP_CLOSED && reply.kind == 7, "no node of a closed one");
  want(untouched() && !fabric.open && !fabric.at, "a closed fabric changes nothing");
}

static void closed_checker(void) {
  struct kigvarp_hit hit = {7, 7};
  uint32_t steps = 7;
  want(kigvarp_checker_close(&checker) == KIGVARP_CLOSED, "a closed checker is not closed");
  want(kigvarp_checker_take(&checker, line, 5, &hit) == KIGVARP_CLOSED, "no line of a closed checker");
  want(kigvarp_checker_end(&checker, &hit, &steps) == KIGVARP_CLOSED, "no end of a closed checker");
  want(hit.line == 7 && hit.reason == 7 && steps == 7 && !checker.open && !checker.at, "a closed checker changes nothing");
}

/* A checker that is open is not opened, and one that has ended takes no line. */
static void checkers(void) {
  struct kigvarp_hit hit = {7, 7};
  uint32_t steps = 7;
  want(kigvarp_checker_open(&checker, line, 0, &hit) == KIGVARP_OK && !hit.line, "a checker of an empty fabric opens");
  hit.line = 7;
  want(kigvarp_checker_open(&checker, line, 0, &hit) == KIGVARP_OPEN && hit.line == 7, "an open checker is not opened");
  want(kigvarp_checker_end(&checker, &hit, &steps) == KIGVARP_UNLAWFUL && hit.line == 1 && hit.reason == 21, "no end came");
  want(kigvarp_checker_end(&checker, &hit, &steps) == KIGVARP_SPENT && !hit.line && !steps, "it has ended");
  want(kigvarp_checker_take(&checker, line, 5, &hit) == KIGVARP_SPENT, "and takes no line");
  want(kigvarp_checker_close(&checker) == KIGVARP_OK, "an open checker is closed");
}

static uint32_t writes(struct kigvarp_header it, uint8_t ack, size_t length, size_t room) {
  return kigvarp_packet_write(&it, ack, bytes, length, room ? packet : bytes, room, &count);
}

/* Fields, lengths and rooms that no symbol and no packet has: nothing is written. */
static void words_out_of_range(void) {
  struct kigvarp_symbol symbol = {2, 3, 5, 7, 8}, was = symbol;
  struct kigvarp_packet told = {1, 2, 3, 4, 5, 6};
  fill();
  want(kigvarp_symbol_write(&symbol, wire, 4) == KIGVARP_ARGUMENT, "cmd 8");
  symbol.cmd = 0;
  want(kigvarp_symbol_write(&symbol, wire, 3) == KIGVARP_ARGUMENT, "a symbol in too little room");
  want(kigvarp_symbol_read(wire, 4, &was) == KIGVARP_BAD && was.cmd == 8, "no symbol");
  want(kigvarp_symbol_read(wire, 3, &was) == KIGVARP_BAD && kigvarp_symbol_read(wire, 5, &was) == KIGVARP_BAD, "three and five");
  want(writes(header, 32, 4, KIGVARP_PACKET) == KIGVARP_ARGUMENT && !count, "ackID 32");
  want(writes(header, 0, 3, KIGVARP_PACKET) == KIGVARP_ARGUMENT, "an odd length");
  want(writes(header, 0, 270, KIGVARP_PACKET) == KIGVARP_ARGUMENT, "a length of a byte pair too many");
  want(writes(header, 0, 4, KIGVARP_PACKET - 1) == KIGVARP_ARGUMENT, "a packet in too little room");
  want(writes((struct kigvarp_header){4, 15, 0, 1, 2}, 0, 4, KIGVARP_PACKET) == KIGVARP_ARGUMENT && !packet[0], "priority 4");
  want(kigvarp_packet_read(bytes, 12, &told) == KIGVARP_BAD && told.ack == 1 && told.dest == 6, "no packet");
  want(untouched(), "nothing is written");
}

/* More characters than are read at once. */
static void reading_too_long(void) {
  kigvarp_char *chars = calloc(KIGVARP_READ + 1, sizeof *chars);
  struct kigvarp_reading did = {7, 7};
  struct kigvarp_event event = {0};
  if (!chars) return;
  want(kigvarp_decode(chars, KIGVARP_READ + 1, &event, 1, &did) == KIGVARP_ARGUMENT && !did.events && !event.kind, "too many");
  want(kigvarp_decode(chars, KIGVARP_READ, &event, 1, &did) == KIGVARP_OK && did.events == 1 && event.kind == 3, "all are read");
  free(chars);
}

static uint32_t sends(struct kigvarp_header it, size_t length) {
  return kigvarp_port_send(&port, &it, bytes, length);
}

/* Fields and lengths that no packet has. */
static void packets_out_of_range(void) {
  want(sends((struct kigvarp_header){4, 15, 0, 1, 2}, 4) == KIGVARP_ARGUMENT, "priority 4");
  want(sends((struct kigvarp_header){0, 16, 0, 1, 2}, 4) == KIGVARP_ARGUMENT, "format type 16");
  want(sends((struct kigvarp_header){0, 15, 0, 256, 2}, 4) == KIGVARP_ARGUMENT, "a long source");
  want(sends((struct kigvarp_header){0, 15, 0, 1, 256}, 4) == KIGVARP_ARGUMENT, "a long destination");
  want(sends(header, 3) == KIGVARP_ARGUMENT, "an odd length");
  want(sends(header, 270) == KIGVARP_ARGUMENT, "a length of a byte pair too many");
  want(sends((struct kigvarp_header){0, 15, 1, 1, 2}, 268) == KIGVARP_ARGUMENT, "the same behind long IDs");
  want(kigvarp_port_state(&port, &told) == KIGVARP_OK && !told.waiting, "nothing waits");
}

static void out_of_range(void) {
  want(kigvarp_port_open(&port, 3, 0) == KIGVARP_ARGUMENT && !port.open, "3 buffers");
  want(kigvarp_port_open(&port, 31, 0) == KIGVARP_ARGUMENT && !port.open, "31 buffers");
  want(kigvarp_port_open(&port, 4, 0) == KIGVARP_OK, "4 buffers");
  void *at = port.at;
  want(kigvarp_port_open(&port, 4, 0) == KIGVARP_OPEN && port.at == at, "an open port is not opened");
  fill();
  want(kigvarp_port_turn(&port, wire, KIGVARP_TURN - 1, &count) == KIGVARP_ARGUMENT, "a turn in too little room");
  want(kigvarp_port_collect(&port, bytes, KIGVARP_PACKET - 1, &count) == KIGVARP_ARGUMENT, "a packet in too little room");
  want(kigvarp_port_got(&port, run, 1, wire, 3, &run_did) == KIGVARP_ARGUMENT, "an answer in too little room");
  want(kigvarp_port_collect(&port, bytes, KIGVARP_PACKET, &count) == KIGVARP_EMPTY && untouched(), "nothing is held");
  want(kigvarp_port_got(&port, run, 0, wire, 0, &run_did) == KIGVARP_OK && untouched(), "a run of none");
  want(kigvarp_port_clock(&port, run, 2, wire, 1, &clocks) == KIGVARP_ARGUMENT && !clocks.clocks, "clocks in too little room");
  want(kigvarp_port_clock(&port, run, 0, wire, 0, &clocks) == KIGVARP_OK && untouched() && !clocks.clocks, "no clock");
  packets_out_of_range();
}

/* 16 packets of a priority have room, and one more has not. */
static void full(void) {
  for (int i = 0; i < 16; i++) want(sends(header, 4) == KIGVARP_OK, "16 packets have room");
  want(sends(header, 4) == KIGVARP_FULL, "17 have not");
  want(kigvarp_port_close(&port) == KIGVARP_OK, "an open port is closed");
}

static uint32_t gives(const char *text) { return kigvarp_fabric_line(&fabric, (const uint8_t *)text, strlen(text)); }

/* A text is taken in pieces, never past the room, and is gone with the next line. */
static void texts(void) {
  static const char empty[] = "> collect A\nempty\nok\n";
  want(kigvarp_fabric_open(&fabric) == KIGVARP_OK, "a fabric opens");
  want(kigvarp_fabric_open(&fabric) == KIGVARP_OPEN, "an open fabric is not opened");
  want(gives("endpoint A 1") == KIGVARP_OK && gives("collect A") == KIGVARP_OK, "two lines are answered");
  for (size_t at = 0; at < 4; at++) {
    fill();
    want(kigvarp_fabric_text(&fabric, bytes, 1, &count) == KIGVARP_OK && count == 1, "a byte is taken");
    want(bytes[0] == (uint8_t)empty[at] && bytes[1] == 0xa5, "the next byte, and nothing behind it");
  }
  want(gives("collect A") == KIGVARP_OK, "the next line is answered");
  fill();
  want(kigvarp_fabric_text(&fabric, bytes, sizeof bytes, &count) == KIGVARP_OK && count == sizeof empty - 1, "whole");
  want(!memcmp(bytes, empty, count) && bytes[count] == 0xa5, "the text of the last line alone");
  want(kigvarp_fabric_text(&fabric, bytes, sizeof bytes, &count) == KIGVARP_OK && count == 0, "no more waits");
  want(kigvarp_fabric_close(&fabric) == KIGVARP_OK, "an open fabric is closed");
}

static uint32_t asks(const char *host, struct kigvarp_ask it) {
  reply = (struct kigvarp_reply){7, 7};
  return kigvarp_fabric_ask(&fabric, (const uint8_t *)host, strlen(host), &it, &reply);
}

/* Names and fields that no line says: nothing is done, and the text that waits stays. */
static void asks_out_of_range(void) {
  static const char *const names[] = {"", "1A", "A B", "A\n", "Abcdefghi"};
  want(kigvarp_fabric_open(&fabric) == KIGVARP_OK && gives("nonsense") == KIGVARP_OK, "a line is refused, and its text waits");
  for (size_t i = 0; i < sizeof names / sizeof *names; i++)
    want(asks(names[i], ask) == KIGVARP_ARGUMENT && !reply.kind && !reply.value, "a name that is none");
  want(asks("A", (struct kigvarp_ask){.prio = 4}) == KIGVARP_ARGUMENT && !reply.kind, "priority 4");
  want(asks("A", (struct kigvarp_ask){.dest = 256}) == KIGVARP_ARGUMENT && !reply.kind, "a long destination");
  want(asks("A", (struct kigvarp_ask){.offset = 1 << 24}) == KIGVARP_ARGUMENT && !reply.kind, "a long offset");
  want(kigvarp_fabric_text(&fabric, bytes, sizeof bytes, &count) == KIGVARP_OK && count > 3, "the text waits still");
  want(asks("A", ask) == KIGVARP_OK && reply.kind == KIGVARP_NOT_ASKED && reply.value, "no such node");
  want(asks("A", (struct kigvarp_ask){.large = 1, .dest = 256}) == KIGVARP_OK && reply.kind == KIGVARP_NOT_ASKED, "nor now");
  want(kigvarp_fabric_close(&fabric) == KIGVARP_OK, "an open fabric is closed");
  reply = (struct kigvarp_reply){7, 7};
}

static uint32_t owns(const char *node, struct kigvarp_own it) {
  reply = (struct kigvarp_reply){7, 7};
  return kigvarp_fabric_own(&fabric, (const uint8_t *)node, strlen(node), &it, &reply);
}

static int came(uint32_t kind, uint32_t value) { return reply.kind == kind && reply.value == value; }

/* Registers of a node's own, by docs/registers.md: the text that waits stays, and names that are none are refused. */
static void own_registers(void) {
  static const char *const names[] = {"S", "B", "", "1A", "A\n", "Abcdefghi"};
  want(kigvarp_fabric_open(&fabric) == KIGVARP_OK && gives("endpoint A 5") == KIGVARP_OK, "an endpoint");
  want(gives("switch S 4") == KIGVARP_OK && gives("nonsense") == KIGVARP_OK, "a line is refused, and its text waits");
  want(owns("A", (struct kigvarp_own){.offset = 1 << 24}) == KIGVARP_ARGUMENT && came(0, 0), "a long offset");
  for (size_t i = 0; i < sizeof names / sizeof *names; i++)
    want(owns(names[i], own) == KIGVARP_OK && reply.kind == KIGVARP_NOT_ASKED && reply.value, "a name of no endpoint");
  want(gives("link A.0 S.1") == KIGVARP_OK && gives("nonsense") == KIGVARP_OK, "the set-up goes on");
  want(owns("A", (struct kigvarp_own){.offset = 0x60}) == KIGVARP_OK && came(KIGVARP_VALUE, 0x5ffff), "its ID is read");
  want(owns("A", (struct kigvarp_own){1, 0x60, 0x70000}) == KIGVARP_OK && came(KIGVARP_WRITTEN, 0), "it has another");
  want(owns("A", (struct kigvarp_own){.offset = 0x60}) == KIGVARP_OK && came(KIGVARP_VALUE, 0x7ffff), "which is read");
  want(owns("A", (struct kigvarp_own){1, 0x6c, 0xdeadbeef}) == KIGVARP_OK && came(KIGVARP_WRITTEN, 0), "a tag is written");
  want(owns("A", (struct kigvarp_own){.offset = 0x6c}) == KIGVARP_OK && came(KIGVARP_VALUE, 0xdeadbeef), "and read");
  want(owns("A", (struct kigvarp_own){1, 0x10, 1}) == KIGVARP_OK && came(KIGVARP_NOT_DONE, 7), "features are not written");
  want(owns("A", (struct kigvarp_own){.offset = 0x70}) == KIGVARP_OK && came(KIGVARP_NOT_DONE, 7), "no route select");
  want(owns("A", (struct kigvarp_own){.offset = 0x6d}) == KIGVARP_OK && came(KIGVARP_NOT_DONE, 7), "between two registers");
  want(kigvarp_fabric_text(&fabric, bytes, sizeof bytes, &count) == KIGVARP_OK && count > 3, "the text waits still");
  want(gives("endpoint B 6") == KIGVARP_OK, "a set-up line is answered");
  want(kigvarp_fabric_text(&fabric, bytes, sizeof bytes, &count) == KIGVARP_OK && !memcmp(bytes, "refused 12 ", 11), "too late");
  want(kigvarp_fabric_close(&fabric) == KIGVARP_OK, "an open fabric is closed");
  reply = (struct kigvarp_reply){7, 7};
}

int main(void) {
  want(!strcmp(kigvarp_status_words(KIGVARP_REFUSED), "refused"), "a status has words");
  want(!strcmp(kigvarp_status_words(KIGVARP_REFUSED + 1), "no status"), "and what is none has others");
  closed_port();
  closed_fabric();
  closed_checker();
  checkers();
  words_out_of_range();
  reading_too_long();
  out_of_range();
  full();
  texts();
  asks_out_of_range();
  own_registers();
  clocks = (struct kigvarp_clocks_did){7, 7, 7, 7};
  closed_port();
  closed_fabric();
  closed_checker();
  return failed;
}
