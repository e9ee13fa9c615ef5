/* Refuses each request for memory in turn, and then it and all later ones, and checks what each status says: a port or a
   fabric that was not opened is closed; a text that was cut is a front of the whole; a port that went on answers as before.
   Linked with --wrap of malloc and realloc. */
#include "kigvarp.h"
#include <stdio.h>
#include <stdlib.h>
#include <string.h>

static long asked, refused = -1;
static int later;

void *__real_malloc(size_t size);
void *__real_realloc(void *at, size_t size);

static int refuses(void) {
  long number = asked++;
  return refused >= 0 && (number == refused || (later && number > refused));
}

void *__wrap_malloc(size_t size) { return refuses() ? 0 : __real_malloc(size); }
void *__wrap_realloc(void *at, size_t size) { return refuses() ? 0 : __real_realloc(at, size); }

static const char *const PORT[] = {"send 0 15 1 2 00112233", "turn 2", "state", "got k1c d00 dff d16", "clock kbc kbc", "nonsense", 0};
static const char *const FABRIC[] = {"endpoint A 1",           "endpoint B 2",          "link A.0 B.0", "stop",
                                     "send A 0 15 2 cafe0001", "settle A.0", "collect B",    "run 5",
                                     "serve all", "ask read A 0 2 255 7 000068", "quiet",
                                     "ask write A 0 2 255 8 00006c 0000beef", 0};

static int failed;
static struct kigvarp_port port;
static struct kigvarp_fabric fabric;
static char whole[2][16][1 << 12];

static void want(int well, const char *what, long number) {
  if (well) return;
  printf("request %ld%s: not so: %s\n", number, later ? " and all later" : "", what);
  failed = 1;
}

static uint32_t opens(int is_fabric) { return is_fabric ? kigvarp_fabric_open(&fabric) : kigvarp_port_open(&port, 8, 0); }
static uint32_t closes(int is_fabric) { return is_fabric ? kigvarp_fabric_close(&fabric) : kigvarp_port_close(&port); }

/* Gives a line, and fetches its text. */
static uint32_t answers(int is_fabric, const char *text, char *into) {
  const uint8_t *line = (const uint8_t *)text;
  size_t length = strlen(text), count = 0;
  uint32_t status = is_fabric ? kigvarp_fabric_line(&fabric, line, length) : kigvarp_port_line(&port, line, length);
  if (is_fabric) kigvarp_fabric_text(&fabric, (uint8_t *)into, (1 << 12) - 1, &count);
  else kigvarp_port_text(&port, (uint8_t *)into, (1 << 12) - 1, &count);
  into[count] = 0;
  return status;
}

/* One line while memory is refused. What was not done is asked again, once memory is there. */
static int line(int is_fabric, int at, const char *text, long number) {
  char told[1 << 12];
  uint32_t status = answers(is_fabric, text, told);
  const char *is = whole[is_fabric][at];
  want(status == KIGVARP_OK || status == KIGVARP_NO_MEMORY || status == KIGVARP_CUT, "a status of memory", number);
  if (status == KIGVARP_OK) want(!strcmp(told, is), "the whole answer", number);
  else want(!strncmp(told, is, strlen(told)) && strcmp(told, is), "a front of the answer", number);
  if (status == KIGVARP_NO_MEMORY) {
    want(!told[0], "no text", number);
    refused = -1;
    want(answers(is_fabric, text, told) == KIGVARP_OK && !strcmp(told, is), "the same answer, asked again", number);
  }
  return status == KIGVARP_CUT && is_fabric;
}

/* The same of an ask by numbers: the words are refused memory, or what their line does is. Answers whether the request was
   reached. */
static int asks(long number) {
  static const struct kigvarp_ask it = {.tid = 7, .hop = 255, .dest = 2, .offset = 0x68};
  struct kigvarp_reply reply = {7, 7};
  refused = -1;
  want(opens(1) == KIGVARP_OK, "opened", number);
  for (int at = 0; at < 3; at++)
    want(!kigvarp_fabric_line(&fabric, (const uint8_t *)FABRIC[at], strlen(FABRIC[at])), "set up", number);
  asked = 0, refused = number;
  uint32_t status = kigvarp_fabric_ask(&fabric, (const uint8_t *)"A", 1, &it, &reply);
  int reached = asked > number;
  refused = -1;
  want(status == KIGVARP_OK || status == KIGVARP_NO_MEMORY || status == KIGVARP_CUT, "a status of memory", number);
  want(status == KIGVARP_OK ? reply.kind == KIGVARP_UNANSWERED : !reply.kind && !reply.value, "what came of it", number);
  uint32_t again = kigvarp_fabric_ask(&fabric, (const uint8_t *)"A", 1, &it, &reply);
  want(again == (status == KIGVARP_CUT ? KIGVARP_SPENT : KIGVARP_OK), "spent if it was cut, and else asked again", number);
  want(closes(1) == KIGVARP_OK, "closed", number);
  return reached;
}

/* The same of a node's own register: what it wrote is read once memory is there, or the fabric is spent. */
static int owns(long number) {
  static const struct kigvarp_own read = {.offset = 0x6c}, write = {1, 0x6c, 0xcafe};
  struct kigvarp_reply reply = {7, 7};
  refused = -1;
  want(opens(1) == KIGVARP_OK, "opened", number);
  for (int at = 0; at < 3; at++)
    want(!kigvarp_fabric_line(&fabric, (const uint8_t *)FABRIC[at], strlen(FABRIC[at])), "set up", number);
  asked = 0, refused = number;
  uint32_t status = kigvarp_fabric_own(&fabric, (const uint8_t *)"A", 1, &write, &reply);
  int reached = asked > number;
  refused = -1;
  want(status == KIGVARP_OK || status == KIGVARP_CUT, "a status of memory", number);
  want(!reply.value && reply.kind == (status == KIGVARP_OK ? KIGVARP_WRITTEN : 0), "what came of it", number);
  uint32_t again = kigvarp_fabric_own(&fabric, (const uint8_t *)"A", 1, &read, &reply);
  want(again == (status == KIGVARP_CUT ? KIGVARP_SPENT : KIGVARP_OK), "spent if it was cut, and else read", number);
  want(again ? !reply.kind && !reply.value : reply.kind == KIGVARP_VALUE && reply.value == 0xcafe, "the value", number);
  want(closes(1) == KIGVARP_OK, "closed", number);
  return reached;
}

/* All lines, and whether the refused request was reached. */
static int lines(int is_fabric, long number) {
  const char *const *texts = is_fabric ? FABRIC : PORT;
  asked = 0, refused = number;
  uint32_t status = opens(is_fabric);
  if (status) {
    want(status == KIGVARP_NO_MEMORY && closes(is_fabric) == KIGVARP_CLOSED, "not opened, and closed", number);
    return 1;
  }
  for (int at = 0; texts[at]; at++)
    if (line(is_fabric, at, texts[at], number)) {
      char told[1 << 12];
      want(answers(is_fabric, texts[at], told) == KIGVARP_SPENT && !told[0], "a fabric that was cut is spent", number);
      break;
    }
  int reached = asked > number;
  want(closes(is_fabric) == KIGVARP_OK && closes(is_fabric) == KIGVARP_CLOSED, "closed once", number);
  return reached;
}

static const char SET_UP[] = "endpoint A 1\nendpoint B 2\nlink A.0 B.0\n";
static const char *const TRACE[] = {"> send A 0 15 2 cafe0001",
                                    "take A 000f0201cafe0001a9bb0000",
                                    "sent A.0 k7c d80 df8 d1f d00 d0f d02 d01 dca dfe d00 d01 da9 dbb d00 d00 k7c d80 dfa d18",
                                    "end", 0};

/* A checker that is refused memory is not opened, or has ended, and takes no line; else its answers are as they were. */
static int checks(long number) {
  struct kigvarp_checker checker = {0};
  struct kigvarp_hit hit;
  uint32_t steps = 0;
  asked = 0, refused = number;
  uint32_t status = kigvarp_checker_open(&checker, (const uint8_t *)SET_UP, sizeof SET_UP - 1, &hit);
  if (status) {
    want(status == KIGVARP_NO_MEMORY && kigvarp_checker_close(&checker) == KIGVARP_CLOSED, "not opened, and closed", number);
    return 1;
  }
  for (int at = 0; TRACE[at] && !status; at++)
    status = kigvarp_checker_take(&checker, (const uint8_t *)TRACE[at], strlen(TRACE[at]), &hit);
  if (!status) status = kigvarp_checker_end(&checker, &hit, &steps);
  want(status == KIGVARP_OK || status == KIGVARP_CUT, "a status of memory", number);
  want(status == KIGVARP_OK ? steps == 1 : !steps && !hit.line, "the steps, or none", number);
  want(kigvarp_checker_take(&checker, (const uint8_t *)"end", 3, &hit) == KIGVARP_SPENT, "it has ended", number);
  int reached = asked > number;
  want(kigvarp_checker_close(&checker) == KIGVARP_OK, "closed once", number);
  return reached;
}

/* Clocks end at the one for which memory was refused, and go on behind it once memory is there. */
static int clocks(long number) {
  kigvarp_char idles[5] = {0x1bc, 0x1bc, 0x1bc, 0x1bc, 0x1bc}, given[5];
  struct kigvarp_clocks_did did;
  refused = -1;
  want(opens(0) == KIGVARP_OK, "opened", number);
  asked = 0, refused = number;
  uint32_t status = kigvarp_port_clock(&port, idles, 5, given, 5, &did);
  want(status == (did.clocks == 5 ? KIGVARP_OK : KIGVARP_NO_MEMORY), "a status of memory", number);
  int reached = asked > number;
  refused = -1;
  want(kigvarp_port_clock(&port, idles, 5 - did.clocks, given, 5, &did) == KIGVARP_OK, "the clocks that lack", number);
  want(closes(0) == KIGVARP_OK, "closed", number);
  return reached;
}

int main(void) {
  long tried = 0;
  for (int is_fabric = 0; is_fabric < 2; is_fabric++) {
    const char *const *texts = is_fabric ? FABRIC : PORT;
    refused = -1;
    want(opens(is_fabric) == KIGVARP_OK, "opened", -1);
    for (int at = 0; texts[at]; at++)
      want(answers(is_fabric, texts[at], whole[is_fabric][at]) == KIGVARP_OK, "answered", -1);
    want(closes(is_fabric) == KIGVARP_OK, "closed", -1);
    for (later = 0; later < 2; later++)
      for (long number = 0; lines(is_fabric, number); number++) tried++;
  }
  for (later = 0; later < 2; later++)
    for (long number = 0; checks(number); number++) tried++;
  for (later = 0; later < 2; later++)
    for (long number = 0; clocks(number); number++) tried++;
  for (later = 0; later < 2; later++)
    for (long number = 0; asks(number); number++) tried++;
  for (later = 0; later < 2; later++)
    for (long number = 0; owns(number); number++) tried++;
  printf("%ld refusals\n", tried);
  return failed || tried < 40;
}
