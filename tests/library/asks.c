/* Gives the lines of examples to two fabrics, and draws requests of registers between them: one fabric is asked by lines, the
   other by numbers. Statuses and texts are the same, and what is told in numbers is what the last line before `ok` says.
   usage: asks SEED ASKS FILE .. */
#include "kigvarp.h"
#include <stdio.h>
#include <stdlib.h>
#include <string.h>

enum { TEXT = 1 << 20, LINE = 1 << 12 };

static struct kigvarp_fabric by_lines, by_numbers;
static char texts[2][TEXT], line[LINE];
static unsigned long kinds[KIGVARP_NOT_ASKED + 1];
static uint64_t state;

static uint32_t chance(uint32_t below) {
  state ^= state << 13, state ^= state >> 7, state ^= state << 17;
  return (uint32_t)((state >> 11) % below);
}

static void want(int well, const char *what) {
  if (well) return;
  printf("not so: %s: %s\n%s---\n%s", what, line, texts[0], texts[1]);
  exit(1);
}

static void takes(struct kigvarp_fabric *fabric, char *text) {
  size_t count;
  want(kigvarp_fabric_text(fabric, (uint8_t *)text, TEXT - 1, &count) == KIGVARP_OK, "a text is taken");
  text[count] = 0;
}

/* Both were given a line, or the same by numbers. */
static void same(uint32_t status, uint32_t other) {
  want(status == other, "the statuses are the same");
  takes(&by_lines, texts[0]), takes(&by_numbers, texts[1]);
  want(!strcmp(texts[0], texts[1]), "the texts are the same");
}

static uint32_t gives(struct kigvarp_fabric *fabric) {
  return kigvarp_fabric_line(fabric, (const uint8_t *)line, strlen(line));
}

/* What the last line before `ok` says. */
static struct kigvarp_reply said(char *text) {
  size_t length = strlen(text);
  unsigned value;
  if (length < 4 || strcmp(text + length - 4, "\nok\n")) return (struct kigvarp_reply){0, 0};
  text[length - 4] = 0;
  const char *feed = strrchr(text, '\n'), *last = feed ? feed + 1 : text;
  if (sscanf(last, "value %8x", &value) == 1) return (struct kigvarp_reply){KIGVARP_VALUE, value};
  if (!strcmp(last, "written")) return (struct kigvarp_reply){KIGVARP_WRITTEN, 0};
  if (sscanf(last, "error %u", &value) == 1) return (struct kigvarp_reply){KIGVARP_NOT_DONE, value};
  if (!strcmp(last, "unanswered")) return (struct kigvarp_reply){KIGVARP_UNANSWERED, 0};
  if (sscanf(last, "refused %u ", &value) == 1) return (struct kigvarp_reply){KIGVARP_NOT_ASKED, value};
  return (struct kigvarp_reply){0, 0};
}

static struct kigvarp_ask drawn(void) {
  static const uint32_t offsets[] = {0, 4, 8, 0xc, 0x10, 0x14, 0x60, 0x68, 0x6c, 0x70, 0x74, 0x78, 0x100, 0x158, 0x10000};
  static const uint8_t hops[] = {0, 0, 1, 2, 255};
  struct kigvarp_ask it = {.prio = (uint8_t)chance(4), .hop = hops[chance(5)], .tid = (uint8_t)chance(256)};
  it.large = chance(4) == 0, it.write = (uint8_t)chance(3);
  it.dest = (uint16_t)(chance(3) ? chance(8) : chance(it.large ? 65536 : 256));
  it.offset = chance(8) ? offsets[chance(sizeof offsets / sizeof *offsets)] : chance(1 << 24);
  it.value = chance(2) ? chance(256) : (uint32_t)state;
  return it;
}

static void asks(void) {
  static const char *const hosts[] = {"A", "B", "H", "C", "S", "Nobody"};
  const char *host = hosts[chance(sizeof hosts / sizeof *hosts)];
  struct kigvarp_ask it = drawn();
  struct kigvarp_reply told = {7, 7};
  int length = snprintf(line, sizeof line, "ask %s%s %s %u %u %u %u %06x", it.write ? "write" : "read", it.large ? "16" : "",
                        host, it.prio, it.dest, it.hop, it.tid, it.offset);
  if (it.write) snprintf(line + length, sizeof line - (size_t)length, " %08x", it.value);
  same(gives(&by_lines), kigvarp_fabric_ask(&by_numbers, (const uint8_t *)host, strlen(host), &it, &told));
  struct kigvarp_reply is = said(texts[0]);
  want(is.kind == told.kind && is.value == told.value, "the numbers are what the line says");
  kinds[told.kind]++;
}

static void file(const char *name, long count) {
  FILE *lines = fopen(name, "r");
  want(lines && !kigvarp_fabric_open(&by_lines) && !kigvarp_fabric_open(&by_numbers), name);
  while (fgets(line, sizeof line, lines)) {
    line[strcspn(line, "\n")] = 0;
    same(gives(&by_lines), gives(&by_numbers));
  }
  fclose(lines);
  for (long i = 0; i < count; i++) {
    strcpy(line, i == count / 4 ? "serve all" : i == count / 2 ? "quiet" : "run 1");
    if (i == count / 4 || i == count / 2 || chance(8) == 0) same(gives(&by_lines), gives(&by_numbers));
    asks();
  }
  want(!kigvarp_fabric_close(&by_lines) && !kigvarp_fabric_close(&by_numbers), "both are closed");
}

int main(int count, char **words) {
  if (count < 4) return 2;
  state = (uint64_t)atoll(words[1]) * 0x9e3779b97f4a7c15u | 1;
  for (int i = 3; i < count; i++) file(words[i], atol(words[2]));
  for (int kind = 0; kind <= KIGVARP_NOT_ASKED; kind++) printf("%lu ", kinds[kind]);
  puts("asks of each kind");
  for (int kind = KIGVARP_VALUE; kind <= KIGVARP_NOT_ASKED; kind++) want(kinds[kind], "each kind was told");
  return 0;
}
