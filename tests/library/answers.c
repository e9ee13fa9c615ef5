/* Answers lines as rio_port does, or as rio_live if FABRIC is defined, over the library: what tries the programs tries it.
   usage: answers [BUFFERS] */
#include "kigvarp.h"
#include <signal.h>
#include <stdio.h>
#include <stdlib.h>
#include <string.h>

#ifdef FABRIC
#define HANDLE kigvarp_fabric
#define CALL(name) kigvarp_fabric_##name
#define WORDS 1
#else
#define HANDLE kigvarp_port
#define CALL(name) kigvarp_port_##name
#define WORDS 2
#endif

enum { MOST_LINE = 4194304, PIECE = 1000 };

static struct HANDLE handle;
static char line[MOST_LINE + 2];

static int ends(int status, const char *why) {
  CALL(close)(&handle);
  if (status) fprintf(stderr, "answers: %s\n", why);
  return status;
}

/* Reads a line, the last one without a line feed too, and answers its length, -1 at the end of input, or -2 if it is too
   long. */
static long next_line(void) {
  long length = 0;
  for (int c; (c = getchar()) != EOF && c != '\n'; line[length++] = (char)c)
    if (length == MOST_LINE) return -2;
  return length || !feof(stdin) ? length : -1;
}

/* Writes the answer that waits, and answers whether that failed. */
static int write_answer(void) {
  uint8_t piece[PIECE];
  size_t count;
  while (CALL(text)(&handle, piece, PIECE, &count) == KIGVARP_OK && count)
    if (fwrite(piece, 1, count, stdout) != count) return 1;
  return fflush(stdout) != 0;
}

static int opens(int count, char **words) {
#ifdef FABRIC
  (void)words;
  return count > WORDS || kigvarp_fabric_open(&handle);
#else
  char *behind = "";
  long buffers = count > 1 ? strtol(words[1], &behind, 10) : 8;
  if (count > WORDS || *behind || buffers < 0 || buffers > 255 || (count > 1 && (words[1][0] < '1' || words[1][0] > '9')))
    return 1;
  return (int)kigvarp_port_open(&handle, (uint8_t)buffers, 0);
#endif
}

int main(int count, char **words) {
  signal(SIGPIPE, SIG_IGN);
  if (opens(count, words)) return ends(2, "wrong words");
  for (long length; (length = next_line()) != -1;) {
    if (length == -2) return ends(8, "a line is too long");
    uint32_t status = CALL(line)(&handle, (const uint8_t *)line, (size_t)length);
    if (write_answer()) return ends(5, "nobody reads");
    if (status == KIGVARP_UNDETECTED) return ends(7, "undetected");
    if (status) return ends(6, "no memory");
  }
#ifdef FABRIC
  puts("end");
#endif
  return ends(fflush(stdout) ? 5 : 0, "nobody reads");
}
