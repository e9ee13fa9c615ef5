/* Kigvarp from C: one end of a RapidIO serial link, a whole simulated fabric, a check of traces, and what characters say.
 * docs/library.md shows each call.
 *
 * A handle is zeroed before its first use: struct kigvarp_port port = {0}; It is closed then. Each call of a closed handle
 * answers KIGVARP_CLOSED, and a second close is safe. What a caller owes, and nothing checks:
 *
 * 1. A handle is zeroed, or was left so by a call of this library, and nothing else changes what is in it.
 * 2. A handle is not copied while it is open.
 * 3. A handle is used by one call at a time, and always on the thread that opened it.
 * 4. A pointer is not null, not even for a length of 0, and a length is no more than there is of what it points to.
 * 5. Nothing else reads or writes that memory during the call, and what is written to and what is read do not overlap.
 * 6. malloc, realloc and free are of one allocator and align to 16 bytes, and no call comes from a signal handler or from
 *    the forked child of a process with threads.
 */
#ifndef KIGVARP_H
#define KIGVARP_H

#include <stddef.h>
#include <stdint.h>

#ifdef __cplusplus
extern "C" {
#endif

/* What a call answers. */
enum {
  KIGVARP_OK = 0,         /* it was done */
  KIGVARP_CLOSED = 1,     /* the handle is closed: nothing was done */
  KIGVARP_ARGUMENT = 2,   /* out of range, or too little room: nothing was done */
  KIGVARP_OPEN = 3,       /* the handle is open already: nothing was done */
  KIGVARP_FULL = 4,       /* the priority of the packet has no room: nothing was done */
  KIGVARP_EMPTY = 5,      /* no packet is held: nothing was done */
  KIGVARP_NO_MEMORY = 6,  /* memory was refused: nothing was done, but the text of the line before is gone, and clocks were
                             done up to there */
  KIGVARP_UNDETECTED = 7, /* a port acted on what was not sent, as the text says: the fabric is spent */
  KIGVARP_CUT = 8,        /* memory was refused while a line was answered: a front of the answer waits. A port went on as the
                             answer says; a fabric or a checker is spent, and so is a fabric if memory was refused to
                             kigvarp_fabric_own, which tells nothing */
  KIGVARP_SPENT = 9,      /* the fabric or the checker answers no further line: nothing was done */
  KIGVARP_BAD = 10,       /* the characters are no symbol, or the bytes carry no packet: nothing was done */
  KIGVARP_UNLAWFUL = 11,  /* a reason hits a line of the trace: the checker is spent */
  KIGVARP_REFUSED = 12    /* a reason hits a line of the set-up: nothing was done */
};

/* A status in words, or "no status". */
static inline const char *kigvarp_status_words(uint32_t status) {
  static const char *const words[] = {"ok",         "closed", "argument", "open", "full",     "empty",  "no memory",
                                      "undetected", "cut",    "spent",    "bad",  "unlawful", "refused"};
  return status < sizeof words / sizeof *words ? words[status] : "no status";
}

/* Room that calls need, in characters or bytes. */
enum {
  KIGVARP_ANSWER = 4,   /* the characters of an answer */
  KIGVARP_TURN = 284,   /* the most characters of a turn */
  KIGVARP_PACKET = 276, /* the most bytes of a packet */
  KIGVARP_RUN = 65536,  /* the most characters of a run */
  KIGVARP_READ = 4194304 /* the most characters that are read at once */
};

/* A character of the wire: 0x000 to 0x0ff is data, 0x100 to 0x1ff is special, and any other number is no character, as
   which 0x200 is written. */
typedef uint16_t kigvarp_char;

struct kigvarp_port { void *at; size_t open; };
struct kigvarp_fabric { void *at; size_t open; };
struct kigvarp_checker { void *at; size_t open; };

/* What a character did: the length of the packet that was accepted, or 0; how many packets were freed; how many characters
   are to be sent, and these, with zeros behind them. */
struct kigvarp_char_did { uint32_t held, freed, sent; kigvarp_char chars[KIGVARP_ANSWER]; };

/* What a run of characters did: how many packets were accepted and freed, and how many characters are to be sent. */
struct kigvarp_run_did { uint32_t held, freed, sent; };

/* What clocks did: how many there were, how many packets were accepted and freed, and how many time-outs fired by themselves. */
struct kigvarp_clocks_did { uint32_t clocks, held, freed, fired; };

/* The fields of a packet: priority 0 to 3, format type 0 to 15, and two IDs of 16 bits, or of 8 if large is 0. */
struct kigvarp_header { uint8_t prio, ftype, large; uint16_t source, dest; };

/* The state of a port. output: 0 ok, 1 retry-stopped, 2 error-stopped, 3 failed. input: 0 ok, 1 retry-stopped,
   2 error-stopped. outstanding: how many packets. waiting: 1 if a packet is to be sent that is not outstanding. */
struct kigvarp_state { uint32_t output, input, outstanding, waiting; };

/* The fields of a control symbol: 0 to 7, 31, 31, 7 and 7. */
struct kigvarp_symbol { uint8_t stype0, parameter0, parameter1, stype1, cmd; };

/* What an event is. */
enum {
  KIGVARP_IS_SYMBOL = 1, /* a control symbol */
  KIGVARP_IS_PACKET = 2, /* a packet */
  KIGVARP_IS_BAD = 3     /* characters that are neither */
};

/* What characters say: the place of the character that completes it, counted from 0; what it is; of a packet the ackID, how
   many bytes it has, and these with an ackID of 0; of a symbol its fields; of what is neither the cause. All else is 0. */
struct kigvarp_event {
  uint32_t place, kind, length;
  struct kigvarp_symbol symbol;
  uint8_t ack, cause, bytes[KIGVARP_PACKET];
};

/* What a run of characters says: how many events, and 1 if it ends within a symbol or a packet. */
struct kigvarp_reading { uint32_t events, cut; };

/* What the bytes of a packet say: the ackID, 0 to 31, the priority, the transport type, 0 if IDs have 8 bits and 1 if they
   have 16, the format type, and the IDs, which are 0 if the transport type is 2 or 3. */
struct kigvarp_packet { uint8_t ack, prio, tt, ftype; uint16_t source, dest; };

/* The line that a reason hits, counted from 1, and the least reason that hits it, or zeros. */
struct kigvarp_hit { uint32_t line, reason; };

/* A request of a register: priority 0 to 3, hop count and transaction number; IDs of 16 bits, or of 8 if large is 0; a write of
   value, or a read if write is 0; the destination ID, and an offset of 24 bits. */
struct kigvarp_ask { uint8_t prio, hop, tid, large, write; uint16_t dest; uint32_t offset, value; };

/* A node's access to a register of its own: a write of value, or a read if write is 0, at an offset of 24 bits. */
struct kigvarp_own { uint8_t write; uint32_t offset, value; };

/* What comes of a request or an access. */
enum {
  KIGVARP_VALUE = 1,      /* value was read */
  KIGVARP_WRITTEN = 2,    /* it was written */
  KIGVARP_NOT_DONE = 3,   /* a response says that it is not done: value is its status. Of a node's own register it is 7: none
                             stands there, or none that can be written */
  KIGVARP_UNANSWERED = 4, /* no response came */
  KIGVARP_NOT_ASKED = 5   /* it was not carried out: value is the number of the reason (docs/refusals.md) */
};

/* One of these and a value, which is 0 of others; or zeros if the status is neither KIGVARP_OK nor KIGVARP_CLOSED. */
struct kigvarp_reply { uint32_t kind, value; };

/* ---- a port */

/* Opens a port of 4 to 30 receive buffers, which tells its free buffers if tells is not 0. */
uint32_t kigvarp_port_open(struct kigvarp_port *port, uint8_t buffers, uint8_t tells);

/* Closes a port, and gives its memory back. */
uint32_t kigvarp_port_close(struct kigvarp_port *port);

/* Answers a line of rio_port, without its line feed. The text of the line before is forgotten. */
uint32_t kigvarp_port_line(struct kigvarp_port *port, const uint8_t *line, size_t length);

/* Takes the text that waits, as much of it as has room: count is how many bytes, and 0 if no more waits. */
uint32_t kigvarp_port_text(struct kigvarp_port *port, uint8_t *out, size_t room, size_t *count);

/* Takes a character. */
uint32_t kigvarp_port_take(struct kigvarp_port *port, kigvarp_char character, struct kigvarp_char_did *did);

/* Takes length characters, at most KIGVARP_RUN, and writes the answers to out, where room is at least KIGVARP_ANSWER times
   length. Answers are to be sent before what a turn sends. */
uint32_t kigvarp_port_got(struct kigvarp_port *port, const kigvarp_char *characters, size_t length, kigvarp_char *out,
                          size_t room, struct kigvarp_run_did *did);

/* A clock for each of length characters, at most KIGVARP_RUN: it takes the character, and gives one, which is written to out,
   where room is at least length. A burst is given whole, one character a clock, and an idle, 0x1bc, if there is nothing to
   send. KIGVARP_NO_MEMORY: did tells how many clocks there were before memory was refused. */
uint32_t kigvarp_port_clock(struct kigvarp_port *port, const kigvarp_char *characters, size_t length, kigvarp_char *out,
                            size_t room, struct kigvarp_clocks_did *did);

/* Says how many clocks without an answer are too long, one after another: then a time-out fires by itself. None are if it is 0,
   as at first. */
uint32_t kigvarp_port_patience(struct kigvarp_port *port, uint32_t clocks);

/* Takes a turn: count characters are to be sent. Room is at least KIGVARP_TURN. */
uint32_t kigvarp_port_turn(struct kigvarp_port *port, kigvarp_char *out, size_t room, size_t *count);

/* The time-out comes. */
uint32_t kigvarp_port_time_out(struct kigvarp_port *port);

/* Puts a packet to those to be sent: its fields, and the bytes behind them. */
uint32_t kigvarp_port_send(struct kigvarp_port *port, const struct kigvarp_header *header, const uint8_t *rest, size_t length);

/* Takes the first held packet of the highest priority: count is how many bytes it has. Room is at least KIGVARP_PACKET. */
uint32_t kigvarp_port_collect(struct kigvarp_port *port, uint8_t *out, size_t room, size_t *count);

/* Tells the state. */
uint32_t kigvarp_port_state(struct kigvarp_port *port, struct kigvarp_state *told);

/* ---- a fabric */

/* Opens a fabric that was given no line. */
uint32_t kigvarp_fabric_open(struct kigvarp_fabric *fabric);

/* Closes a fabric, and gives its memory back. */
uint32_t kigvarp_fabric_close(struct kigvarp_fabric *fabric);

/* Answers a line of rio_live, without its line feed. The text of the line before is forgotten. */
uint32_t kigvarp_fabric_line(struct kigvarp_fabric *fabric, const uint8_t *line, size_t length);

/* Asks for a register as the line `ask` of rio_live does, by numbers: the host is an endpoint, by its name without a zero after
   it. The text of the line before is forgotten, and the answer of that line waits. A name that a script cannot say and a field
   out of range are KIGVARP_ARGUMENT. KIGVARP_NO_MEMORY: nothing was done. */
uint32_t kigvarp_fabric_ask(struct kigvarp_fabric *fabric, const uint8_t *host, size_t length, const struct kigvarp_ask *ask,
                            struct kigvarp_reply *reply);

/* Has an endpoint, by its name without a zero after it, read or write a register of its own without a packet. This counts as no
   line, and the text that waits stays. Set-up lines end before it, as before an event. A write is in no trace: what is told after
   it goes on from the registers as they are. KIGVARP_NOT_ASKED: no endpoint has this name, and nothing was done. An offset out of
   range is KIGVARP_ARGUMENT. KIGVARP_CUT: memory was refused, and the fabric is spent. */
uint32_t kigvarp_fabric_own(struct kigvarp_fabric *fabric, const uint8_t *node, size_t length, const struct kigvarp_own *own,
                            struct kigvarp_reply *reply);

/* Takes the text that waits, as much of it as has room: count is how many bytes, and 0 if no more waits. */
uint32_t kigvarp_fabric_text(struct kigvarp_fabric *fabric, uint8_t *out, size_t room, size_t *count);

/* ---- a check of a trace */

/* Opens a checker of a trace of the fabric that these set-up lines make, of at most 16777216 bytes. KIGVARP_REFUSED: hit tells
   which of them a reason hits. */
uint32_t kigvarp_checker_open(struct kigvarp_checker *checker, const uint8_t *script, size_t length, struct kigvarp_hit *hit);

/* Closes a checker, and gives its memory back. */
uint32_t kigvarp_checker_close(struct kigvarp_checker *checker);

/* Takes the next line of a trace, without its line feed: the lines so far are lawful. KIGVARP_UNLAWFUL: hit tells which line of
   the trace a reason hits, this one, or the one before if that edits a wire. */
uint32_t kigvarp_checker_take(struct kigvarp_checker *checker, const uint8_t *line, size_t length, struct kigvarp_hit *hit);

/* No line follows: the lines are a lawful trace of so many steps. KIGVARP_UNLAWFUL is as above, of the last line or the one that
   lacks. */
uint32_t kigvarp_checker_end(struct kigvarp_checker *checker, struct kigvarp_hit *hit, uint32_t *steps);

/* ---- what characters and bytes say */

/* Reads length characters, at most KIGVARP_READ, as rio decode does, and writes what they say to events, as many as room has
   places for. did tells how many there are. */
uint32_t kigvarp_decode(const kigvarp_char *characters, size_t length, struct kigvarp_event *events, size_t room,
                        struct kigvarp_reading *did);

/* Writes the four characters of a symbol. Room is at least 4. */
uint32_t kigvarp_symbol_write(const struct kigvarp_symbol *symbol, kigvarp_char *out, size_t room);

/* Tells the symbol that four characters say. */
uint32_t kigvarp_symbol_read(const kigvarp_char *characters, size_t length, struct kigvarp_symbol *symbol);

/* Writes the bytes of the packet that has these fields, these bytes behind them, and this ackID, with its CRC: count is how many
   they are. Room is at least KIGVARP_PACKET. */
uint32_t kigvarp_packet_write(const struct kigvarp_header *header, uint8_t ack, const uint8_t *rest, size_t length, uint8_t *out,
                              size_t room, size_t *count);

/* Tells the ackID and the fields of the packet that bytes carry. Behind the IDs, at byte 4, or 6 if they have 16 bits, stand its
   data, one CRC or two, and a pad: how many bytes of data there are is said by the format type. */
uint32_t kigvarp_packet_read(const uint8_t *bytes, size_t length, struct kigvarp_packet *packet);

#ifdef __cplusplus
}
#endif
#endif
