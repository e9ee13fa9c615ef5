/* Ports by number, of which each takes a character and gives one in each clock: what VPI and DPI call. */
#ifndef KIGVARP_PORTS_H
#define KIGVARP_PORTS_H

#include "kigvarp.h"

enum { PORTS_MOST = 64, PORTS_IDLE = 0x1bc, PORTS_NONE = 1023 };

static struct kigvarp_port ports_all[PORTS_MOST];
static int ports_opened;

/* A status, below zero if it is not well. */
static int ports_status(uint32_t status) { return -(int)status; }

/* The port of a number. One that was not opened is closed. */
static struct kigvarp_port *ports_at(int number) { return &ports_all[(unsigned)number % PORTS_MOST]; }

static int ports_open(int buffers) {
  if (ports_opened == PORTS_MOST || buffers < 0 || buffers > 255) return ports_status(KIGVARP_ARGUMENT);
  uint32_t status = kigvarp_port_open(&ports_all[ports_opened], (uint8_t)buffers, 0);
  return status ? ports_status(status) : ports_opened++;
}

static int ports_patience(int number, int clocks) {
  if (clocks < 0) return ports_status(KIGVARP_ARGUMENT);
  return ports_status(kigvarp_port_patience(ports_at(number), (uint32_t)clocks));
}

/* A clock in which no character comes is one with an idle, and so it is one in which an idle is given. */
static int ports_clock(int number, int came) {
  kigvarp_char in = came == PORTS_NONE ? PORTS_IDLE : (kigvarp_char)came, out;
  struct kigvarp_clocks_did did;
  uint32_t status = kigvarp_port_clock(ports_at(number), &in, 1, &out, 1, &did);
  if (status) return ports_status(status);
  return out == PORTS_IDLE ? (int)PORTS_NONE : out;
}

static int ports_send(int number, int prio, int ftype, int source, int dest, uint32_t data) {
  struct kigvarp_header header = {(uint8_t)prio, (uint8_t)ftype, 0, (uint16_t)source, (uint16_t)dest};
  uint8_t rest[4] = {(uint8_t)(data >> 24), (uint8_t)(data >> 16), (uint8_t)(data >> 8), (uint8_t)data};
  if ((prio | ftype | source | dest) & ~255) return ports_status(KIGVARP_ARGUMENT);
  return ports_status(kigvarp_port_send(ports_at(number), &header, rest, sizeof rest));
}

static long long ports_collect(int number) {
  uint8_t packet[KIGVARP_PACKET];
  size_t count;
  uint32_t status = kigvarp_port_collect(ports_at(number), packet, sizeof packet, &count);
  if (status) return ports_status(status);
  return (long long)packet[4] << 24 | packet[5] << 16 | packet[6] << 8 | packet[7];
}

static int ports_time_out(int number) { return ports_status(kigvarp_port_time_out(ports_at(number))); }

#endif
