/* The functions of kigvarp.svh, for Verilator and any simulator with the direct programming interface. */
#include "kigvarp_ports.h"

#ifdef __cplusplus
extern "C" {
#endif

int kigvarp_dpi_open(int buffers) { return ports_open(buffers); }
int kigvarp_dpi_patience(int port, int clocks) { return ports_patience(port, clocks); }
int kigvarp_dpi_clock(int port, int character) { return ports_clock(port, character); }
int kigvarp_dpi_time_out(int port) { return ports_time_out(port); }
long long kigvarp_dpi_collect(int port) { return ports_collect(port); }

int kigvarp_dpi_send(int port, int prio, int ftype, int source, int dest, int data) {
  return ports_send(port, prio, ftype, source, dest, (uint32_t)data);
}

#ifdef __cplusplus
}
#endif
