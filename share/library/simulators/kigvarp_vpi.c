/* Ports of Kigvarp in Verilog, by VPI: functions for Icarus Verilog and others.
 *
 *   $kigvarp_open(BUFFERS)          opens a port, and gives its number
 *   $kigvarp_patience(PORT, CLOCKS) says how many clocks without an answer are too long: then a time-out comes by itself
 *   $kigvarp_clock(PORT, CHAR)      takes the character that came, and gives the one that is sent in this clock
 *   $kigvarp_send(PORT, PRIORITY, TYPE, SOURCE, DESTINATION, DATA)
 *                                   puts a packet with four bytes of data to those to be sent
 *   $kigvarp_collect(PORT)          takes the next held packet, and gives the four bytes behind its header
 *   $kigvarp_time_out(PORT)         has the time-out come
 *
 * A character is 0 to 255 for data, 256 to 511 for special, 512 for no character, and 1023 for none in this clock. Else
 * what is given is 0 or more, or a status of kigvarp.h below zero; $kigvarp_collect gives 64 bits. A call in a && b is
 * made whether a is true or not: give it a statement of its own.
 */
#include "kigvarp.h"
#include "kigvarp_ports.h"
#include <vpi_user.h>

enum { ARGUMENTS = 6 };

static PLI_INT32 argument[ARGUMENTS];

static void read_arguments(void) {
  vpiHandle each = vpi_iterate(vpiArgument, vpi_handle(vpiSysTfCall, 0)), one;
  for (int i = 0; each && (one = vpi_scan(each)); i++) {
    s_vpi_value value = {.format = vpiIntVal};
    vpi_get_value(one, &value);
    if (i < ARGUMENTS) argument[i] = value.value.integer;
  }
}

static PLI_INT32 give(PLI_INT32 number) {
  s_vpi_value value = {.format = vpiIntVal};
  value.value.integer = number;
  vpi_put_value(vpi_handle(vpiSysTfCall, 0), &value, 0, vpiNoDelay);
  return 0;
}

static PLI_INT32 give_wide(long long number) {
  s_vpi_vecval words[2] = {{(PLI_INT32)number, 0}, {(PLI_INT32)(number >> 32), 0}};
  s_vpi_value value = {.format = vpiVectorVal};
  value.value.vector = words;
  vpi_put_value(vpi_handle(vpiSysTfCall, 0), &value, 0, vpiNoDelay);
  return 0;
}

static PLI_INT32 opens(PLI_BYTE8 *unused) {
  (void)unused;
  read_arguments();
  return give(ports_open(argument[0]));
}

static PLI_INT32 waits(PLI_BYTE8 *unused) {
  (void)unused;
  read_arguments();
  return give(ports_patience(argument[0], argument[1]));
}

static PLI_INT32 clocks(PLI_BYTE8 *unused) {
  (void)unused;
  read_arguments();
  return give(ports_clock(argument[0], argument[1]));
}

static PLI_INT32 sends(PLI_BYTE8 *unused) {
  (void)unused;
  read_arguments();
  return give(ports_send(argument[0], argument[1], argument[2], argument[3], argument[4], (uint32_t)argument[5]));
}

static PLI_INT32 collects(PLI_BYTE8 *unused) {
  (void)unused;
  read_arguments();
  return give_wide(ports_collect(argument[0]));
}

static PLI_INT32 times_out(PLI_BYTE8 *unused) {
  (void)unused;
  read_arguments();
  return give(ports_time_out(argument[0]));
}

static PLI_INT32 wide(PLI_BYTE8 *unused) {
  (void)unused;
  return 64;
}

static void add(const char *name, PLI_INT32 (*call)(PLI_BYTE8 *), PLI_INT32 (*size)(PLI_BYTE8 *)) {
  s_vpi_systf_data data = {.type = vpiSysFunc, .sysfunctype = size ? vpiSizedFunc : vpiIntFunc};
  data.tfname = (PLI_BYTE8 *)name;
  data.calltf = call;
  data.sizetf = size;
  vpi_register_systf(&data);
}

static void add_all(void) {
  add("$kigvarp_open", opens, 0);
  add("$kigvarp_patience", waits, 0);
  add("$kigvarp_clock", clocks, 0);
  add("$kigvarp_send", sends, 0);
  add("$kigvarp_collect", collects, wide);
  add("$kigvarp_time_out", times_out, 0);
}

void (*vlog_startup_routines[])(void) = {add_all, 0};
