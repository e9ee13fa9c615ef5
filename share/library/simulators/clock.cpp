// Gives a bench its clock, for Verilator.
#include "Vtwo_ports_tb.h"
#include "verilated.h"

int main(int count, char **words) {
  VerilatedContext context;
  context.commandArgs(count, words);
  Vtwo_ports_tb bench{&context};
  while (!context.gotFinish()) {
    bench.clock = !bench.clock;
    bench.eval();
    context.timeInc(1);
  }
  bench.final();
}
