// Clocks the sender of examples/live for 40 clocks and dumps its signals to the file that is named, as Verilator does.
#include "Vsender.h"
#include "verilated_vcd_c.h"

int main(int, char** words) {
    VerilatedContext context;
    context.traceEverOn(true);
    Vsender sender{&context};
    VerilatedVcdC dump;
    sender.trace(&dump, 9);
    dump.open(words[1]);
    for (int half = 0; half < 80; half++) {
        sender.clock = half & 1;
        // the start stands before the third rising edge
        sender.start = half >= 4 && half < 6;
        sender.eval();
        dump.dump(half * 5);
    }
    dump.close();
    return 0;
}
