/* rio_port or rio_live as a process: lines to it, and the lines of its answers. For a bench in C, and for the direct
 * programming interface of SystemVerilog (bench.sv). */
#ifndef PORT_H
#define PORT_H

#ifdef __cplusplus
extern "C" {
#endif

/* Starts the program. The answer is 0, or -1 if it cannot be started. */
int port_open(const char *program);

/* Writes a line, without a line feed, and reads its answer whole. The answer is 0, or -1 if the program is gone. */
int port_ask(const char *line);

/* Has a clock for each of these characters, of 9 bits, or more for one that is none: given are as many. The answer is as that of
 * port_ask, and its lines are those before `given`. */
int port_clocks(const unsigned short *chars, int count, unsigned short *given);

/* The next line of the answer, without a line feed and without the last one, `ok`; or "" if there is none. */
const char *port_next(void);

/* Ends the program. The answer is its exit status. */
int port_close(void);

#ifdef __cplusplus
}
#endif

#endif
