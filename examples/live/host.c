/* A boot host: numbers a fabric of rio_live by an algorithm of its own, and prints what it found.
 *
 *     cc -o host host.c && ./host PROGRAM NODE < FABRIC
 *
 * PROGRAM is rio_live, NODE the endpoint that is the host, with a device ID below 255, and FABRIC are set-up lines,
 * such as examples/ring.fabric. A host of your own takes over the first part. The second is one way to number a fabric:
 * it goes from switch to switch, the nearest first, tells devices apart by their component tags, gives each endpoint
 * the next ID, and sets its route in each switch on the way. */
#include <stdio.h>
#include <stdlib.h>
#include <string.h>
#include <unistd.h>

/* ---- the fabric */

static FILE *to_fabric, *from_fabric;
static const char *host;
static unsigned host_id;

/* Starts the program with its standard streams on two pipes. */
static void start(const char *program) {
    int down[2], up[2];
    if (pipe(down) || pipe(up)) exit(1);
    if (fork() == 0) {
        dup2(down[0], 0);
        dup2(up[1], 1);
        close(down[0]), close(down[1]), close(up[0]), close(up[1]);
        execl(program, program, (char *)0);
        _exit(127);
    }
    close(down[0]), close(up[1]);
    to_fabric = fdopen(down[1], "w");
    from_fabric = fdopen(up[0], "r");
}

/* Writes a line and reads its answer up to `ok`, and puts the last line before that there, or none. */
static void say(const char *line, char answer[4096]) {
    char next[4096];
    answer[0] = 0;
    fprintf(to_fabric, "%s\n", line);
    fflush(to_fabric);
    while (fgets(next, sizeof next, from_fabric)) {
        if (!strcmp(next, "ok\n")) return;
        strcpy(answer, next);
    }
    fprintf(stderr, "the fabric has ended at: %s\n", line);
    exit(1);
}

/* Reads a register, or writes it: one line, and an answer whose last line says what came of it. The fabric runs until the
 * response has come, and every endpoint answers, since all are served. False if none came, or the register could not be
 * read or written. */
static int ask(unsigned dest, unsigned hop, unsigned offset, const unsigned *write, unsigned *read) {
    static unsigned tid;
    char line[96], answer[4096];
    tid = (tid + 1) % 256;
    if (write) snprintf(line, sizeof line, "ask write %s 0 %u %u %u %06x %08x", host, dest, hop, tid, offset, *write);
    else snprintf(line, sizeof line, "ask read %s 0 %u %u %u %06x", host, dest, hop, tid, offset);
    say(line, answer);
    return write ? !strcmp(answer, "written\n") : sscanf(answer, "value %8x", read) == 1;
}

static int read_at(unsigned dest, unsigned hop, unsigned offset, unsigned *value) {
    return ask(dest, hop, offset, NULL, value);
}

static void write_at(unsigned dest, unsigned hop, unsigned offset, unsigned value) {
    if (!ask(dest, hop, offset, &value, NULL)) fprintf(stderr, "hop %u: %06x was not written\n", hop, offset);
}

/* Ends the input, and reads what comes then. */
static void finish(void) {
    char line[64];
    fclose(to_fabric);
    while (fgets(line, sizeof line, from_fabric)) continue;
}

/* Sets the fabric up by the lines of standard input, and notes the ID of the host. No answer has characters, and every
 * endpoint is served: its registers answer in each round. */
static void set_up(void) {
    char line[256], name[16], answer[4096];
    unsigned id;
    say("quiet", answer);
    say("serve all", answer);
    while (fgets(line, sizeof line, stdin)) {
        line[strcspn(line, "\n")] = 0;
        say(line, answer);
        if (sscanf(line, "endpoint %15s %u", name, &id) == 2 && !strcmp(name, host)) host_id = id;
    }
}

/* ---- how it is numbered */

enum { ANY = 255, MOST = 64 };
enum { FEATURES = 0x10, PORTS = 0x14, BASE_ID = 0x60, TAG = 0x6c, ENTRY = 0x70, ENTRY_PORT = 0x74, DEFAULT = 0x78 };
enum { STATUS = 0x158, NEXT_STATUS = 0x20 };

/* A device, the ports of the switches on the way to it, and the port of a switch that leads back. */
struct device { unsigned is_switch, ports, back, id, hops, path[MOST]; };
static struct device devices[MOST];
static unsigned device_count, next_id;

/* Has the switches on a way send packets for ANY along it. */
static void lead(const unsigned *path, unsigned hops) {
    for (unsigned hop = 0; hop < hops; hop++) write_at(ANY, hop, DEFAULT, path[hop]);
}

/* Sets the entry of a destination in the switch so many hops away, to which ANY leads. */
static void route(unsigned hop, unsigned dest, unsigned port) {
    write_at(ANY, hop, ENTRY, dest);
    write_at(ANY, hop, ENTRY_PORT, port);
}

/* Meets the device at the end of a way, and numbers it if it is new: then it has no tag. */
static void meet(const unsigned *path, unsigned hops) {
    unsigned tag, features, ports;
    lead(path, hops);
    if (!read_at(ANY, hops, TAG, &tag) || tag != 0) return;
    struct device *device = &devices[device_count++];
    device->hops = hops;
    memcpy(device->path, path, hops * sizeof *path);
    write_at(ANY, hops, TAG, device_count);
    read_at(ANY, hops, FEATURES, &features);
    device->is_switch = features >> 28 & 1;
    if (device->is_switch) {
        read_at(ANY, hops, PORTS, &ports);
        device->ports = ports >> 8 & 255;
        device->back = ports & 255;
        route(hops, host_id, device->back);
        return;
    }
    if (next_id == host_id) next_id++;
    device->id = next_id++;
    write_at(ANY, hops, BASE_ID, device->id << 16);
    for (unsigned hop = 0; hop < hops; hop++) route(hop, device->id, path[hop]);
}

/* Meets what stands at the ports of a switch that have a link, but for the one that leads back to the host. */
static void look_around(const struct device *from) {
    unsigned path[MOST], status;
    memcpy(path, from->path, sizeof path);
    for (unsigned port = 0; port < from->ports && from->hops + 1 < MOST; port++) {
        if (port == from->back) continue;
        lead(from->path, from->hops);
        if (!read_at(ANY, from->hops, STATUS + NEXT_STATUS * port, &status) || !(status & 2)) continue;
        path[from->hops] = port;
        meet(path, from->hops + 1);
    }
}

int main(int argc, char **argv) {
    unsigned none[MOST] = {0};
    if (argc != 3) return fprintf(stderr, "usage: host PROGRAM NODE < FABRIC\n"), 2;
    host = argv[2];
    start(argv[1]);
    set_up();
    meet(none, 0);
    for (unsigned at = 0; at < device_count; at++)
        if (devices[at].is_switch) look_around(&devices[at]);
    for (unsigned at = 0; at < device_count; at++) {
        const struct device *device = &devices[at];
        unsigned tag = 0;
        printf(device->is_switch ? "switch %u" : "endpoint %u", device->is_switch ? device->ports : device->id);
        for (unsigned hop = 0; hop < device->hops; hop++) printf("%c%u", hop ? '.' : ' ', device->path[hop]);
        if (!device->is_switch && (!read_at(device->id, 255, TAG, &tag) || tag != at + 1)) printf(" is not reached");
        printf("\n");
    }
    finish();
    return 0;
}
