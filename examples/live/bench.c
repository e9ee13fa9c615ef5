/* A whole bench in C: the device of device.c beside rio_port (port.c), packets both ways, faults on the wire, and a log on
 * standard output that `rio check` reads. A is the device, and B is the port.
 *
 *   cc -o bench examples/live/bench.c examples/live/device.c examples/live/port.c
 *   ./bench [PROGRAM [PACKETS [FAULTS [SEED]]]] | rio check
 *
 * PACKETS go each way, 300 unless it is said, and FAULTS of 1000 characters get a fault, 20 unless it is said. */
#include <stdio.h>
#include <stdlib.h>
#include <string.h>

#include "device.h"
#include "port.h"

enum { WIRE = 65536 };

static struct device device;
static unsigned wire[WIRE]; /* from the port to the device */
static int on_wire, packets = 300, faults = 20, offered, sent_back, left_a, left_b, freed, holds;

static void put_chars(const unsigned *chars, int count) {
    for (int at = 0; at < count; at++)
        if (chars[at] == NONE) printf(" inv");
        else printf(" %c%02x", chars[at] & SPECIAL ? 'k' : 'd', chars[at] & 0xFF);
    printf("\n");
}

static void put_packet(const char *word, const uint8_t *packet) {
    printf("%s ", word);
    for (int at = 0; at < PACKET; at++) printf("%02x", packet[at]);
    printf("\n");
}

/* Characters are on the wire of an end, from this place on, and get their faults there. */
static void disturb(const char *end, unsigned *chars, int begin, int count) {
    for (int at = begin; at < count; at++) {
        if (rand() % 1000 >= faults) continue;
        chars[at] = chars[at] & SPECIAL ? NONE : chars[at] ^ 1u << rand() % 8;
        printf("> alter %s %d", end, at);
        put_chars(chars + at, 1);
    }
}

/* What the port sends comes on its wire. */
static void port_sent(const char *text) {
    int begin = on_wire;
    for (; text[0] == ' ' && on_wire < WIRE; text += 4)
        wire[on_wire++] = (unsigned)strtoul(text + 2, NULL, 16) | (text[1] == 'k' ? SPECIAL : 0u);
    printf("sent B.0");
    put_chars(wire + begin, on_wire - begin);
    disturb("B.0", wire, begin, on_wire);
}

/* A line to the port, and all that its answer says. The answer is 0 if a packet found no room. */
static int ask(const char *line) {
    int room = 1;
    if (port_ask(line) != 0) exit(1);
    for (const char *said = port_next(); *said; said = port_next()) {
        if (strncmp(said, "sent", 4) == 0) port_sent(said + 4);
        else if (strncmp(said, "hold ", 5) == 0) holds += printf("hold B.0 %s\n", said + 5) > 0;
        else if (strncmp(said, "free ", 5) == 0) freed += printf("free B.0 %s\n", said + 5) > 0;
        else if (strncmp(said, "queued ", 7) == 0) printf("take B %s\n", said + 7);
        else if (strncmp(said, "taken ", 6) == 0) holds--, left_b += printf("leave B %s\n", said + 6) > 0;
        else if (strcmp(said, "full") == 0) room = 0;
        else if (strncmp(said, "refused ", 8) == 0) fprintf(stderr, "%s: %s\n", line, said), exit(1);
        else if (strncmp(said, "output ", 7) == 0) room &= strcmp(said, "output ok") == 0;
        else if (strncmp(said, "outstanding ", 12) == 0) room &= strcmp(said, "outstanding 0") == 0;
    }
    return room;
}

/* A burst of the device goes on its wire, gets its faults, and comes to the port as one line. */
static void device_sent(unsigned *chars, int count) {
    char line[8 * MOST_SENT] = "got";
    if (count == 0) return;
    printf("sent A.0");
    put_chars(chars, count);
    disturb("A.0", chars, 0, count);
    printf("got B.0");
    put_chars(chars, count);
    for (int at = 0; at < count; at++)
        if (chars[at] == NONE) strcat(line, " inv");
        else sprintf(line + strlen(line), " %c%02x", chars[at] & SPECIAL ? 'k' : 'd', chars[at] & 0xFF);
    ask(line);
}

/* The next character of the port comes to the device. */
static void deliver(void) {
    unsigned c = wire[0];
    memmove(wire, wire + 1, --on_wire * sizeof wire[0]);
    printf("got A.0");
    put_chars(&c, 1);
    device_got(&device, c);
    if (device.held) put_packet("hold A.0", device.packet), put_packet("leave A", device.packet);
    if (device.freed) put_packet("free A.0", device.own);
    left_a += device.held;
    freed += device.freed;
    device_sent(device.reply, device.reply_length);
}

/* Packets are to be sent from both ends, if there is room. */
static void offer(void) {
    uint8_t packet[PACKET];
    char line[64];
    if (!device.full && offered < packets) {
        device_packet(packet, (uint32_t)offered++);
        device_offer(&device, packet);
        put_packet("take A", packet);
    }
    if (sent_back < packets) {
        sprintf(line, "send %d 15 2 1 %08x", sent_back % 4, (unsigned)sent_back);
        sent_back += ask(line);
    }
}

/* Nothing moves: the time-outs come to those that wait for an answer. */
static void time_outs(void) {
    if (device_waits(&device)) printf("fire A.0\n"), device_time_out(&device);
    if (!ask("state")) printf("fire B.0\n"), ask("timeout");
}

int main(int words, char **word) {
    unsigned chars[MOST_SENT];
    int count, late = 0;
    if (words > 2) packets = atoi(word[2]);
    if (words > 3) faults = atoi(word[3]);
    srand(words > 4 ? (unsigned)atoi(word[4]) : 1);
    if (port_open(words > 1 ? word[1] : "rio_port") != 0) return 1;
    printf("endpoint A 1\nendpoint B 2\nlink A.0 B.0\n---\n");
    while (left_a + left_b + freed < 4 * packets && late < 1000 * packets) {
        offer();
        count = device_turn(&device, chars);
        device_sent(chars, count);
        ask("turn 1");
        if (count == 0 && on_wire == 0) time_outs(), late++;
        while (on_wire > 0) deliver();
        while (holds > 0) ask("take");
    }
    printf("end\n");
    fprintf(stderr, "%d packets left at A, %d at B\n", left_a, left_b);
    return port_close() != 0 || left_a != packets || left_b != packets;
}
