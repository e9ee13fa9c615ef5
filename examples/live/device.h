/* A small link layer in C: a device with one packet outstanding. Put your own in its place.
 *
 * A character is nine bits, whether it is special and its byte, or NONE. A packet is its link form of twelve bytes with
 * ackID 0: IDs of 8 bits and four bytes of data. */
#ifndef DEVICE_H
#define DEVICE_H

#include <stdint.h>

enum { NONE = 0x200, SPECIAL = 0x100, PACKET = 12, MOST_SENT = 20 };

struct device {
    enum { OUT_OK, OUT_RETRY_STOPPED, OUT_ERROR_STOPPED } out;
    enum { IN_OK, IN_RETRY_STOPPED, IN_ERROR_STOPPED } in;
    int asked, sent, full;
    unsigned ack, expected;
    uint8_t own[PACKET]; /* to be sent, if full */
    int in_symbol, in_packet, skipping;
    unsigned delimiter, count;
    uint8_t symbol[3], text[PACKET];
    /* what the last character did */
    int held, freed, reply_length;
    uint8_t packet[PACKET];
    unsigned reply[MOST_SENT];
};

/* The link form of a packet of priority 0 and type 15 from 1 to 2, with a number as its data. */
void device_packet(uint8_t packet[PACKET], uint32_t number);

/* Gives the device a packet to be sent. It must not be full. */
void device_offer(struct device *d, const uint8_t packet[PACKET]);

/* The characters of a turn, and how many: at most one packet or symbol. */
int device_turn(struct device *d, unsigned chars[MOST_SENT]);

/* Takes a character. What it did stands in held, freed and reply until the next one. */
void device_got(struct device *d, unsigned c);

/* Whether an answer is to come. */
int device_waits(const struct device *d);

void device_time_out(struct device *d);

#endif
