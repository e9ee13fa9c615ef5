/* A small link layer in C: the tables of docs/link.md, and the reader of docs/characters.md. */
#include "device.h"

#include <string.h>

enum { ACCEPTED = 0, RETRY = 1, NOT_ACCEPTED = 2, STATUS = 4, RESPONSE = 6 };
enum { START = 0, END = 2, RESTART = 3, REQUEST = 4, NOP = 7 };

/* The CRC of the nineteen bits of a symbol and a zero, of which the five foremost are inverted. */
static unsigned crc5(uint32_t bits) {
    uint32_t rest = (bits << 1 ^ 0xF8000u) << 5;
    for (int place = 24; place >= 5; place--)
        if (rest >> place & 1) rest ^= 0x35u << (place - 5);
    return rest & 31;
}

/* The CRC of eight bytes, whose first six bits count as zeros. */
static unsigned crc16(const uint8_t *bytes) {
    unsigned rest = 0xFFFF;
    for (int at = 0; at < 8; at++) {
        rest ^= (unsigned)(at == 0 ? bytes[0] & 3 : bytes[at]) << 8;
        for (int bit = 0; bit < 8; bit++) rest = (rest << 1 ^ (rest & 0x8000 ? 0x1021 : 0)) & 0xFFFF;
    }
    return rest;
}

static int put_symbol(unsigned *to, unsigned s0, unsigned one, unsigned two, unsigned s1, unsigned cmd) {
    uint32_t bits = (((s0 << 5 | one) << 5 | two) << 3 | s1) << 3 | cmd;
    uint32_t all = bits << 5 | crc5(bits);
    to[0] = SPECIAL | (s1 < RESTART ? 0x7C : 0x1C);
    for (int at = 0; at < 3; at++) to[1 + at] = all >> (16 - 8 * at) & 0xFF;
    return 4;
}

static void reply(struct device *d, unsigned s0, unsigned one, unsigned two) {
    d->reply_length += put_symbol(d->reply + d->reply_length, s0, one, two, NOP, 0);
}

static void refuse(struct device *d, unsigned cause) {
    d->in_packet = 0;
    if (d->in != IN_ERROR_STOPPED) reply(d, NOT_ACCEPTED, d->expected, cause);
    d->in = IN_ERROR_STOPPED;
}

void device_packet(uint8_t packet[PACKET], uint32_t number) {
    uint8_t body[PACKET] = {0, 0x0F, 2, 1, (uint8_t)(number >> 24), (uint8_t)(number >> 16), (uint8_t)(number >> 8),
                            (uint8_t)number};
    unsigned crc = crc16(body);
    body[8] = (uint8_t)(crc >> 8);
    body[9] = (uint8_t)crc;
    memcpy(packet, body, PACKET);
}

void device_offer(struct device *d, const uint8_t packet[PACKET]) {
    memcpy(d->own, packet, PACKET);
    d->full = 1;
}

int device_waits(const struct device *d) { return d->sent || d->out != OUT_OK; }

void device_time_out(struct device *d) {
    if (d->out == OUT_RETRY_STOPPED) return;
    d->out = OUT_ERROR_STOPPED;
    d->asked = 0;
}

int device_turn(struct device *d, unsigned chars[MOST_SENT]) {
    if (d->out == OUT_RETRY_STOPPED) {
        d->out = OUT_OK;
        d->sent = 0;
        return put_symbol(chars, STATUS, d->expected, 31, RESTART, 0);
    }
    if (d->out == OUT_ERROR_STOPPED && !d->asked) {
        d->asked = 1;
        return put_symbol(chars, STATUS, d->expected, 31, REQUEST, 4);
    }
    if (d->out != OUT_OK || !d->full || d->sent) return 0;
    int length = put_symbol(chars, STATUS, d->expected, 31, START, 0);
    for (int at = 0; at < PACKET; at++) chars[length++] = d->own[at] | (at == 0 ? d->ack << 3 : 0);
    d->sent = 1;
    return length + put_symbol(chars + length, STATUS, d->expected, 31, END, 0);
}

static void take_packet(struct device *d) {
    const uint8_t *text = d->text;
    d->in_packet = 0;
    if (d->count < 8) {
        refuse(d, 31);
    } else if (d->count != PACKET || crc16(text) != (unsigned)(text[8] << 8 | text[9]) || text[10] || text[11]) {
        refuse(d, 4);
    } else if (d->in == IN_OK && text[0] >> 3 != (int)d->expected) {
        refuse(d, 1);
    } else if (d->in == IN_OK) {
        memcpy(d->packet, text, PACKET);
        d->packet[0] &= 3;
        d->held = 1;
        reply(d, ACCEPTED, d->expected, 31);
        d->expected = (d->expected + 1) % 32;
    }
}

static void acknowledge(struct device *d) {
    d->freed = 1;
    d->full = 0;
    d->ack = (d->ack + 1) % 32;
}

/* What a symbol tells the sender. */
static void hear(struct device *d, unsigned s0, unsigned one) {
    int oldest = d->sent && one == d->ack;
    if (d->out == OUT_ERROR_STOPPED) {
        if (s0 != RESPONSE || !d->asked) return;
        d->out = OUT_OK;
        if (d->sent && !oldest) acknowledge(d);
        d->sent = 0;
    } else if (s0 == ACCEPTED && d->out == OUT_OK && oldest) {
        acknowledge(d);
        d->sent = 0;
    } else if (s0 == RETRY && d->out == OUT_OK && oldest) {
        d->out = OUT_RETRY_STOPPED;
    } else if (s0 <= NOT_ACCEPTED) {
        d->out = OUT_ERROR_STOPPED;
        d->asked = 0;
    }
}

/* What a symbol tells the receiver. */
static void serve(struct device *d, unsigned s1, unsigned cmd) {
    static const unsigned states[] = {16, 4, 5};
    if (s1 == RESTART && d->in == IN_OK) refuse(d, 31);
    else if (s1 == RESTART && d->in == IN_RETRY_STOPPED) d->in = IN_OK;
    else if (s1 == REQUEST && cmd == 4) {
        reply(d, RESPONSE, d->expected, states[d->in]);
        d->in = IN_OK;
    }
}

static void take_symbol(struct device *d) {
    uint32_t bits = (uint32_t)(d->symbol[0] << 16 | d->symbol[1] << 8 | d->symbol[2]);
    unsigned s1 = bits >> 8 & 7;
    d->in_symbol = 0;
    if (crc5(bits >> 5) != (bits & 31) || (d->delimiter == 0x7C) != (s1 < RESTART)) {
        d->skipping = 1;
        refuse(d, crc5(bits >> 5) != (bits & 31) ? 2 : 31);
        return;
    }
    if (d->in_packet && (s1 == START || s1 == END)) take_packet(d);
    if (s1 <= REQUEST) d->in_packet = s1 == START;
    if (s1 == START) d->count = 0;
    hear(d, bits >> 21, bits >> 16 & 31);
    serve(d, s1, bits >> 5 & 7);
}

void device_got(struct device *d, unsigned c) {
    unsigned byte = c & 0xFF;
    d->held = d->freed = d->reply_length = 0;
    if (c == (SPECIAL | 0x1C) || c == (SPECIAL | 0x7C)) {
        if (d->in_symbol) refuse(d, 5);
        d->in_symbol = 1;
        d->skipping = 0;
        d->delimiter = byte;
    } else if (c >= SPECIAL) {
        if (d->in_symbol || !d->skipping) refuse(d, 5);
        d->in_symbol = 0;
        d->skipping = 1;
    } else if (d->in_symbol) {
        d->symbol[d->in_symbol - 1] = (uint8_t)byte;
        if (++d->in_symbol == 4) take_symbol(d);
    } else if (d->in_packet) {
        if (d->count < PACKET) d->text[d->count] = (uint8_t)byte;
        d->count++;
    } else if (!d->skipping) {
        refuse(d, 5);
        d->skipping = 1;
    }
}
