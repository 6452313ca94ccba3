/* instructions KIND COUNT [CONNECTIONS EACH WAY]: serves COUNT requests of a kind from a table of 128 entries with keys of 32 bytes, 24 of them the same, and
   values of 256 bytes, a thousand in a stream, in version 12, or in 20 where the kind ends so. With CONNECTIONS they are those of so many connections, EACH of
   them at a time, copied end to end and their replies copied out: by fq_serve_many where WAY is `many`; where it is `readers`, by one fq_serve_stream of all,
   with the ends of requests and replies found by fq_read_request and fq_read_reply. It measures nothing: tests/instructions counts what it takes for another
   COUNT. A refusal ends it with status 1. */
#include <stdio.h>
#include <stdlib.h>
#include <string.h>

#include "feyqoolad.h"

enum { KEYS = 128, KEY = 32, VALUE = 256, ROOM = 1 << 20, ROW = 1000, MOST = 64, EACH = 16 };

static uint8_t table[FQ_TABLE_SIZE], reply[ROOM], request[FQ_LONGEST_REQUEST], row[ROW * FQ_LONGEST_REQUEST];

static uint64_t version = 12, flags;

static void fail(const char *what) {
    fprintf(stderr, "instructions: %s\n", what);
    exit(1);
}

/* Writes a request of an operation at `out`: with a key where it takes one, and with a value and a lifespan where it is a put. */
static size_t write_one(uint8_t *out, uint8_t op, int i, uint32_t lifespan) {
    uint8_t key[KEY], value[VALUE];
    memset(key, 'b', KEY);
    snprintf((char *)key + 24, 9, "%08d", i % KEYS);
    memset(value, 'v', VALUE);
    bool keyed = op == 0x01 || op == 0x03;
    uint64_t numbers[FQ_REQUEST_GIVEN] = {1, version, op, flags, 1, 0, op == 0x01 ? lifespan : 0, 0, 0, 0};
    uint64_t done = fq_write_request(out, FQ_LONGEST_REQUEST, numbers, FQ_REQUEST_GIVEN, key, 0, key, keyed ? KEY : 0, value, op == 0x01 ? VALUE : 0);
    if (done <= FQ_DONE) fail("a request is not written");
    return done - FQ_DONE;
}

/* Serves a row of requests; each reply buffer that is full is emptied. */
static void serve(const uint8_t *input, size_t len, size_t calls, uint32_t second) {
    uint64_t told[FQ_STREAM_TOLD];
    size_t served = 0;
    for (uint64_t code = FQ_REPLY_FULL; code == FQ_REPLY_FULL; input += told[0], len -= told[0], served += told[2]) {
        code = fq_serve_stream(input, len, table, FQ_TABLE_SIZE, second, reply, ROOM, told, FQ_STREAM_TOLD);
        if (code != FQ_REPLY_FULL && code != 0) fail("a request is refused");
        if (code == 0) told[2]--;
    }
    if (len != 0 || served != calls) fail("not every request is served");
}

/* The inputs of connections, the place where they stand end to end, and the replies that each gets. */
static struct {
    uint8_t bytes[EACH * FQ_LONGEST_REQUEST];
    size_t len;
} inputs[MOST], got[MOST];
static uint8_t together[MOST * EACH * FQ_LONGEST_REQUEST];
static uint64_t ends[MOST], told[FQ_SHARE_TOLD * MOST];

static size_t copy_together(size_t connections) {
    size_t len = 0;
    for (size_t i = 0; i < connections; i++) {
        memcpy(together + len, inputs[i].bytes, inputs[i].len);
        len += inputs[i].len;
        ends[i] = len;
    }
    return len;
}

static void copy_out(size_t i, const uint8_t *from, size_t len) {
    memcpy(got[i].bytes + got[i].len, from, len);
    got[i].len += len;
}

__attribute__((noinline)) void turn_many(size_t connections) {
    size_t len = copy_together(connections), at = 0;
    uint64_t code = fq_serve_many(together, len, ends, connections, table, FQ_TABLE_SIZE, 6, reply, ROOM, told, FQ_SHARE_TOLD * connections);
    if (code != FQ_DONE) fail("a turn is refused");
    for (size_t i = 0; i < connections; at += told[FQ_SHARE_TOLD * i + 1], i++) {
        if (told[FQ_SHARE_TOLD * i] != inputs[i].len || told[FQ_SHARE_TOLD * i + 2] != 0) fail("not every request is served");
        got[i].len = 0;
        copy_out(i, reply + at, told[FQ_SHARE_TOLD * i + 1]);
    }
}

__attribute__((noinline)) void turn_readers(size_t connections) {
    static struct {
        uint64_t owner, version, op, flags;
    } asked[MOST * EACH];
    uint64_t read[FQ_REPLY_TOLD], all[FQ_STREAM_TOLD];
    size_t len = 0, count = 0, at = 0;
    for (size_t i = 0; i < connections; i++) {
        for (size_t from = 0; fq_read_request(inputs[i].bytes + from, inputs[i].len - from, read, FQ_REQUEST_TOLD) >= FQ_DONE; from += read[0], count++) {
            memcpy(together + len, inputs[i].bytes + from, read[0]);
            len += read[0];
            asked[count].owner = i, asked[count].version = read[2], asked[count].op = read[3], asked[count].flags = read[4];
        }
        got[i].len = 0;
    }
    if (fq_serve_stream(together, len, table, FQ_TABLE_SIZE, 6, reply, ROOM, all, FQ_STREAM_TOLD) != 0 || all[0] != len) fail("not every request is served");
    for (size_t i = 0; i < count; at += read[0], i++) {
        if (fq_read_reply(reply + at, all[1] - at, (uint8_t)asked[i].version, (uint8_t)asked[i].op, asked[i].flags % 2 == 1, read, FQ_REPLY_TOLD) < FQ_DONE) fail("no reply");
        copy_out(asked[i].owner, reply + at, read[0]);
    }
}

static uint8_t operation(const char *kind, int i) {
    if (strncmp(kind, "put", 3) == 0 || strncmp(kind, "old", 3) == 0) return 0x01;
    if (strcmp(kind, "mix") == 0) return i % 10 == 9 ? 0x01 : 0x03;
    if (strcmp(kind, "stats") == 0) return 0x15;
    if (strcmp(kind, "bulkGet") == 0) return 0x19;
    return 0x03;
}

/* Turns of so many connections, until COUNT requests are served. */
static void serve_turns(const char *kind, int all, size_t connections, size_t each, const char *way) {
    if (connections > MOST || each > EACH) fail("too many at a time");
    for (int served = 0; served < all;) {
        for (size_t i = 0; i < connections; i++) {
            inputs[i].len = 0;
            for (size_t k = 0; k < each; k++, served++) inputs[i].len += write_one(inputs[i].bytes + inputs[i].len, operation(kind, served), served * 37, 0);
        }
        if (strcmp(way, "many") == 0) turn_many(connections);
        else turn_readers(connections);
    }
}

int main(int count, char **words) {
    if (count != 3 && count != 6) fail("usage: instructions KIND COUNT [CONNECTIONS EACH WAY]");
    uint32_t lifespan = strcmp(words[1], "dated") == 0 ? 1000 : 0;
    version = strstr(words[1], "20") ? 20 : 12;
    flags = strncmp(words[1], "old", 3) == 0; /* a put that asks for the value before */
    if (fq_make(table, FQ_TABLE_SIZE) != FQ_DONE) fail("no table is made");
    for (int i = 0; i < KEYS; i++) serve(request, write_one(request, 0x01, i, lifespan), 1, 5);
    if (count == 6) return serve_turns(words[1], atoi(words[2]), (size_t)atoi(words[3]), (size_t)atoi(words[4]), words[5]), 0;
    for (int from = 0, all = atoi(words[2]); from < all; from += ROW) {
        size_t len = 0;
        for (int i = from; i < from + ROW; i++) len += write_one(row + len, operation(words[1], i), i * 37, lifespan);
        serve(row, len, ROW, 6);
    }
    return 0;
}
