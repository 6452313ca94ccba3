/* library REQUESTS REPLIES TABLE: serves the lines of REQUESTS with the library for C in each way that it has, and compares what comes with the files
   REPLIES and TABLE. It ends with status 1 at the first difference, which it tells by its line here. */
#include "feyqoolad.h"

#include <stdio.h>
#include <stdlib.h>
#include <string.h>

#define SAME(made, wanted) same(__LINE__, (uint64_t)(made), (uint64_t)(wanted))

static void fail(int line, const char *words) {
    printf("library: tests/library.c, line %d: %s\n", line, words);
    exit(1);
}

static void same(int line, uint64_t made, uint64_t wanted) {
    char words[80];
    if (made == wanted) return;
    snprintf(words, sizeof words, "%llu, wanted %llu", (unsigned long long)made, (unsigned long long)wanted);
    fail(line, words);
}

static void same_bytes(int line, const void *made, size_t made_len, const void *wanted, size_t wanted_len) {
    if (made_len != wanted_len || memcmp(made, wanted, made_len) != 0) fail(line, "other bytes");
}

typedef struct {
    uint8_t at[1 << 17];
    size_t len;
} Bytes;

static void read_file(const char *path, Bytes *bytes) {
    FILE *file = fopen(path, "rb");
    if (!file) fail(__LINE__, path);
    bytes->len = fread(bytes->at, 1, sizeof bytes->at, file);
    fclose(file);
}

static uint8_t digit(uint8_t c) {
    return (uint8_t)(c <= '9' ? c - '0' : c - 'a' + 10);
}

/* The bytes of the digits up to the line end. */
static size_t from_digits(const uint8_t *text, uint8_t *out) {
    size_t n = 0;
    for (; text[2 * n] != '\n'; n++) out[n] = (uint8_t)(digit(text[2 * n]) * 16 + digit(text[2 * n + 1]));
    return n;
}

static const uint8_t *line_behind(const uint8_t *text) {
    return (const uint8_t *)strchr((const char *)text, '\n') + 1;
}

static Bytes requests, replies, stored, out;
static uint8_t table[FQ_TABLE_SIZE], other[FQ_TABLE_SIZE], reply[FQ_LINES_ROOM];
static uint64_t answer[FQ_REPLY_TOLD];

/* Each request by fq_serve, with its own second; the replies read as the paper has them. */
static void by_calls(void) {
    const uint64_t codes[] = {FQ_DONE, FQ_DONE, FQ_DONE, FQ_DONE, FQ_BAD_MAGIC};
    const uint8_t *line = requests.at, *wanted = replies.at;
    uint8_t frame[FQ_LONGEST_REQUEST], bytes[FQ_LONGEST_REPLY];
    SAME(fq_make(table, sizeof table), FQ_DONE);
    for (size_t at = 0; at < 5; at++, line = line_behind(line), wanted = line_behind(wanted)) {
        size_t n = from_digits(line + 9, frame), m = from_digits(wanted, bytes);
        SAME(fq_serve(frame, n, table, sizeof table, (uint32_t)strtoul((const char *)line, NULL, 16), reply, FQ_REPLY_ROOM, answer, FQ_SERVE_TOLD),
             codes[at]);
        SAME(answer[0], codes[at] == FQ_DONE ? n : 0);
        same_bytes(__LINE__, reply, answer[1], bytes, m);
    }
    SAME(fq_is_table(table, sizeof table), 1);
}

/* All lines by fq_serve_lines, as one file and byte by byte. */
static void by_lines(size_t piece) {
    size_t from = 0, held = 0;
    bool passing = false;
    out.len = 0;
    SAME(fq_make(other, sizeof other), FQ_DONE);
    for (;;) {
        bool last = held == requests.len;
        SAME(fq_serve_lines(requests.at + from, held - from, other, sizeof other, out.at + out.len, sizeof out.at - out.len, passing, last, answer,
                            FQ_LINES_TOLD), FQ_DONE);
        from += answer[0];
        out.len += answer[1];
        passing = answer[2] == 1;
        if (answer[0] != 0) continue;
        if (last) break;
        held = held + piece < requests.len ? held + piece : requests.len;
    }
    same_bytes(__LINE__, out.at, out.len, replies.at, replies.len);
    SAME(fq_store(other, sizeof other, out.at, sizeof out.at), FQ_DONE + stored.len);
    same_bytes(__LINE__, out.at, stored.len, stored.at, stored.len);
}

/* The stored file of the table that by_calls left, and the table of the file. */
static void by_file(void) {
    static const uint8_t get[] = {0xa0, 0x01, 0x0a, 0x03, 0, 0, 1, 0, 0, 2, 'b', '1'}, got[] = {0xa1, 0x01, 0x04, 0, 0, 3, 'I', 'd', 'a'};
    SAME(fq_store(table, sizeof table, out.at, stored.len - 1), FQ_NO_ROOM);
    SAME(fq_store(table, sizeof table, out.at, FQ_LONGEST_FILE), FQ_DONE + stored.len);
    same_bytes(__LINE__, out.at, stored.len, stored.at, stored.len);
    memset(other, 0xff, sizeof other);
    SAME(fq_is_table(other, sizeof other), 0);
    SAME(fq_store(other, sizeof other, out.at, sizeof out.at), FQ_NO_TABLE);
    SAME(fq_load(stored.at, stored.len - 1, other, sizeof other), FQ_BAD_FILE);
    SAME(other[0], 0xff);
    SAME(fq_load(stored.at, stored.len, other, sizeof other), FQ_DONE);
    SAME(fq_serve(get, sizeof get, other, sizeof other, 8, reply, FQ_REPLY_ROOM, answer, FQ_SERVE_TOLD), FQ_DONE);
    same_bytes(__LINE__, reply, answer[1], got, sizeof got);
}

/* The longest request and the longest reply, written and read back. */
static void messages(void) {
    static uint8_t name[FQ_NAME_LIMIT], key[FQ_KEY_LIMIT], value[FQ_VALUE_LIMIT], frame[FQ_LONGEST_REQUEST + 1];
    const uint64_t most = UINT64_MAX / 2, number = UINT32_MAX, given[FQ_REQUEST_GIVEN] = {most, 12, 9, 7, 3, number, number, number, UINT64_MAX, 0};
    const uint64_t told[FQ_REPLY_GIVEN] = {most, 0x12, 0, UINT64_MAX};
    const size_t name_at = 13, key_at = name_at + FQ_NAME_LIMIT + 9, value_at = FQ_LONGEST_REQUEST - FQ_VALUE_LIMIT;
    memset(name, 'n', sizeof name);
    memset(key, 'k', sizeof key);
    memset(value, 'v', sizeof value);
    SAME(fq_write_request(frame, FQ_LONGEST_REQUEST - 1, given, FQ_REQUEST_GIVEN, name, sizeof name, key, sizeof key, value, sizeof value), FQ_NO_ROOM);
    SAME(fq_write_request(frame, sizeof frame, given, FQ_REQUEST_GIVEN, name, sizeof name, key, sizeof key, value, sizeof value),
         FQ_DONE + FQ_LONGEST_REQUEST);
    SAME(fq_read_request(frame, FQ_LONGEST_REQUEST - 1, answer, FQ_REQUEST_TOLD), 0);
    SAME(fq_read_request(frame, sizeof frame, answer, FQ_REQUEST_TOLD), FQ_DONE + FQ_LONGEST_REQUEST);
    SAME(answer[0], FQ_LONGEST_REQUEST);
    same_bytes(__LINE__, answer + 1, sizeof given, given, sizeof given);
    SAME(answer[11], name_at);
    SAME(answer[13], key_at);
    SAME(answer[15], value_at);
    same_bytes(__LINE__, frame + answer[11], answer[12], name, sizeof name);
    same_bytes(__LINE__, frame + answer[13], answer[14], key, sizeof key);
    same_bytes(__LINE__, frame + answer[15], answer[16], value, sizeof value);
    SAME(fq_write_reply(frame, sizeof frame, 12, 0x11, false, told, FQ_REPLY_GIVEN, value, sizeof value, name, 0), FQ_DONE + 279);
    SAME(fq_read_reply(frame, sizeof frame, 12, 0x11, false, answer, FQ_REPLY_TOLD), FQ_DONE + 279);
    same_bytes(__LINE__, answer + 1, sizeof told, told, sizeof told);
    same_bytes(__LINE__, frame + answer[5], answer[6], value, sizeof value);
    SAME(fq_read_reply(frame, sizeof frame, 12, 0x10, false, answer, FQ_REPLY_TOLD), FQ_BAD_COMMAND);
    SAME(fq_write_request(frame, sizeof frame, given, FQ_REQUEST_GIVEN - 1, name, 0, key, 0, value, 0), FQ_BAD_MESSAGE);
}

/* Version 20: a header without a transaction type, and replies whose status says whether an old value follows, by version, operation and flag. */
static void version_20(void) {
    static const uint8_t ida[] = {'I', 'd', 'a'}, none[1];
    static const uint8_t put[] = {0xa0, 0x01, 0x14, 0x01, 0, 0x1f, 1, 0, 2, 'b', '1', 0, 0, 3, 'I', 'd', 'a'};
    static const uint8_t stored_first[] = {0xa1, 0x01, 0x02, 0, 0}, stored_again[] = {0xa1, 0x01, 0x02, 3, 0, 3, 'I', 'd', 'a'}, unstored[] = {0xa1, 0x01, 0x06, 4, 0, 0};
    const uint64_t given[FQ_REQUEST_GIVEN] = {1, 20, 1, 31, 1, 0, 0, 0, 0, 0}, flags_32[FQ_REQUEST_GIVEN] = {1, 20, 1, 32, 1, 0, 0, 0, 0, 0};
    const uint64_t version_21[FQ_REQUEST_GIVEN] = {1, 21, 1, 0, 1, 0, 0, 0, 0, 0};
    /* For each operation the statuses that it can give with the flag, a bit each. */
    static const struct {
        uint8_t op, statuses;
    } with_flag[] = {{0x01, 0x09}, {0x05, 0x11}, {0x07, 0x0a}, {0x09, 0x1c}, {0x0b, 0x0c}, {0x0d, 0x1c}, {0x03, 0x05}, {0x0f, 0x05}, {0x17, 0x01}};
    uint8_t frame[FQ_LONGEST_REQUEST], later[sizeof put];
    SAME(fq_write_request(frame, sizeof frame, given, FQ_REQUEST_GIVEN, none, 0, (const uint8_t *)"b1", 2, ida, 3), FQ_DONE + sizeof put);
    same_bytes(__LINE__, frame, sizeof put, put, sizeof put);
    SAME(fq_read_request(put, sizeof put - 1, answer, FQ_REQUEST_TOLD), 0);
    SAME(fq_read_request(put, sizeof put, answer, FQ_REQUEST_TOLD), FQ_DONE + sizeof put);
    same_bytes(__LINE__, answer + 1, sizeof given, given, sizeof given);
    SAME(fq_write_request(frame, sizeof frame, flags_32, FQ_REQUEST_GIVEN, none, 0, none, 0, none, 0), FQ_BAD_MESSAGE);
    SAME(fq_write_request(frame, sizeof frame, version_21, FQ_REQUEST_GIVEN, none, 0, none, 0, none, 0), FQ_BAD_MESSAGE);
    memcpy(later, put, sizeof put);
    later[2] = 21;
    SAME(fq_read_request(later, sizeof later, answer, FQ_REQUEST_TOLD), FQ_BAD_VERSION);
    SAME(fq_make(other, sizeof other), FQ_DONE);
    SAME(fq_serve(put, sizeof put, other, sizeof other, 1, reply, FQ_REPLY_ROOM, answer, FQ_SERVE_TOLD), FQ_DONE);
    same_bytes(__LINE__, reply, answer[1], stored_first, sizeof stored_first);
    SAME(fq_serve(put, sizeof put, other, sizeof other, 1, reply, FQ_REPLY_ROOM, answer, FQ_SERVE_TOLD), FQ_DONE);
    same_bytes(__LINE__, reply, answer[1], stored_again, sizeof stored_again);
    for (size_t at = 0; at < sizeof with_flag / sizeof with_flag[0]; at++) {
        for (uint8_t status = 0; status < 8; status++) {
            const uint8_t op = with_flag[at].op, empty[] = {0xa1, 0x01, (uint8_t)(op + 1), status, 0, 0};
            const uint64_t numbers[FQ_REPLY_GIVEN] = {1, op + 1u, status, 0};
            bool can = with_flag[at].statuses >> status & 1, has_value = status == 3 || status == 4 || (op == 0x03 && status == 0);
            uint64_t size = has_value ? 6 : 5;
            SAME(fq_read_reply(empty, sizeof empty, 20, op, true, answer, FQ_REPLY_TOLD), can ? FQ_DONE + size : FQ_BAD_FIELD);
            SAME(fq_write_reply(frame, sizeof frame, 20, op, true, numbers, FQ_REPLY_GIVEN, none, 0, none, 0), can ? FQ_DONE + size : FQ_BAD_MESSAGE);
            if (can) same_bytes(__LINE__, frame, size, empty, size);
            SAME(fq_write_reply(frame, sizeof frame, 20, op, true, numbers, FQ_REPLY_GIVEN, ida, 3, none, 0), can && has_value ? FQ_DONE + 9 : FQ_BAD_MESSAGE);
            /* Without the flag, and in an earlier version, neither 03 nor 04 comes. */
            if (status > 2) SAME(fq_read_reply(empty, sizeof empty, 20, op, false, answer, FQ_REPLY_TOLD), FQ_BAD_FIELD);
            if (status > 2) SAME(fq_read_reply(empty, sizeof empty, 12, op, true, answer, FQ_REPLY_TOLD), FQ_BAD_FIELD);
        }
    }
    SAME(fq_read_reply(unstored, sizeof unstored, 20, 0x05, true, answer, FQ_REPLY_TOLD), FQ_DONE + sizeof unstored);
    SAME(fq_read_reply(none, 0, 13, 0x02, true, answer, FQ_REPLY_TOLD), FQ_BAD_VERSION);
    SAME(fq_read_reply(none, 0, 11, 0x1d, false, answer, FQ_REPLY_TOLD), FQ_BAD_COMMAND);
    SAME(fq_read_reply(none, 0, 20, 0x1d, false, answer, FQ_REPLY_TOLD), 0);
    SAME(fq_write_statistics(frame, sizeof frame, 13, 1, given, FQ_STATISTICS_GIVEN), FQ_BAD_MESSAGE);
    SAME(fq_write_entries(frame, sizeof frame, 11, 1, false, none, 0, given, 0), FQ_BAD_MESSAGE);
    SAME(fq_write_entries(frame, sizeof frame, 20, 1, false, none, 0, given, 0), FQ_DONE + 6);
}

/* The longest stats reply, and one with other numbers. */
static void statistics(void) {
    static const uint8_t none[1];
    static uint8_t frame[FQ_LONGEST_REPLY + 1];
    const uint64_t most = UINT64_MAX / 2, unsent[FQ_REPLY_GIVEN] = {1, 0x16, 0, 0};
    uint64_t nine[FQ_STATISTICS_GIVEN] = {most, most, most, most, most, most, most, most, most};
    SAME(fq_write_statistics(frame, FQ_LONGEST_REPLY - 1, 12, most, nine, FQ_STATISTICS_GIVEN), FQ_NO_ROOM);
    SAME(fq_write_statistics(frame, sizeof frame, 12, most, nine, FQ_STATISTICS_GIVEN), FQ_DONE + FQ_LONGEST_REPLY);
    SAME(fq_read_reply(frame, FQ_LONGEST_REPLY - 1, 12, 0x15, false, answer, FQ_REPLY_TOLD), 0);
    SAME(fq_read_reply(frame, sizeof frame, 12, 0x15, true, answer, FQ_REPLY_TOLD), FQ_DONE + FQ_LONGEST_REPLY);
    SAME(answer[1], most);
    SAME(answer[2], 0x16);
    same_bytes(__LINE__, answer + 9, sizeof nine, nine, sizeof nine);
    for (uint64_t i = 0; i < FQ_STATISTICS_GIVEN; i++) nine[i] = 10 * i;
    SAME(fq_write_statistics(frame, sizeof frame, 12, 1, nine, FQ_STATISTICS_GIVEN), FQ_DONE + 5 + 114 + 26);
    SAME(fq_read_reply(frame, sizeof frame, 12, 0x15, false, answer, FQ_REPLY_TOLD), FQ_DONE + 5 + 114 + 26);
    same_bytes(__LINE__, answer + 9, sizeof nine, nine, sizeof nine);
    frame[7] = 'T';
    SAME(fq_read_reply(frame, sizeof frame, 12, 0x15, false, answer, FQ_REPLY_TOLD), FQ_BAD_FIELD);
    SAME(fq_write_statistics(frame, sizeof frame, 12, 1, nine, FQ_STATISTICS_GIVEN - 1), FQ_BAD_MESSAGE);
    SAME(fq_write_reply(frame, sizeof frame, 12, 0x15, false, unsent, FQ_REPLY_GIVEN, none, 0, none, 0), FQ_BAD_MESSAGE);
    nine[4] = most + 1;
    SAME(fq_write_statistics(frame, sizeof frame, 12, 1, nine, FQ_STATISTICS_GIVEN), FQ_BAD_MESSAGE);
}

/* A bulk reply: its entries named in bytes of the caller's, read back, and walked through. */
static void entries(void) {
    static const uint8_t bytes[] = "b1Idab2", none[1];
    static const uint8_t wanted[] = {0xa1, 0x01, 0x1a, 0, 0, 1, 2, 'b', '1', 3, 'I', 'd', 'a', 1, 2, 'b', '2', 0, 1, 0, 2, 'b', '2', 0};
    static const uint8_t keys[] = {0xa1, 0x01, 0x1e, 0, 0, 1, 2, 'b', '1', 1, 2, 'b', '2', 0};
    const uint64_t empty[FQ_REPLY_GIVEN] = {1, 0x1a, 0, 0};
    /* b1 with Ida; b2 with no value; no key, with as much of five bytes as there is. */
    const uint64_t numbers[] = {0, 2, 2, 3, 5, 2, 7, 0, UINT64_MAX, 1, 5, 5}, named[] = {0, 2, 0, 0, 5, 2, 0, 0};
    static uint64_t many[FQ_ENTRY_GIVEN * (FQ_TABLE_KEYS + 1)];
    static uint8_t frame[FQ_BULK_ROOM];
    const size_t n = sizeof wanted, start = 5;
    SAME(fq_write_entries(frame, n - 1, 12, 1, true, bytes, 7, numbers, 12), FQ_NO_ROOM);
    SAME(fq_write_entries(frame, n, 12, 1, true, bytes, 7, numbers, 12), FQ_DONE + n);
    same_bytes(__LINE__, frame, n, wanted, n);
    SAME(fq_read_reply(frame, n - 1, 12, 0x19, false, answer, FQ_REPLY_TOLD), 0);
    SAME(fq_read_reply(frame, n, 12, 0x19, false, answer, FQ_REPLY_TOLD), FQ_DONE + n);
    SAME(answer[2], 0x1a);
    SAME(answer[18], 3);
    SAME(answer[19], start);
    SAME(answer[20], n - start);
    SAME(fq_next_entry(frame, n, start, true, answer, FQ_ENTRY_TOLD), FQ_DONE + 8);
    const uint64_t first[FQ_ENTRY_TOLD] = {8, 1, 7, 2, 10, 3};
    same_bytes(__LINE__, answer, sizeof first, first, sizeof first);
    SAME(fq_next_entry(frame, n, start + 8, true, answer, FQ_ENTRY_TOLD), FQ_DONE + 5);
    SAME(answer[2], 15);
    SAME(answer[5], 0);
    SAME(fq_next_entry(frame, n, start + 13, true, answer, FQ_ENTRY_TOLD), FQ_DONE + 5);
    SAME(answer[3], 0);
    same_bytes(__LINE__, frame + answer[4], answer[5], "b2", 2);
    SAME(fq_next_entry(frame, n, n - 1, true, answer, FQ_ENTRY_TOLD), FQ_DONE + 1);
    SAME(answer[1], 0);
    SAME(fq_next_entry(frame, n, n, true, answer, FQ_ENTRY_TOLD), 0);
    SAME(fq_next_entry(frame, n, 6, true, answer, FQ_ENTRY_TOLD), FQ_BAD_FIELD);
    SAME(fq_write_entries(frame, sizeof frame, 12, 1, false, bytes, 7, numbers, 12), FQ_BAD_MESSAGE);
    SAME(fq_write_entries(frame, sizeof frame, 12, 1, false, bytes, 7, named, 8), FQ_DONE + sizeof keys);
    same_bytes(__LINE__, frame, sizeof keys, keys, sizeof keys);
    SAME(fq_read_reply(frame, sizeof keys, 12, 0x1d, true, answer, FQ_REPLY_TOLD), FQ_DONE + sizeof keys);
    SAME(answer[18], 2);
    SAME(fq_next_entry(frame, sizeof keys, start, false, answer, FQ_ENTRY_TOLD), FQ_DONE + 4);
    SAME(fq_write_reply(frame, sizeof frame, 12, 0x19, false, empty, FQ_REPLY_GIVEN, none, 0, none, 0), FQ_DONE + 6);
    SAME(fq_write_entries(frame, sizeof frame, 12, 1, true, bytes, 7, many, FQ_ENTRY_GIVEN * FQ_TABLE_KEYS), FQ_DONE + 6 + 3 * FQ_TABLE_KEYS);
    SAME(fq_write_entries(frame, sizeof frame, 12, 1, true, bytes, 7, many, FQ_ENTRY_GIVEN * (FQ_TABLE_KEYS + 1)), FQ_BAD_MESSAGE);
    frame[5 + 3 * FQ_TABLE_KEYS] = 1;
    SAME(fq_read_reply(frame, 6 + 3 * FQ_TABLE_KEYS, 12, 0x19, false, answer, FQ_REPLY_TOLD), FQ_TOO_LONG);
}

/* A ping, a bulkGet and a ping: the replies fill the buffer, the whole buffer is too small, all are served. */
static void bulk_stream(void) {
    static const uint8_t row[] = {0xa0, 0x01, 0x0a, 0x17, 0, 0, 1, 0, 0, 0xa0, 0x02, 0x0a, 0x19, 0, 0, 1, 0, 0, 0, 0xa0, 0x03, 0x0a, 0x17, 0, 0, 1, 0, 0};
    static const uint8_t wanted[] = {0xa1, 0x01, 0x18, 0, 0, 0xa1, 0x02, 0x1a, 0, 0, 1, 2, 'b', '1', 1, 'x', 0, 0xa1, 0x03, 0x18, 0, 0};
    SAME(fq_serve_stream(row, sizeof row, other, sizeof other, 0, reply, FQ_BULK_ROOM, answer, FQ_STREAM_TOLD), FQ_REPLY_FULL);
    SAME(answer[0], 9);
    SAME(answer[1], 5);
    SAME(answer[2], 1);
    SAME(fq_serve_stream(row + 9, sizeof row - 9, other, sizeof other, 0, reply, FQ_BULK_ROOM - 1, answer, FQ_STREAM_TOLD), 0);
    SAME(answer[0], sizeof row - 9);
    SAME(answer[1], 5);
    SAME(answer[2], 3);
    SAME(fq_serve_stream(row, sizeof row, other, sizeof other, 0, reply, FQ_BULK_ROOM + 5, answer, FQ_STREAM_TOLD), 0);
    same_bytes(__LINE__, reply, answer[1], wanted, sizeof wanted);
    SAME(answer[2], 4);
    SAME(fq_serve(row + 9, 10, other, sizeof other, 0, reply, FQ_BULK_ROOM - 1, answer, FQ_SERVE_TOLD), FQ_NO_ROOM);
    SAME(answer[0], 10);
    SAME(answer[1], 0);
    SAME(fq_serve(row + 9, 10, other, sizeof other, 0, reply, FQ_REPLY_ROOM - 1, answer, FQ_SERVE_TOLD), FQ_NO_ROOM);
    SAME(answer[0], 0);
    SAME(fq_serve(row + 9, 10, other, sizeof other, 0, reply, FQ_BULK_ROOM, answer, FQ_SERVE_TOLD), FQ_DONE);
    SAME(answer[1], 12);
}

/* A stream of requests: a put, a request to another cache, a byte that begins none; and room that is too small. */
static void stream(void) {
    static const uint8_t row[] = {0xa0, 0x02, 0x0a, 0x01, 0,    0, 1, 0,    0,    2,    'b', '1', 0, 0, 1, 'x', /* put */
                                  0xa0, 0x03, 0x0a, 0x17, 1,    'c', 0, 1, 0, 0,                                /* ping, cache c */
                                  0xa1};
    SAME(fq_make(other, sizeof other - 1), FQ_NO_TABLE);
    SAME(fq_make(other, sizeof other), FQ_DONE);
    SAME(fq_serve_stream(row, sizeof row, other, sizeof other, 0, reply, sizeof reply, answer, FQ_STREAM_TOLD), FQ_BAD_MAGIC);
    SAME(answer[0], sizeof row - 1);
    SAME(answer[2], 3);
    SAME(fq_serve_stream(row, 16, other, sizeof other, 0, reply, sizeof reply, answer, FQ_STREAM_TOLD), 0);
    SAME(answer[0], 16);
    SAME(fq_serve_stream(row, 16, other, sizeof other, 0, reply, FQ_REPLY_ROOM, answer, FQ_STREAM_TOLD), FQ_REPLY_FULL);
    SAME(answer[0], 16);
    SAME(answer[2], 1);
    SAME(fq_serve_stream(row, 16, other, sizeof other, 0, reply, FQ_REPLY_ROOM - 1, answer, FQ_STREAM_TOLD), FQ_NO_ROOM);
    SAME(fq_serve(row + 16, 10, other, sizeof other, 0, reply, FQ_REPLY_ROOM, answer, FQ_SERVE_TOLD), FQ_NO_SUCH_CACHE);
    SAME(answer[0], 10);
    SAME(fq_serve(row, 16, other, sizeof other, 0, reply, FQ_REPLY_ROOM - 1, answer, FQ_SERVE_TOLD), FQ_NO_ROOM);
    SAME(fq_serve(row, 16, other, sizeof other - 1, 0, reply, FQ_REPLY_ROOM, answer, FQ_SERVE_TOLD), FQ_NO_TABLE);
    bulk_stream();
    SAME(fq_serve_lines(row, 0, other, sizeof other, out.at, FQ_LINES_ROOM - 1, false, true, answer, FQ_LINES_TOLD), FQ_NO_ROOM);
    SAME(fq_serve_lines(row, 0, other, sizeof other, out.at, FQ_LINES_ROOM, false, true, answer, FQ_LINES_TOLD), FQ_DONE);
}

/* What fq_serve_many told of a connection: bytes taken, bytes of its replies, and how its stream ended. */
static void shared(int line, size_t at, uint64_t taken, uint64_t size, uint64_t end) {
    same(line, answer[FQ_SHARE_TOLD * at], taken);
    same(line, answer[FQ_SHARE_TOLD * at + 1], size);
    same(line, answer[FQ_SHARE_TOLD * at + 2], end);
}

/* A call of fq_serve_many on the table `other`; with `still` it has to leave table, replies and numbers as they were. */
static void serves_many(int line, const uint8_t *row, size_t n, const uint64_t *ends, size_t count, size_t room, size_t numbers, uint64_t wanted, bool still) {
    static uint8_t before[FQ_TABLE_SIZE], kept[FQ_LINES_ROOM];
    uint64_t untold[FQ_REPLY_TOLD];
    memset(reply, 0x55, sizeof reply);
    memset(answer, 0x55, sizeof answer);
    memcpy(before, other, sizeof other);
    memcpy(kept, reply, sizeof reply);
    memcpy(untold, answer, sizeof answer);
    same(line, fq_serve_many(row, n, ends, count, other, sizeof other, 5, reply, room, answer, numbers), wanted);
    if (!still) return;
    same_bytes(line, other, sizeof other, before, sizeof before);
    same_bytes(line, reply, sizeof reply, kept, sizeof kept);
    same_bytes(line, answer, sizeof answer, untold, sizeof untold);
}

/* The whole call is refused: too short a list, ends, too little room, no table, in this order. */
static void many_refused(const uint8_t *row, size_t n) {
    static const uint64_t down[] = {16, 15}, far[] = {16, 64}, two[] = {16, 17};
    serves_many(__LINE__, row, n, down, 2, FQ_REPLY_ROOM - 1, 2 * FQ_SHARE_TOLD - 1, FQ_NO_ROOM, true);
    serves_many(__LINE__, row, n, down, 2, FQ_REPLY_ROOM - 1, 2 * FQ_SHARE_TOLD, FQ_NO_ENDS, true);
    serves_many(__LINE__, row, n, far, 2, FQ_BULK_ROOM, 2 * FQ_SHARE_TOLD, FQ_NO_ENDS, true);
    other[7] ^= 0xff;
    serves_many(__LINE__, row, n, two, 2, FQ_REPLY_ROOM - 1, 2 * FQ_SHARE_TOLD, FQ_NO_ROOM, true);
    serves_many(__LINE__, row, n, two, 2, FQ_REPLY_ROOM, 2 * FQ_SHARE_TOLD, FQ_NO_TABLE, true);
    other[7] ^= 0xff;
    serves_many(__LINE__, row, n, two, 0, FQ_REPLY_ROOM, 0, FQ_DONE, true);
}

/* A ping, a bulkGet and a ping, of three connections: the second waits for room, or has it; and 512 bytes are room for one reply. */
static void many_rooms(void) {
    static const uint8_t row[] = {0xa0, 0x01, 0x0a, 0x17, 0, 0, 1, 0, 0, 0xa0, 0x02, 0x0a, 0x19, 0, 0, 1, 0, 0, 0, 0xa0, 0x03, 0x0a, 0x17, 0, 0, 1, 0, 0};
    static const uint64_t ends[] = {9, 19, 28}, alone[] = {10};
    serves_many(__LINE__, row, sizeof row, ends, 3, FQ_BULK_ROOM + 4, 9, FQ_DONE, false);
    shared(__LINE__, 0, 9, 5, 0), shared(__LINE__, 1, 0, 0, FQ_REPLY_FULL), shared(__LINE__, 2, 9, 5, 0);
    serves_many(__LINE__, row, sizeof row, ends, 3, FQ_BULK_ROOM + 5, 9, FQ_DONE, false);
    shared(__LINE__, 0, 9, 5, 0), shared(__LINE__, 1, 10, 12, 0), shared(__LINE__, 2, 9, 5, 0);
    serves_many(__LINE__, row, sizeof row, ends, 3, FQ_REPLY_ROOM, 9, FQ_DONE, false);
    shared(__LINE__, 0, 9, 5, FQ_REPLY_FULL), shared(__LINE__, 1, 0, 0, FQ_REPLY_FULL), shared(__LINE__, 2, 0, 0, FQ_REPLY_FULL);
    serves_many(__LINE__, row + 9, 10, alone, 1, FQ_BULK_ROOM - 1, 3, FQ_DONE, false);
    shared(__LINE__, 0, 10, 0, 0);
    SAME(reply[0], 0x55);
}

/* Several connections: a put, a byte that begins no request, the get of what was put and a beginning, and no bytes. Behind the last end a byte is nobody's. */
static void many(void) {
    static const uint8_t row[] = {0xa0, 0x02, 0x0a, 0x01, 0, 0, 1, 0, 0, 2, 'b', '1', 0, 0, 1, 'x', /* put */
                                  0xa1,
                                  0xa0, 0x04, 0x0a, 0x03, 0, 0, 1, 0, 0, 2, 'b', '1', 0xa0, 0x05, /* get, and a beginning */
                                  0xa1};
    static const uint8_t wanted[] = {0xa1, 0x02, 0x02, 0, 0, 0xa1, 0, 0x50, 0x81, 0, 9, 'b', 'a', 'd', ' ', 'm', 'a', 'g', 'i', 'c',
                                     0xa1, 0x04, 0x04, 0, 0, 1, 'x', 0x55};
    static const uint64_t ends[] = {16, 17, 31, 31};
    SAME(fq_make(other, sizeof other), FQ_DONE);
    serves_many(__LINE__, row, sizeof row, ends, 4, sizeof reply, 12, FQ_DONE, false);
    shared(__LINE__, 0, 16, 5, 0), shared(__LINE__, 1, 0, 15, FQ_BAD_MAGIC), shared(__LINE__, 2, 12, 7, 0), shared(__LINE__, 3, 0, 0, 0);
    same_bytes(__LINE__, reply, sizeof wanted, wanted, sizeof wanted);
    SAME(answer[12], 0x5555555555555555);
    many_refused(row, sizeof row);
    many_rooms();
}

/* The request at this second is served with this reply. */
static void serves(int line, const uint8_t *frame, size_t n, uint32_t second, const void *wanted, size_t wanted_len) {
    same(line, fq_serve(frame, n, other, sizeof other, second, reply, FQ_REPLY_ROOM, answer, FQ_SERVE_TOLD), FQ_DONE);
    same(line, answer[0], n);
    same_bytes(line, reply, answer[1], wanted, wanted_len);
}

/* The table's stored file is this one. */
static void stores(int line, const char *wanted) {
    same(line, fq_store(other, sizeof other, out.at, sizeof out.at), FQ_DONE + strlen(wanted));
    same_bytes(line, out.at, strlen(wanted), wanted, strlen(wanted));
}

/* An entry that expires: seconds before, at and behind its deadline, a refused call, files, a load, and a date that is past. */
static void expiry(void) {
    static const uint8_t put[] = {0xa0, 0x01, 0x0a, 0x01, 0, 0, 1, 0, 0, 1, 'k', 5, 0, 1, 'v'}, get[] = {0xa0, 0x01, 0x0a, 0x03, 0, 0, 1, 0, 0, 1, 'k'};
    static const uint8_t past[] = {0xa0, 0x01, 0x0a, 0x01, 0, 0, 1, 0, 0, 1, 'k', 0x81, 0x9a, 0x9e, 0x01, 0, 1, 'v'}; /* at 2,592,001 */
    static const uint8_t elsewhere[] = {0xa0, 0x01, 0x0a, 0x17, 1, 'c', 0, 1, 0, 0};
    static const uint8_t done[] = {0xa1, 0x01, 0x02, 0, 0}, hit[] = {0xa1, 0x01, 0x04, 0, 0, 1, 'v'}, miss[] = {0xa1, 0x01, 0x04, 2, 0};
    static const char held[] = "010000000000000001\n0000000000000001000000000000000a016b0176\n";
    static uint8_t before[FQ_TABLE_SIZE];
    SAME(fq_make(other, sizeof other), FQ_DONE);
    serves(__LINE__, put, sizeof put, 5, done, sizeof done);
    serves(__LINE__, get, sizeof get, 9, hit, sizeof hit);
    stores(__LINE__, held);
    memcpy(before, other, sizeof other);
    SAME(fq_serve(elsewhere, sizeof elsewhere, other, sizeof other, 10, reply, FQ_REPLY_ROOM, answer, FQ_SERVE_TOLD), FQ_NO_SUCH_CACHE);
    same_bytes(__LINE__, other, sizeof other, before, sizeof before);
    serves(__LINE__, get, sizeof get, 9, hit, sizeof hit);
    serves(__LINE__, get, sizeof get, 10, miss, sizeof miss);
    serves(__LINE__, get, sizeof get, 9, miss, sizeof miss);
    stores(__LINE__, "010000000000000001\n");
    serves(__LINE__, put, sizeof put, 3, done, sizeof done);
    stores(__LINE__, "010000000000000002\n0000000000000002000000000000000f016b0176\n");
    SAME(fq_load((const uint8_t *)held, sizeof held - 1, other, sizeof other), FQ_DONE);
    serves(__LINE__, get, sizeof get, 0, hit, sizeof hit);
    serves(__LINE__, past, sizeof past, 3000000, done, sizeof done);
    SAME(fq_is_table(other, sizeof other), 1);
    stores(__LINE__, "010000000000000002\n");
    serves(__LINE__, get, sizeof get, 0, miss, sizeof miss);
}

/* Keys: two that are equal, empty ones, those that differ at the last, a middle and the first byte, and one that is longer. */
static void keys(void) {
    static const struct { const char *a, *b; uint64_t equal, pairs; } cases[] = {
        {"berth/12", "berth/12", 1, 8}, {"", "", 1, 0}, {"berth/12", "berth/13", 0, 1}, {"berth/12", "berth-12", 0, 3}, {"berth/12", "Berth/12", 0, 8},
        {"berth/12", "berth/123", 0, 0}, {"", "b", 0, 0},
    };
    for (size_t at = 0; at < sizeof cases / sizeof *cases; at++) {
        const char *a = cases[at].a, *b = cases[at].b;
        SAME(fq_same_key((const uint8_t *)a, strlen(a), (const uint8_t *)b, strlen(b), answer, FQ_SAME_KEY_TOLD), FQ_DONE);
        SAME(answer[0], cases[at].equal);
        SAME(answer[1], cases[at].pairs);
    }
}

/* A list for the answer that is one number too short: 12, and nothing is done. */
static void short_lists(void) {
    static const uint8_t put[] = {0xa0, 0x02, 0x0a, 0x01, 0, 0, 1, 0, 0, 2, 'b', '1', 0, 0, 1, 'x'}, pong[] = {0xa1, 0x01, 0x18, 0, 0};
    static const uint8_t line[] = "00000000 a0020a01000001000002623100000178\n";
    static uint8_t before[FQ_TABLE_SIZE], kept[FQ_LINES_ROOM];
    uint64_t untold[FQ_REPLY_TOLD];
    SAME(fq_make(other, sizeof other), FQ_DONE);
    memcpy(before, other, sizeof other);
    memset(reply, 0x55, FQ_LINES_ROOM);
    memset(kept, 0x55, sizeof kept);
    memset(answer, 0x55, sizeof answer);
    memcpy(untold, answer, sizeof answer);
    SAME(fq_read_request(put, sizeof put, answer, FQ_REQUEST_TOLD - 1), FQ_NO_ROOM);
    SAME(fq_read_reply(pong, sizeof pong, 12, 0x17, false, answer, FQ_REPLY_TOLD - 1), FQ_NO_ROOM);
    SAME(fq_next_entry(pong, sizeof pong, 3, true, answer, FQ_ENTRY_TOLD - 1), FQ_NO_ROOM);
    SAME(fq_same_key(put, 1, put, 1, answer, FQ_SAME_KEY_TOLD - 1), FQ_NO_ROOM);
    SAME(fq_serve(put, sizeof put, other, sizeof other, 0, reply, FQ_REPLY_ROOM, answer, FQ_SERVE_TOLD - 1), FQ_NO_ROOM);
    SAME(fq_serve_stream(put, sizeof put, other, sizeof other, 0, reply, FQ_REPLY_ROOM, answer, FQ_STREAM_TOLD - 1), FQ_NO_ROOM);
    SAME(fq_serve_lines(line, sizeof line - 1, other, sizeof other, reply, FQ_LINES_ROOM, false, true, answer, FQ_LINES_TOLD - 1), FQ_NO_ROOM);
    same_bytes(__LINE__, answer, sizeof answer, untold, sizeof untold);
    same_bytes(__LINE__, other, sizeof other, before, sizeof before);
    same_bytes(__LINE__, reply, FQ_LINES_ROOM, kept, sizeof kept);
}

/* A table with the most and the longest entries gives the longest file and the longest reply. */
static void longest_file(void) {
    static uint8_t key[FQ_KEY_LIMIT], value[FQ_VALUE_LIMIT], frame[FQ_LONGEST_REQUEST];
    const uint64_t put[FQ_REQUEST_GIVEN] = {1, 10, 1, 0, 1, 0, 0, 0, 0, 0}, all[FQ_REQUEST_GIVEN] = {UINT64_MAX / 2, 10, 0x19, 0, 1, 0, 0, 0, 0, 0};
    SAME(fq_make(other, sizeof other), FQ_DONE);
    for (int at = 0; at <= FQ_TABLE_KEYS; at++) {
        key[0] = (uint8_t)at;
        uint64_t n = fq_write_request(frame, sizeof frame, put, FQ_REQUEST_GIVEN, key, 0, key, sizeof key, value, sizeof value);
        SAME(fq_serve(frame, n - FQ_DONE, other, sizeof other, 0, reply, FQ_REPLY_ROOM, answer, FQ_SERVE_TOLD), at < FQ_TABLE_KEYS ? FQ_DONE : FQ_FULL);
    }
    SAME(fq_store(other, sizeof other, out.at, sizeof out.at), FQ_DONE + FQ_LONGEST_FILE);
    uint64_t n = fq_write_request(frame, sizeof frame, all, FQ_REQUEST_GIVEN, key, 0, key, 0, value, 0);
    SAME(n, FQ_DONE + 18);
    SAME(fq_serve(frame, 18, other, sizeof other, 0, reply, FQ_BULK_ROOM, answer, FQ_SERVE_TOLD), FQ_DONE);
    SAME(answer[1], FQ_LONGEST_BULK);
    SAME(fq_read_reply(reply, sizeof reply, 12, 0x19, false, answer, FQ_REPLY_TOLD), FQ_DONE + FQ_LONGEST_BULK);
    SAME(answer[18], FQ_TABLE_KEYS);
}

/* Keys in their order: what a listing writes, from a key on and at most so many, its refusals, and what it leaves alone. */
static void lists(int line, const char *from, uint64_t most, const char *wanted, size_t wanted_len) {
    static uint8_t before[FQ_TABLE_SIZE], room[FQ_LONGEST_KEYS];
    memcpy(before, other, sizeof other);
    memset(room, 0xee, sizeof room);
    same(line, fq_list_keys(other, sizeof other, reply, 0, (const uint8_t *)from, strlen(from), most, room, wanted_len - 1), FQ_NO_ROOM);
    for (size_t at = 0; at < sizeof room; at++) same(line, room[at], 0xee);
    same(line, fq_list_keys(other, sizeof other, reply, 0, (const uint8_t *)from, strlen(from), most, room, wanted_len), FQ_DONE + wanted_len);
    same_bytes(line, room, wanted_len, wanted, wanted_len);
    for (size_t at = wanted_len; at < sizeof room; at++) same(line, room[at], 0xee);
    same_bytes(line, other, sizeof other, before, sizeof before);
}

#define LISTS(from, most, wanted) lists(__LINE__, from, most, wanted, sizeof wanted - 1)

static void listing(void) {
    static const char *const held[] = {"b", "a\xff", "", "ab", "a", "b\x7f", "a\x80"};
    static uint8_t frame[FQ_LONGEST_REQUEST], long_key[FQ_KEY_LIMIT + 1];
    const uint64_t put[FQ_REQUEST_GIVEN] = {1, 12, 1, 0, 1, 0, 0, 0, 0, 0}, brief[FQ_REQUEST_GIVEN] = {1, 12, 1, 0, 1, 0, 1, 0, 0, 0};
    SAME(fq_make(other, sizeof other), FQ_DONE);
    LISTS("", 128, "\0");
    for (size_t at = 0; at < sizeof held / sizeof *held; at++) {
        uint64_t n = fq_write_request(frame, sizeof frame, put, FQ_REQUEST_GIVEN, frame, 0, (const uint8_t *)held[at], strlen(held[at]), frame, 0);
        SAME(fq_serve(frame, n - FQ_DONE, other, sizeof other, 5, reply, FQ_REPLY_ROOM, answer, FQ_SERVE_TOLD), FQ_DONE);
    }
    uint64_t n = fq_write_request(frame, sizeof frame, brief, FQ_REQUEST_GIVEN, frame, 0, (const uint8_t *)"aa", 2, frame, 0);
    SAME(fq_serve(frame, n - FQ_DONE, other, sizeof other, 5, reply, FQ_REPLY_ROOM, answer, FQ_SERVE_TOLD), FQ_DONE);
    LISTS("", UINT64_MAX, "\1\0\1\1a\1\2aa\1\2ab\1\2a\x80\1\2a\xff\1\1b\1\2b\x7f\0");
    SAME(fq_serve(frame, n - FQ_DONE, other, sizeof other, 5, reply, FQ_REPLY_ROOM, answer, FQ_SERVE_TOLD), FQ_DONE);
    const uint8_t ping[] = {0xa0, 0x01, 0x0a, 0x17, 0, 0, 1, 0, 0};
    SAME(fq_serve(ping, sizeof ping, other, sizeof other, 6, reply, FQ_REPLY_ROOM, answer, FQ_SERVE_TOLD), FQ_DONE);
    LISTS("", 0, "\0");
    LISTS("", 1, "\1\0\0");
    LISTS("a", 2, "\1\1a\1\2ab\0");
    LISTS("aa", 2, "\1\2ab\1\2a\x80\0");
    LISTS("a\xff", 128, "\1\2a\xff\1\1b\1\2b\x7f\0");
    LISTS("b\x7f\x01", 128, "\0");
    memset(long_key, 'a', sizeof long_key);
    SAME(fq_list_keys(other, sizeof other, reply, 0, long_key, sizeof long_key, 1, frame, 5), FQ_DONE + 5);
    same_bytes(__LINE__, frame, 5, "\1\2ab\0", 5);
    SAME(fq_list_keys(other, sizeof other, (const uint8_t *)"c", 1, long_key, 0, 1, frame, 0), FQ_NO_SUCH_CACHE);
    SAME(fq_list_keys(other, sizeof other - 1, (const uint8_t *)"c", 1, long_key, 0, 1, frame, 0), FQ_NO_TABLE);
}

int main(int count, char **words) {
    if (count != 4) return 2;
    read_file(words[1], &requests);
    read_file(words[2], &replies);
    read_file(words[3], &stored);
    by_calls();
    by_lines(requests.len);
    by_lines(1);
    by_file();
    messages();
    version_20();
    keys();
    statistics();
    entries();
    stream();
    many();
    expiry();
    short_lists();
    longest_file();
    listing();
    printf("library: the paper's five requests from C, by calls, by lines and by a file; messages, version 20, keys, entries, streams, many connections, a listing of keys, an entry that "
           "expires, lists that are too short, the longest file and the longest reply\n");
    return 0;
}
