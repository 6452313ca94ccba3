/* The library of Feyqoolad for C: a Hot Rod cache server for protocols 1.0, 1.1, 1.2 and 2.0, and the reader and the writer of its messages.

   `rt lib`, in crates/exports, proves the library and writes out/libexports.a there, for x86-64 Linux:

       gcc -I include program.c crates/exports/out/libexports.a

   A part of memory goes over as a pointer, which is not NULL, and a length. A part that a function may write to overlaps no other part of the call. Each
   function takes any bytes and any numbers. It keeps no memory of its own between calls, so threads may call it on parts of their own.

   Codes. A function that answers a number answers

       0               more bytes are needed
       1 to 17         refused; the numbers are those of enum fq_refusal
       FQ_DONE + n     done, with n bytes read or written; n is 0 where a function says so
       FQ_REPLY_FULL   of a stream, by fq_serve_stream or told by fq_serve_many: `reply` has to be emptied
       FQ_NO_ENDS      fq_serve_many alone: the ends do not ascend, or one is behind the input's end

   and a refused call changes neither a table nor a buffer, save for the error reply where fq_serve or fq_serve_stream sends one.

   Numbers told. `answer` is a list that the function fills from its front where it is done; fq_serve and fq_serve_stream always do. A list that is too
   short refuses the call, FQ_NO_ROOM, before anything is done: the constants FQ_.._TOLD say how long it has to be. Starts and lengths that are told are those of parts of the input. */
#ifndef FEYQOOLAD_H
#define FEYQOOLAD_H

#include <stdbool.h>
#include <stddef.h>
#include <stdint.h>

#ifdef __cplusplus
extern "C" {
#endif

#define FQ_DONE 256
#define FQ_REPLY_FULL 257
#define FQ_NO_ENDS 258

#define FQ_TABLE_SIZE 45408     /* bytes of a table */
#define FQ_TABLE_KEYS 128       /* keys that a table holds at most */
#define FQ_NAME_LIMIT 32        /* bytes of a cache name */
#define FQ_KEY_LIMIT 64         /* bytes of a key */
#define FQ_VALUE_LIMIT 256      /* bytes of a value */
#define FQ_TEXT_LIMIT 64        /* bytes of an error text */
#define FQ_LONGEST_REQUEST 394  /* bytes of a request */
#define FQ_LONGEST_REPLY 307    /* bytes of a reply: those of a stats reply; every other but a bulk reply has at most 279 */
#define FQ_LONGEST_BULK 41486   /* bytes of a reply to bulkGet */
#define FQ_LONGEST_KEYS 8449    /* bytes that fq_list_keys writes */
#define FQ_REPLY_ROOM 512       /* least room for the reply of a call */
#define FQ_BULK_ROOM 41600      /* least room for the reply to bulkGet and bulkGetKeys */
#define FQ_LINES_ROOM 83201     /* least room for the lines that fq_serve_lines gives */
#define FQ_LONGEST_LINE 1024    /* characters of a line of requests */
#define FQ_LONGEST_FILE 86931   /* bytes of a stored table */

#define FQ_REQUEST_TOLD 17      /* numbers that fq_read_request tells */
#define FQ_REPLY_TOLD 21        /* fq_read_reply */
#define FQ_ENTRY_TOLD 6         /* fq_next_entry */
#define FQ_SAME_KEY_TOLD 2      /* fq_same_key */
#define FQ_SERVE_TOLD 2         /* fq_serve */
#define FQ_STREAM_TOLD 3        /* fq_serve_stream */
#define FQ_SHARE_TOLD 3         /* fq_serve_many, for each connection */
#define FQ_LINES_TOLD 3         /* fq_serve_lines */
#define FQ_REQUEST_GIVEN 10     /* numbers that fq_write_request is given */
#define FQ_REPLY_GIVEN 4        /* fq_write_reply */
#define FQ_STATISTICS_GIVEN 9   /* fq_write_statistics */
#define FQ_ENTRY_GIVEN 4        /* fq_write_entries, for each entry */

enum fq_refusal {
    FQ_BAD_MAGIC = 1,           /* the first byte is not the magic */
    FQ_BAD_MESSAGE_ID = 2,      /* the message id is not a shortest vLong */
    FQ_BAD_VERSION = 3,         /* the version is not served */
    FQ_BAD_COMMAND = 4,         /* the operation is not served; in a reply, it is not the awaited one nor the error reply's */
    FQ_BAD_NUMBER = 5,          /* a vInt is too large or not shortest */
    FQ_TOO_LONG = 6,            /* a length is above its limit; a bulk reply has more than FQ_TABLE_KEYS entries */
    FQ_BAD_TEXT = 7,            /* a text is not UTF-8 */
    FQ_BAD_FIELD = 8,           /* flags, intelligence, transaction type, scope, status, marker or more byte are not allowed; in a stats reply, the
                                   number of statistics, a name or a value */
    FQ_NO_SUCH_CACHE = 9,       /* the cache name is not empty */
    FQ_FULL = 10,               /* the write would add a key, and FQ_TABLE_KEYS entries stand */
    FQ_NO_VERSIONS_LEFT = 11,   /* the write would take effect, and no version is left */
    FQ_NO_ROOM = 12,            /* the room lent is too small */
    FQ_NO_TABLE = 13,           /* the memory given is not a table */
    FQ_BAD_LINE = 14,           /* a line is not of the form; only in what fq_serve_lines writes */
    FQ_NOT_ONE_FRAME = 15,      /* a line is not exactly one request; only in what fq_serve_lines writes */
    FQ_BAD_MESSAGE = 16,        /* a message to be written breaks a rule */
    FQ_BAD_FILE = 17            /* not a stored table */
};

/* Messages. The versions 10, 11, 12 and 20 are served. Flags are 0 or 1 in 10 and 11, 0 to 7 in 12, and 0 to 31 in 20: 0x0001 asks for the value held before,
   0x0002 is for an entry without a lifespan, and no other has an effect. A request of version 20 has no transaction type.

   The statuses of a reply that is no error reply: with 0x0001 in version 20, an operation that changes an entry and finds its key held answers FQ_DONE_WITH_VALUE or
   FQ_NOT_DONE_WITH_VALUE, and the value that was held follows; behind every other status of these nothing follows. In 10 to 12 a length follows each of their
   statuses where 0x0001 is set, 0 where no value is told. */
enum fq_status {
    FQ_AS_ASKED = 0x00,
    FQ_NOT_DONE = 0x01,             /* the key is held, is not held, or has another version, by the operation */
    FQ_NO_SUCH_KEY = 0x02,
    FQ_DONE_WITH_VALUE = 0x03,
    FQ_NOT_DONE_WITH_VALUE = 0x04
};

/* Reads the request at the front of the input. Told: bytes read, id, version, operation, flags, intelligence, topology, lifespan, max idle, entry
   version, the entry count of bulkGet or the scope of bulkGetKeys, and start and length of name, key and value. */
uint64_t fq_read_request(const uint8_t *input, size_t input_len, uint64_t *answer, size_t answer_len);

/* Reads the reply at the front of the input, to a request of version `version` with operation `op`, and with flag 0x0001 where `flag`: 3 for a version that
   is not served, then 4 for an operation that it does not have, both before any byte is looked at; 8 for a status that these can't give. Told: bytes read, id, operation,
   status, entry version, start and length of value and error text, and the nine statistics, which are 0 where it is no stats reply: time since start,
   current and total number of entries, stores, retrievals, hits, misses, remove hits, remove misses; then how many entries a bulk reply has, and start and
   length of their bytes, from the first byte 1 or 0 on, which fq_next_entry walks through. */
uint64_t fq_read_reply(const uint8_t *input, size_t input_len, uint8_t version, uint8_t op, bool flag, uint64_t *answer, size_t answer_len);

/* Writes a request at the front of `out`: 16, then 12. Given: id, version, operation, flags, intelligence, topology, lifespan, max idle, entry version,
   and the entry count of bulkGet or the scope of bulkGetKeys. A field that the operation does not send is 0 or empty. */
uint64_t fq_write_request(uint8_t *out, size_t out_len, const uint64_t *numbers, size_t numbers_len, const uint8_t *name, size_t name_len,
                          const uint8_t *key, size_t key_len, const uint8_t *value, size_t value_len);

/* Writes a reply at the front of `out`, to a request of version `version` with operation `op`, and with flag 0x0001 where `flag`: 16 (also for a version
   that is not served and an operation that it does not have), then 12. Given: id, operation (the request's plus 1, or 0x50), status, entry version. A field that the status does not send is 0 or empty. */
uint64_t fq_write_reply(uint8_t *out, size_t out_len, uint8_t version, uint8_t op, bool flag, const uint64_t *numbers, size_t numbers_len, const uint8_t *value,
                        size_t value_len, const uint8_t *text, size_t text_len);

/* Writes the reply to stats (operation 0x15) of this version at the front of `out`: 16, then 12. Given: the nine statistics, in the order in which fq_read_reply tells
   them. A list of another length, and one with a number above the largest vLong, is 16; so is a stats reply that fq_write_reply is given. */
uint64_t fq_write_statistics(uint8_t *out, size_t out_len, uint8_t version, uint64_t id, const uint64_t *numbers, size_t numbers_len);

/* Reads an entry of a bulk reply, or the end of its entries, at the place `at` of the input, which is the start that fq_read_reply told or the place behind
   the entry before: with its value where `values`, as in the reply to bulkGet, or its key alone. Told: bytes read, 1 for an entry or 0 at the end, and
   start and length of key and value. */
uint64_t fq_next_entry(const uint8_t *input, size_t input_len, uint64_t at, bool values, uint64_t *answer, size_t answer_len);

/* Writes the reply to bulkGet where `values`, or to bulkGetKeys, of this version at the front of `out`: 16, then 12. Given for each entry: start and length of its key, start
   and length of its value in `bytes`. Of a part that does not lie within the bytes, as many are sent as there are. More than FQ_TABLE_KEYS entries are 16,
   and so is a value that is not sent and not empty. */
uint64_t fq_write_entries(uint8_t *out, size_t out_len, uint8_t version, uint64_t id, bool values, const uint8_t *bytes, size_t bytes_len, const uint64_t *numbers,
                          size_t numbers_len);

/* Compares two keys as the table does: their lengths first, then their bytes from the end: FQ_DONE. Told: 1 where they are equal or 0, and how many pairs
   of bytes were compared: 0 for unlike lengths, else those through the first unlike one, or all. */
uint64_t fq_same_key(const uint8_t *a, size_t a_len, const uint8_t *b, size_t b_len, uint64_t *answer, size_t answer_len);

/* The table: FQ_TABLE_SIZE bytes of the caller's, which only these functions write.

   An entry whose deadline is not 0 and not above the present second counts as absent. The present second is the greatest of the call's second and of those of the
   calls that were served since fq_make or fq_load; deadlines are reckoned from it. A call that is refused leaves it, and the entries, as they were, and
   counts in no statistic; the counts begin anew with fq_make and fq_load. */

/* Whether the memory is a table. */
bool fq_is_table(const uint8_t *table, size_t table_len);

/* Makes the memory a fresh table: FQ_DONE, or 13 where it has not FQ_TABLE_SIZE bytes. */
uint64_t fq_make(uint8_t *table, size_t table_len);

/* Serves the request at the front of the input, at this second (UNIX time), and writes the reply at the front of `reply`, which has FQ_REPLY_ROOM bytes
   or more. FQ_DONE is served. Told: bytes taken of the input, and bytes of the reply. Nothing is taken where more is needed, at 1 to 8, at 13, and at 12
   for a reply of less than FQ_REPLY_ROOM bytes; a stream from a client ends after 1 to 8. At 9 to 11 the request is taken. At 1 to 11 the reply is the
   error reply. A bulkGet or bulkGetKeys that is read and has less than FQ_BULK_ROOM bytes is 12 too, and then it is taken, nothing is sent, and the
   stream goes on. */
uint64_t fq_serve(const uint8_t *input, size_t input_len, uint8_t *table, size_t table_len, uint32_t second, uint8_t *reply, size_t reply_len,
                  uint64_t *answer, size_t answer_len);

/* Serves the requests of the input one after the other, and answers as the last call does: 0 where what is left is no whole request, or nothing, 1 to 8
   where the stream ends, 12 where `reply` has less than FQ_REPLY_ROOM bytes, or 13. FQ_REPLY_FULL where less than that are left behind the replies, or
   less than FQ_BULK_ROOM behind replies and before a bulkGet or bulkGetKeys: no further call was made; take the replies out and call again with the input
   behind the bytes taken. Lend FQ_BULK_ROOM bytes at least: in less, a bulkGet or bulkGetKeys that no reply stands before is refused 12 as fq_serve refuses
   it, taken without a reply, and the stream goes on without a word. The table is checked once. Told: bytes taken, bytes of the replies, and how many
   calls there were. */
uint64_t fq_serve_stream(const uint8_t *input, size_t input_len, uint8_t *table, size_t table_len, uint32_t second, uint8_t *reply, size_t reply_len,
                         uint64_t *answer, size_t answer_len);

/* Serves the streams of several connections, whose inputs stand end to end in `input`: the first from its start to ends[0], each other from the end before
   to its own. In their order each is served as a stream on the table that the one before left, and on `reply` behind all replies before; a refusal 1 to 8 ends
   the stream of its connection alone. The table is checked once. FQ_DONE is done. The whole call is refused, in this order: 12 where `answer` has less than
   FQ_SHARE_TOLD numbers for each connection, FQ_NO_ENDS, 12 where `reply` has less than FQ_REPLY_ROOM bytes, 13; then nothing is done or told. So a 12 is of
   `answer` where that is too short, and of `reply` else.

   Told of each connection: bytes taken of its input, bytes of its replies, which stand end to end at the front of `reply`, and 0 where what is left is no whole
   request, 1 to 8 where its stream ends, or FQ_REPLY_FULL: it waits, for less than FQ_REPLY_ROOM bytes are left behind all replies, or less than FQ_BULK_ROOM
   before a bulkGet or bulkGetKeys; take the replies out, and give its rest again. As long as nothing is sent, a connection is served as by fq_serve_stream, so
   that it waits only behind bytes taken: who comes first comes on. Lend FQ_BULK_ROOM bytes at least: in less, a bulkGet or bulkGetKeys that no reply stands
   before is taken without a reply, and its stream goes on without a word. What all connections get is what one list of their requests gives, one connection's
   behind the other's, served one by one. */
uint64_t fq_serve_many(const uint8_t *input, size_t input_len, const uint64_t *ends, size_t ends_len, uint8_t *table, size_t table_len, uint32_t second,
                       uint8_t *reply, size_t reply_len, uint64_t *answer, size_t answer_len);

/* Files. */

/* Serves request lines, as `board` does: the lines of a chunk of a file, as far as `out`, FQ_LINES_ROOM bytes or more, has room for what they give.
   FQ_DONE is served; 12 or 13, and then nothing is told. Told: bytes taken, bytes given, and 1 where the rest of a line is to be passed over. The next
   call gets what was not taken and what was read behind it, and that 1 or 0 as `passing`, which is false at first. Where nothing is taken, more of the
   file is needed; at its end `last` is true, and where nothing is taken then, all is served. */
uint64_t fq_serve_lines(const uint8_t *input, size_t input_len, uint8_t *table, size_t table_len, uint8_t *out, size_t out_len, bool passing, bool last,
                        uint64_t *answer, size_t answer_len);

/* Writes the stored file of a table at the front of `out`: 13, then 12, or FQ_DONE and its length, FQ_LONGEST_FILE at most. It holds the entries that
   stand at the latest second served, and the last version issued. */
uint64_t fq_store(const uint8_t *table, size_t table_len, uint8_t *out, size_t out_len);

/* Loads a stored file into `table`, whatever that held: FQ_DONE, or 17, and then the table stays. A loaded table starts from second 0. */
uint64_t fq_load(const uint8_t *file, size_t file_len, uint8_t *table, size_t table_len);

/* Lists keys of a cache by their bytes, a shorter key before a longer one that it begins: of those that stand at the latest second served and are not
   before `key`, which may be any bytes of any length, the first ones, `most` at the most; 0 gives none. Writes them at the front of `out` as the body of a
   bulkGetKeys reply, which fq_next_entry walks through: 13, then 9 where the name is not empty, then 12 where `out` is shorter than that body, or FQ_DONE and its
   length, FQ_LONGEST_KEYS at most. The table is only read, and this is no call: it has no second and counts in no statistic. */
uint64_t fq_list_keys(const uint8_t *table, size_t table_len, const uint8_t *name, size_t name_len, const uint8_t *key, size_t key_len, uint64_t most, uint8_t *out, size_t out_len);

#ifdef __cplusplus
}
#endif
#endif
