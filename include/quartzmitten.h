/* Quartzmitten for a C host: the checksum, the datagram reader, the cutter, the receiver, the sequence watch, the log's writer and reader, the
   index of a log and the file that keeps it, and the count of a log, and of a season of logs; survey messages as numbers, and which pits a map has;
   acknowledge blocks; the tide gauge's packets.

   Link libquartzmitten.a, which tools/install lays down beside this header with a file for pkg-config; or, out of the tree, the archives libhost.a
   (qm_checksum, qm_read_datagram, qm_cut), libhost_append.a (qm_log_begin, qm_log_append), libhost_state.a (qm_open, qm_forget, qm_lengths,
   qm_version), libhost_receiver.a (qm_receive, qm_receive_within), libhost_flight.a (qm_log_first, qm_log_next, qm_watch_see), libhost_index.a (qm_index, qm_find,
   qm_index_on), libhost_index_file.a (qm_index_file_write, qm_index_file_head, qm_index_file_rows, qm_index_file_find), libhost_count.a (qm_count),
   libhost_season.a (qm_count_on), libhost_pits.a (qm_count_lines, qm_pits), libhost_marks.a (qm_read_message, qm_marks), libhost_acks.a
   (qm_acks_ask, qm_acks_write), libhost_gauge.a (qm_moss_read, qm_moss_message, qm_moss_write, qm_gauge_see) and libhost_messages.a
   (qm_write_message), or those whose functions are called: `tools/archive host`, `tools/archive host_state` and so on write them
   (x86-64 Linux). No other header is needed.

   What holds for all of them:
   - They end for any bytes and any lengths, keep no state of their own, ask the system for nothing, and may be called from any thread. qm_count
     needs QM_COUNT_STACK bytes of its stack, since the receiver that it counts with stands there, and qm_acks_write QM_ACKS_STACK, since it
     lays the blocks there before it writes them; the others need QM_STACK at most.
   - They read and write only the memory lent in the call. A refusal writes nothing, but for what qm_count and qm_count_on say
     of three of their own.
   - Lent memory is a pointer and how many elements stand there. The pointer is never null, also where the length is 0, and
     a list of 32-bit numbers is aligned to 4 bytes, one of 64-bit numbers to 8. What is written to must not overlap anything else
     that is lent.
   - All numbers in datagrams are big-endian; the numbers here are the host's own. */

#ifndef QUARTZMITTEN_H
#define QUARTZMITTEN_H

#ifdef __cplusplus
extern "C" {
#endif

/* Which header this is: a hundred times the major number and the minor. qm_version tells which one the archive goes with. */
#define QM_VERSION 100
#define QM_VERSION_TEXT "1.0"

/* The stack that each function needs, in bytes, but for qm_count (QM_COUNT_STACK) and qm_acks_write (QM_ACKS_STACK): a thread that has less dies. */
#define QM_STACK (40 * 1024)

typedef unsigned char qm_byte;
typedef unsigned int qm_u32;
typedef unsigned long long qm_u64;
typedef long long qm_i64;
typedef unsigned long long qm_size; /* a length, a place or a number of elements: 64 bits, unsigned */

/* The refusals that these functions give. docs/REFUSALS.md has every number, and what to do about it. */
#define QM_TOO_FEW_BYTES 1      /* fewer than 8 bytes, or fragment magic and fewer than 20 */
#define QM_OTHER_MAGIC 2        /* neither 4c433032 nor 4c433033 */
#define QM_DATAGRAM_TOO_LONG 3  /* a datagram over 65,535 bytes */
#define QM_NAME 4               /* name empty, over 63 bytes or without its zero byte, not UTF-8 (RFC 3629), or a code point below 32 or 127 */
#define QM_FRAGMENT_NUMBER 5    /* count 0 or over 1,024, or a number not below the count */
#define QM_PAYLOAD_TOO_LONG 6   /* payload size over 1,048,576 */
#define QM_FORM 7               /* the form of a fragment broken */
#define QM_DISAGREES 8          /* a fragment that disagrees with the open message of its key */
#define QM_NOT_READY 9          /* state, names, store or ledger not of the lengths of opening, or a state not made by these calls */
#define QM_DATAGRAM_SIZE 10     /* datagram size outside 96 to 65,507 */
#define QM_TOO_MANY_FRAGMENTS 11 /* more than 1,024 fragments */
#define QM_NO_SUCH_DATAGRAM 12  /* the datagram asked for is not below the number of datagrams */
#define QM_TOO_SHORT 13         /* output or list too short */
#define QM_WATCH_FULL 14        /* a 17th sender at a watch, or a watch that claims more than 16 */
#define QM_NOT_LMCP 20          /* a survey message of fewer than 12 bytes, or one that does not begin with "LMCP" */
#define QM_MESSAGE_LENGTH 21    /* over 1,048,576 bytes, or not of the length that it says */
#define QM_MESSAGE_SUM 22       /* a checksum that is neither zero nor right */
#define QM_MESSAGE_BOOL 23      /* an existence byte or a bool that is not 0 or 1, or a root that is null */
#define QM_MESSAGE_TYPE 24      /* series, type or version not in the table, not the declared type, or not the version of the message's root */
#define QM_MESSAGE_CUT 25       /* the message ends inside a value */
#define QM_MESSAGE_DEPTH 26     /* an object at depth 17 */
#define QM_MESSAGE_CHAR 27      /* a char over 127 */
#define QM_MESSAGE_LEFT 28      /* something left after the root */
#define QM_MESSAGE_NUMBER 29    /* a number that its field cannot hold, or an unknown version (written only) */
#define QM_EDITION 40           /* a log of no edition that is known: it begins with neither 1 nor 2 */
#define QM_NOT_SHORTEST 41      /* a number of a log not in its shortest form, or a tenth byte above 1 */
#define QM_KEPT_TOO_LONG 42     /* a datagram to keep, or kept, over 65,535 bytes */
#define QM_LOG_CUT 43           /* a log that is empty, or ends inside an entry */
#define QM_INDEX_FULL 44        /* an index of more than 4,096 entries; of qm_index_on, one of more than are asked for or lent */
#define QM_LOG_LIMIT 45         /* a log's payload limit over 1,048,576 */
#define QM_NOT_AN_INDEX 46      /* not an index file: another first byte, a length that is not that of its rows, or rows not sorted */
#define QM_OTHER_LOG 47         /* an index file of another log: it covers more bytes than the log has, or a row leads to an entry of another key */
#define QM_PACKET_SHORT 50      /* a gauge's packet of fewer than 19 bytes */
#define QM_PACKET_LENGTH 51     /* not of the length that it says, or over 65,535 bytes; to be written: over 65,535 bytes */
#define QM_PACKET_TYPE 52       /* a type that is not U, H or E */
#define QM_PACKET_BLOCKS 53     /* message blocks that do not fill the packet exactly, or a block in H or E */
#define QM_NO_SUCH_MESSAGE 54   /* the message asked for is not below the number of messages */
#define QM_PACKET_NO_ROOM 55    /* the output lent is too short for the packet */
#define QM_TOO_MANY_TILES 60    /* a 257th tile; of qm_count_on, one more than words are lent */
#define QM_TOO_MANY_PITS 61     /* an 8,193rd pit, over all tiles; of qm_count_on, a pit or a sure pit more than words are lent */
#define QM_TOO_MANY_ENTRIES 62  /* a log of more than 4,096 entries */
#define QM_BLOCK_CUT 70         /* a block is cut */
#define QM_BLOCK_KIND 71        /* a block of unknown kind */
#define QM_BLOCK_ORDER 72       /* first to last, and the last is below the first */
#define QM_BLOCK_MAP 73         /* a bitmap without bits, or whose last number is above the largest 64-bit number */
#define QM_BLOCK_PADDING 74     /* a bitmap whose padding is not zero */
#define QM_NOT_RISING 75        /* a list of numbers that does not rise */
#define QM_BLOCKS_NO_ROOM 76    /* the output lent is too short for the blocks */
#define QM_BLOCKS_TOO_LONG 77   /* blocks over 65,535 bytes */

/* The sum of all `length` bytes modulo 2^32. Of no bytes it is 0. Nothing is written. */
qm_u32 qm_checksum(const qm_byte *bytes, qm_size length);

/* The places of the ten numbers that qm_read_datagram writes. */
enum {
    QM_FIELD_KIND,    /* 1 a small message, 2 a fragment */
    QM_FIELD_SEQUENCE, /* the sequence number */
    QM_FIELD_SIZE,    /* the payload size P of the whole message; of a small message its data length */
    QM_FIELD_OFFSET,  /* where the data begins in the payload; of a small message 0 */
    QM_FIELD_NUMBER,  /* the fragment's number k, from 0; of a small message 0 */
    QM_FIELD_COUNT,   /* the number n of fragments; of a small message 1 */
    QM_FIELD_NAME_PLACE, /* where the name begins in the datagram: 8 in a small message, 20 in a fragment */
    QM_FIELD_NAME_LENGTH, /* 1 to 63, in bytes; 0 in a fragment with a number above 0, which has no name */
    QM_FIELD_DATA_PLACE, /* where the data begins in the datagram */
    QM_FIELD_DATA_LENGTH, /* how many bytes of data it carries */
    QM_FIELDS         /* ten */
};

/* Reads one datagram of `length` bytes.

   Answers 0 for a datagram of good form and writes the ten numbers above to the start of `fields`; whatever stands in
   `fields` after them stays. Otherwise answers the first refusal that fits, in the order 3, 1, 2, 5, 6, 4, 7, and then 13
   where `fields` has room for fewer than ten numbers; then nothing is written.

   Good form of a fragment with d bytes of data: fragment 0 has offset 0; one with a number above 0 has d at least 1; offset
   + d is at most the payload size, and equal to it in the last fragment. The sum is not taken modulo anything. */
qm_u32 qm_read_datagram(const qm_byte *datagram, qm_size length, qm_u32 *fields, qm_size fields_length);

/* Cuts the message of `name` and `payload` into datagrams of at most `size` bytes and writes the one with the number `index`
   (from 0) to the start of `out`; the rest of `out` stays.

   Answers (number of datagrams) * 2^32 + (length of the datagram written). The number of datagrams is the same for each
   index. Where 9 + name_length + payload_length is at most `size` it is one small datagram; else fragment 0 carries size -
   21 - name_length bytes of the payload, each later one size - 20, and the last the rest.

   Otherwise answers a refusal, which is below 2^32 as no other answer is: the first that fits in the order 10, 4, 6, 11, 12,
   13; then nothing is written. `name` is 1 to 63 bytes of UTF-8, with no zero byte at its end. */
qm_u64 qm_cut(const qm_byte *name, qm_size name_length, const qm_byte *payload, qm_size payload_length, qm_u32 sequence,
              qm_size size, qm_size index, qm_byte *out, qm_size out_length);

/* The two halves of what qm_cut answers. */
#define QM_CUT_COUNT(answer) ((qm_u32) ((answer) >> 32))
#define QM_CUT_LENGTH(answer) ((qm_u32) (answer))

/* Keeping a flight: a log in lent memory, begun once, then one entry after another, each at the place where the one before
   ended. What stands before the place is what may be written to disk at any time; the rest of `out` stays.

   Both answer (number of bytes written) * 2^32, so that the next place is the place plus QM_LOG_LENGTH(answer); or a refusal,
   which is below 2^32 as no other answer is, and then nothing is written. */

/* Writes the head of a log to the start of `out`: the edition, which is 2, and the log's payload limit, at most four bytes in
   all. Fragments of larger payloads are refused by 6 when the log is replayed or counted; 1,048,576 admits all that the
   receiver takes. 45 where `limit` is over 1,048,576, then 13 where the head does not fit. */
qm_u64 qm_log_begin(qm_byte *out, qm_size out_length, qm_u64 limit);

/* Writes one entry, the datagram with its sender and arrival tick, at the place `at` of `out`: at most 30 bytes and the
   datagram's. 42 where the datagram is over 65,535 bytes, then 13 where the entry does not fit. Any place may be given. */
qm_u64 qm_log_append(qm_byte *out, qm_size out_length, qm_size at, qm_u64 sender, qm_u64 tick, const qm_byte *datagram,
                     qm_size length);

#define QM_LOG_LENGTH(answer) ((qm_size) ((answer) >> 32))

/* Reading a log in lent memory, which may have been mapped from a file: its head once, then one entry after another. */

/* The places of the numbers that qm_log_first writes. */
enum {
    QM_HEAD_FIRST_PLACE, /* where the first entry begins */
    QM_HEAD_PAYLOAD,  /* the largest payload of the log's fragmented messages: in edition 1 262,144, in edition 2 what the log says */
    QM_HEAD_FRAGMENTS, /* the most fragments of one: 256, or 1,024 */
    QM_HEAD           /* three */
};

/* Judges the head of a log. Answers 0 and writes the three numbers above to the start of `head`. Otherwise 13 where `head` has room for fewer;
   then 43 where the log is empty, 40 where it is no log of an edition that is known, and of the limit of edition 2 43, 41, 45; then nothing is written. */
qm_u32 qm_log_first(const qm_byte *log, qm_size length, qm_u64 *head, qm_size head_length);

/* The places of the numbers that qm_log_next writes. */
enum {
    QM_ENTRY_FOUND,   /* 1 an entry, 0 the end of the log: then sender, tick and length are 0, and both places are the one asked for */
    QM_ENTRY_SENDER,  /* the entry's sender */
    QM_ENTRY_TICK,    /* its arrival tick */
    QM_ENTRY_PLACE,   /* where its datagram begins in the log */
    QM_ENTRY_LENGTH,  /* how many bytes the datagram has */
    QM_ENTRY_NEXT_PLACE, /* where the next entry begins */
    QM_ENTRY          /* six */
};

/* Reads the entry at the place `at`: that of qm_log_first, and then each QM_ENTRY_NEXT_PLACE. Any place may be given; at or past the log's length is its end.

   Answers 0 and writes the six numbers above to the start of `entry`; what stands after them stays. Otherwise 13 where `entry` has room for fewer; then,
   in byte order, 43 where the log ends inside the entry, 41, 42; then nothing is written. */
qm_u32 qm_log_next(const qm_byte *log, qm_size length, qm_size at, qm_u64 *entry, qm_size entry_length);

/* The index of a log: a row for each entry that the datagram reader accepts within the log's limits, sorted by sender, then sequence, then place. */

/* The places of the numbers of a row. */
enum {
    QM_ROW_SENDER,    /* the entry's sender */
    QM_ROW_SEQUENCE,  /* its datagram's sequence number */
    QM_ROW_PLACE,     /* where the entry begins in the log */
    QM_ROW            /* three */
};

/* The most rows of an index, and the numbers (64 bits) of one that is full. */
#define QM_MAX_INDEX 4096
#define QM_INDEX (QM_MAX_INDEX * QM_ROW)

/* Works out the index of a log of `length` bytes.

   Answers 2^32 + (number of rows) and writes the rows to the start of `index`; what stands after them stays. Otherwise answers a refusal, which is below
   2^32 as no other answer is, and then nothing is written: the log's own over the whole log, 43, 40, 41, 42, 45 in byte order; then 44 where there are more
   than QM_MAX_INDEX rows, or more than `index` has room for. */
qm_u64 qm_index(const qm_byte *log, qm_size length, qm_u64 *index, qm_size index_length);

#define QM_INDEX_ROWS(answer) ((qm_u32) (answer))

/* The places of the numbers that qm_find writes. */
enum {
    QM_FIND_KNOWN,    /* 1 where the log has the key, else 0 */
    QM_FIND_PLACE,    /* where the first entry of the key begins in the log, else 0 */
    QM_FIND           /* two */
};

/* Looks up a key, the sender and the sequence of a message, in an index that has so many rows, by halving. Where `index` is too short for them, it has as many
   as stand there. Of numbers that are no index it says what comes of them.

   Answers 0 and writes the two numbers above to the start of `place`; what stands after them stays. Otherwise 13, and writes nothing, where fewer fit. */
qm_u32 qm_find(const qm_u64 *index, qm_size index_length, qm_size rows, qm_u64 sender, qm_u32 sequence, qm_u64 *place, qm_size place_length);

/* Works out what the entries of a log of `length` bytes from a place on add to an index, and adds it. The first `rows` rows of `index` are the index before, and
   `from` is how many bytes of the log it covers: the length that the log had then. 0 rows and the place 0 give the index of the whole log, as any place below the
   first entry does. What an index is extended to over any number of such calls is the index worked out afresh. At most `most` rows; a million rows in any order
   take some seconds.

   Answers 2^32 + (number of rows), those before among them, and leaves them sorted at the start of `index`; what stands after them stays. Otherwise answers a
   refusal, which is below 2^32 as no other answer is, and then nothing is written: the log's own, of its head and from the place on, 43, 40, 41, 42, 45 in byte order;
   then 44 where there are more than `most` rows, or more than `index` has room for. Of numbers that are no index it says what comes of them. */
qm_u64 qm_index_on(const qm_byte *log, qm_size length, qm_size from, qm_u64 *index, qm_size index_length, qm_size rows, qm_u32 most);

/* An index file: an index that is kept beside its log. The byte 1, how many bytes of the log it covers (8 bytes), how many rows it has (8 bytes), and the rows, of 20
   bytes each: sender (8), sequence (4), place (8), sorted as an index is. All numbers are big-endian. */

/* How many bytes an index file of so many rows has. */
#define QM_INDEX_FILE_HEAD 17
#define QM_INDEX_FILE_ROW 20
#define QM_INDEX_FILE(rows) (QM_INDEX_FILE_HEAD + QM_INDEX_FILE_ROW * (qm_size) (rows))

/* Writes the index file of the first `rows` rows of `index` to the start of `file`, QM_INDEX_FILE(rows) bytes; what stands after them stays. `covered` is the length of
   the log that they are the index of. Of a sequence the low 32 bits are written. Whether the rows are sorted is not asked.

   Answers 0. Otherwise 13, and writes nothing, where `index` has fewer rows or `file` fewer bytes. */
qm_u32 qm_index_file_write(const qm_u64 *index, qm_size index_length, qm_size rows, qm_u64 covered, qm_byte *file, qm_size file_length);

/* The places of the numbers that qm_index_file_head writes. */
enum {
    QM_FILE_COVERED,  /* how many bytes of the log the index covers */
    QM_FILE_ROWS,     /* how many rows it has */
    QM_FILE_NUMBERS   /* two */
};

/* Reads the head of an index file. `length` is that of the whole file, whose rows are not looked at.

   Answers 0 and writes the two numbers above to the start of `head`; what stands after them stays. Otherwise 13 where `head` has room for fewer; then 46 where the first
   byte is not 1 or the file has not the length of its rows; then nothing is written. */
qm_u32 qm_index_file_head(const qm_byte *file, qm_size length, qm_u64 *head, qm_size head_length);

/* Reads the rows of an index file to the start of `index`, three numbers a row as qm_index lays them; what stands after them stays. Each row is looked at.

   Answers 0. Otherwise 46 where it is no index file: the two of qm_index_file_head, and rows that are not sorted; then 13 where `index` has room for fewer numbers; then
   nothing is written. */
qm_u32 qm_index_file_rows(const qm_byte *file, qm_size length, qm_u64 *index, qm_size index_length);

/* Looks up a key in an index file by halving, and then at the log: some twenty rows and at most three entries are read, however long both are. It answers for the
   bytes that the file covers; where the log has grown, the rest is asked of qm_index_on from QM_FILE_COVERED on with 0 rows, and qm_find.

   Answers 0 and writes the two numbers of qm_find to the start of `place`; what stands after them stays. Otherwise 13 where `place` has room for fewer; then 46 as
   qm_index_file_head; then 47 where the file is not of this log: it covers more bytes than the log has, or the entry at the place of its first row, its last row or the
   row found has not that row's sender and sequence; then nothing is written. Whether the rows between are sorted is not asked: of rows that are not, the
   answer is what halving comes to, a place whose entry has the key all the same. */
qm_u32 qm_index_file_find(const qm_byte *log, qm_size length, const qm_byte *file, qm_size file_length, qm_u64 sender, qm_u32 sequence, qm_u64 *place,
                          qm_size place_length);

/* The receiver: fragments of messages joined in lent memory, each message delivered once.

   A host lends a state, names, a store and a ledger, always the same, and changes nothing in them between calls. qm_open makes the state and the names;
   the store and the ledger need no beginning. Each sender has a number of the host's own choice. */

/* How many messages may be open at once; the largest payload, in bytes; the most fragments of a message; the longest name, in bytes. */
#define QM_SLOTS 8
#define QM_MAX_PAYLOAD 1048576
#define QM_MAX_FRAGMENTS 1024
#define QM_MAX_NAME 63
/* For how many senders delivered keys are remembered, and how many keys of each. */
#define QM_MEMORY_SENDERS 16
#define QM_MEMORY_KEYS 32

/* Words (64 bits): the head, a block for each slot with its held fragments as bits, and the memory of keys. */
#define QM_SLOT_WORDS (5 + QM_MAX_FRAGMENTS / 64)
#define QM_MEMORY_WORDS (QM_MEMORY_SENDERS * (3 + QM_MEMORY_KEYS))
#define QM_STATE (2 + QM_SLOTS * QM_SLOT_WORDS + QM_MEMORY_WORDS)
/* Bytes. */
#define QM_NAMES (QM_SLOTS * QM_MAX_NAME)
/* Bytes: slots of the largest payload. A store may have any length; a slot has an eighth of it, QM_MAX_PAYLOAD at most, and more is refused by 6. */
#define QM_STORE (QM_SLOTS * QM_MAX_PAYLOAD)
/* Numbers (32 bits): offset and length of each fragment of each slot. */
#define QM_LEDGER (QM_SLOTS * QM_MAX_FRAGMENTS * 2)

/* A fresh receiver over a store of `store_length` bytes. Answers 0 and writes all words of `state` and all bytes of `names`; or 9, and writes nothing,
   where they are not QM_STATE words and QM_NAMES bytes long. */
qm_u32 qm_open(qm_u64 *state, qm_size state_length, qm_byte *names, qm_size names_length, qm_size store_length);

/* The places of the numbers that qm_receive writes. */
enum {
    QM_TOLD_ANSWER,       /* QM_ANSWER_KEPT, QM_ANSWER_REPEAT or QM_ANSWER_DELIVERED */
    QM_TOLD_WHERE,        /* of a delivered message: QM_IN_DATAGRAM or QM_IN_STORE; else 0, as the next two */
    QM_TOLD_PAYLOAD_PLACE, /* where its payload begins there */
    QM_TOLD_PAYLOAD_LENGTH, /* how many bytes it has */
    QM_TOLD_EMPTIED,      /* 1 where an open message was given up for this one, else 0, as the next two */
    QM_TOLD_EMPTIED_SENDER, /* whose it was */
    QM_TOLD_EMPTIED_SEQUENCE, /* and its sequence number */
    QM_TOLD_SEQUENCE,     /* the sequence number of the datagram that was received: with its sender the key of its message */
    QM_TOLD               /* eight */
};

enum { QM_ANSWER_KEPT = 1, QM_ANSWER_REPEAT, QM_ANSWER_DELIVERED };
enum { QM_IN_DATAGRAM = 1, QM_IN_STORE };

/* Receives one datagram of a sender.

   Answers 0 and writes the eight numbers above to the start of `told` and QM_MAX_NAME bytes to the start of `name`: a delivered message's name with zeros
   after it, else zeros. The payload stays where it is until the next call. Otherwise answers a refusal, and then nothing at all was written: 13 where `told`
   has room for fewer than QM_TOLD numbers or `name` for fewer than QM_MAX_NAME bytes; then 9; then the datagram reader's, 3, 1, 2, 5, 6, 4, 7,
   6 by the slot size; then 8. */
qm_u32 qm_receive(qm_u64 *state, qm_size state_length, qm_byte *names, qm_size names_length, qm_byte *store, qm_size store_length, qm_u32 *ledger,
                  qm_size ledger_length, qm_u64 sender, const qm_byte *datagram, qm_size length, qm_u64 *told, qm_size told_length, qm_byte *name,
                  qm_size name_length);

/* Receives one datagram of a sender out of a log: as qm_receive, with the log's limits beside the receiver's. `payload` and `fragments` are those that
   qm_log_first tells, or any others; a fragment of a larger payload is refused by 6 and one of more fragments by 5, in the reader's place. No limit of a
   log concerns small messages. */
qm_u32 qm_receive_within(qm_u64 *state, qm_size state_length, qm_byte *names, qm_size names_length, qm_byte *store, qm_size store_length, qm_u32 *ledger,
                         qm_size ledger_length, qm_size payload, qm_u32 fragments, qm_u64 sender, const qm_byte *datagram, qm_size length, qm_u64 *told,
                         qm_size told_length, qm_byte *name, qm_size name_length);

/* A sender began anew: its open messages are given up and its remembered keys dropped. Answers 0, or 9 and then nothing was written. */
qm_u32 qm_forget(qm_u64 *state, qm_size state_length, qm_byte *names, qm_size names_length, qm_u64 sender);

/* The sequence watch: what a sender's number says about those between. Two lent lists are a watch: how many senders it has seen and the senders, and the
   last number of each. Filled with zeros they are a watch that has seen nobody. */

/* The numbers of `lasts`, and those of `senders`. */
#define QM_WATCH_SENDERS 16
#define QM_WATCH (1 + QM_WATCH_SENDERS)

/* What the watch says. */
enum {
    QM_WATCH_FIRST = 1,    /* the sender's first number */
    QM_WATCH_FORWARD,      /* so many are missing before it */
    QM_WATCH_SAME,         /* its last number again */
    QM_WATCH_LATE,         /* so many behind its last, 1,024 at most */
    QM_WATCH_RESTARTED     /* further behind: the sender began anew, at this number */
};

/* Asks what a sender's number says, and moves its watch there unless it is QM_WATCH_SAME or QM_WATCH_LATE.

   Answers (what it says) * 2^32 + (the number beside it, or 0). Otherwise a refusal, which is below 2^32 as no other answer is: 13 where `senders` has fewer
   than QM_WATCH numbers or `lasts` fewer than QM_WATCH_SENDERS; then 14. Then, and where the watch does not move, nothing is written. What stands
   after the watch's own numbers stays. */
qm_u64 qm_watch_see(qm_u64 *senders, qm_size senders_length, qm_u32 *lasts, qm_size lasts_length, qm_u64 sender, qm_u32 number);

/* The two halves of what qm_watch_see answers. */
#define QM_WATCH_KIND(answer) ((qm_u32) ((answer) >> 32))
#define QM_WATCH_NUMBER(answer) ((qm_u32) (answer))

/* The lengths of this header as the archive has them: a host may compare the two before it begins. */
enum {
    QM_LENGTH_SLOTS,
    QM_LENGTH_PAYLOAD,
    QM_LENGTH_FRAGMENTS,
    QM_LENGTH_NAME,
    QM_LENGTH_STATE,
    QM_LENGTH_NAMES,
    QM_LENGTH_LEDGER,
    QM_LENGTH_OUTCOME,
    QM_LENGTH_WATCH_SENDERS,
    QM_LENGTH_INDEX,
    QM_LENGTHS                /* ten */
};

/* Writes them to the start of `lengths` and answers 0; or 13, and writes nothing, where fewer than QM_LENGTHS numbers fit. */
qm_u32 qm_lengths(qm_u64 *lengths, qm_size lengths_length);

/* The QM_VERSION of the header that the archive goes with. Nothing is written. */
qm_u32 qm_version(void);

/* The count of a flight: how often each answer was given, and for each tile its distinct pits. */

/* What a host lends for it: QM_STORE bytes, QM_LEDGER numbers, and as many numbers as the longest message can have. */
#define QM_MAX_MESSAGE 1048576
#define QM_NUMBERS QM_MAX_MESSAGE

/* The stack that qm_count needs, in bytes: a thread that has less dies. qm_count_on counts the same and needs none of it. */
#define QM_COUNT_STACK (192 * 1024)

#define QM_MAX_TILES 256
#define QM_REFUSALS 10

/* The places of the numbers of a report. */
enum {
    QM_REPORT_ENTRIES,                      /* entries of the log: the sum of the next three and of the ten refusals */
    QM_REPORT_KEPT,                         /* how many were answered Kept */
    QM_REPORT_REPEATED,                     /* Repeat */
    QM_REPORT_DELIVERED,                    /* Delivered */
    QM_REPORT_REFUSED,                      /* ten numbers: refused by 0 (never), by 1, and so on to 9 */
    QM_REPORT_LISTS = QM_REPORT_REFUSED + QM_REFUSALS, /* how many delivered payloads were an accepted PitList, of either version */
    QM_REPORT_TILES,                        /* how many tiles these name */
    QM_REPORT_TILE,                         /* the tiles' numbers, rising; after the last one zeros up to 256 */
    QM_REPORT_PITS = QM_REPORT_TILE + QM_MAX_TILES, /* of each tile, in the same order, how many distinct pits its lists mark */
    QM_REPORT_SURE = QM_REPORT_PITS + QM_MAX_TILES, /* and how many of these are sure in any of its lists */
    QM_REPORT = QM_REPORT_SURE + QM_MAX_TILES      /* 784 numbers */
};

/* Goes through a log of `length` bytes, which may have been mapped from a file, with a receiver of its own, fresh, over the lent store and
   ledger; reads each delivered payload that is a survey message to the start of `numbers`; and counts.

   Answers 0 and writes the 784 numbers above to the start of `report`; what stands in `report` after them stays. Otherwise answers a
   refusal, and `report` stays as it is: 13 where `report` has room for fewer than 784 numbers; then the log's own over the whole log, 43,
   40, 41, 42, 45 in byte order; then 62. After these nothing at all was written. Then, entry by entry, 13 where `numbers` is too short for a
   message, 60, 61, a list's tile before its pits: these leave store, ledger and numbers as the entries up to that one left them.

   Slot size is the store's length divided by eight, 1,048,576 at most: with a store shorter than QM_STORE more is refused by 6. The log's own
   limits bind beside it, by 5 and 6: 256 fragments and 262,144 bytes in edition 1, in edition 2 the payload limit that it says. With a ledger
   of another length than QM_LEDGER each entry is refused by 9, and counted so. */
qm_u32 qm_count(const qm_byte *log, qm_size length, qm_byte *store, qm_size store_length, qm_u32 *ledger, qm_size ledger_length,
                qm_i64 *numbers, qm_size numbers_length, qm_u64 *report, qm_size report_length);

/* The count that goes on: a log of any length in stretches, and a season of any number of logs on one map.

   The map is three lent lists of numbers, `tiles`, `pits` and `sure`, as long as the host likes, with how many numbers each has: all 0 at first.
   A pit is kept under its tile as one number, tile * 2^32 + pit; the numbers of each list rise.

   A flight is qm_open, and then qm_count_on with `most` as large as the host likes, from place 0, and on from the place that it told, until it tells
   QM_STOP_END. A season is flights one after another, each after its own qm_open, with one map: the sizes that were told go into the next call. A log that
   grows is counted on from its end, once entries were appended, as if it had been whole. In whatever order flights are counted, and however often each, the
   lines are the same. */

/* The places of the numbers that qm_count_on writes. */
enum {
    QM_ON_STOP,                                     /* why it stopped: see below */
    QM_ON_NUMBER,                                   /* the number of the refusal, or 0 */
    QM_ON_PLACE,                                    /* where to go on */
    QM_ON_ENTRIES,                                  /* entries taken: the sum of the next three and of the ten refusals */
    QM_ON_KEPT,                                     /* how many were answered Kept */
    QM_ON_REPEATED,                                 /* Repeat */
    QM_ON_DELIVERED,                                /* Delivered */
    QM_ON_LISTS,                                    /* how many PitLists were entered */
    QM_ON_REFUSED,                                  /* ten numbers: refused by 0 (never), by 1, and so on to 9 */
    QM_ON_TILES = QM_ON_REFUSED + QM_REFUSALS,      /* how many numbers `tiles` has now */
    QM_ON_PITS,                                     /* `pits` */
    QM_ON_SURE,                                     /* `sure` */
    QM_STRETCH                                      /* 21 numbers */
};

/* Why a stretch stopped. */
enum {
    QM_STOP_TAKEN,      /* as many entries were taken as were asked for */
    QM_STOP_END,        /* the log's end */
    QM_STOP_LOG,        /* the log's own refusal, 40 to 43 or 45: place and all else are as before that entry */
    QM_STOP_REFUSED     /* 13, 60 or 61 by what is lent: the place is behind that entry; its answer is counted, its list is not */
};

/* Takes at most `most` entries of a log of `length` bytes from `place` on (0: its head), within the log's limits, through the lent receiver; reads each
   delivered payload that is a survey message to the start of `numbers`; and enters the tile and the marks of each accepted PitList in the map.

   Answers 0 and writes the 21 numbers above to the start of `told`; what stands in `told` after them stays. The totals are of this stretch alone. Answers 13
   where `told` has room for fewer, and then nothing at all was written. Sizes above what is lent count as what is lent.

   60 comes where a list's tile is one more than `tiles` has words, 61 where a pit is one more than `pits` has, or a sure one than `sure`. The sizes told then
   are those with what was entered by then: the tile and the first marks of that list; all that the map held it still holds. With a state or names of other
   lengths than qm_lengths says, each entry is refused by 9, and counted so. Where no entry was taken nothing but `told` is written. */
qm_u32 qm_count_on(const qm_byte *log, qm_size length, qm_size place, qm_u64 most, qm_u64 *state, qm_size state_length, qm_byte *names,
                   qm_size names_length, qm_byte *store, qm_size store_length, qm_u32 *ledger, qm_size ledger_length, qm_i64 *numbers,
                   qm_size numbers_length, qm_u64 *tiles, qm_size tiles_length, qm_u64 *pits, qm_size pits_length, qm_u64 *sure,
                   qm_size sure_length, qm_size had_tiles, qm_size had_pits, qm_size had_sure, qm_u64 *told, qm_size told_length);

/* The tile lines of a map: of each of its tiles, in rising number, the number, how many distinct pits it has, and how many of these are sure, at the start of
   the three outputs `tile`, `pit` and `certain`; what stands there after them stays. Answers 0, or 13 where one of the three has fewer words than there are
   tiles, and then nothing is written. Sizes above what is lent count as what is lent. */
qm_u32 qm_count_lines(qm_u64 *tile, qm_size tile_length, qm_u64 *pit, qm_size pit_length, qm_u64 *certain, qm_size certain_length,
                      const qm_u64 *tiles, qm_size tiles_length, const qm_u64 *pits, qm_size pits_length, const qm_u64 *sure,
                      qm_size sure_length, qm_size had_tiles, qm_size had_pits, qm_size had_sure);

/* Survey messages as numbers, and which pits a map has: the numbers behind the tile lines. */

/* Reads a survey message of `message_length` bytes, of either version, to the start of `numbers`: the version, then each object as its type, 0 for null,
   and its fields in the order of the table; what stands in `numbers` after them stays. QM_NUMBERS numbers are enough for any message.

   Answers 0 and writes to the first number of `told` how many numbers there are. Otherwise answers a refusal, and then nothing is written: 13 where `told` has
   room for none; then 20 to 28, as the reader judges the bytes; then 13 where the numbers do not fit. */
qm_u32 qm_read_message(const qm_byte *message, qm_size message_length, qm_i64 *numbers, qm_size numbers_length, qm_u64 *told, qm_size told_length);

/* Writes the survey message of `count` numbers, in the order in which qm_read_message has them, to the start of `out`, with its checksum where `sum` is not 0, and
   else with zeros in its place.

   Answers 0 and writes to the first number of `told` how many bytes it has; what stands after it stays. Otherwise answers a refusal, and then nothing is written:
   13 where `told` has room for none; then 23 to 29, as the writer judges the numbers; then 21; then 13 where the message does not fit. */
qm_u32 qm_write_message(const qm_i64 *numbers, qm_size count, qm_u32 sum, qm_byte *out, qm_size out_length, qm_u64 *told, qm_size told_length);

/* The pits of a tile out of a map, as qm_count_on fills it: their numbers, rising, to the start of `number`, and of each to the start of `certain` whether it is
   sure, 1 or 0; what stands there after them stays. They are the pits that the tile's line counts: as many as qm_count_lines tells, and as many of them sure.

   Answers 0 and writes to the first number of `told` how many there are. Otherwise 13, and writes nothing, where `number` or `certain` has fewer words than
   there are pits, or `told` room for none. Sizes above what is lent count as what is lent. A tile is a number below 2^32, and any other is
   taken modulo that. One that the map does not have has no pits. */
qm_u32 qm_pits(qm_u64 tile, const qm_u64 *pits, qm_size pits_length, const qm_u64 *sure, qm_size sure_length, qm_size had_pits, qm_size had_sure,
               qm_u64 *number, qm_size number_length, qm_u64 *certain, qm_size certain_length, qm_u64 *told, qm_size told_length);

/* The places of the numbers of a mark. */
enum {
    QM_MARK_PIT,      /* the pit */
    QM_MARK_SURE,     /* 1 where it is marked sure, else 0 */
    QM_MARK_PLACED,   /* 1 where the mark has a place; else 0, as the next three */
    QM_MARK_LAT,      /* where it lies, as the camera said it */
    QM_MARK_LON,
    QM_MARK_HEIGHT,
    QM_MARK_MEASURED, /* 1 where it has a depth, as every mark of version 2 has; else 0, as the next one */
    QM_MARK_DEPTH,    /* its depth, in centimetres */
    QM_MARK           /* eight */
};

/* The places of the numbers that qm_marks writes to `told`. */
enum {
    QM_MARKS_LIST,    /* 1 where the numbers are those of a PitList; else 0, as the next two */
    QM_MARKS_TILE,    /* its tile */
    QM_MARKS_COUNT,   /* how many marks it has: null ones are skipped */
    QM_MARKS          /* three */
};

/* The marks of a survey message that was read: `numbers` are those that qm_read_message wrote, and `numbers_length` is how many it told. Each mark is a row of
   QM_MARK numbers, one behind the other, in the order of the list, at the start of `rows`; what stands there after them stays. Their pits and whether each is
   sure are what the count enters.

   Answers 0 and writes the three numbers above to the start of `told`. Otherwise 13, and writes nothing, where `rows` has room for fewer rows, or `told` for
   fewer numbers. Of numbers that are no message it says what comes of them: past their end they are read as 0. */
qm_u32 qm_marks(const qm_i64 *numbers, qm_size numbers_length, qm_i64 *rows, qm_size rows_length, qm_u64 *told, qm_size told_length);

/* Acknowledge blocks: which numbers arrived. A block is one number, first to last, or a bitmap. */

/* The most bytes of a list of blocks. */
#define QM_MAX_BLOCKS 65535

/* The stack that qm_acks_write needs, in bytes: a thread that has less dies. */
#define QM_ACKS_STACK (80 * 1024)

/* Whether the blocks in `length` bytes acknowledge a number. Answers 0 and writes 1 or 0 to the first number of `told`; what stands after it stays. Otherwise answers
   a refusal, and then nothing is written: 13 where `told` has room for none; then 77; then at each block 71, 70, 72, 73, 74. All blocks are read, so a bad one
   refuses after one that acknowledges the number. */
qm_u32 qm_acks_ask(const qm_byte *blocks, qm_size length, qm_u64 number, qm_u64 *told, qm_size told_length);

/* Writes the blocks of `count` numbers, which must rise, to the start of `out`: a lone number as a single, each longer unbroken run as first to last. No bitmaps.

   Answers 0 and writes to the first number of `told` how many bytes they take; what stands after them stays. Otherwise answers a refusal, and then nothing is
   written: 13 where `told` has room for none; then 75, 77, 76. It needs QM_ACKS_STACK bytes of stack. */
qm_u32 qm_acks_write(const qm_u64 *numbers, qm_size count, qm_byte *out, qm_size out_length, qm_u64 *told, qm_size told_length);

/* The tide gauge's packets: 4 bytes of length, a session of QM_SESSION bytes, 4 of sequence, a type, 'U' data, 'H' heartbeat or 'E' end of session, and of U
   message blocks, each a length of 2 bytes and the message. */
#define QM_SESSION 10

/* The places of the numbers that qm_moss_read writes. */
enum {
    QM_MOSS_SESSION,  /* where the session begins in the packet */
    QM_MOSS_SEQUENCE, /* the number of the first message */
    QM_MOSS_TYPE,     /* the type's letter */
    QM_MOSS_COUNT,    /* how many messages it carries */
    QM_MOSS           /* four */
};

/* Reads a packet. Answers 0 and writes the four numbers above to the start of `told`; what stands after them stays. Otherwise answers a refusal, and then nothing is
   written: 13 where `told` has room for fewer; then 50, 51, 52, 53. */
qm_u32 qm_moss_read(const qm_byte *packet, qm_size length, qm_u64 *told, qm_size told_length);

/* Where message n (from 0) of a packet begins, and its length. Answers 0 and writes the two to the start of `told`; what stands after them stays. Otherwise answers a
   refusal, and then nothing is written: 13 where `told` has room for fewer; then 50, 51, 52, 53, 54. */
qm_u32 qm_moss_message(const qm_byte *packet, qm_size length, qm_size n, qm_u64 *told, qm_size told_length);

/* Writes a packet with these message blocks, as they are to lie, to the start of `out`. The first QM_SESSION bytes of `session` are its session.

   Answers 0 and writes its length to the first number of `told`; what stands after it stays. Otherwise answers a refusal, and then nothing is written: 13 where
   `session` is shorter or `told` has room for none; then 51, 52, 53, 55. */
qm_u32 qm_moss_write(const qm_byte *session, qm_size session_length, qm_u32 sequence, qm_byte type, const qm_byte *blocks, qm_size blocks_length, qm_byte *out,
                     qm_size out_length, qm_u64 *told, qm_size told_length);

/* The words of a gauge: 1 once a session was heard, the number of its last message, and the session as a number of eight bytes and one of two. Words of zeros are
   a gauge that has heard nothing. */
#define QM_GAUGE 4

/* What the sequence watch says of a packet: as qm_watch_see, of one sender, where a new session is QM_WATCH_FIRST, and what is missing counts messages. It moves to
   the packet's last message unless it is QM_WATCH_SAME or QM_WATCH_LATE.

   Answers (what it says) * 2^32 + (the number beside it, or 0). Otherwise a refusal, which is below 2^32 as no other answer is: 13 where `gauge` has fewer than
   QM_GAUGE words; then 50, 51, 52, 53. Then, and where the watch does not move, nothing is written. What stands after the four words stays. QM_WATCH_KIND and
   QM_WATCH_NUMBER are the halves of the answer. */
qm_u64 qm_gauge_see(qm_u64 *gauge, qm_size gauge_length, const qm_byte *packet, qm_size length);

/* ---- hard to misuse: the same calls with memory of the right lengths

   What stands above takes every part of the lent memory with its length. A host in C is easier to get right with these: the lengths are those of this header, and
   `qm_lengths` tells whether the archive has the same. They add nothing to what the calls answer. */

/* A receiver: some 8.5 MB, so it stands in static memory or comes from malloc, never on a stack. qm_receiver_open makes it one. */
struct qm_receiver {
    qm_u64 state[QM_STATE];
    qm_u32 ledger[QM_LEDGER];
    qm_byte names[QM_NAMES];
    qm_byte store[QM_STORE];
};

/* What a receiver said of a datagram. */
struct qm_outcome {
    qm_u64 told[QM_TOLD];
    char name[QM_MAX_NAME + 1];   /* of a delivered message, with a zero byte behind it; else empty. No name has a zero byte of its own */
    const qm_byte *payload;       /* of a delivered message, until the receiver's next call; else null */
    qm_size length;               /* how many bytes it has */
};

/* A fresh receiver. Answers 0. */
static inline qm_u32 qm_receiver_open(struct qm_receiver *r) {
    return qm_open(r->state, QM_STATE, r->names, QM_NAMES, QM_STORE);
}

/* A sender began anew: right before its first new datagram is taken, so that this is no late copy of an old one. See qm_host_take. */
static inline qm_u32 qm_receiver_forget(struct qm_receiver *r, qm_u64 sender) {
    return qm_forget(r->state, QM_STATE, r->names, QM_NAMES, sender);
}

/* Takes a datagram, as qm_receive_within: `payload` and `fragments` are the log's, of qm_log_first, or QM_MAX_PAYLOAD and QM_MAX_FRAGMENTS. Answers 0 and what it
   said in `o`, or the refusal, and then `o` says nothing. */
static inline qm_u32 qm_receiver_take_within(struct qm_receiver *r, qm_size payload, qm_u32 fragments, qm_u64 sender, const qm_byte *datagram, qm_size length,
                                             struct qm_outcome *o) {
    qm_u32 i;
    for (i = 0; i < QM_TOLD; i++) o->told[i] = 0;
    for (i = 0; i <= QM_MAX_NAME; i++) o->name[i] = 0;
    o->payload = 0;
    o->length = 0;
    i = qm_receive_within(r->state, QM_STATE, r->names, QM_NAMES, r->store, QM_STORE, r->ledger, QM_LEDGER, payload, fragments, sender, datagram, length,
                          o->told, QM_TOLD, (qm_byte *) o->name, QM_MAX_NAME);
    if (i != 0 || o->told[QM_TOLD_ANSWER] != QM_ANSWER_DELIVERED) return i;
    o->payload = (o->told[QM_TOLD_WHERE] == QM_IN_STORE ? (const qm_byte *) r->store : datagram) + o->told[QM_TOLD_PAYLOAD_PLACE];
    o->length = o->told[QM_TOLD_PAYLOAD_LENGTH];
    return 0;
}

static inline qm_u32 qm_receiver_take(struct qm_receiver *r, qm_u64 sender, const qm_byte *datagram, qm_size length, struct qm_outcome *o) {
    return qm_receiver_take_within(r, QM_MAX_PAYLOAD, QM_MAX_FRAGMENTS, sender, datagram, length, o);
}

/* A receiver with a watch: what a van has. Zeros are a watch that has seen nobody; the receiver is opened by qm_receiver_open. */
struct qm_host {
    struct qm_receiver receiver;
    qm_u64 senders[QM_WATCH];
    qm_u32 lasts[QM_WATCH_SENDERS];
};

/* Takes a datagram, and forgets its sender first where the datagram shows that it began anew: its number lies behind the sender's last by more than 1,024. `seen`
   is what the watch says, as qm_watch_see answers; 0 where the datagram is refused for form. Of a sender past QM_WATCH_SENDERS it is 14, and that sender is
   taken without a watch. Answers as qm_receiver_take. */
static inline qm_u32 qm_host_take(struct qm_host *h, qm_u64 sender, const qm_byte *datagram, qm_size length, struct qm_outcome *o, qm_u64 *seen) {
    qm_u32 fields[QM_FIELDS];
    *seen = 0;
    if (qm_read_datagram(datagram, length, fields, QM_FIELDS) == 0) {
        *seen = qm_watch_see(h->senders, QM_WATCH, h->lasts, QM_WATCH_SENDERS, sender, fields[QM_FIELD_SEQUENCE]);
        if (QM_WATCH_KIND(*seen) == QM_WATCH_RESTARTED) qm_receiver_forget(&h->receiver, sender);
    }
    return qm_receiver_take(&h->receiver, sender, datagram, length, o);
}

/* Adds to an index of `rows` rows what was added to its log since this had `from` bytes: qm_index_on, with the most rows that qm_index gives. It answers and leaves
   what qm_index does of the whole log. */
static inline qm_u64 qm_extend(const qm_byte *log, qm_size length, qm_size from, qm_u64 *index, qm_size index_length, qm_size rows) {
    return qm_index_on(log, length, from, index, index_length, rows, QM_MAX_INDEX);
}

/* A season's map: three lists that the host lends, with how many words each has, and how many numbers stand in it, 0 at first. */
struct qm_map {
    qm_u64 *tiles, *pits, *sure;
    qm_size tiles_room, pits_room, sure_room;
    qm_size had_tiles, had_pits, had_sure;
};

/* Counts a log from `place` on, as qm_count_on, and keeps the map's sizes. `numbers` has QM_NUMBERS numbers, `told` QM_STRETCH. */
static inline qm_u32 qm_map_count(struct qm_map *m, struct qm_receiver *r, const qm_byte *log, qm_size length, qm_size place, qm_u64 most, qm_i64 *numbers,
                                  qm_u64 *told) {
    qm_u32 refusal = qm_count_on(log, length, place, most, r->state, QM_STATE, r->names, QM_NAMES, r->store, QM_STORE, r->ledger, QM_LEDGER, numbers, QM_NUMBERS,
                                 m->tiles, m->tiles_room, m->pits, m->pits_room, m->sure, m->sure_room, m->had_tiles, m->had_pits, m->had_sure, told, QM_STRETCH);
    if (refusal != 0) return refusal;
    m->had_tiles = told[QM_ON_TILES];
    m->had_pits = told[QM_ON_PITS];
    m->had_sure = told[QM_ON_SURE];
    return 0;
}

/* The tile lines of a map, as qm_count_lines: `tile`, `pit` and `certain` have as many words as the map has tiles. */
static inline qm_u32 qm_map_lines(const struct qm_map *m, qm_u64 *tile, qm_u64 *pit, qm_u64 *certain) {
    return qm_count_lines(tile, m->had_tiles, pit, m->had_tiles, certain, m->had_tiles, m->tiles, m->tiles_room, m->pits, m->pits_room, m->sure, m->sure_room,
                          m->had_tiles, m->had_pits, m->had_sure);
}

/* ---- the names that these numbers had before 1.0: they go with the next version */

#ifndef QM_NO_OLD_NAMES
#define QM_KIND QM_FIELD_KIND
#define QM_SEQUENCE QM_FIELD_SEQUENCE
#define QM_SIZE QM_FIELD_SIZE
#define QM_OFFSET QM_FIELD_OFFSET
#define QM_NUMBER QM_FIELD_NUMBER
#define QM_COUNT QM_FIELD_COUNT
#define QM_NAME_PLACE QM_FIELD_NAME_PLACE
#define QM_NAME_LENGTH QM_FIELD_NAME_LENGTH
#define QM_DATA_PLACE QM_FIELD_DATA_PLACE
#define QM_DATA_LENGTH QM_FIELD_DATA_LENGTH
#define QM_FIRST_PLACE QM_HEAD_FIRST_PLACE
#define QM_LOG_PAYLOAD QM_HEAD_PAYLOAD
#define QM_LOG_FRAGMENTS QM_HEAD_FRAGMENTS
#define QM_FOUND QM_ENTRY_FOUND
#define QM_SENDER QM_ENTRY_SENDER
#define QM_TICK QM_ENTRY_TICK
#define QM_NEXT_PLACE QM_ENTRY_NEXT_PLACE
#define QM_KNOWN QM_FIND_KNOWN
#define QM_PLACE QM_FIND_PLACE
#define QM_COVERED QM_FILE_COVERED
#define QM_ANSWER QM_TOLD_ANSWER
#define QM_WHERE QM_TOLD_WHERE
#define QM_PAYLOAD_PLACE QM_TOLD_PAYLOAD_PLACE
#define QM_PAYLOAD_LENGTH QM_TOLD_PAYLOAD_LENGTH
#define QM_EMPTIED QM_TOLD_EMPTIED
#define QM_EMPTIED_SENDER QM_TOLD_EMPTIED_SENDER
#define QM_EMPTIED_SEQUENCE QM_TOLD_EMPTIED_SEQUENCE
#define QM_OUTCOME QM_TOLD
#define QM_ENTRIES QM_REPORT_ENTRIES
#define QM_KEPT QM_REPORT_KEPT
#define QM_REPEATED QM_REPORT_REPEATED
#define QM_DELIVERED QM_REPORT_DELIVERED
#define QM_REFUSED QM_REPORT_REFUSED
#define QM_LISTS QM_REPORT_LISTS
#define QM_TILES QM_REPORT_TILES
#define QM_TILE QM_REPORT_TILE
#define QM_PITS QM_REPORT_PITS
#define QM_SURE QM_REPORT_SURE
#endif

#ifdef __cplusplus
}
#endif

#endif
