/* How qm is called: its commands, what --help says, and the numbers among its words. */

#include "qm.h"

const struct command commands[COMMANDS] = {
    [LIST] = {"list", "[--told] LOG", "a line an entry: its sender, its arrival tick and its datagram's length",
              "Prints `1 sender 7 tick 99 length 23` for each entry, then `end N`; or `refused R after N`, the N entries before it being printed.\n"
              "  --told  behind these all that is told of the entry: what a receiver with slots of the largest payload answers, as `qm replay`; where it is a datagram\n"
              "          ` small` or ` fragment 3 of 17` and ` sequence 500`, with what the sequence watch notes, as `qm gaps`, or ` unwatched` of a 17th sender; and the key\n"
              "          that was given up: `2 sender 7 tick 99 length 738 kept fragment 3 of 17 sequence 500 forward 0 emptied 7 490`\n", ANY},
    [REPLAY] = {"replay", "[--store BYTES] LOG", "a line an entry: what a fresh receiver answers to its datagram",
                "Prints `1 kept`, `2 repeat`, `3 delivered 1845` or `4 refused 8` for each entry, with ` emptied SENDER SEQUENCE` where a message was given up for\n"
                "another, then `end N` or `refused R after N`. The log's limits bind. The receiver has eight slots of the largest payload that there is, as that of `qm count`.\n"
                "  --store BYTES  slots of an eighth of so many bytes, 8,388,608 at most: with 2,097,152 the lines are those of the program replay_log\n", ANY},
    [GAPS] = {"gaps", "[--missing | --acks SENDER] LOG", "a line an entry: what the sequence watch notes of its sender's number; or the numbers that never came",
              "Prints `1 first`, `2 forward 3` (so many numbers are missing before it), `3 same`, `4 late 2`, `5 restarted 7` or `6 refused 4` for each entry,\n"
              "then `end N` or `refused R after N`. The watch has room for 16 senders; those of a 17th are `refused 14`.\n"
              "  --missing      in place of these `sender 7 missing 508` or `sender 7 missing 510 to 512` for each sender, rising from its first number, less what came\n"
              "                 late, and `sender 7 restarted 0` where it began anew; then `end N`, N senders\n"
              "  --acks SENDER  in place of these the numbers of that sender that came, rising, as a record that the program ack_bytes reads, raw\n", ANY},
    [COUNT] = {"count", "[--whole] [--senders] [--from SENDER].. [--forget-at SENDER:ENTRY].. LOG..",
               "entries by their answers, and for each tile its pits and how many of them are sure, of one flight or of a season",
               "Each log is a flight, of any length, through a fresh receiver; all flights make one map, whatever their order, and a flight that is given twice adds no\n"
               "pit. Prints `entries E`, `kept K`, `repeated R`, `delivered D`, `refused N C` for each number that occurred and `lists L`, over all logs, then\n"
               "`tile 9 pits 14 sure 11` for each tile, rising; or the one line `refused 60` or `refused 61` where there are more than 65,536 tiles or pits.\n"
               "A log that is not whole counts up to the entry that is refused, and standard error says so.\n"
               "  --whole        where a log is not whole, only the line `refused R` of the first such log\n"
               "  --senders      after `lists` a line `sender 7 lists 12` for each sender that brought one, rising\n"
               "  --from SENDER  counts the entries of this sender alone, or of these, where it stands more than once: a stranger's list makes no pit\n"
               "  --forget-at SENDER:ENTRY\n"
               "                 of one log: the sender is forgotten right before that entry, the first being 1, since it began anew there\n"
               "Where a camera began anew under old numbers, its tiles are taken for late copies: standard error says how many, and `qm strays` lists them.\n", ANY},
    [PITS] = {"pits", "[--marks | --csv | --geojson] [--from SENDER].. LOG..",
              "a line a pit, of one flight or of a season: where it lies, how deep it is, and who said so last",
              "The pits are those that `qm count` counts. Prints `tile 9 pit 4 sure 1 marks 3 lat 1 lon -2 height 3 depth 45 sender 7 sequence 500 tick 99 log LOG` for each,\n"
              "by rising tile, then pit. It is sure (1) where any of its marks says so; the rest is of its last mark, in the order of logs and deliveries: its place, where it\n"
              "has one; its depth, where the list has depths; sender and sequence of the list, and the tick of the entry that completed it. Latitude and longitude are\n"
              "ten-millionths of a degree, the height is in metres, the depth in centimetres.\n"
              "A log that is not whole is read up to the entry that is refused, and standard error says so. Where there are more than 65,536 tiles or pits, the one line is\n"
              "`refused 60` or `refused 61`, in every form.\n"
              "  --marks        a line for each mark of each list, in the order of logs and deliveries, without `marks`\n"
              "  --csv          comma-separated values, for a spreadsheet: a line of heads, then a line a pit, empty where a line would leave something out\n"
              "  --geojson      a FeatureCollection for a map program, a point for each pit that has a place, in degrees\n"
              "  --from SENDER  the entries of this sender alone, or of these, where it stands more than once\n", ANY},
    [STRAYS] = {"strays", "LOG..", "repeats that are no copies: what a camera sent after it began anew under old numbers, and nobody counted",
                "Prints `log LOG sender 7 entry 120 tick 99 sequence 500` for each entry that a fresh receiver answers Repeat, though no earlier entry of that sender in\n"
                "that log has its bytes; then `end N`, over all logs. A log that is not whole is looked through up to the entry that is refused.\n"
                "`qm count --forget-at 7:120 LOG` counts such a flight with the sender forgotten right before that entry.\n", ANY},
    [INDEX] = {"index", "[--print | --check] LOG", "keeps beside a log which entries have which key, in LOG.index, so that `qm find` need not read the log",
               "Writes LOG.index, or extends it by what was added to the log since, reading nothing else of it. Prints `indexed N` once it has N rows, one for each entry that\n"
               "the datagram reader accepts within the log's limits. A log that is not whole is indexed up to the entry that is refused (status 3). A LOG.index that is none, or\n"
               "not of this log, is told, and written anew.\n"
               "  --print  writes nothing, and prints `sender 7 sequence 12 place 1` for each row, sorted by sender, sequence and place, then `end N`. The place is that of the\n"
               "           entry's first byte\n"
               "  --check  writes nothing, works out afresh what LOG.index covers, and prints `same N`, or `other` (status 3)\n", ANY},
    [FIND] = {"find", "LOG SENDER SEQUENCE", "where the first entry of a key begins",
              "Prints `place 1` or `none`. Where there is a LOG.index it goes by that, and by what was added to the log since; else it works the index out. An index that is none,\n"
              "or that leads to an entry of another key, is told and not believed; `qm index --check` decides. SENDER is a number of 64 bits and SEQUENCE one of 32, in decimal.\n", 3},
    [SHOW] = {"show", "LOG PLACE", "the entry that begins at a place, and what its datagram says",
              "Prints `sender 7 tick 99 length 738`, then `small sequence 500 name TILE payload 12`, `fragment 3 of 17 sequence 500 offset 900 data 300 payload 5000`, with\n"
              "` name TILE` behind fragment 0, or `refused 7`, as the datagram reader says within the log's limits. PLACE is one that `qm find` or `qm index` prints. Of a\n"
              "name bytes outside 32 to 126 are `\\x` and two hexadecimal digits, and a backslash is two.\n", 2},
    [TAKE] = {"take", "[--name] LOG SENDER SEQUENCE > FILE | qm take --all DIR LOG", "the payload of a message, raw; or every payload that a replay delivers, a file each",
              "Prints the payload of the first message of that key that a replay of the log delivers, over slots of the largest payload. Where the replay delivers none, since\n"
              "other messages took its slot, the key's entries alone are put together, and standard error says so. Where they do not complete it nothing is printed, and standard\n"
              "error says which fragments are missing (status 3).\n"
              "  --name     in place of the payload the name of its channel, as `qm show` prints it\n"
              "  --all DIR  each delivered payload as the file DIR/SENDER-SEQUENCE, and where a key is delivered again DIR/SENDER-SEQUENCE-2 and so on; a line for each,\n"
              "             `sender 7 sequence 500 tick 99 payload 1845 file 7-500 name TILE`, then `end N`. DIR is made where it is not there; no file is written over.\n", ANY},
    [CUT] = {"cut", "[--from-tick A] [--to-tick B] [--from-entry N] [--to-entry M] [--sender S].. [--replace] -o OUT LOG", "a log of some entries of a log",
             "Writes OUT, a log with the head of LOG and those of its entries that each of the options lets through, as they are: ticks from A to B, the entries N to M, the\n"
             "first being 1, of the sender S, or of these, where it stands more than once. Prints `entries N` once OUT has them. OUT is OUT.part until it is whole; a file that\n"
             "is there is left alone, unless --replace says otherwise. Of a log that is not whole the entries before the refused one are taken (status 3).\n", ANY},
    [JOIN] = {"join", "[--replace] -o OUT LOG..", "one log of all entries of some logs, one after the other",
              "Writes OUT, with the largest payload limit of the logs. Where some are of edition 1 and others not, OUT is of edition 2, and standard error names them, since its\n"
              "limits are wider than theirs. Prints `entries N` once OUT has them. One log is one flight: what two flights sent under one key is there taken for copies, so\n"
              "`qm count LOG..` counts them without joining them. OUT and logs that are not whole as in `qm cut`.\n", ANY},
    [KEEP] = {"keep", "[--sync] [--quiet] [--repair] [--new] [--every 3600s|500MB] [--index] LOG < RECORDS", "appends records to a log as they come, and says of each when it is kept",
              "A record is an 8-byte sender, an 8-byte tick and a 2-byte length, big-endian, and the datagram. Once its entry was written to the file, the line\n"
              "`kept N` says that the log has N entries now: they stay when qm is killed at any moment. A log that is not there is begun, of edition 2 with the\n"
              "limit 1,048,576. One that ends inside an entry, since its writing was cut off, goes on after its last whole entry; the bytes of the cut one go into\n"
              "a file LOG.cut-1, -2 and so on, and standard error says so. Only one qm keep writes to a log at a time. SIGINT and SIGTERM end it after the record in\n"
              "hand; where nobody takes its lines any more it keeps on without them, and its status is 1.\n"
              "  --sync    asks the disk before each line, `kept N synced`: then they stay when the machine stops too\n"
              "  --quiet   no line for each record\n"
              "  --repair  also a log that is refused otherwise, that has more bytes behind its last whole entry than one entry can have, or that may never have been\n"
              "            a log, goes on: what is refused goes into LOG.cut-1. Without it such a file stays as it is\n"
              "  --new     begins a log under the next number: of FLIGHT.log FLIGHT-0001.log, FLIGHT-0002.log and so on. The line `log FLIGHT-0002.log` says which\n"
              "  --every 3600s, --every 500MB\n"
              "            goes on in the last of these, or the first, and begins the next one at the first record after so many seconds, or before it has more\n"
              "            than so many million bytes\n"
              "  --index   at its end does what `qm index` does, for each log that it has kept to: `indexed N`\n", ANY},
    [CHECK] = {"check", "LOG", "is a log whole, who is in it, on which channels, and what was refused",
               "Prints `whole`, or `refused R after N`; then of the N entries: `entries N`, `bytes B` of their datagrams, `limit L`, the largest payload that the log takes,\n"
               "`first T last U`, the ticks of its first and its last entry; `sender 7 datagrams 12 bytes 9000 first T last U` for each sender, rising; for each channel, by\n"
               "its name, `channel messages 12 bytes 8000 first T last U rate 1.250 name TILE`: the messages that a fresh receiver delivers, and how many of them come\n"
               "in 1,000 ticks, a second where ticks are milliseconds (0 where fragments came and no message was completed); and `refused 7 datagrams 3, MEANING` for each\n"
               "number by which the receiver has refused datagrams.\n", 1},
    [IMPORT] = {"import", "[--port N] [--replace] -o LOG CAPTURE", "a log of the datagrams that tcpdump has captured",
                "CAPTURE is a file of tcpdump, Wireshark or dumpcap, pcap or pcapng: Ethernet, Linux cooked (the interface `any`) or bare IP, IPv4 and IPv6. Each UDP datagram to\n"
                "the port, 7667 where --port says no other, is an entry of LOG; its tick is the time of its capture, in milliseconds since 1970. Pieces of IP datagrams are put\n"
                "together; the entry is that of the last piece. Its sender is a number made of address and port. Prints `packets P`, `imported N`, `other O` that are none such,\n"
                "`pieces Q` that found no whole, `cut C` that were captured in part, `broken B` whose lengths do not fit, and for each sender\n"
                "`sender 3232235527500 datagrams 12 bytes 9000 first T last U port 7667 address 10.0.0.7`. LOG is LOG.part until it is whole; a file that is there is left alone,\n"
                "unless --replace says otherwise. A capture that was cut off is imported up to there (status 3).\n", ANY},
    [SUMS] = {"sums", "LOG..", "what a page shows of a flight or of a season, added up: flight-page draws it",
              "Prints for each log `log LOG`, `end N` or `refused R after N`, `first T last U`, the ticks of its first and its last entry; `senders S`, and of the first 100,\n"
              "rising, `sender 7 datagrams 12 delivered 3 kept 8 repeated 1 refused 0`; of each sender of which the sequence watch has something to say\n"
              "`watch sender 7 passed 3 late 1 restarts 0`, the numbers passed over, what came late and how often it began anew, and `unwatched` where a 17th sender came;\n"
              "`steps N` of its clock that are drawn short, and of the first five `step on 31536000000 entry 151 tick 99` or `step back ..`; of each of the 16 busiest\n"
              "senders `lane sender 7 datagrams 12`, of all others together `lane others 5 datagrams 30`, each followed by its bars,\n"
              "`bar 17 delivered 3 kept 8 repeated 1 refused 0 passed 3 late 1 restarts 0`, of 120 from 0; `incomplete N given-up M`, the messages that never completed and\n"
              "those of them that were given up for another, and of the first 100 `incomplete sender 7 sequence 500 kept 3 of 9 first T last U missing 1, 3 to 5, 8`;\n"
              "`strays N`, the senders of repeats that are no copies, and of the first 16 `stray sender 7 times 12 entry 120`; `refused 7 datagrams 3` for each number.\n"
              "Then `season` and the lines of `qm count LOG..`, or `refused 61`; the lines of `qm pits LOG..`, and behind a pit whose marks may lie over 50 metres apart\n"
              "`corners LAT LON ..`, the outermost, and of its first 20 marks `mark sure 0 lat 1 lon -2 sender 7 tick 99 log LOG`; at last `brought N`, the senders of lists, and\n"
              "of the first 100 `brought sender 7 lists 12 pits 30 sure 20 alone 4`, the pits that it marked, those that are sure, and those that nobody else marked.\n", ANY},
};

static const char statuses[] = "Status: 0 done, 1 a file or the output failed, 2 called otherwise, 3 the log is refused.\n";

int usage(FILE *to, int status) {
    fprintf(to, "usage: qm COMMAND LOG\n");
    for (unsigned i = 0; i < COMMANDS; i++) fprintf(to, "  qm %s %s\n      %s\n", commands[i].name, commands[i].takes, commands[i].does);
    fprintf(to, "`qm COMMAND --help` says more; qm --version. %s", statuses);
    return status;
}

int version(void) {
    printf("qm " QM_VERSION_TEXT "\n");
    return printed("--version");
}

int command_usage(FILE *to, unsigned i, int status) {
    fprintf(to, "usage: qm %s %s\n", commands[i].name, commands[i].takes);
    if (status == DONE) fprintf(to, "%s%s", commands[i].says, statuses);
    return status;
}

int is_number(const char *text, qm_u64 most, qm_u64 *number) {
    qm_u64 n = 0;
    if (!*text) return 0;
    for (; *text; text++) {
        qm_u64 digit = (qm_u64) (*text - '0');
        if (digit > 9 || n > (most - digit) / 10) return 0;
        n = 10 * n + digit;
    }
    *number = n;
    return 1;
}
