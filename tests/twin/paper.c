/* Cases that the paper gives in so many words: input and output are written here by hand from it. The twin itself is held to
   them as the programs are. */

#include "twin.h"

#define A "4c433033 00000007 00000003 00000000 0000 0002 50 00 41;"
#define B "4c433033 00000007 00000003 00000001 0001 0002 42 43;"
/* fragment 1 of 2 with another sequence number */
#define OF(sequence) "4c433033 " sequence " 00000003 00000001 0001 0002 42 43;"
#define PING "01 5049545355525600 00000001 0001"

const struct paper_case paper_cases[] = {
    {"replay", B A B, "1 kept\n2 delivered 3\n3 repeat\nend 3\n"},
    {"replay", "", "end 0\n"},
    {"replay", "4c433032 00000007 50 00 41;", "1 delivered 1\nend 1\n"},
    {"replay", "4c433032 000000; 4c433032 00000007 50 41;", "1 refused 1\n2 refused 4\nend 2\n"},
    {"replay", B A, "1 kept\n2 delivered 3\nend 2\n"},
    {"replay", B B A B, "1 kept\n2 repeat\n3 delivered 3\n4 repeat\nend 4\n"},
    {"replay", "4c433033 00000007 00000003 00000000 0001 0002 42 43;", "1 refused 7\nend 1\n"},
    {"replay", A "4c433033 00000007 00000004 00000002 0001 0002 42 43;", "1 kept\n2 refused 8\nend 2\n"},
    {"replay",
     B OF("00000008") OF("00000009") OF("0000000a") OF("0000000b") OF("0000000c") OF("0000000d") OF("0000000e") OF("0000000f"),
     "1 kept\n2 kept\n3 kept\n4 kept\n5 kept\n6 kept\n7 kept\n8 kept\n9 kept emptied 0 7\nend 9\n"},
    /* a late copy after the last 32 deliveries of its sender is covered by the streams; here a refused datagram empties no slot */
    {"replay",
     B OF("00000008") OF("00000009") OF("0000000a") OF("0000000b") OF("0000000c") OF("0000000d") OF("0000000e")
         "4c433033 0000000f 00000003 00000000 0001 0002 42 43;" A,
     "1 kept\n2 kept\n3 kept\n4 kept\n5 kept\n6 kept\n7 kept\n8 kept\n9 refused 7\n10 delivered 3\nend 10\n"},
    /* offset and length summed in 32 bits would pass */
    {"replay", "4c433033 00000007 00000003 fffffffe 0001 0003 42 43;", "1 refused 7\nend 1\n"},
    {"gaps", "4c433032 ffffffff 50 00; 4c433032 00000001 50 00;", "1 first\n2 forward 1\nend 2\n"},
    {"gaps", "4c433032 00000000 50 00; 4c433032 80000000 50 00;", "1 first\n2 restarted 2147483648\nend 2\n"},
    {"gaps", A B, "1 first\n2 same\nend 2\n"},
    {"lmcp_list", "4c4d4350 0000000f " PING " 0000037b;", "1 list 1 1\nend 1\n"},
    {"lmcp_list", "4c4d4350 0000000f " PING " 0000037c; 4c4d4350 0000000f " PING " 00000000;", "1 refused 22\n2 list 1 1\nend 2\n"},
    {"lmcp_list", "4c4d4350 00000001 00 0000012d;", "1 refused 23\nend 1\n"},
    {"lmcp_list", "", "end 0\n"},
    {"lmcp_bytes", "01 0000000000000001 0000000000000001; 00 0000000000000001 0000000000000001;",
     "1 bytes 4c4d43500000000f015049545355525600000000010001" "0000037b\n"
     "2 bytes 4c4d43500000000f015049545355525600000000010001" "00000000\nend 2\n"},
    {"lmcp_bytes", "01; 01 0000000000000001 0000000000000000; 01 0000000000000003;", "1 refused 25\n2 refused 23\n3 refused 29\nend 3\n"},
    {0, 0, 0},
};

static int digit(char c) { return c >= '0' && c <= '9' ? c - '0' : c >= 'a' && c <= 'f' ? c - 'a' + 10 : -1; }

const char *paper_item(const char *at, u8 *bytes, u64 *length) {
    u64 digits = 0;
    for (; *at != 0 && *at != ';'; at++) {
        if (digit(*at) < 0) continue;
        if (digits % 2 == 0) bytes[digits / 2] = 0;
        bytes[digits / 2] = (u8) (bytes[digits / 2] * 16 + digit(*at));
        digits++;
    }
    *length = digits / 2;
    return *at == ';' ? at + 1 : 0;
}
