/* Structures with fields of bits, unions, and addresses of members.
   prints: bits 2741
   prints: member 77
   prints: bytes 4660 */
#include "report.h"

struct packed { unsigned a : 3, b : 5, c : 4; };
union both { unsigned whole; unsigned char bytes[4]; };
struct outer { char c; struct { short s; int member; } inner; };
struct outer things[3] = {{1, {2, 3}}, {4, {5, 77}}, {6, {7, 8}}};
int *const member = &things[1].inner.member;
static union both word = {0x1234};

KEEP unsigned pack(struct packed p) { return p.a | p.b << 3 | p.c << 8; }

int run(void)
{
    struct packed p = {5, 22, 10};
    report("bits", pack(p));
    report("member", *member);
    report("bytes", word.bytes[0] | word.bytes[1] << 8);
    return 0;
}
