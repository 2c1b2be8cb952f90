/* CRC-32 by a table (ISO 3309); the check value of "123456789" is cbf43926.
   prints: crc 3421780262
   prints: empty 0
   prints: a 3904355907 */
#include "report.h"

static unsigned table[256];

static void fill(void)
{
    for (unsigned i = 0; i < 256; i++) {
        unsigned c = i;
        for (int k = 0; k < 8; k++)
            c = c & 1 ? c >> 1 ^ 0xedb88320u : c >> 1;
        table[i] = c;
    }
}

KEEP unsigned crc_of(const char *text)
{
    unsigned c = ~0u;
    while (*text)
        c = table[(c ^ (unsigned char)*text++) & 255] ^ c >> 8;
    return ~c;
}

int run(void)
{
    fill();
    report("crc", crc_of("123456789"));
    report("empty", crc_of(""));
    report("a", crc_of("a"));
    return 0;
}
