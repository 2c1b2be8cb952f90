/* Converts a buffer that it holds: an ELF object for i386, to COFF. Nothing is read and no file is written.

       cc example.c $(pkg-config --cflags --libs objconv)

   It prints the sizes, and what a wrong word and a wrong target are told. */
#include <stdio.h>
#include <stdlib.h>

#include "objconv.h"

/* what `as --32` makes of `.globl f; f: ret` is longer; this is the least object: a header, and a section that is
   there for its name alone (gABI, "ELF Header", "Section Header") */
static const unsigned char object[] = {
    0x7F, 'E', 'L', 'F', 1, 1, 1, 0, 0, 0, 0, 0, 0, 0, 0, 0, /* ELFCLASS32, ELFDATA2LSB, EV_CURRENT */
    1, 0, 3, 0, 1, 0, 0, 0, 0, 0, 0, 0, 0, 0, 0, 0,          /* ET_REL, EM_386; no entry, no program header */
    68, 0, 0, 0, 0, 0, 0, 0, 52, 0, 0, 0, 0, 0, 40, 0,      /* section headers at 68, each of 40 bytes */
    3, 0, 2, 0,                                              /* 3 of them; number 2 has the names */
    0x31, 0xC0, 0xC3, 0,                                     /* 52: xor eax, eax; ret */
    0, '.', 't', 'e', 'x', 't', 0, '.', 'n', 0, 0, 0,        /* 56: the names */
    /* 68: number 0 */
    0, 0, 0, 0, 0, 0, 0, 0, 0, 0, 0, 0, 0, 0, 0, 0, 0, 0, 0, 0, 0, 0, 0, 0, 0, 0, 0, 0, 0, 0, 0, 0, 0, 0, 0, 0, 0, 0, 0, 0,
    /* 108: number 1, .text: SHT_PROGBITS, SHF_ALLOC and SHF_EXECINSTR, 3 bytes at 52, alignment 1 */
    1, 0, 0, 0, 1, 0, 0, 0, 6, 0, 0, 0, 0, 0, 0, 0, 52, 0, 0, 0, 3, 0, 0, 0, 0, 0, 0, 0, 0, 0, 0, 0, 1, 0, 0, 0, 0, 0, 0, 0,
    /* 148: number 2, .n: SHT_STRTAB, 10 bytes at 56 */
    7, 0, 0, 0, 3, 0, 0, 0, 0, 0, 0, 0, 0, 0, 0, 0, 56, 0, 0, 0, 10, 0, 0, 0, 0, 0, 0, 0, 0, 0, 0, 0, 1, 0, 0, 0, 0, 0, 0, 0,
};

/* converts the object, into memory of its own: asks for the size first; the caller frees it */
static unsigned char *converted(const char *words, size_t words_size, size_t *size)
{
    char text[OBJCONV_TEXT], nothing[1];
    size_t text_size;
    unsigned char *output = NULL;
    int status = objconv_convert(object, sizeof object, words, words_size, nothing, 0, size, text, sizeof text, &text_size);

    if (status == OBJCONV_ROOM) {
        output = malloc(*size);
        if (output == NULL)
            return NULL;
        status = objconv_convert(object, sizeof object, words, words_size, output, *size, size, text, sizeof text, &text_size);
    }
    if (status == OBJCONV_DONE)
        return output;
    printf("%d: %.*s\n", status, (int)text_size, text);
    free(output);
    return NULL;
}

int main(void)
{
    /* each word ends with a NUL; the last one with that of the literal */
    static const char words[] = "-fcoff32\0-nu", wrong[] = "-fcoff32\0-u", target[] = "-fcoff64";
    size_t size;
    unsigned char *coff = converted(words, sizeof words, &size);

    if (coff == NULL)
        return 1;
    printf("%zu bytes for machine %02X%02X\n", size, coff[1], coff[0]);
    free(coff);
    free(converted(wrong, sizeof wrong, &size));
    free(converted(target, sizeof target, &size));
    return objconv_version() != OBJCONV_VERSION;
}
