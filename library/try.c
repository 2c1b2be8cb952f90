/* Calls the library on one input and checks what every call must keep, and writes what the program would give.

       try convert INPUT OUTPUT TEXT WORD..     try list INPUT OUTPUT TEXT

   It ends with the status of the call; OUTPUT and TEXT get what it gave. It calls with both rooms empty, with each
   room one byte too short, and with rooms of exactly the sizes; with TRY_ROOMS=N also with every room from 0 to the
   size, where that is at most N, and with the last word's NUL left out. Behind what is laid into a room its bytes must
   stay; the rooms are blocks of malloc, so that valgrind and the sanitizers see the byte beside them.

   With TRY_REFUSE=1 each allocation is refused in turn, alone and with all later ones: such a call answers 7, and
   its text, or the same as without; and nothing is left in the heap. It is linked with -Wl,--wrap=malloc,--wrap=realloc,
   --wrap=free. What is wrong is told, and the status is 100 then. */
#include <stdio.h>
#include <stdlib.h>
#include <string.h>

#include "objconv.h"

void *__real_malloc(size_t size);
void *__real_realloc(void *old, size_t size);
void __real_free(void *block);

static unsigned long asked, first, last;
static long held;

/* whether this allocation is refused */
static int refused(void)
{
    asked++;
    return first != 0 && asked >= first && asked <= last;
}

void *__wrap_malloc(size_t size)
{
    void *block = refused() ? NULL : __real_malloc(size);

    held += block != NULL;
    return block;
}

void *__wrap_realloc(void *old, size_t size)
{
    void *block = refused() ? NULL : __real_realloc(old, size);

    held += block != NULL && old == NULL;
    return block;
}

void __wrap_free(void *block)
{
    held -= block != NULL;
    __real_free(block);
}

struct bytes {
    unsigned char *at;
    size_t size;
};

/* what a call gave */
struct said {
    int status;
    size_t output_size, text_size;
    unsigned char *output;
    char *text;
};

static void fail(const char *what)
{
    fprintf(stderr, "try: %s\n", what);
    exit(100);
}

static void *block(size_t size)
{
    void *at = __real_malloc(size + (size == 0));

    if (at == NULL)
        fail("no memory of its own");
    return at;
}

static struct bytes read_all(const char *name)
{
    FILE *file = fopen(name, "rb");
    struct bytes bytes = {block(0), 0};
    size_t room = 0, got;

    if (file == NULL)
        fail("no input");
    do {
        if (bytes.size == room) {
            room = 2 * room + 4096;
            bytes.at = __real_realloc(bytes.at, room);
        }
        got = fread(bytes.at + bytes.size, 1, room - bytes.size, file);
        bytes.size += got;
    } while (got > 0);
    fclose(file);
    /* exactly as long, so that a byte behind it is outside */
    bytes.at = __real_realloc(bytes.at, bytes.size + (bytes.size == 0));
    return bytes;
}

static void write_all(const char *name, const void *at, size_t size)
{
    FILE *file = fopen(name, "wb");

    if (file == NULL || fwrite(at, 1, size, file) != size || fclose(file) != 0)
        fail("an output was not written");
}

static int lists;
static struct bytes input, words;

/* One call with these rooms. Both rooms are filled with a byte, and what of them is not laid must be that byte. */
static struct said call(size_t room, size_t text_room)
{
    struct said said = {0, (size_t)-1, (size_t)-1, block(room), block(text_room)};
    size_t i;

    memset(said.output, 0xA5, room);
    memset(said.text, 0x5A, text_room);
    if (lists)
        said.status = objconv_list(input.at, input.size, (char *)said.output, room, &said.output_size,
                                   said.text, text_room, &said.text_size);
    else
        said.status = objconv_convert(input.at, input.size, (const char *)words.at, words.size,
                                      said.output, room, &said.output_size, said.text, text_room, &said.text_size);
    for (i = said.status == OBJCONV_ROOM ? 0 : said.output_size; i < room; i++)
        if (said.output[i] != 0xA5)
            fail("the output's room was changed behind it");
    for (i = said.status == OBJCONV_ROOM ? 0 : said.text_size; i < text_room; i++)
        if (said.text[i] != 0x5A)
            fail("the text's room was changed behind it");
    if ((said.status == OBJCONV_ROOM) != (said.output_size > room || said.text_size > text_room))
        fail("the status of small rooms is not that of small rooms");
    if (said.status != OBJCONV_ROOM && (said.status == OBJCONV_DONE ? said.text_size : said.output_size) != 0)
        fail("an output beside a text");
    return said;
}

static void drop(struct said said)
{
    __real_free(said.output);
    __real_free(said.text);
}

static int same(struct said a, struct said b)
{
    return a.status == b.status && a.output_size == b.output_size && a.text_size == b.text_size
        && memcmp(a.output, b.output, a.output_size) == 0 && memcmp(a.text, b.text, a.text_size) == 0;
}

/* a call with these rooms says the same, or that one is too small */
static void check_rooms(struct said want, size_t room, size_t text_room)
{
    struct said got = call(room, text_room);

    if (got.output_size != want.output_size || got.text_size != want.text_size)
        fail("the sizes change with the rooms");
    if (got.status != OBJCONV_ROOM && !same(got, want))
        fail("the answer changes with the rooms");
    drop(got);
}

static void try_rooms(struct said want, size_t most)
{
    size_t i;

    check_rooms(want, 0, 0);
    check_rooms(want, want.output_size, want.text_size);
    check_rooms(want, want.output_size + 7, want.text_size + 7);
    if (want.output_size > 0)
        check_rooms(want, want.output_size - 1, want.text_size);
    if (want.text_size > 0)
        check_rooms(want, want.output_size, want.text_size - 1);
    for (i = 0; want.output_size <= most && i < want.output_size; i++)
        check_rooms(want, i, want.text_size);
    for (i = 0; want.text_size <= most && i < want.text_size; i++)
        check_rooms(want, want.output_size, i);
}

/* with allocations from `from` to `to` refused: 7, or the same */
static void check_refused(struct said want, unsigned long from, unsigned long to)
{
    static const char memory[] = "out of memory";
    struct said got;
    long before = held;

    asked = 0, first = from, last = to;
    got = call(want.output_size + 16, want.text_size + 16);
    first = 0;
    if (held != before)
        fail("something is left in the heap");
    if (got.status == OBJCONV_MEMORY) {
        if (got.output_size != 0 || got.text_size != sizeof memory - 1 || memcmp(got.text, memory, sizeof memory - 1) != 0)
            fail("the text of 7");
    } else if (!same(got, want)) {
        fail("another answer where memory ran out");
    }
    drop(got);
}

static unsigned long try_refused(struct said want)
{
    unsigned long all, i;

    asked = 0;
    drop(call(want.output_size + 16, want.text_size + 16));
    all = asked;
    for (i = 1; i <= all; i++) {
        check_refused(want, i, i);
        check_refused(want, i, (unsigned long)-1);
    }
    return all;
}

int main(int count, char **args)
{
    const char *rooms = getenv("TRY_ROOMS"), *refuse = getenv("TRY_REFUSE");
    struct said sizes, want;
    int i;

    if (count < 5)
        fail("words: convert|list INPUT OUTPUT TEXT WORD..");
    lists = strcmp(args[1], "list") == 0;
    input = read_all(args[2]);
    for (i = 5; i < count; i++)
        words.size += strlen(args[i]) + 1;
    words.at = block(words.size);
    words.size = 0;
    for (i = 5; i < count; i++) {
        memcpy(words.at + words.size, args[i], strlen(args[i]) + 1);
        words.size += strlen(args[i]) + 1;
    }
    if (objconv_version() != OBJCONV_VERSION)
        fail("the version");
    sizes = call(0, 0);
    want = call(sizes.output_size, sizes.text_size);
    if (want.status == OBJCONV_ROOM || want.output_size != sizes.output_size || want.text_size != sizes.text_size)
        fail("rooms of the sizes are too small");
    if (want.status != OBJCONV_DONE && want.text_size > OBJCONV_TEXT)
        fail("a text is longer than OBJCONV_TEXT");
    if (held != 0)
        fail("something is left in the heap");
    try_rooms(want, rooms == NULL ? 0 : strtoul(rooms, NULL, 10));
    if (words.size > 1 && words.at[words.size - 2] != 0) {
        words.size--;
        check_rooms(want, want.output_size, want.text_size);
        words.size++;
    }
    if (refuse != NULL)
        printf("%lu allocations\n", try_refused(want));
    write_all(args[3], want.output, want.output_size);
    write_all(args[4], want.text, want.text_size);
    drop(sizes);
    drop(want);
    __real_free(input.at);
    __real_free(words.at);
    return want.status;
}
