/* objconv.h: conversions of x86 object files in memory. Link with -lobjconv. See objconv(3) and docs/EMBEDDING.md.

   Each call reads its input, writes into rooms of the caller, and answers a status. No call opens a file, prints,
   keeps anything between calls, or shares anything with another call: several threads may call at once.

   A call has something to say: a status, an output and a text. Where both have room, they are laid into the start
   of their rooms, and what is behind them stays; the status is answered. Where one has no room, both rooms stay, and
   the answer is OBJCONV_ROOM. *output_size and *text_size are set in any case, to what output and text have. So a
   caller may ask with small rooms first, and then with enough of both, which converts twice; or guess.

   What the caller keeps to:
   - No pointer is NULL, also where its size is 0.
   - input, words and the rooms are as long as their sizes say; rooms and sizes do not overlap each other or the input
     or the words, and nobody else writes or reads them during the call.
   - No call is made in a signal handler, or in a child of fork() in a program with threads, before exec().

   Limits: an input of 67,108,864 bytes, and as many of words. A call takes the time and memory of a run of the
   command, which docs/SAFETY.md has for the worst files known: some 10 seconds and 1.5 GiB, and no stack of note
   (docs/EMBEDDING.md). Memory comes from malloc() and realloc(), and all of it is given back by free(). */
#ifndef OBJCONV_H
#define OBJCONV_H

#include <stddef.h>

#ifdef __cplusplus
extern "C" {
#endif

/* The version of this header: 10,000 times the first number, 100 times the second, and the third. */
#define OBJCONV_VERSION 10000

/* The statuses: those of the command objconv, but for 4, 5 and 6 (no file and no stream fails here), and one more. */
enum objconv_status {
    OBJCONV_DONE = 0,      /* the output is there; there is no text */
    OBJCONV_MALFORMED = 1, /* the input is malformed; of this status and all others but the last: no output, a text */
    OBJCONV_REFUSED = 2,   /* the input, or what is asked of it, is refused */
    OBJCONV_WORDS = 3,     /* a word is at fault */
    OBJCONV_MEMORY = 7,    /* memory ran out; the text is "out of memory" */
    OBJCONV_LIMIT = 8,     /* the input or the output is past a limit */
    OBJCONV_ROOM = 11      /* the output or the text has no room; the rooms stay */
};

/* A room for a text that every text fits into. */
#define OBJCONV_TEXT 128

/* Converts the object file input, of size bytes.

   words are the words of the command `objconv WORDS IN OUT` before IN and OUT, each ended by a NUL (the last one may
   lack it): -fTARGET and options, in UTF-8. words_size counts the NULs: "-fcoff32\0-nu" is a block of 12 or 13 bytes.

   output is the converted object, to the byte the file that the command writes. text is the message that the command
   would print, without `objconv: `, the newline, or a NUL at its end: `refused: header 0: WordSize at 0`. A word is
   named by its index, from 0; a target that is missing is told of the word behind OUT, as by the command. Words that
   are not UTF-8 give OBJCONV_WORDS and `words: NotText`, and more than 67,108,864 bytes of words OBJCONV_MEMORY.

   The output takes no memory besides its room. */
int objconv_convert(const void *input, size_t size, const char *words, size_t words_size,
                    void *output, size_t room, size_t *output_size, char *text, size_t text_room, size_t *text_size);

/* Lists the symbols of the object file input: output is the lines of `objconv -ds`, each ended by a newline.

   The status is never OBJCONV_WORDS. The lines take memory besides their room. */
int objconv_list(const void *input, size_t size,
                 char *output, size_t room, size_t *output_size, char *text, size_t text_room, size_t *text_size);

/* The version of the library, as OBJCONV_VERSION is that of the header. */
unsigned objconv_version(void);

#ifdef __cplusplus
}
#endif

#endif
