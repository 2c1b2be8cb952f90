/* counts the words of a text; count.o is what gcc 12.2 makes of it: gcc -m32 -O1 -fno-pic -c count.c */
static const char blanks[] = " \t\n";
int words_seen;

static int is_blank(char c)
{
    for (const char *b = blanks; *b; b++)
        if (*b == c)
            return 1;
    return 0;
}

int count_words(const char *text)
{
    int count = 0, inside = 0;
    for (; *text; text++) {
        int blank = is_blank(*text);
        if (inside && blank)
            inside = 0;
        else if (!inside && !blank) {
            inside = 1;
            count++;
        }
    }
    words_seen += count;
    return count;
}
