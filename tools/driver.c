/* The driver of the sources: it prints what they report, and gives what they and compilers call for.

   PREFIX is what names of C begin with in the objects that it is linked with, "" or "_"; CALL is how these
   objects call, where that is not the driver's own way. BARE: for Windows without a library. SILENT: to be
   linked and not run, without any library. */
#ifndef PREFIX
#define PREFIX ""
#endif
#ifndef CALL
#define CALL
#endif
#define NAMED(name) __asm__(PREFIX #name)

CALL int run(void) NAMED(run);
CALL void report(const char *what, unsigned value) NAMED(report);
extern unsigned outside[] NAMED(outside);
unsigned outside[2] = {1234, 1235};
/* what compilers for MSVC ask for where there are floating numbers */
extern int floats NAMED(_fltused);
int floats = 1;
#ifdef __ELF__
__asm__(".globl seventy_seven\n.set seventy_seven, 77");
#endif

#if defined(SILENT)

unsigned told;
static void put(const char *text, unsigned length) { told += length ? text[0] : 0; }

#elif defined(BARE)

#define IMPORTED __attribute__((dllimport, stdcall))
IMPORTED void *GetStdHandle(unsigned which);
IMPORTED int WriteFile(void *file, const void *from, unsigned length, unsigned *written, void *overlapped);
IMPORTED void ExitProcess(unsigned status);
static void put(const char *text, unsigned length)
{
    unsigned written;
    WriteFile(GetStdHandle(-11), text, length, &written, 0);
}

#else

#include <unistd.h>
static void put(const char *text, unsigned length)
{
    if (write(1, text, length) < 0)
        _exit(3);
}

#endif

CALL void report(const char *what, unsigned value)
{
    char line[80], digits[10];
    unsigned n = 0, d = 0;
    while (n < 60 && what[n]) {
        line[n] = what[n];
        n++;
    }
    line[n++] = ' ';
    do
        digits[d++] = '0' + value % 10;
    while (value /= 10);
    while (d)
        line[n++] = digits[--d];
    line[n++] = '\n';
    put(line, n);
}

#if defined(SILENT)
int start(void) __asm__("_start");
int start(void) { return run(); }
#else
/* by itself, since gcc 12 for Windows fails to compile a start that calls in the way of Linux */
static __attribute__((noinline)) int begin(void) { return run(); }
#ifdef BARE
/* the functions to run before and after, as the start-up code of MSVC finds them */
typedef CALL void function(void);
#define EDGE(name, section_name) static function *const name[1] __attribute__((section(section_name), used))
EDGE(before, ".CRT$XCA") = {0};
EDGE(before_end, ".CRT$XCZ") = {0};
EDGE(after, ".CRT$XTA") = {0};
EDGE(after_end, ".CRT$XTZ") = {0};
/* and as mingw's does, where this object is linked first */
EDGE(old, ".ctors") = {0};
EDGE(old_end, ".ctors$z") = {0};
EDGE(late, ".dtors") = {0};
EDGE(late_end, ".dtors$z") = {0};
static __attribute__((noinline)) void run_all(function *const *from, function *const *to)
{
    while (++from < to)
        if (*from)
            (*from)();
}
void start(void)
{
    run_all(before, before_end);
    run_all(old, old_end);
    int status = begin();
    run_all(late, late_end);
    run_all(after, after_end);
    ExitProcess(status);
}
#else
int main(void) { return begin(); }
#endif
#endif
