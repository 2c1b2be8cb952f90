/* What each source prints goes through one function of the driver: a word, a blank, a number, a new line. */
#ifdef __cplusplus
extern "C" {
#endif
void report(const char *what, unsigned value);
int run(void);
#ifdef __cplusplus
}
#endif
#define KEEP __attribute__((noinline, noclone_))
#ifdef __clang__
#define noclone_ noinline
#else
#define noclone_ noclone
#endif
