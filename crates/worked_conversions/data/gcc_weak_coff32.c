/* a weak definition, a weak symbol that may stay undefined, a common and uninitialised data */
int log_line(const char *text);
__attribute__((weak)) int hook(int n) { return n + 1; }
__attribute__((weak)) int maybe(int n);
int shared[6];
static int calls;
static const char *const lines[2] = {"first", "second"};

int run(int n)
{
    calls++;
    shared[n & 3] = hook(n);
    if (maybe)
        n = maybe(n);
    return log_line(lines[n & 1]);
}
