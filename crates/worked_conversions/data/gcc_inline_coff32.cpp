// an inline function that is called: gcc puts it into a section of which a linker keeps one copy
extern "C" int seen(int);
int total;

__attribute__((noinline)) inline int half(int n) { return seen(n) / 2; }

extern "C" int first(int n)
{
    total += half(n);
    return total;
}
