// an inline function with a static variable: clang gives each a section of which a linker keeps one copy, and the
// sections that unwind the function go with it
extern "C" int seen(int);
int total;

__declspec(noinline) inline int half(int n)
{
    static int calls;
    calls++;
    return seen(n) / 2;
}

extern "C" int first(int n)
{
    total += half(n);
    return total;
}
