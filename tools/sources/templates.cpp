/* Templates: a stack of each type, a static member, and numbers that the compiler computes.
   prints: stack 3
   prints: letters 99
   prints: made 2
   prints: factorial 120 */
#include "report.h"

template <typename T, int N> struct Stack {
    T rows[N];
    int n;
    static int made;
    __attribute__((noinline)) void push(T it) { rows[n++] = it; }
    __attribute__((noinline)) T pop() { return rows[--n]; }
};
template <typename T, int N> int Stack<T, N>::made = 0;
template <int N> struct Factorial { static const int value = N * Factorial<N - 1>::value; };
template <> struct Factorial<0> { static const int value = 1; };

/* without weak symbols a compiler gives these only where they are asked for */
template int Stack<int, 8>::made;
template int Stack<char, 4>::made;

static Stack<int, 8> numbers;
static Stack<char, 4> letters;

int run()
{
    numbers.push(3);
    letters.push('c');
    Stack<int, 8>::made += 2;
    report("stack", numbers.pop());
    report("letters", letters.pop());
    report("made", Stack<int, 8>::made + Stack<char, 4>::made);
    report("factorial", Factorial<5>::value);
    return 0;
}
