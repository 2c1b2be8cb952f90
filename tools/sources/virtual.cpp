/* Virtual functions by tables, of one base and of two.
   prints: square 49
   prints: oblong 12
   prints: named 7
   prints: sum 61 */
#include "report.h"

struct Shape { virtual int area() const { return 0; } };
struct Named { virtual int letters() const { return 1; } };
struct Square : Shape {
    int side;
    explicit Square(int n) : side(n) {}
    int area() const override { return side * side; }
};
struct Oblong : Shape, Named {
    int a, b;
    Oblong(int x, int y) : a(x), b(y) {}
    int area() const override { return a * b; }
    int letters() const override { return a + b; }
};

static int area_of(const Shape *volatile shape) { return shape->area(); }
static int letters_of(const Named *volatile named) { return named->letters(); }

int run()
{
    Square square(7);
    Oblong oblong(3, 4);
    report("square", area_of(&square));
    report("oblong", area_of(&oblong));
    report("named", letters_of(&oblong));
    report("sum", area_of(&square) + area_of(&oblong));
    return 0;
}
