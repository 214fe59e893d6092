class Overrides {
    int of(int x) {
        Shape all = null;
        for (int i = 0; i < 6; i++) {
            Shape next;
            if (i % 3 == 0) {
                next = new Square();
            } else {
                next = i % 3 == 1 ? new Circle() : new Shape();
            }
            next.below = all;
            next.size = x + i;
            all = next;
        }
        return all.sum(6, all.same()) + all.same(all).area(1, 2, 3, 4);
    }
}

class Shape {
    Shape below;
    int size;

    int area() { return 1; }
    int area(int a) { return a; }
    int area(int a, int b, int c, int d) { return a * b - c * d + area(); }
    Shape same() { return this; }
    Shape same(Shape other) { return other; }
    int sum(int left, Shape last) { return left == 0 ? 0 : last.area() + (left > 1 ? sum(left - 1, last.below) : 0); }
}

class Square extends Shape {
    int area() { return size * size; }
    Square same() { return this; }
}

class Circle extends Shape {
    int area() { return secret() + size * size * 22 / 7; }
    int area(int a) { return -a; }
    private int secret() { return 100; }
}

class Disc extends Circle {
    int secret() { return 5; }
}
