/** An interface, one below it, two classes that implement them, and one that calls them. */
interface Shape {
    int SIDES = 4;

    int area();
}

interface Solid extends Shape {
    int volume();
}

class Square implements Shape {
    static int made;
    protected final int side;

    Square(int side) {
        this.side = side;
        made++;
    }

    public int area() {
        return side * side;
    }
}

class Cube extends Square implements Solid {
    Cube(int side) {
        super(side);
    }

    public int area() {
        return 6 * super.area();
    }

    public int volume() {
        return super.area() * side;
    }
}

class Shapes {
    private Shape[] all = { new Square(2), new Cube(sides()) };

    private static int sides() {
        return Shape.SIDES;
    }

    int total() {
        int sum = 0;
        for (int i = 0; i < all.length; i++) {
            Shape shape = all[i];
            sum += shape instanceof Solid ? ((Solid) shape).volume() : shape.area();
        }
        return sum;
    }
}
