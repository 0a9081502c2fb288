/* Each of these classes has a fault of its declarations. /* Comments nest here. */ */
class Lost extends Nowhere { }
class Circle extends Ring { }
class Ring extends Circle { int radius; boolean radius; }
class Shape {
    Colour colour;
    public int area(int scale) { return scale; }
}
class Square extends Shape {
    public boolean area(int scale) { return true; }
}
class Shape { }
