class A { public int f(int x) { return x; } }
class B extends A { public int f(boolean x) { return 1; } }
