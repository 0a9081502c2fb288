class A extends B { public int f(int x) { return x; } }
class B extends C { }
class C extends D { int k; public int f(boolean b) { return 1; } }
class D extends B { boolean k; public int f(boolean b) { return 2; } }
class E extends A { }
