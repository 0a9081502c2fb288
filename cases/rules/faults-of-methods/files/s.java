class A { int x; public boolean f(int n, A a) { return true; } } class B extends A { }
class C extends A {
  public boolean returns_int() { return 1; }
  public A returns_subclass() { return new B(); }
  public int local_hides_field() { boolean x; return x; }
  public int repeated_formal(int n) { int[] n; return n; }
  public U undeclared_types(V d, int d) { U u; return u; }
}
