class D extends B { public int f(int n) { return n; } }
class B extends D {
  int a; boolean x; U a; int b; int c; int d; int e; int g; int h; int i; int b;
  public int f(int[] v, D u, boolean t) { boolean s; s = t && t && t && 1; return !1; }
  public int main() { int n; n = (1 + true) - (1 * w); return w; }
  public int m2() { return 2; }
  public int m3() { return 3; }
  public int m4() { return 4; }
  public int m5() { return 5; }
  public int m6() { return 6; }
  public int m7() { return 7; }
  public int m8() { return 8; }
  public int m9() { return 9; }
  public int m9() { return 1; }
}
