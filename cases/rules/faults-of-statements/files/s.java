class A { int x; public boolean f(int n, A a) { return true; } } class B extends A { }
class C extends A {
  public int not_int(int n, B b) { boolean t; int[] v; t = !1; return 0; }
  public int and_int(int n, B b) { boolean t; int[] v; t = 1 && t; return 0; }
  public int less_boolean(int n, B b) { boolean t; int[] v; t = t < 1; return 0; }
  public int times_boolean(int n, B b) { boolean t; int[] v; n = t * 1; return 0; }
  public int index_of_int(int n, B b) { boolean t; int[] v; n = n[0]; return 0; }
  public int index_boolean(int n, B b) { boolean t; int[] v; n = v[t]; return 0; }
  public int length_of_int(int n, B b) { boolean t; int[] v; n = n.length; return 0; }
  public int call_of_int(int n, B b) { boolean t; int[] v; n = n.f(); return 0; }
  public int call_unknown(int n, B b) { boolean t; int[] v; n = b.k(); return 0; }
  public int call_count(int n, B b) { boolean t; int[] v; t = b.f(1); return 0; }
  public int call_argument(int n, B b) { boolean t; int[] v; t = b.f(t, 1); return 0; }
  public int call(int n, B b) { boolean t; int[] v; t = b.f(1, b); return 0; }
  public int new_boolean(int n, B b) { boolean t; int[] v; v = new int[t]; return 0; }
  public int if_int(int n, B b) { boolean t; int[] v; if (n) { } else { n = t; } return 0; }
  public int while_int(int n, B b) { boolean t; int[] v; while (1) n = 1; return 0; }
  public int print_boolean(int n, B b) { boolean t; int[] v; System.out.println(t); return 0; }
  public int assign_boolean(int n, B b) { boolean t; int[] v; n = t; return 0; }
  public int assign_this(int n, B b) { boolean t; int[] v; b = this; return 0; }
  public int assign_field(int n, B b) { boolean t; int[] v; x = 1; return 0; }
  public int assign_undeclared(int n, B b) { boolean t; int[] v; y = 1; return 0; }
  public int new_undeclared(int n, B b) { boolean t; int[] v; x = new U(); return 0; }
  public int store_in_int(int n, B b) { boolean t; int[] v; n[0] = 1; return 0; }
  public int store_at_boolean(int n, B b) { boolean t; int[] v; v[t] = 1; return 0; }
  public int store_boolean(int n, B b) { boolean t; int[] v; v[0] = t; return 0; }
  public int store_undeclared(int n, B b) { boolean t; int[] v; y[0] = z; return 0; }
  public int block(int n, B b) { boolean t; int[] v; { y = 1; v[0] = x; t = (z); } return 0; }
}
