class A { } class B extends A { } class C extends D { } class D extends C { } class E extends C { } class F extends F { } class G extends Missing { }
class T {
  public int int_to_int(int from, int to) { to = from; return 0; }
  public int int_to_boolean(int from, boolean to) { to = from; return 0; }
  public int ints_to_ints(int[] from, int[] to) { to = from; return 0; }
  public int B_to_A(B from, A to) { to = from; return 0; }
  public int A_to_B(A from, B to) { to = from; return 0; }
  public int A_to_int(A from, int to) { to = from; return 0; }
  public int C_to_D(C from, D to) { to = from; return 0; }
  public int D_to_C(D from, C to) { to = from; return 0; }
  public int E_to_D(E from, D to) { to = from; return 0; }
  public int C_to_E(C from, E to) { to = from; return 0; }
  public int F_to_M(F from, M to) { to = from; return 0; }
  public int G_to_Missing(G from, Missing to) { to = from; return 0; }
  public int Missing_to_Missing(Missing from, Missing to) { to = from; return 0; }
}
