class A { public int f(B b) { return 1; } public int g(A a) { return 1; } public A h(int x) { return this; } public A i() { return this; } }
class B extends A { public int f(A a) { return 1; } public int g(B b) { return 1; } public B h() { return this; } public B i(int x) { return this; } }
