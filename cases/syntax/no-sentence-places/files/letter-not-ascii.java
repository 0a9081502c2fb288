class A {
  int é; }