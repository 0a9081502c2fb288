class A { public M g() { return new M(); } }
class B extends A { public C g() { return new C(); } }
class C extends M { }
