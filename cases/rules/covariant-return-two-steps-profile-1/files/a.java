class A { public A g() { return this; } }
class B extends A { }
class C extends B { public C g() { return this; } }
