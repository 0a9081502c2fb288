class A extends B { public A g() { return this; } }
class B extends A { public B g() { return this; } }
class C extends A { public B g() { return new B(); } }
class D extends D { public D g() { return this; } }
