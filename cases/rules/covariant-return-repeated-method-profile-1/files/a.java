class A { public A g() { return this; } public int g() { return 1; } }
class B extends A { public B g() { return this; } public int g() { return 1; } }
class C extends A { public int g() { return 1; } public C g() { return this; } }
