class A { public A g() { return this; } }
class B extends A { public B g() { return this; } public int k() { return 1; } }
class C extends B { public int call() { return this.g().k(); } }
