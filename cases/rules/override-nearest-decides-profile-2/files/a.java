class A { public A g() { return this; } public B h() { return new B(); } }
class B extends A { public B g() { return this; } public A h() { return this; } }
class C extends B { public A g() { return this; } public A h() { return this; } }
