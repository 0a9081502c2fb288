class A { public A f() { return this; } public Missing g() { return this.g(); } public Missing h() { return this.h(); } }
class B extends A { public Missing f() { return this.f(); } public B g() { return this; } public Missing h() { return this.h(); } }
