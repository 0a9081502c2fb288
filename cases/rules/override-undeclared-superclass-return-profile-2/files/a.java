class A extends Missing { public Missing g() { return this.g(); } }
class B extends A { public B g() { return this; } }
