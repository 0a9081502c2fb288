class X { }
class Y extends X { }
class Y { }
class A { public X g() { return new X(); } }
class B extends A { public Y g() { return new Y(); } }
