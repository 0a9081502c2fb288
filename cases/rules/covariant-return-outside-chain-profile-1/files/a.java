class X { }
class Y extends X { }
class Z { }
class A { public X g() { return new X(); } public X h() { return new X(); } }
class B extends A { public Y g() { return new Y(); } public Z h() { return new Z(); } }
