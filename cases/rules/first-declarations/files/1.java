

class B { }
class A { Y y; }
class C { Y y; }