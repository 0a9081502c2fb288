class B extends C { }
class C extends B { int k; }
  class D extends B { }
