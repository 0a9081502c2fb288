class N { public static void main(String[] a) { System.out.println(1); } }
class A { }
class C1 { }
class C2 { }
class C3 { }
class C4 { }
class C5 { }
class C6 { }
class C7 { }
class C8 { }
class C9 { }
class C10 { }
class A { }
