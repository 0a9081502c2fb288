class M { public static void main(String[] a) { System.out.println(1); } }
class A { public X g() { return new X(); } }
class B extends A { public Y g() { return new Y(); } }
