class M { public static void main(String[] a) { System.out.println(1); } }
class A { boolean y; }