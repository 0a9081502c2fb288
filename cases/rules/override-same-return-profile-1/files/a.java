class A { public A f() { return this; } public int g() { return 1; } public boolean h() { return true; } public int[] i() { return new int[1]; } }
class B extends A { public A f() { return this; } public int g() { return 2; } public boolean h() { return false; } public int[] i() { return new int[2]; } }
