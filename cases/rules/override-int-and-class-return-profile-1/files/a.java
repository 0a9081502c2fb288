class A { public A f() { return this; } public int g() { return 0; } public boolean h() { return true; } public int[] i() { return new int[1]; } public int j() { return 0; } }
class B extends A { public int f() { return 0; } public B g() { return this; } public int h() { return 0; } public B i() { return this; } public int[] j() { return new int[1]; } }
