class A { public int f() { return 2; } }
