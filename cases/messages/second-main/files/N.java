

class N { public static void main(String[] a) { { } } }
