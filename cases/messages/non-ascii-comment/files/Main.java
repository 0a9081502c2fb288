class Main {
    public static void main(String[] a) {
        /* für € */ System.out.println(x); // ü
    }
}
