class Main {
    public static void main(String[] a) { {
        System.out.println(x);
        System.out.println(y + 1);
    } }
}
