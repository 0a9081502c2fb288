class Main {
    public static void main(String[] arguments) {
        System.out.println(new Clerk().serve(3));
    }
}
