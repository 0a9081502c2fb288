class Main {
public static void main(String[] a) {
/*abcdefghijabcdefghijabcdefghijabcdefghijabcdefghijabcdefghijabcdefghijabcdefgh*/System.out.println(x);//01234567890123456789012345678901234567890123456789012345678901234567890123456789012345678901234
}
}
