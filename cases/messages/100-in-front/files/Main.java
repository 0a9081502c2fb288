class Main {
public static void main(String[] a) {
/*abcdefghijabcdefghijabcdefghijabcdefghijabcdefghijabcdefghijabcdefghijabcdefg*/System.out.println(x);//012345678901234567890123456789012345678901234567890123456789012345678901234567890123456789012345
}
}
