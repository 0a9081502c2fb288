class Factorial {
    public static void main(String[] arguments) {
        System.out.println(new Computer().factorial(10));
    }
}

class Computer {
    public int factorial(int number) {
        int product;
        if (number < 1)
            product = 1;
        else
            product = number * (this.factorial(number - 1));
        return product;
    }
}
