class A {
} /* /* */
