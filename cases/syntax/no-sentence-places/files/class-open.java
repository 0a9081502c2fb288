class A {

