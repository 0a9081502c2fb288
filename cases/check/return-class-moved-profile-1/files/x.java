class X { }
class Y extends X { }
