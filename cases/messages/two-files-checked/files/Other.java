class Other {
    int n;
    boolean n;
    Missing m;
}
