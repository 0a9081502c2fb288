class Open {
    int x;
