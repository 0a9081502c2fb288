// A queue of numbers in a ring.
class Queue {
    int[] ring;
    int first;
    int length;

    public boolean prepare(int room) {
        ring = new int[room];
        first = 0;
        length = 0;
        return true;
    }

    public boolean put(int number) {
        int place;
        boolean fits;
        fits = length < ring.length;
        if (fits) {
            place = first + length;
            if (place < ring.length) { } else place = place - ring.length;
            ring[place] = number;
            length = length + 1;
        } else { }
        return fits;
    }

    public int take() {
        int number;
        number = ring[first];
        first = first + 1;
        if (first < ring.length) { } else first = 0;
        length = length - 1;
        return number;
    }
}

class CountingQueue extends Queue {
    int taken;

    public int take() {
        int number;
        taken = taken + 1;
        number = ring[first];
        first = first + 1;
        if (first < ring.length) { } else first = 0;
        length = length - 1;
        return number;
    }
}
