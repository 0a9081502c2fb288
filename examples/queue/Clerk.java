class Clerk {
    public int serve(int customers) {
        Queue queue;
        int number;
        boolean done;
        queue = new CountingQueue();
        done = queue.prepare(customers);
        number = 0;
        while (number < customers) {
            done = queue.put(number * number);
            number = number + 1;
        }
        return queue.take() + queue.take();
    }
}
