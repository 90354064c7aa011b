module sum;

int sum(int left, int right) { return plus({left}, {right}).value; }
