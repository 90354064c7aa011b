module sums;
int sum(int a, int b) { return twice(a + b) / 2; }
