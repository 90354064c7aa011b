export module sums:twice;
export int twice(int a) { return a * 2; }
