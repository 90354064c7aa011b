export module sums;
import base;
export import :twice;
export int sum(int a, int b);
export int sum_with_base(int a) { return a + base(); }
