export module shared;
import sums;
export int shared() { return sum(20, 1); }
