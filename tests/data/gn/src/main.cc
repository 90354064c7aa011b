#include <cstdio>
import made;
import math;
import shared;
int main() { std::printf("%d %d %d\n", math(), shared(), made()); }
