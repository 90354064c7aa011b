#include <cstdio>
import both;
import copied;
import whole;
int old();
extern "C" int c();
int main() { std::printf("%d %d %d %d %d\n", both(), whole() + inner(), copied(), old(), c()); }
