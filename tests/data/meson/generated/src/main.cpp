#include <cstdio>
#include "made.h"
import core;
import shared;
import tail;
int main() { std::printf("%d %d %d %d\n", core(), shared(), tail(), MADE); }
