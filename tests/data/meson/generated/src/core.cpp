module;
#include "made.h"
export module core;
import made;
import sums;
export int core() { return made() + MADE + sum_with_base(1); }
