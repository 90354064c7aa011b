module base;
#include "value.h"
int base() { return part() + VALUE; }
