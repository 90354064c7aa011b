module;
#include "scale.h"
export module units;

export constexpr int scaled(int length) { return SCALE * length; }
