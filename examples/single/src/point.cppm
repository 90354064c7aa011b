export module geometry:point;

import units;

export struct Point {
  int x;
  int y;
};

export constexpr Point at(int x, int y) { return {scaled(x), scaled(y)}; }
