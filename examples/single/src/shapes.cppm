export module geometry:shapes;

import :point;

export struct Box {
  Point low;
  Point high;
};
