export module geometry;

export import :point;
export import :shapes;

export int area(const Box& box);
