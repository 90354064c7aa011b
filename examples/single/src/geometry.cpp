module geometry;

int area(const Box& box) { return (box.high.x - box.low.x) * (box.high.y - box.low.y); }
