import geometry;

void print(int number);

int main() { print(area(Box{at(0, 0), at(2, 3)})); }
