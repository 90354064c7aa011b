import number;
import sum;

extern "C" int printf(const char*, ...);

int main() { printf("%d\n", sum(20, doubled(11))); }
