extern "C" int printf(const char*, ...);

void print(int number) { printf("%d\n", number); }
