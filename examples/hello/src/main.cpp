import greet;
extern "C" int puts(const char *);
int main() { return puts(greeting()) < 0; }
