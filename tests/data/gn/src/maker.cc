#include <cstdio>
import base;
int main() {
  std::printf("export module made;\nexport int made() { return %d; }\n", base() + 7);
}
