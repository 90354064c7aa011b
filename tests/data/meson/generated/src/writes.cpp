// writes source FILE writes a module, and writes VALUE FILE a header with the value in a file.
#include <cstdio>
#include <cstring>
import base;
int main(int, char **words) {
  std::FILE *out = std::fopen(words[2], "w");
  int value = 5;
  if (!std::strcmp(words[1], "source")) {
    std::fprintf(out, "export module made;\nimport base;\nexport int made() { return %d + base(); }\n", value);
    return 0;
  }
  std::FILE *in = std::fopen(words[1], "r");
  if (std::fscanf(in, "%d", &value) != 1) return 1;
  std::fprintf(out, "#define MADE %d\n", value + base());
}
