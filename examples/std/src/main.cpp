import std;
import words;

int main() {
  for (const auto& [word, count] : counted("one two one")) {
    std::println("{} {}", word, count);
  }
}
