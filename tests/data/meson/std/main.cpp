import std.compat;
import words;
int plain();
int main() { std::println("{} {}", words("a b c").size(), plain()); }
