module words;

import std.compat;

std::map<std::string, int> counted(std::string_view text) {
  std::map<std::string, int> counts;
  std::string word;
  for (char letter : text) {
    if (::isalpha(letter)) {
      word += letter;
    } else {
      ++counts[std::exchange(word, {})];
    }
  }
  ++counts[word];
  return counts;
}
