export module words;

import std;

export std::map<std::string, int> counted(std::string_view text);
