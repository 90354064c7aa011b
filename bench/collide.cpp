// Prints names or paths, one per line,
// that collide in a hash table whose key does not cover what the table holds:
//   collide bytes COUNT               names of modules that collide if a name is hashed as a list,
//                                     its length and then each byte by itself, by FoldHasher, the
//                                     hash of Rattle's core, whose seed is fixed: they agree in the
//                                     13 bits that choose the group in a table of 65,536 names
//   collide text COUNT                such names that collide if a name is hashed as a text, in one
//                                     piece: they agree in all bits
//   collide cut DIGEST BITS WINDOW    cuts the standard input into paths whose hashes under the key
//                                     DIGEST are below WINDOW in their last BITS bits, as far as
//                                     there are such, so that they start in few groups of a table
//   collide names DIGEST BITS COUNT   names of ten bytes whose hashes under the key DIGEST are zero
//                                     in their last BITS bits
//   collide pairs DIGEST BITS COUNT   such pairs of names of sixteen bytes
// DIGEST is a SHA-512 digest as sha512sum prints it. The hash under it is the SipHash-1-3 of std,
// which has first hashed the digest. Whoever knows the digest can choose such names, so the key of
// a table has to depend on all its entries and on their lengths.
#include <algorithm>
#include <cstddef>
#include <cstdint>
#include <cstdio>
#include <cstdlib>
#include <cstring>
#include <iostream>
#include <iterator>
#include <string>
#include <string_view>

namespace {

constexpr std::string_view letters =
    "abcdefghijklmnopqrstuvwxyzABCDEFGHIJKLMNOPQRSTUVWXYZ0123456789-_";
constexpr std::uint64_t seed = 0x243f'6a88'85a3'08d3;
constexpr std::uint64_t multiplier = 0x9e37'79b9'7f4a'7c15;

// The halves of a product, joined.
std::uint64_t folded(std::uint64_t first, std::uint64_t second) {
    const unsigned __int128 product = static_cast<unsigned __int128>(first) * second;
    return static_cast<std::uint64_t>(product) ^ static_cast<std::uint64_t>(product >> 64);
}

// Eight bytes as a number, the lowest first, as this machine has them.
std::uint64_t word(const char* bytes) {
    std::uint64_t number;
    std::memcpy(&number, bytes, sizeof number);
    return number;
}

// The state after eight bytes.
std::uint64_t write_number(std::uint64_t state, std::uint64_t number) {
    return folded(state ^ number, multiplier ^ 16);
}

// The state after one byte.
std::uint64_t write_byte(std::uint64_t state, char byte) {
    return folded(state ^ static_cast<unsigned char>(byte) * 0x01'01'01ULL, multiplier ^ 2);
}

bool is_letter(char byte) {
    return letters.find(byte) != std::string_view::npos;
}

// Prints names by bytes.
class BytesFinder {
public:
    explicit BytesFinder(std::size_t count) : count_(count) {}

    void print() { extend(write_number(seed, length)); }

private:
    static constexpr std::size_t length = 10;
    std::string name_;
    std::size_t count_;

    // Prints the names that begin so, as long as some are to be printed.
    void extend(std::uint64_t state) {
        for (char letter : letters) {
            const std::uint64_t next = write_byte(state, letter);
            if (name_.size() + 1 < length) {
                name_ += letter;
                extend(next);
                name_.pop_back();
            } else if (count_ > 0 && ((next ^ next >> 32) & 8191) == 0) {
                std::printf("%s%c\n", name_.c_str(), letter);
                --count_;
            }
            if (count_ == 0) {
                return;
            }
        }
    }
};

// The beginning of names of 32 bytes that makes a factor of their hash zero: 16 bytes, and the
// eight that are the state after these. What follows them changes nothing.
std::string zero_factor() {
    for (unsigned number = 0;; ++number) {
        char text[17];
        std::snprintf(text, sizeof text, "m%015u", number);
        const std::uint64_t state = folded((seed + 32) ^ word(text), multiplier ^ word(text + 8));
        const std::string next(reinterpret_cast<const char*>(&state), sizeof state);
        if (std::all_of(next.begin(), next.end(), is_letter)) {
            return text + next;
        }
    }
}

void print_text(std::size_t count) {
    const std::string begin = zero_factor();
    for (std::size_t number = 0; number < count; ++number) {
        std::printf("%s%08zu\n", begin.c_str(), number);
    }
}

// A SipHash-1-3 with a zero key, which has hashed some words.
class SipHash {
public:
    // One that has hashed the digest, which is written in hexadecimal.
    explicit SipHash(const std::string& digest) {
        for (std::size_t first = 0; first + 16 <= digest.size(); first += 16) {
            add(__builtin_bswap64(std::stoull(digest.substr(first, 16), nullptr, 16)));
        }
    }

    // The hash of a list of bytes: its length, then the bytes.
    std::uint64_t of_list(std::string_view bytes) const {
        SipHash hash = *this;
        hash.add(bytes.size());
        return hash.finish(bytes);
    }

    // The hash of two lists of sixteen bytes each.
    std::uint64_t of_pair(std::string_view first, std::string_view second) const {
        SipHash hash = *this;
        hash.add(first.size());
        hash.add(word(first.data()));
        hash.add(word(first.data() + 8));
        hash.add(second.size());
        return hash.finish(second);
    }

private:
    std::uint64_t v0_ = 0x736f6d6570736575, v1_ = 0x646f72616e646f6d, v2_ = 0x6c7967656e657261,
                  v3_ = 0x7465646279746573;
    std::uint64_t length_ = 0;

    static std::uint64_t turned(std::uint64_t word, int bits) {
        return word << bits | word >> (64 - bits);
    }

    void round() {
        v0_ += v1_;
        v2_ += v3_;
        v1_ = turned(v1_, 13) ^ v0_;
        v3_ = turned(v3_, 16) ^ v2_;
        v0_ = turned(v0_, 32);
        v2_ += v1_;
        v0_ += v3_;
        v1_ = turned(v1_, 17) ^ v2_;
        v3_ = turned(v3_, 21) ^ v0_;
        v2_ = turned(v2_, 32);
    }

    void add_word(std::uint64_t word) {
        v3_ ^= word;
        round();
        v0_ ^= word;
    }

    void add(std::uint64_t number) {
        add_word(number);
        length_ += 8;
    }

    // The hash after these bytes, its halves joined.
    std::uint64_t finish(std::string_view bytes) {
        length_ += bytes.size();
        for (; bytes.size() >= 8; bytes.remove_prefix(8)) {
            add_word(word(bytes.data()));
        }
        std::uint64_t last = length_ << 56;
        std::memcpy(&last, bytes.data(), bytes.size());
        add_word(last);
        v2_ ^= 0xff;
        round();
        round();
        round();
        const std::uint64_t hash = v0_ ^ v1_ ^ v2_ ^ v3_;
        return hash ^ hash >> 32;
    }
};

std::uint64_t low_bits(unsigned long bits) {
    return (std::uint64_t{1} << bits) - 1;
}

void print_cut(const SipHash& key, std::uint64_t mask, std::uint64_t window) {
    constexpr std::size_t least = 10, most = 60;
    const std::string text{std::istreambuf_iterator<char>(std::cin), {}};
    for (std::string_view rest = text; !rest.empty();) {
        std::size_t length = least;
        while (length < most && (key.of_list(rest.substr(0, length)) & mask) >= window) {
            ++length;
        }
        const std::string_view path = rest.substr(0, length);
        std::printf("%.*s\n", static_cast<int>(path.size()), path.data());
        rest.remove_prefix(path.size());
    }
}

void print_names(const SipHash& key, std::uint64_t mask, std::size_t count) {
    for (unsigned long number = 100'000'000; count > 0; ++number) {
        const std::string name = "x" + std::to_string(number);
        if ((key.of_list(name) & mask) == 0) {
            std::puts(name.c_str());
            --count;
        }
    }
}

void print_pairs(const SipHash& key, std::uint64_t mask, std::size_t count) {
    for (unsigned long number = 100'000'000'000'000; count > 0; ++number) {
        const std::string digits = std::to_string(number), first = "x" + digits,
                          second = "y" + digits;
        if ((key.of_pair(first, second) & mask) == 0) {
            std::printf("%s %s\n", first.c_str(), second.c_str());
            --count;
        }
    }
}

}  // namespace

int main(int count, char** words) {
    const std::string_view kind = count > 1 ? words[1] : "";
    const auto number = [&](int index) { return std::strtoul(words[index], nullptr, 10); };
    if (kind == "bytes" && count == 3) {
        BytesFinder(number(2)).print();
    } else if (kind == "text" && count == 3) {
        print_text(number(2));
    } else if (kind == "cut" && count == 5) {
        print_cut(SipHash(words[2]), low_bits(number(3)), number(4));
    } else if (kind == "names" && count == 5) {
        print_names(SipHash(words[2]), low_bits(number(3)), number(4));
    } else if (kind == "pairs" && count == 5) {
        print_pairs(SipHash(words[2]), low_bits(number(3)), number(4));
    } else {
        std::fputs("usage: collide bytes COUNT | text COUNT | cut DIGEST BITS WINDOW | (names | "
                   "pairs) DIGEST BITS COUNT\n",
                   stderr);
        return 2;
    }
}
