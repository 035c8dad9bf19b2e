// Holds the rows of murmurhash2.txt, on standard input, to libstdc++'s own MurmurHash2. With a 32-bit size_t that is
// std::_Hash_bytes; with a 64-bit one it is another hash, so build it so: g++ -m32 -O2 hash_bytes.cpp -o hash_bytes
#include <bits/hash_bytes.h>
#include <cstdint>
#include <iostream>
#include <vector>

static_assert(sizeof(std::size_t) == 4, "build with -m32");

int main() {
    std::uint32_t seed, length, a, b, c, hash, rows = 0, differ = 0;
    while (std::cin >> seed >> length >> a >> b >> c >> hash) {
        std::vector<unsigned char> key(length);
        for (std::uint32_t i = 0; i < length; i++)
            key[i] = (a + b * i + (i / 256) * c) % 256;
        rows++;
        differ += std::_Hash_bytes(key.data(), length, seed) != hash;
    }
    std::cout << rows << " rows, " << differ << " differ\n";
    return differ != 0;
}
