// The baseline of Ed25519: OpenSSL's, by its EVP calls. `make` writes so many lines `SEED KEY MESSAGE SIGNATURE` in hex,
// with `-` for no byte, the same at each call: seeds and messages of 0 to 1,023 bytes from a seeded generator. `verify`
// verifies the signatures of such lines on standard input, `sign` signs their messages; both print how many there were
// and how many microseconds of processor time that took, in which keys are already objects and lines are read, and end with status 1 where
// a signature is not that of its line.
// usage: signatures make COUNT, signatures verify|sign
#include <openssl/evp.h>

#include <cstdint>
#include <cstdio>
#include <cstdlib>
#include <ctime>
#include <iostream>
#include <memory>
#include <random>
#include <string>
#include <vector>

namespace {

using Bytes = std::vector<unsigned char>;

void need(bool done) {
    if (!done) {
        std::fputs("signatures: a call of OpenSSL failed, or a line is wrong\n", stderr);
        std::exit(1);
    }
}

struct FreeKey {
    void operator()(EVP_PKEY *key) const { EVP_PKEY_free(key); }
};
using Key = std::unique_ptr<EVP_PKEY, FreeKey>;

struct FreeContext {
    void operator()(EVP_MD_CTX *context) const { EVP_MD_CTX_free(context); }
};
using Context = std::unique_ptr<EVP_MD_CTX, FreeContext>;

struct Line {
    Bytes seed, key, message, signature;
};

Key secret_key(const Bytes &seed) {
    Key key(EVP_PKEY_new_raw_private_key(EVP_PKEY_ED25519, nullptr, seed.data(), seed.size()));
    need(key != nullptr);
    return key;
}

Key public_key(const Bytes &bytes) {
    Key key(EVP_PKEY_new_raw_public_key(EVP_PKEY_ED25519, nullptr, bytes.data(), bytes.size()));
    need(key != nullptr);
    return key;
}

Bytes sign(EVP_PKEY *key, const Bytes &message) {
    Context context(EVP_MD_CTX_new());
    Bytes signature(64);
    std::size_t size = signature.size();
    need(EVP_DigestSignInit(context.get(), nullptr, nullptr, nullptr, key) == 1);
    need(EVP_DigestSign(context.get(), signature.data(), &size, message.data(), message.size()) == 1);
    return signature;
}

bool verify(EVP_PKEY *key, const Bytes &message, const Bytes &signature) {
    Context context(EVP_MD_CTX_new());
    need(EVP_DigestVerifyInit(context.get(), nullptr, nullptr, nullptr, key) == 1);
    return EVP_DigestVerify(context.get(), signature.data(), signature.size(), message.data(), message.size()) == 1;
}

std::string hex(const Bytes &bytes) {
    if (bytes.empty()) return "-";
    std::string text;
    for (unsigned char byte : bytes) {
        text += "0123456789abcdef"[byte >> 4];
        text += "0123456789abcdef"[byte & 15];
    }
    return text;
}

Bytes bytes(const std::string &word) {
    Bytes read;
    if (word == "-") return read;
    for (std::size_t at = 0; at + 2 <= word.size(); at += 2)
        read.push_back(static_cast<unsigned char>(std::stoul(word.substr(at, 2), nullptr, 16)));
    return read;
}

void make(unsigned count) {
    std::mt19937_64 draw(25519);
    auto drawn = [&](std::size_t size) {
        Bytes made(size);
        for (unsigned char &byte : made) byte = static_cast<unsigned char>(draw());
        return made;
    };
    for (unsigned i = 0; i < count; ++i) {
        const Bytes seed = drawn(32), message = drawn(draw() % 1024);
        const Key key = secret_key(seed);
        Bytes open(32);
        std::size_t size = open.size();
        need(EVP_PKEY_get_raw_public_key(key.get(), open.data(), &size) == 1);
        std::printf("%s %s %s %s\n", hex(seed).c_str(), hex(open).c_str(), hex(message).c_str(),
                    hex(sign(key.get(), message)).c_str());
    }
}

std::vector<Line> lines() {
    std::vector<Line> all;
    std::string seed, key, message, signature;
    while (std::cin >> seed >> key >> message >> signature)
        all.push_back({bytes(seed), bytes(key), bytes(message), bytes(signature)});
    return all;
}

void timed(bool signing) {
    const std::vector<Line> all = lines();
    std::vector<Key> keys;
    for (const Line &line : all) keys.push_back(signing ? secret_key(line.seed) : public_key(line.key));
    const std::clock_t start = std::clock();
    bool good = true;
    for (std::size_t i = 0; i < all.size(); ++i)
        good &= signing ? sign(keys[i].get(), all[i].message) == all[i].signature
                        : verify(keys[i].get(), all[i].message, all[i].signature);
    const std::clock_t took = std::clock() - start;
    need(good);
    std::printf("done %zu micros %lld\n", all.size(), static_cast<long long>(took) * 1000000 / CLOCKS_PER_SEC);
}

}  // namespace

int main(int count, char **words) {
    const std::string task = count > 1 ? words[1] : "";
    if (task == "make" && count == 3) {
        make(static_cast<unsigned>(std::atoi(words[2])));
    } else if (task == "verify" || task == "sign") {
        timed(task == "sign");
    } else {
        std::fputs("usage: signatures make COUNT, signatures verify|sign\n", stderr);
        return 2;
    }
}
