// The baseline of an audit: the same asset register, compiled for this machine, over std::map. It keeps what the ledger
// keeps (read set with versions, write set, ids of transactions), and no more. `simulate` simulates so many blocks of
// transfers, `audit` flags each of them too.
// usage: baseline simulate|audit BLOCKS CALLS
#include <openssl/sha.h>

#include <array>
#include <cstdlib>
#include <cstring>
#include <map>
#include <optional>
#include <set>
#include <string>
#include <vector>

extern "C" int invoke(void);

namespace {

struct Version {
    unsigned block, place;
    bool operator==(const Version &other) const { return block == other.block && place == other.place; }
};

struct Entry {
    std::string value;
    Version version;
};

using Id = std::array<unsigned char, 32>;

Id sha256(const std::string &text) {
    Id id;
    SHA256(reinterpret_cast<const unsigned char *>(text.data()), text.size(), id.data());
    return id;
}

struct Payload {
    std::string proposal;
    std::map<std::string, std::optional<Version>> reads;
    std::map<std::string, std::optional<std::string>> writes;
    std::string result;
};

std::map<std::string, Entry> state;
std::set<Id> known;
std::string argument;
Payload payload;

Payload simulate(std::string text) {
    argument = std::move(text);
    payload = Payload();
    payload.proposal = "register" + argument + std::string(19, '\0');
    if (invoke() != 0) std::abort();
    return std::move(payload);
}

std::string transfer(unsigned asset) { return "transfer asset" + std::to_string(asset) + " bob"; }

bool is_current(const Payload &transaction, const std::map<std::string, std::optional<Version>> &written) {
    for (const auto &[key, version] : transaction.reads) {
        std::optional<Version> now;
        if (auto here = written.find(key); here != written.end()) {
            now = here->second;
        } else if (auto there = state.find(key); there != state.end()) {
            now = there->second.version;
        }
        if (!(now == version)) return false;
    }
    return true;
}

unsigned flags(const std::vector<Payload> &block, unsigned number) {
    std::map<std::string, std::optional<Version>> written;
    std::set<Id> ids;
    unsigned valid = 0;
    for (unsigned place = 0; place < block.size(); ++place) {
        Id id = sha256(block[place].proposal);
        if (known.count(id) || !ids.insert(id).second) continue;
        if (!is_current(block[place], written)) continue;
        ++valid;
        for (const auto &[key, value] : block[place].writes) {
            written[key] = value ? std::optional(Version{number, place}) : std::nullopt;
        }
    }
    return valid;
}

unsigned number(const char *word) { return static_cast<unsigned>(std::atoi(word)); }

}  // namespace

extern "C" {

int get_state(const void *key, unsigned key_length, void *target, unsigned capacity) {
    std::string name(static_cast<const char *>(key), key_length);
    auto entry = state.find(name);
    payload.reads[name] = entry == state.end() ? std::nullopt : std::optional(entry->second.version);
    if (entry == state.end()) return -1;
    const std::string &value = entry->second.value;
    if (value.size() <= capacity) std::memcpy(target, value.data(), value.size());
    return static_cast<int>(value.size());
}

int put_state(const void *key, unsigned key_length, const void *value, unsigned value_length) {
    payload.writes[{static_cast<const char *>(key), key_length}] =
        std::string(static_cast<const char *>(value), value_length);
    return 0;
}

int del_state(const void *key, unsigned key_length) {
    payload.writes[{static_cast<const char *>(key), key_length}] = std::nullopt;
    return 0;
}

int range_state(const void *, unsigned, const void *, unsigned, unsigned, void *, unsigned) { std::abort(); }

int get_arg(void *target, unsigned capacity) {
    if (argument.size() <= capacity) std::memcpy(target, argument.data(), argument.size());
    return static_cast<int>(argument.size());
}

int set_result(const void *result, unsigned length) {
    payload.result.assign(static_cast<const char *>(result), length);
    return 0;
}
}

int main(int count, char **words) {
    if (count != 4) return 2;
    const bool audits = std::strcmp(words[1], "audit") == 0;
    const unsigned blocks = number(words[2]), calls = number(words[3]), assets = 2 * calls;
    for (unsigned i = 0; i < assets; ++i) {
        Payload created = simulate("create asset" + std::to_string(i) + " alice");
        for (const auto &[key, value] : created.writes) state[key] = {*value, {1 + i / calls, i % calls}};
        known.insert(sha256(created.proposal));
    }
    unsigned valid = 0;
    for (unsigned i = 0; i < blocks; ++i) {
        std::vector<Payload> block;
        for (unsigned j = 0; j < calls; ++j) block.push_back(simulate(transfer((i * calls + j) % assets)));
        valid += audits ? flags(block, 3) : calls;
    }
    return valid == blocks * calls ? 0 : 1;
}
