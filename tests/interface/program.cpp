// Messages from an office to a group, as they are, a long one by four, and in an envelope, a packet's code at both ends, a pool, seasons, charges,
// and old letters, in C++ with the installed library.
#include "letters.h"
#include <cstring>
#include <iostream>
#include <pevghazo.h>
#include <string>
#include <vector>

namespace {

using bytes = std::vector<std::uint8_t>;

bytes of(const std::string &text) { return bytes(text.begin(), text.end()); }

// A session that wipes itself, as a C++ program would hold one.
class session {
  public:
    explicit session(const bytes &key) {
        if (const auto answer = pevghazo_start(&record, key.data(), key.size()); answer.number != PEVGHAZO_ACCEPTED) throw answer.number;
    }
    session(const session &) = delete;
    session &operator=(const session &) = delete;
    ~session() { pevghazo_wipe(&record, sizeof record); }

    bytes wrap(const bytes &metadata, const bytes &message, bytes &tag) {
        bytes out(message.size() + 1);
        tag.assign(PEVGHAZO_TAG_LENGTH, 0);
        const auto call = is_long(metadata, message) ? pevghazo_wrap_four : pevghazo_wrap;
        const auto answer = call(&record, metadata.data(), metadata.size(), message.data(), message.size(), out.data(), out.size(), tag.data(),
                                 tag.size());
        pevghazo_wipe_stack();
        if (answer.number != PEVGHAZO_ACCEPTED) throw answer.number;
        out.resize(message.size());
        return out;
    }

    bytes unwrap(const bytes &metadata, const bytes &cryptogram, const bytes &tag) {
        bytes out(cryptogram.size() + 1);
        const auto call = is_long(metadata, cryptogram) ? pevghazo_unwrap_four : pevghazo_unwrap;
        const auto answer = call(&record, metadata.data(), metadata.size(), cryptogram.data(), cryptogram.size(), tag.data(), tag.size(), out.data(),
                                 out.size());
        pevghazo_wipe_stack();
        if (answer.number != PEVGHAZO_ACCEPTED) throw answer.number;
        out.resize(cryptogram.size());
        return out;
    }

    // The envelope of a message for a group, with its header under the tag.
    bytes seal(std::uint32_t group, const bytes &metadata, const bytes &message) {
        bytes header(PEVGHAZO_HEADER_MAX), out(message.size() + 1), tag(PEVGHAZO_TAG_LENGTH);
        const auto headed = pevghazo_write_header(PEVGHAZO_LETTER_S, group, metadata.size(), message.size(), header.data(), header.size());
        if (headed.number != PEVGHAZO_ACCEPTED) throw headed.number;
        const auto answer = pevghazo_wrap_envelope(&record, header.data(), headed.len, metadata.data(), metadata.size(), message.data(),
                                                   message.size(), out.data(), out.size(), tag.data(), tag.size());
        pevghazo_wipe_stack();
        if (answer.number != PEVGHAZO_ACCEPTED) throw answer.number;
        bytes envelope(headed.len + metadata.size() + message.size() + tag.size());
        const auto written = pevghazo_write_envelope(PEVGHAZO_LETTER_S, group, metadata.data(), metadata.size(), out.data(), message.size(),
                                                     tag.data(), tag.size(), envelope.data(), envelope.size());
        if (written.number != PEVGHAZO_ACCEPTED) throw written.number;
        return envelope;
    }

    // The message of an envelope.
    bytes open(const bytes &envelope) {
        const auto parts = pevghazo_read_envelope(envelope.data(), envelope.size());
        if (parts.number != PEVGHAZO_ACCEPTED) throw parts.number;
        const std::uint8_t *at = envelope.data();
        bytes out(parts.tag - parts.cryptogram + 1);
        const auto answer = pevghazo_unwrap_envelope(&record, at, parts.metadata, at + parts.metadata, parts.cryptogram - parts.metadata,
                                                     at + parts.cryptogram, parts.tag - parts.cryptogram, at + parts.tag, parts.place - parts.tag,
                                                     out.data(), out.size());
        pevghazo_wipe_stack();
        if (answer.number != PEVGHAZO_ACCEPTED) throw answer.number;
        out.pop_back();
        return out;
    }

    bytes code(std::uint32_t packet) const {
        bytes out(PEVGHAZO_CODE_LENGTH);
        const auto answer = pevghazo_code(&record, packet, out.data(), out.size());
        pevghazo_wipe_stack();
        if (answer.number != PEVGHAZO_ACCEPTED) throw answer.number;
        return out;
    }

  private:
    // Whether a call is faster by four.
    static bool is_long(const bytes &metadata, const bytes &text) { return metadata.size() >= PEVGHAZO_FOUR_MIN || text.size() >= PEVGHAZO_FOUR_MIN; }

    pevghazo_session record{};
};

// The number that an envelope is refused by, or 0.
std::uint32_t refused(session &at, const bytes &envelope) {
    try {
        (void)at.open(envelope);
        return PEVGHAZO_ACCEPTED;
    } catch (std::uint32_t number) {
        return number;
    }
}

// A window over New Year for all sizes: what it refuses, what it takes, and its first day.
bool seasons() {
    pevghazo_windows windows{};
    for (auto &window : windows.sizes) window = {11, 15, 2, 29};
    const bytes spring = of("7,C,12001,12100,20250301\n"), winter = of("7,C,12001,12100,20250228\n");
    pevghazo_pool pool{};
    if (pevghazo_pool_add_in_season(&pool, &windows, spring.data(), spring.size()) != PEVGHAZO_OUT_OF_SEASON) return false;
    if (pevghazo_pool_add_in_season(&pool, &windows, winter.data(), winter.size()) != PEVGHAZO_ACCEPTED) return false;
    const auto first = pevghazo_first_day(&windows, spring.data(), spring.size());
    return first.number == PEVGHAZO_ACCEPTED && first.found && first.day == 20251115;
}

// A hundred rings and then three, which are 7.5 pence; a size that is not sold; and a till with no room for a line.
bool charges() {
    const pevghazo_prices prices = {{0, 0, 250, 0, 0, 0, 0, 0}};
    pevghazo_till till{};
    const auto priced = [&](const std::string &line) {
        const bytes text = of(line);
        const auto answer = pevghazo_price(till, prices, text.data(), text.size());
        till = answer.till;
        return answer;
    };
    if (priced("7,C,12001,12100,20250304\n").charge != 250 || priced("7,C,12101,12103,20250304\n").charge != 8) return false;
    if (till.lines != 2 || till.charged != 258 || till.exact != 25750) return false;
    if (priced("7,D,12001,12100,20250304\n").number != PEVGHAZO_NOT_SOLD || till.lines != 2) return false;
    till.lines = PEVGHAZO_TILL_LINES;
    const auto refused = priced("7,C,12001,12100,20250304\n");
    return refused.number == PEVGHAZO_TILL_FULL && refused.charge == 0 && till.charged == 258 && till.exact == 25750;
}

// The bytes of hexadecimal digits.
bytes of_digits(const std::string &digits) {
    bytes out;
    for (std::size_t i = 0; i < digits.size(); i += 2) out.push_back(static_cast<std::uint8_t>(std::stoi(digits.substr(i, 2), nullptr, 16)));
    return out;
}

// A box of old letters, each damaged first; and a wrap, which is refused.
bool old_letters() {
    const bytes key = of_digits(letters_key), nonce = of_digits(letters_nonce);
    bytes tag(PEVGHAZO_SAE_TAG_LENGTH);
    pevghazo_sae_session session{};
    const auto started = pevghazo_sae_start(&session, key.data(), key.size(), nonce.data(), nonce.size(), tag.data(), tag.size());
    if (started.number != PEVGHAZO_ACCEPTED || tag != of_digits(letters_start_tag)) return false;
    for (const auto &letter : letters) {
        const bytes a = of_digits(letter.metadata), c = of_digits(letter.cryptogram);
        bytes t = of_digits(letter.tag), out(c.size() + 1);
        const auto open = [&] {
            return pevghazo_sae_unwrap(&session, a.data(), a.size(), c.data(), c.size(), t.data(), t.size(), out.data(), out.size()).number;
        };
        t[0] ^= 1;
        if (open() != PEVGHAZO_WRONG_TAG) return false;
        t[0] ^= 1;
        if (open() != PEVGHAZO_ACCEPTED) return false;
        out.pop_back();
        if (out != of_digits(letter.message)) return false;
    }
    bytes out(1);
    const auto wrapped = pevghazo_sae_wrap(&session, key.data(), 1, key.data(), 1, out.data(), out.size(), tag.data(), tag.size());
    pevghazo_wipe(&session, sizeof session);
    pevghazo_wipe_stack();
    return wrapped.number == PEVGHAZO_READ_ONLY && wrapped.count == 0;
}

} // namespace

int main() {
    const bytes key = of("the key of group 7......"), metadata = of("size C"), message = of("12001-12100");
    session office(key), group(key);
    bytes tag;
    const bytes cryptogram = office.wrap(metadata, message, tag);
    if (group.unwrap(metadata, cryptogram, tag) != message) return 1;
    if (group.code(12) != office.code(12) || group.code(12) == group.code(13)) return 1;
    const bytes page(1000, 'C');
    const bytes sealed_page = office.wrap(metadata, page, tag);
    if (group.unwrap(metadata, sealed_page, tag) != page) return 1;
    const bytes envelope = office.seal(7, metadata, message);
    bytes readdressed = envelope;
    readdressed.at(2) = '8';
    if (refused(group, readdressed) != PEVGHAZO_WRONG_TAG || group.open(envelope) != message) return 1;
    readdressed.at(0) = 'F';
    if (refused(group, readdressed) != PEVGHAZO_BAD_HEADER) return 1;
    const bytes line = of("7,C,12001,12100,20250304\n");
    pevghazo_pool pool{};
    if (pevghazo_pool_add(&pool, line.data(), line.size()) != PEVGHAZO_ACCEPTED) return 1;
    if (pevghazo_pool_rings(&pool) != 100 || !pevghazo_pool_holds(&pool, 'C', 12100)) return 1;
    if (!seasons() || !charges() || !old_letters()) return 1;
    try {
        (void)group.unwrap(metadata, sealed_page, tag);
        return 1;
    } catch (std::uint32_t number) {
        if (number != PEVGHAZO_WRONG_TAG) return 1;
        std::cout << "interface: C++, version " << pevghazo_version() << "; a repeated message: " << pevghazo_number_text(number) << "\n";
    }
    return 0;
}
