/* conguraha.hpp: the calls of conguraha.h for C++17 and later. What each answers and writes is said there.

       conguraha::session session;
       conguraha::answer answer =
           session.open(conguraha::mode::cfb, conguraha::direction::decrypt, 8, key, iv);
       if (answer == conguraha::answer::ok)
           answer = session.feed(read, text);
       if (answer != conguraha::answer::ok)
           std::cerr << conguraha::sentence(answer) << '\n';

   Each call gives its answer, and none throws. Who wants exceptions writes conguraha::expect(session.feed(read, text)).
   Keys, IVs and texts are std::vector, std::array, std::span or an array of std::uint8_t, or {pointer, length}. */
#ifndef CONGURAHA_HPP
#define CONGURAHA_HPP
#include "conguraha.h"
#include <array>
#include <cstddef>
#include <cstdint>
#include <iterator>
#include <type_traits>
#include <utility>
#if defined __cpp_exceptions
#include <stdexcept>
#endif

namespace conguraha {

enum class mode { ecb = CONGURAHA_ECB, cbc = CONGURAHA_CBC, cfb = CONGURAHA_CFB,
                  ofb = CONGURAHA_OFB, ctr = CONGURAHA_CTR };
enum class direction { encrypt = CONGURAHA_ENCRYPT, decrypt = CONGURAHA_DECRYPT };
enum class [[nodiscard]] answer {
    ok = CONGURAHA_OK,
    key_length = CONGURAHA_KEY_LENGTH,
    iv_length = CONGURAHA_IV_LENGTH,
    unit_length = CONGURAHA_UNIT_LENGTH,
    not_opened = CONGURAHA_NOT_OPENED,
    closed = CONGURAHA_CLOSED,
    bits = CONGURAHA_BITS,
    part_unit = CONGURAHA_PART_UNIT,
    room = CONGURAHA_ROOM,
    unit_limit = CONGURAHA_UNIT_LIMIT,
    no_block = CONGURAHA_NO_BLOCK,
    not_formed = CONGURAHA_NOT_FORMED,
    message_length = CONGURAHA_MESSAGE_LENGTH,
    counter_length = CONGURAHA_COUNTER_LENGTH,
    counter_limit = CONGURAHA_COUNTER_LIMIT,
    other_message = CONGURAHA_OTHER_MESSAGE,
    no_mode = CONGURAHA_NO_MODE,
    overlap = CONGURAHA_OVERLAP
};

/* The answer in English. */
[[nodiscard]] inline const char *sentence(answer given) noexcept
{
    return conguraha_answer_text(static_cast<std::size_t>(given));
}

#if defined __cpp_exceptions
struct refused : std::runtime_error {
    explicit refused(answer given) : std::runtime_error(sentence(given)), number(given) {}
    answer number;
};

/* Throws where a call was refused. */
inline void expect(answer given)
{
    if (given != answer::ok)
        throw refused(given);
}
#endif

using block = std::array<std::uint8_t, CONGURAHA_BLOCK>;
using round_keys = std::array<std::uint8_t, CONGURAHA_KEYS>;

/* Bytes that are the caller's, and stay so: where they begin, and how many they are. */
template <class Byte> class view {
public:
    constexpr view() noexcept = default;
    constexpr view(Byte *data, std::size_t size) noexcept : first(data), count(size) {}
    view(std::nullptr_t, std::size_t) = delete; /* {0, 2} is not two bytes; {} is none */
    /* Of all that std::data and std::size know, where its elements are bytes. */
    template <class Bytes,
              class = std::enable_if_t<std::is_convertible_v<decltype(std::data(std::declval<Bytes &>())), Byte *>>>
    constexpr view(Bytes &&bytes) noexcept : first(std::data(bytes)), count(std::size(bytes)) {}
    [[nodiscard]] constexpr Byte *data() const noexcept { return first; }
    [[nodiscard]] constexpr std::size_t size() const noexcept { return count; }
    [[nodiscard]] constexpr Byte *begin() const noexcept { return first; }
    [[nodiscard]] constexpr Byte *end() const noexcept { return first + count; }

private:
    Byte *first = nullptr;
    std::size_t count = 0;
};
using input = view<const std::uint8_t>;
using output = view<std::uint8_t>;

/* A session as a value. One that was not opened, was moved from or wiped answers not_opened. A copy is a session of
   its own in the same state; to encrypt with both is to use one keystream twice. Its end wipes it. */
class session {
public:
    session() noexcept = default;
    explicit session(const conguraha_session &stored) noexcept : state(stored) {}
    session(const session &) noexcept = default;
    session(session &&other) noexcept : state(other.state) { other.wipe(); }
    session &operator=(const session &) noexcept = default;
    session &operator=(session &&other) noexcept
    {
        if (this != &other) {
            state = other.state;
            other.wipe();
        }
        return *this;
    }
    ~session() { wipe(); }

    [[nodiscard]] answer open(mode of, direction way, std::size_t n, input key, input iv) noexcept
    {
        return open_counter(of, way, n, 8 * CONGURAHA_BLOCK, key, iv);
    }
    [[nodiscard]] answer open_counter(mode of, direction way, std::size_t n, std::size_t m, input key,
                                      input iv) noexcept
    {
        return answer(conguraha_session_open_counter(&state, static_cast<std::size_t>(of), conguraha_direction(way), n,
                                                     m, key.data(), key.size(), iv.data(), iv.size()));
    }
    [[nodiscard]] answer feed(input text, output out, std::size_t *runs = nullptr) noexcept
    {
        return answer(conguraha_session_feed_bytes(&state, text.data(), text.size(), out.data(), out.size(), runs));
    }
    [[nodiscard]] answer feed_bits(input text, std::size_t bits, output out, std::size_t place = 0,
                                   std::size_t *runs = nullptr) noexcept
    {
        return answer(conguraha_session_feed_bits(&state, text.data(), text.size(), bits, out.data(), out.size(),
                                                  place, runs));
    }
    [[nodiscard]] bool alike(const session &other) const noexcept
    {
        return conguraha_session_alike(&state, &other.state) != 0;
    }
    [[nodiscard]] static session carried(const conguraha_session32 &older) noexcept
    {
        session made;
        conguraha_session_carry(&made.state, &older);
        return made;
    }
    void wipe() noexcept { conguraha_wipe(&state, sizeof state); }
    /* As the C calls have it, to be read or stored. */
    [[nodiscard]] const conguraha_session &stored() const noexcept { return state; }

private:
    conguraha_session state{};
};

[[nodiscard]] inline answer forecast(mode of, std::size_t n, std::size_t bits, std::size_t &bytes,
                                     std::size_t &runs) noexcept
{
    return answer(conguraha_forecast(static_cast<std::size_t>(of), n, bits, &bytes, &runs));
}
[[nodiscard]] inline answer counter_place(const block &iv, const block &counter, std::size_t m,
                                          block &increments) noexcept
{
    return answer(conguraha_counter_place(iv.data(), counter.data(), m, increments.data()));
}
[[nodiscard]] inline answer pad(input text, std::size_t bits, output out, std::size_t place,
                                std::size_t &padded_bits) noexcept
{
    return answer(conguraha_pad_bits(text.data(), text.size(), bits, out.data(), out.size(), place, &padded_bits));
}
[[nodiscard]] inline answer unpad(input padded, std::size_t bits, std::size_t &text_bits) noexcept
{
    return answer(conguraha_unpad_bits(padded.data(), padded.size(), bits, &text_bits));
}
[[nodiscard]] inline answer cts_encrypt(input key, input iv, input text, output out) noexcept
{
    return answer(conguraha_cts_encrypt(key.data(), key.size(), iv.data(), iv.size(), text.data(), text.size(),
                                        out.data(), out.size()));
}
[[nodiscard]] inline answer cts_decrypt(input key, input iv, input sent, output out) noexcept
{
    return answer(conguraha_cts_decrypt(key.data(), key.size(), iv.data(), iv.size(), sent.data(), sent.size(),
                                        out.data(), out.size()));
}
/* `neighbour` becomes a part of the IV or of the ciphertext, or empty where it is refused. */
[[nodiscard]] inline answer cbc_neighbour(input iv, input ciphertext, std::size_t j, input &neighbour) noexcept
{
    const std::uint8_t *found = nullptr;
    const auto number = conguraha_cbc_neighbour(iv.data(), iv.size(), ciphertext.data(), ciphertext.size(), j, &found);
    neighbour = found ? input(found, CONGURAHA_BLOCK) : input();
    return answer(number);
}
[[nodiscard]] inline answer cbc_block(input key, input iv, input ciphertext, std::size_t j, block &out) noexcept
{
    return answer(conguraha_cbc_block(key.data(), key.size(), iv.data(), iv.size(), ciphertext.data(),
                                      ciphertext.size(), j, out.data()));
}
[[nodiscard]] inline answer aes_encrypt(input key, const block &text, block &out) noexcept
{
    return answer(conguraha_aes_encrypt(key.data(), key.size(), text.data(), out.data()));
}
[[nodiscard]] inline answer aes_decrypt(input key, const block &sent, block &out) noexcept
{
    return answer(conguraha_aes_decrypt(key.data(), key.size(), sent.data(), out.data()));
}
[[nodiscard]] inline answer aes_expand(input key, std::size_t &rounds, round_keys &keys) noexcept
{
    return answer(conguraha_aes_expand(key.data(), key.size(), &rounds, keys.data()));
}

} // namespace conguraha
#endif
