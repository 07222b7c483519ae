/* The vector of SP 800-38A for CFB with segments of 8 bits, from C++: the text 6bc1 in two feeds, a byte each; then
   the same session is asked for more than the output holds. Prints what the text became, 3b79, and how often the block
   cipher was run; the refusal's sentence; and that the refused feed changed nothing: the session still is its copy.

  c++ -std=c++17 examples/feed.cpp $(pkg-config --cflags --libs conguraha) -o feed
*/
#include <conguraha.hpp>
#include <cstdio>
#include <vector>

int main()
{
    const std::array<std::uint8_t, 16> key = {0x2b, 0x7e, 0x15, 0x16, 0x28, 0xae, 0xd2, 0xa6,
                                              0xab, 0xf7, 0x15, 0x88, 0x09, 0xcf, 0x4f, 0x3c};
    const std::array<std::uint8_t, 16> iv = {0, 1, 2, 3, 4, 5, 6, 7, 8, 9, 10, 11, 12, 13, 14, 15};
    const std::vector<std::uint8_t> text = {0x6b, 0xc1};
    std::vector<std::uint8_t> sent(text.size());

    try {
        conguraha::session session;
        conguraha::expect(session.open(conguraha::mode::cfb, conguraha::direction::encrypt, 8, key, iv));
        std::size_t all_runs = 0;
        for (std::size_t i = 0; i < text.size(); i++) {
            std::size_t runs = 0;
            conguraha::expect(session.feed({&text[i], 1}, {&sent[i], 1}, &runs));
            all_runs += runs;
        }
        std::printf("%02x%02x, %zu runs\n", sent[0], sent[1], all_runs);

        const conguraha::session copy = session;
        const std::vector<std::uint8_t> more(3);
        const conguraha::answer answer = session.feed(more, sent);
        std::printf("%d, %s\n", static_cast<int>(answer), conguraha::sentence(answer));
        std::printf("%s\n", session.alike(copy) ? "unchanged" : "changed");
    } catch (const conguraha::refused &refusal) {
        std::printf("%s\n", refusal.what());
        return 1;
    }
    return 0;
}
