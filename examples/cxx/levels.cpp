// Sends levels of a universe by multicast, slot 1 full, and ends it: levels UNIVERSE [SECONDS [UDP-PORT [OWN ADDRESS]]]
#include <arpa/inet.h>
#include <chrono>
#include <sacn.hpp>
#include <thread>

int main(int count, char **words) {
    const auto word = [&](int place, const char *other) { return std::string(place < count ? words[place] : other); };
    const auto universe = std::uint16_t(std::stoi(word(1, "1")));
    sacn::Source source({0x5f, 0xcd, 0x1d, 0x5c, 0x2f, 0x0b, 0x4c, 0x3a, 0x9f, 0x0e, 0x6f, 0x9a, 0x5b, 0x6d, 0x7e, 0x13}, "levels.cpp");
    const sockaddr_in own{AF_INET, 0, {inet_addr(word(4, "0.0.0.0").c_str())}, {}};
    const int out = socket(AF_INET, SOCK_DGRAM, 0);
    if (bind(out, (const sockaddr *)&own, sizeof own)) return 4;
    const auto began = std::chrono::steady_clock::now();
    const std::uint64_t end = 1000 * std::stoull(word(2, "5"));
    const std::uint8_t slots[] = {255};
    source.add(universe);
    source.levels(universe, slots, sizeof slots);
    for (bool is_ending = false; source.universes()[0].state != SACN_UNIVERSE_STOPPED;) {
        const auto now = std::uint64_t((std::chrono::steady_clock::now() - began) / std::chrono::milliseconds(1));
        if (now >= end && !is_ending) source.end_all(), is_ending = true;
        while (const auto due = source.poll(now)) {
            const sockaddr_in to{AF_INET, htons(std::uint16_t(std::stoi(word(3, "5568")))), {htonl(0xefff0000u | due->universe())}, {}};
            sendto(out, due->octets.data(), due->count, 0, (const sockaddr *)&to, sizeof to);
        }
        std::this_thread::sleep_until(began + std::chrono::milliseconds(std::min(source.wakes(), is_ending ? now + 25 : end)));
    }
}
