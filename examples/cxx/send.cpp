// Lights slot 1 of a universe by multicast, and ends its stream: send UNIVERSE [SECONDS [UDP-PORT [OWN ADDRESS]]]
#include <arpa/inet.h>
#include <chrono>
#include <iostream>
#include <sacn.hpp>
#include <thread>

int main(int count, char **words) {
    const auto word = [&](int place, const char *other) { return std::string(place < count ? words[place] : other); };
    const std::string universe = word(1, "1"), patch = "patch = [{ channel = 1, slot = 1, universe = " + universe;
    const std::string head = "version = 2\ncid = \"5fcd1d5c-2f0b-4c3a-9f0e-6f9a5b6d7e03\"\nname = \"send.cpp\"\n";
    sacn::Console console(head + "universes = [" + universe + "]\n" + patch + " }]");
    const sockaddr_in own{AF_INET, 0, {inet_addr(word(4, "0.0.0.0").c_str())}, {}};
    const int out = socket(AF_INET, SOCK_DGRAM, 0);
    if (bind(out, (const sockaddr *)&own, sizeof own)) return std::cerr << "no address\n", 4;
    const auto began = std::chrono::steady_clock::now();
    const std::uint64_t end = 1000 * std::stoull(word(2, "5"));
    console.set_level(0, 1, 65535);
    for (bool is_ending = false; console.universes()[0].state != SACN_UNIVERSE_STOPPED;) {
        const auto now = std::uint64_t((std::chrono::steady_clock::now() - began) / std::chrono::milliseconds(1));
        if (now >= end && !is_ending) console.end_universe(now, std::uint16_t(std::stoi(universe))), is_ending = true;
        while (const auto due = console.poll(now)) {
            const in_port_t port = htons(std::uint16_t(std::stoi(word(3, "5568"))));
            const sockaddr_in to{AF_INET, port, {htonl(0xefff0000u | due->universe())}, {}};
            sendto(out, due->octets.data(), due->count, 0, (const sockaddr *)&to, sizeof to);
        }
        const std::uint64_t wakes = std::min(console.wakes(), is_ending ? now + 25 : end);
        std::this_thread::sleep_until(began + std::chrono::milliseconds(wakes));
    }
}
