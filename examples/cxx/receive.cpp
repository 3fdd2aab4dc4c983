// Shows a universe that comes by multicast: prints 'PORT MILLISECONDS FRAME' for each frame that changed.
// usage: receive UNIVERSE [SECONDS [UDP-PORT [ADDRESS OF THE DEVICE TO JOIN ON]]]
#include <arpa/inet.h>
#include <chrono>
#include <iostream>
#include <poll.h>
#include <sacn.hpp>

int main(int count, char **words) {
    const auto word = [&](int place, const char *other) { return std::string(place < count ? words[place] : other); };
    const auto universe = std::uint16_t(std::stoi(word(1, "1"))), port = std::uint16_t(std::stoi(word(3, "5568")));
    auto node = sacn::Node::of_universes({universe});
    const sockaddr_in at{AF_INET, htons(port), {}, {}};
    const ip_mreq group{{htonl(0xefff0000u | universe)}, {inet_addr(word(4, "0.0.0.0").c_str())}};
    pollfd hears{socket(AF_INET, SOCK_DGRAM, 0), POLLIN, 0};
    if (bind(hears.fd, (const sockaddr *)&at, sizeof at)) return std::cerr << "no port\n", 4;
    if (setsockopt(hears.fd, IPPROTO_IP, IP_ADD_MEMBERSHIP, &group, sizeof group)) return std::cerr << "no group\n", 4;
    std::uint64_t now = 0, end = 1000 * std::stoull(word(2, "1000000"));
    std::uint8_t octets[2048];
    std::string shown, line;
    for (const auto began = std::chrono::steady_clock::now(); now < end; shown = line) try {
        line = "";
        for (const auto it : node.frame(now, 1)) line += {"0123456789abcdef"[it / 16], "0123456789abcdef"[it % 16]};
        if (line != shown) std::cout << "1 " << now << ' ' << line << std::endl;
        const std::uint64_t wakes = std::min(node.wakes().value_or(end), now + 1000);
        const ssize_t got = poll(&hears, 1, int(wakes - now)) > 0 ? recv(hears.fd, octets, sizeof octets, 0) : -1;
        now = std::uint64_t((std::chrono::steady_clock::now() - began) / std::chrono::milliseconds(1));
        if (got >= 0) node.take(now, octets, std::size_t(got));
    } catch (const sacn::Error &fault) { std::cerr << fault.what() << '\n'; }
}
