// Clients of an echo server on 127.0.0.1: `echo_load PORT CONNECTIONS BYTES SECONDS`. Each connection sends a numbered block and waits until
// all of it is back; every byte is compared. It writes the round trips a second, and the median and the 99th percentile of their times in
// microseconds; 1 where a byte was wrong or a connection failed. Nothing of it is proved.
#include <arpa/inet.h>
#include <netinet/in.h>
#include <netinet/tcp.h>
#include <sys/epoll.h>
#include <sys/socket.h>
#include <unistd.h>

#include <algorithm>
#include <chrono>
#include <cstdint>
#include <cstdio>
#include <cstdlib>
#include <vector>

using Clock = std::chrono::steady_clock;

struct Connection {
  int socket;
  std::uint32_t number;
  std::uint64_t block = 0;
  std::size_t back = 0;
  Clock::time_point sent{};
};

char byte_at(const Connection& of, std::size_t at) { return char(of.number * 131 + of.block * 31 + at * 7); }

bool send_block(Connection& to, std::size_t bytes) {
  std::vector<char> block(bytes);
  for (std::size_t at = 0; at < bytes; ++at) block[at] = byte_at(to, at);
  to.back = 0;
  to.sent = Clock::now();
  for (std::size_t sent = 0; sent < bytes;) {
    const auto more = send(to.socket, block.data() + sent, bytes - sent, MSG_NOSIGNAL);
    if (more <= 0) return false;
    sent += std::size_t(more);
  }
  return true;
}

// What is there of the block; false where it isn't what was sent.
bool receive(Connection& from, std::size_t bytes) {
  char came[65536];
  const auto many = recv(from.socket, came, std::min(bytes - from.back, sizeof came), 0);
  if (many <= 0) return false;
  for (std::size_t at = 0; at < std::size_t(many); ++at)
    if (came[at] != byte_at(from, from.back + at)) return false;
  from.back += std::size_t(many);
  return true;
}

int main(int count, char** words) {
  if (count != 5) return std::fputs("usage: echo_load PORT CONNECTIONS BYTES SECONDS\n", stderr), 1;
  const std::size_t bytes = std::strtoull(words[3], nullptr, 10);
  std::vector<Connection> connections;
  const int poll = epoll_create1(0);
  sockaddr_in to{};
  to.sin_family = AF_INET;
  to.sin_port = htons(std::uint16_t(std::atoi(words[1])));
  to.sin_addr.s_addr = htonl(INADDR_LOOPBACK);
  for (int number = 0; number < std::atoi(words[2]); ++number) {
    const int socket_ = socket(AF_INET, SOCK_STREAM, 0);
    const int on = 1;
    setsockopt(socket_, IPPROTO_TCP, TCP_NODELAY, &on, sizeof on);
    if (connect(socket_, reinterpret_cast<sockaddr*>(&to), sizeof to) != 0) return std::perror("connect"), 1;
    connections.push_back({socket_, std::uint32_t(number)});
    epoll_event event{EPOLLIN, {.u32 = std::uint32_t(number)}};
    epoll_ctl(poll, EPOLL_CTL_ADD, socket_, &event);
  }
  std::vector<double> took;
  const auto began = Clock::now();
  const auto end = began + std::chrono::milliseconds(std::int64_t(1000 * std::atof(words[4])));
  for (auto& one : connections)
    if (!send_block(one, bytes)) return std::fputs("a connection failed\n", stderr), 1;
  for (auto under_way = connections.size(); under_way > 0;) {
    epoll_event events[256];
    const int many = epoll_wait(poll, events, 256, 10000);
    if (many <= 0) return std::fputs("nothing came for ten seconds\n", stderr), 1;
    for (int at = 0; at < many; ++at) {
      auto& one = connections[events[at].data.u32];
      if (!receive(one, bytes)) return std::fputs("a connection failed, or a byte is wrong\n", stderr), 1;
      if (one.back < bytes) continue;
      const auto now = Clock::now();
      took.push_back(std::chrono::duration<double, std::micro>(now - one.sent).count());
      ++one.block;
      if (now >= end) --under_way;
      else if (!send_block(one, bytes)) return std::fputs("a connection failed\n", stderr), 1;
    }
  }
  const double seconds = std::chrono::duration<double>(Clock::now() - began).count();
  std::sort(took.begin(), took.end());
  std::printf("%.0f %.1f %.1f\n", double(took.size()) / seconds, took[took.size() / 2], took[took.size() * 99 / 100]);
}
