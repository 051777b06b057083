// An echo server on Boost.Asio, for measures beside tcp_echo: `asio_echo PORT THREADS`. A strand and an idle timer a connection. It writes
// the port it listens on, and ends when its standard input does. Nothing of it is proved.
#include <utility>

#include <boost/asio.hpp>

#include <array>
#include <chrono>
#include <cstdio>
#include <cstdlib>
#include <memory>
#include <thread>
#include <vector>

namespace asio = boost::asio;
using asio::ip::tcp;
using boost::system::error_code;

class Link : public std::enable_shared_from_this<Link> {
public:
  explicit Link(tcp::socket socket) : socket_(std::move(socket)), idle_(socket_.get_executor()) {
    error_code ignored;
    socket_.set_option(tcp::no_delay(true), ignored);
  }

  auto executor() { return socket_.get_executor(); }

  void start() {
    watch();
    read();
  }

private:
  // Closes the connection once nothing has come for a minute.
  void watch() {
    idle_.expires_after(std::chrono::minutes(1));
    idle_.async_wait([self = shared_from_this()](error_code failed) {
      if (failed) return;
      if (!self->active_) return self->close();
      self->active_ = false;
      self->watch();
    });
  }

  void read() {
    socket_.async_read_some(asio::buffer(bytes_), [self = shared_from_this()](error_code failed, std::size_t came) {
      if (failed) return self->close();
      self->active_ = true;
      self->write(came);
    });
  }

  void write(std::size_t came) {
    asio::async_write(socket_, asio::buffer(bytes_, came), [self = shared_from_this()](error_code failed, std::size_t) {
      if (failed) return self->close();
      self->read();
    });
  }

  void close() {
    error_code ignored;
    socket_.close(ignored);
    idle_.cancel(ignored);
  }

  tcp::socket socket_;
  asio::steady_timer idle_;
  std::array<char, 16384> bytes_{};
  bool active_ = false;
};

void accept(tcp::acceptor& listener, asio::io_context& context) {
  listener.async_accept(asio::make_strand(context), [&](error_code failed, tcp::socket socket) {
    if (failed == asio::error::operation_aborted) return;
    if (!failed) {
      auto link = std::make_shared<Link>(std::move(socket));
      asio::dispatch(link->executor(), [link] { link->start(); });
    }
    accept(listener, context);
  });
}

int main(int count, char** words) {
  if (count != 3) return std::fputs("usage: asio_echo PORT THREADS\n", stderr), 1;
  const int threads = std::atoi(words[2]);
  asio::io_context context(threads);
  tcp::acceptor listener(context, tcp::endpoint(asio::ip::address_v4::loopback(), static_cast<unsigned short>(std::atoi(words[1]))));
  accept(listener, context);
  std::printf("port %u\n", unsigned(listener.local_endpoint().port()));
  std::fflush(stdout);
  std::vector<std::thread> workers;
  for (int n = 0; n < threads; ++n) workers.emplace_back([&context] { context.run(); });
  while (std::getchar() != EOF) {}
  context.stop();
  for (auto& worker : workers) worker.join();
}
