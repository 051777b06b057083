// A chat server and three clients on 127.0.0.1. Each connection has a strand; the room has one of its own, and only handlers on
// this strand touch its list of members.
//
//   -DMISSING_STRAND  the list is touched by the handler that wants it, on the strand of its own connection
//   -DTWO_WRITES      the second half of a line is written while the first half is still being written

#include "asio_recorder.hpp"

#include <boost/asio.hpp>

#include <atomic>
#include <chrono>
#include <deque>
#include <iostream>
#include <memory>
#include <set>
#include <string>
#include <thread>
#include <utility>
#include <vector>

#include <unistd.h>

namespace asio = boost::asio;
using asio::ip::tcp;
using boost::system::error_code;
using namespace std::chrono_literals;

constexpr int clients = 3, lines_of_each = 5;

// What a handler does with what it touches takes some time, so that a mistake shows.
void work() { std::this_thread::sleep_for(100us); }

class member;

class room {
 public:
  explicit room(tcp::acceptor& acceptor) : acceptor_(acceptor), strand_(asio::make_strand(acceptor.get_executor())) {}

  void join(std::shared_ptr<member> who) {
    touch([this, who] {
      asio_recorder::label("join");
      asio_recorder::claim here(list_);
      members_.insert(who);
      work();
    });
  }

  void leave(std::shared_ptr<member> who) {
    touch([this, who] {
      asio_recorder::label("leave");
      asio_recorder::claim here(list_);
      members_.erase(who);
      work();
      if (--expected_ == 0) asio::post(acceptor_.get_executor(), [this] { acceptor_.close(); });
    });
  }

  void say(std::string line);

 private:
  template <class Function>
  void touch(Function function) {
#ifdef MISSING_STRAND
    function();
#else
    asio::post(strand_, std::move(function));
#endif
  }

  tcp::acceptor& acceptor_;
  asio::strand<tcp::acceptor::executor_type> strand_;
  std::set<std::shared_ptr<member>> members_;
  asio_recorder::thing list_{"members"};
  std::atomic<int> expected_ = clients;
};

// A connection. All its handlers run on the strand of its socket.
class member : public std::enable_shared_from_this<member> {
 public:
  member(tcp::socket socket, room& in) : socket_(std::move(socket)), room_(in) {}

  void start() {
    asio::dispatch(socket_.get_executor(), [self = shared_from_this()] {
      self->room_.join(self);
      self->read();
    });
  }

  void deliver(std::string line) {
    asio::post(socket_.get_executor(), [self = shared_from_this(), line = std::move(line)] {
      asio_recorder::label("deliver");
      asio_recorder::claim here(self->queue_);
      self->unsent_.push_back(line);
      if (self->unsent_.size() == 1) self->write();
    });
  }

 private:
  void read() {
    asio::async_read_until(socket_, asio::dynamic_buffer(input_), '\n',
                           [self = shared_from_this()](error_code error, std::size_t size) {
                             asio_recorder::label("line read");
                             if (error) return self->room_.leave(self);
                             self->room_.say(self->input_.substr(0, size));
                             self->input_.erase(0, size);
                             self->read();
                           });
  }

  void write() {
    asio::const_buffer line = asio::buffer(unsent_.front());
#ifdef TWO_WRITES
    asio::async_write(socket_, asio::buffer(line, line.size() / 2), [self = shared_from_this()](error_code, std::size_t) {});
    line += line.size() / 2;
#endif
    asio::async_write(socket_, line, [self = shared_from_this()](error_code error, std::size_t) {
      asio_recorder::label("line written");
      asio_recorder::claim here(self->queue_);
      if (error) return;
      self->unsent_.pop_front();
      if (!self->unsent_.empty()) self->write();
    });
  }

  tcp::socket socket_;
  room& room_;
  std::string input_;
  std::deque<std::string> unsent_;
  asio_recorder::thing queue_{"unsent lines"};
};

void room::say(std::string line) {
  touch([this, line = std::move(line)] {
    asio_recorder::label("say");
    asio_recorder::claim here(list_);
    for (const auto& each : members_) each->deliver(line);
    work();
  });
}

void accept(tcp::acceptor& acceptor, room& into, asio::io_context& context) {
  acceptor.async_accept(asio::make_strand(context), [&](error_code error, tcp::socket socket) {
    asio_recorder::label("accept");
    if (error) return;
    std::make_shared<member>(std::move(socket), into)->start();
    accept(acceptor, into, context);
  });
}

// A client sends lines, and waits for each to come back. It uses blocking calls, of which the recorder sees nothing.
int chat(tcp::endpoint server, int number) {
  asio::io_context context;
  tcp::socket socket(context);
  socket.connect(server);
  std::string input;
  int received = 0;
  for (int k = 0; k < lines_of_each; ++k) {
    const std::string line = "client " + std::to_string(number) + ", line " + std::to_string(k) + "\n";
    asio::write(socket, asio::buffer(line));
    for (bool own = false; !own; ++received) {
      const std::size_t size = asio::read_until(socket, asio::dynamic_buffer(input), '\n');
      own = input.substr(0, size) == line;
      input.erase(0, size);
    }
  }
  return received;
}

int main() {
  alarm(10);
  asio::io_context context;
  tcp::acceptor acceptor(asio::make_strand(context), tcp::endpoint(asio::ip::address_v4::loopback(), 0));
  room only(acceptor);
  accept(acceptor, only, context);

  std::vector<std::thread> threads;
  for (int i = 0; i < 4; ++i)
    threads.emplace_back([&] {
      asio_recorder::works(context);
      context.run();
    });
  std::atomic<int> received = 0;
  for (int i = 0; i < clients; ++i) threads.emplace_back([&, i] { received += chat(acceptor.local_endpoint(), i); });
  for (auto& thread : threads) thread.join();
  std::cout << received << " lines received\n";
}
