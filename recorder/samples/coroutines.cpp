// An echo server of coroutines, with three clients on 127.0.0.1. Each connection has a strand, on which its coroutine is resumed.
//
//   -DCLAIM_ACROSS_AWAIT  a coroutine claims what it touches while it is suspended, as one does that holds a lock across co_await

#include "asio_recorder.hpp"

#include <boost/asio.hpp>

#include <array>
#include <atomic>
#include <iostream>
#include <thread>
#include <utility>
#include <vector>

#include <unistd.h>

namespace asio = boost::asio;
using asio::ip::tcp;

constexpr int clients = 3, rounds = 6;
constexpr std::size_t message = 6;

asio::awaitable<void> serve(tcp::socket socket, std::atomic<std::size_t>& total) {
  std::array<char, 64> data;
  std::size_t echoed = 0;
  asio_recorder::thing state("connection");
  try {
    for (;;) {
      const std::size_t size = co_await socket.async_read_some(asio::buffer(data), asio::use_awaitable);
      {
        asio_recorder::label("read");
        asio_recorder::claim here(state);
        echoed += size;
#ifdef CLAIM_ACROSS_AWAIT
        co_await asio::async_write(socket, asio::buffer(data, size), asio::use_awaitable);
#endif
      }
#ifndef CLAIM_ACROSS_AWAIT
      co_await asio::async_write(socket, asio::buffer(data, size), asio::use_awaitable);
#endif
    }
  } catch (const boost::system::system_error&) {  // the client has gone
    asio_recorder::claim here(state);
    total += echoed;
  }
}

asio::awaitable<void> listen(tcp::acceptor& acceptor, std::atomic<std::size_t>& total) {
  for (int i = 0; i < clients; ++i) {
    auto strand = asio::make_strand(acceptor.get_executor());
    tcp::socket socket = co_await acceptor.async_accept(strand, asio::use_awaitable);
    asio::co_spawn(strand, serve(std::move(socket), total), asio::detached);
  }
}

// It uses blocking calls, of which the recorder sees nothing.
void talk(tcp::endpoint server) {
  asio::io_context context;
  tcp::socket socket(context);
  socket.connect(server);
  std::array<char, message> data{'h', 'e', 'l', 'l', 'o', '\n'};
  for (int i = 0; i < rounds; ++i) {
    asio::write(socket, asio::buffer(data));
    asio::read(socket, asio::buffer(data));
  }
}

int main() {
  alarm(10);
  asio::io_context context;
  tcp::acceptor acceptor(context, tcp::endpoint(asio::ip::address_v4::loopback(), 0));
  std::atomic<std::size_t> total = 0;
  asio::co_spawn(context, listen(acceptor, total), asio::detached);

  std::vector<std::thread> threads;
  for (int i = 0; i < 4; ++i)
    threads.emplace_back([&] {
      asio_recorder::works(context);
      context.run();
    });
  for (int i = 0; i < clients; ++i) threads.emplace_back([&] { talk(acceptor.local_endpoint()); });
  for (auto& thread : threads) thread.join();
  std::cout << total << " bytes echoed\n";
}
