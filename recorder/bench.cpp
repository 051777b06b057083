// What recording costs: ns a handler, of chains of postings over 8 strands. It prints the least and the median of 7 measures.
//
//   g++ -std=c++20 -O2 -I recorder recorder/bench.cpp -o plain -pthread
//   g++ -std=c++20 -O2 -I recorder -DBOOST_ASIO_CUSTOM_HANDLER_TRACKING='"asio_recorder.hpp"' recorder/bench.cpp -o tracked -pthread
//
//   ./plain THREADS HANDLERS WORK_NS          without the header
//   ./tracked ..                              compiled in, and off
//   ASIO_RUN=run ./tracked ..                 on; -DCLAIMS adds a claim to each handler

#include "asio_recorder.hpp"

#include <boost/asio/io_context.hpp>
#include <boost/asio/post.hpp>
#include <boost/asio/strand.hpp>

#include <algorithm>
#include <array>
#include <chrono>
#include <cstdlib>
#include <deque>
#include <iostream>
#include <thread>
#include <vector>

namespace asio = boost::asio;
using steady = std::chrono::steady_clock;

constexpr int chains = 8, measures = 7;

// Each handler posts the next one.
class chain {
 public:
  chain(asio::io_context& context, long handlers, std::chrono::nanoseconds work)
      : strand_(asio::make_strand(context)), left_(handlers), work_(work) {}

  void start() {
    asio::post(strand_, [this] { go(); });
  }

 private:
  void go() {
#ifdef CLAIMS
    asio_recorder::claim here(touched_);
#endif
    if (work_.count() > 0)
      for (const auto end = steady::now() + work_; steady::now() < end;) {}
    if (--left_ > 0) start();
  }

  asio::strand<asio::io_context::executor_type> strand_;
  long left_;
  std::chrono::nanoseconds work_;
#ifdef CLAIMS
  asio_recorder::thing touched_{"chain"};
#endif
};

double measure(int threads, long handlers, std::chrono::nanoseconds work) {
  asio::io_context context(threads);
  std::deque<chain> all;
  for (int i = 0; i < chains; ++i) all.emplace_back(context, handlers / chains, work);
  for (chain& each : all) each.start();
  const auto begin = steady::now();
  std::vector<std::thread> running;
  for (int i = 0; i < threads; ++i) running.emplace_back([&] { context.run(); });
  for (auto& thread : running) thread.join();
  return std::chrono::duration<double, std::nano>(steady::now() - begin).count() / static_cast<double>(handlers);
}

int main(int count, char** words) {
  if (count != 4) {
    std::cerr << "usage: " << words[0] << " THREADS HANDLERS WORK_NS\n";
    return 1;
  }
  std::array<double, measures> took;
  for (double& each : took) each = measure(std::atoi(words[1]), std::atol(words[2]), std::chrono::nanoseconds(std::atol(words[3])));
  std::sort(took.begin(), took.end());
  std::cout << took.front() << " to " << took[measures / 2] << " ns a handler\n";
}
