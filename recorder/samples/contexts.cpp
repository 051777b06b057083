// Two contexts: one with a single thread, which owns the results, and one with three threads, which computes them and hands each
// one over by a post to its owner.
//
//   -DMISSING_POST  a result is stored where it was computed

#include "asio_recorder.hpp"

#include <boost/asio/executor_work_guard.hpp>
#include <boost/asio/io_context.hpp>
#include <boost/asio/post.hpp>

#include <atomic>
#include <chrono>
#include <future>
#include <iostream>
#include <thread>
#include <utility>
#include <vector>

#include <unistd.h>

namespace asio = boost::asio;
using namespace std::chrono_literals;

constexpr int tasks = 30;

// What a handler does with what it touches takes some time, so that a mistake shows.
void work() { std::this_thread::sleep_for(100us); }

class results {
 public:
  results(asio::io_context& owner, asio::io_context& computing) : owner_(owner), computing_(computing) {}

  void compute(int number) {
    asio::post(computing_, [this, number] {
      asio_recorder::label("compute");
      work();
      hand_over([this, value = number * number] {
        asio_recorder::claim here(sums_);
        total_ += value;
        work();
        if (++stored_ == tasks) complete_.set_value();
      });
    });
  }

  int wait() {
    complete_.get_future().wait();
    return total_;
  }

 private:
  template <class Function>
  void hand_over(Function function) {
#ifdef MISSING_POST
    function();
#else
    asio::post(owner_, [function = std::move(function)] {
      asio_recorder::label("store");
      function();
    });
#endif
  }

  asio::io_context &owner_, &computing_;
  int total_ = 0;
  std::atomic<int> stored_ = 0;
  asio_recorder::thing sums_{"results"};
  std::promise<void> complete_;
};

int main() {
  alarm(10);
  asio::io_context owner, computing;
  auto more_to_own = asio::make_work_guard(owner);
  auto more_to_compute = asio::make_work_guard(computing);
  std::vector<std::thread> threads;
  const auto run = [](asio::io_context& context) {
    asio_recorder::works(context);
    context.run();
  };
  threads.emplace_back([&] { run(owner); });
  for (int i = 0; i < 3; ++i) threads.emplace_back([&] { run(computing); });

  results all(owner, computing);
  for (int i = 0; i < tasks; ++i) all.compute(i);
  std::cout << "the sum of squares is " << all.wait() << "\n";
  more_to_own.reset();
  more_to_compute.reset();
  for (auto& thread : threads) thread.join();
}
