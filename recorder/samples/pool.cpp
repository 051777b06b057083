// A thread pool counts letters. The handlers share one table, which a mutex guards; what they log is on a strand of the pool.
//
//   -DNO_MUTEX  the table is touched without the mutex

#include "asio_recorder.hpp"

#include <boost/asio/post.hpp>
#include <boost/asio/strand.hpp>
#include <boost/asio/thread_pool.hpp>

#include <array>
#include <chrono>
#include <iostream>
#include <mutex>
#include <string>
#include <thread>

#include <unistd.h>

namespace asio = boost::asio;
using namespace std::chrono_literals;

// What a handler does with what it touches takes some time, so that a mistake shows.
void work() { std::this_thread::sleep_for(100us); }

class letter_count {
 public:
  void add(const std::string& text) {
#ifndef NO_MUTEX
    const std::lock_guard<asio_recorder::mutex> guard(mutex_);
#endif
    asio_recorder::claim here(table_);
    for (char c : text)
      if (c >= 'a' && c <= 'z') ++counts_[static_cast<std::size_t>(c - 'a')];
    work();
  }

  int of(char c) {
    asio_recorder::claim here(table_);
    return counts_[static_cast<std::size_t>(c - 'a')];
  }

 private:
  asio_recorder::mutex mutex_{"counts"};
  asio_recorder::thing table_{"counts"};
  std::array<int, 26> counts_{};
};

int main() {
  alarm(10);
  letter_count counts;
  int logged = 0;
  asio_recorder::thing log("log");
  asio_recorder::mark joined("joined");

  asio::thread_pool pool(4);
  auto strand = asio::make_strand(pool.get_executor());
  for (int i = 0; i < 40; ++i)
    asio::post(pool, [&, i] {
      asio_recorder::label("count");
      counts.add("line " + std::to_string(i) + " of the text");
      asio::post(strand, [&] {
        asio_recorder::label("log");
        {
          asio_recorder::claim here(log);
          ++logged;
        }
        joined.here();
      });
    });
  pool.join();
  joined.after();  // the handlers have ended, so main may touch what was theirs

  asio_recorder::claim here(log);
  std::cout << logged << " lines counted, with " << counts.of('t') << " times t\n";
}
