// Jobs of some steps, each step with a deadline. A job's two timers are on its strand, so its handlers run one at a time.
//
//   -DTIMER_WITHOUT_STRAND  the deadline's timer is on the context: its handler runs beside the job's own

#include "asio_recorder.hpp"

#include <boost/asio/error.hpp>
#include <boost/asio/io_context.hpp>
#include <boost/asio/post.hpp>
#include <boost/asio/steady_timer.hpp>
#include <boost/asio/strand.hpp>

#include <chrono>
#include <iostream>
#include <memory>
#include <thread>
#include <vector>

#include <unistd.h>

namespace asio = boost::asio;
using boost::system::error_code;
using namespace std::chrono_literals;

// What a handler does with what it touches takes some time, so that a mistake shows.
void work() { std::this_thread::sleep_for(100us); }

class job : public std::enable_shared_from_this<job> {
 public:
  explicit job(asio::io_context& context)
      : strand_(asio::make_strand(context)),
        step_(strand_),
#ifdef TIMER_WITHOUT_STRAND
        deadline_(context) {
#else
        deadline_(strand_) {
#endif
  }

  void start() {
    asio::post(strand_, [self = shared_from_this()] { self->step(); });
  }

 private:
  void step() {
    asio_recorder::label("step");
    asio_recorder::claim here(state_);
    work();
    if (left_-- == 0) {
      deadline_.cancel();
      return;
    }
    deadline_.expires_after(1ms);  // this aborts the wait for the deadline before
    deadline_.async_wait([self = shared_from_this()](error_code error) { self->deadline(error); });
    step_.expires_after(left_ % 3 == 0 ? 2ms : 200us);
    step_.async_wait([self = shared_from_this()](error_code) { self->step(); });
  }

  void deadline(error_code error) {
    asio_recorder::label("deadline");
    asio_recorder::claim here(state_);
    work();
    if (error) return;
    ++late_;
    step_.cancel();
  }

  asio::strand<asio::io_context::executor_type> strand_;
  asio::steady_timer step_, deadline_;
  int left_ = 9, late_ = 0;
  asio_recorder::thing state_{"job"};
};

int main() {
  alarm(10);
  asio::io_context context;
  for (int i = 0; i < 4; ++i) std::make_shared<job>(context)->start();

  // One of these waits is aborted, one is left when the context stops: it is dropped with the context.
  asio::steady_timer far(context, 1h);
  int aborted = 0;
  for (int i = 0; i < 2; ++i)
    far.async_wait([&](error_code error) {
      asio_recorder::label("far");
      aborted += error == asio::error::operation_aborted;
    });
  asio::post(context, [&] { far.cancel_one(); });
  asio::steady_timer end(context, 50ms);
  end.async_wait([&](error_code) {
    asio_recorder::label("end");
    asio_recorder::stopped(context);
    context.stop();
  });

  std::vector<std::thread> threads;
  for (int i = 0; i < 4; ++i)
    threads.emplace_back([&] {
      asio_recorder::works(context);
      context.run();
    });
  for (auto& thread : threads) thread.join();
  std::cout << aborted << " wait aborted\n";
}
