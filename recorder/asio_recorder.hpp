// Records what a program on Boost.Asio does, as a run: a text of the format "run 1".
//
//   g++ -std=c++20 -DBOOST_ASIO_CUSTOM_HANDLER_TRACKING='"asio_recorder.hpp"' -I recorder program.cpp -pthread
//   ASIO_RUN=program.run ./program
//
// The header is Asio's custom handler tracking, so Asio calls it wherever a handler is created, invoked or destroyed; the
// program needs no change. What a program may add stands in namespace asio_recorder, and does nothing unless the macro is set.
// README.md beside this file says how to use it, and what Asio's hooks don't show.
//
// Environment: ASIO_RUN names the file; without it nothing is recorded. ASIO_RUN_MEMORY is a limit in megabytes on the events
// that are kept in memory (256 by default); past it they go to the file as the program runs.
//
// Tried with Boost 1.74 to 1.88, on Linux. It wants a POSIX system.

#ifndef ASIO_RECORDER_HPP
#define ASIO_RECORDER_HPP

#include <mutex>

namespace asio_recorder {

// A name that a program gives. It has to be a literal, since the recorder keeps the pointer until the run is written.
class literal {
 public:
  consteval literal(const char* text) : text_(text) {}
  constexpr const char* text() const { return text_; }

 private:
  const char* text_;
};

}  // namespace asio_recorder

#ifndef BOOST_ASIO_CUSTOM_HANDLER_TRACKING

// Nothing is recorded: the same names, without a trace in the program.
namespace asio_recorder {

struct thing {
  explicit constexpr thing(literal) {}
};
struct [[nodiscard]] claim {
  explicit claim(const thing&) {}
  claim(const claim&) = delete;
  claim& operator=(const claim&) = delete;
  ~claim() {}
};
struct mutex : std::mutex {
  explicit constexpr mutex(literal) {}
};
struct mark {
  explicit constexpr mark(literal) {}
  void here() {}
  void after() {}
};
inline void label(literal) {}
template <class Context>
void works(Context&) {}
template <class Context>
void stopped(Context&) {}

}  // namespace asio_recorder

#else  // BOOST_ASIO_CUSTOM_HANDLER_TRACKING

#if !__has_include(<sys/mman.h>)
#error "asio_recorder.hpp wants a POSIX system"
#endif

#include <atomic>
#include <cerrno>
#include <charconv>
#include <cstddef>
#include <cstdint>
#include <cstdlib>
#include <cstring>
#include <exception>
#include <memory_resource>
#include <new>
#include <string_view>
#include <unordered_map>
#include <utility>

#include <fcntl.h>
#include <signal.h>
#include <sys/mman.h>
#include <time.h>
#include <unistd.h>

#include <boost/system/error_code.hpp>

namespace boost {
namespace asio {
class execution_context;
}  // namespace asio
}  // namespace boost

namespace asio_recorder {
namespace detail {

// ---------------------------------------------------------------------------------------------------------------------------
// Events, and their positions
//
// Each event draws a position from one counter. Who holds a strand, claim or lock draws for its end before it lets go, and who
// gets it next draws for its begin after that. So the order of positions is an order in which these events happened.

enum class kind : std::uint8_t {
  call, begin, end, thrown, drop, cancel, claim, release, lock, unlock, mark, after, work, stop,
  operation_name, thing_name, lock_name, mark_name
};

enum class outcome : std::uint8_t { ok, aborted, eof, not_found, reset, refused, bad, timed_out, error };

struct event {
  std::uint64_t position;
  std::uint64_t number;    // of the operation, thing, lock or mark; an operation's is the position of its call
  const void* object;      // of a call or cancel: the strand, socket or timer
  const void* context;
  const char* type;        // what Asio calls the object; of a name the source file
  const char* text;        // what Asio calls the function; of a name the text itself
  std::uint64_t value;     // of a begin the bytes, of a call or cancel the native handle, of a name the source line
  detail::kind kind;
  detail::outcome outcome;
  bool inside;             // of a call: its handler began within the call
};

inline constinit std::atomic<bool> recording{false};
alignas(64) inline constinit std::atomic<std::uint64_t> next_position{1};
inline constinit std::atomic<std::uint64_t> next_thing{0}, next_lock{0}, next_mark{0};

// Ends the recording: what comes at or behind this position isn't written.
inline constinit std::atomic<std::uint64_t> end_position{UINT64_MAX};

inline void stop_recording() {
  // The end is set first. A thread that sees that nothing is recorded any more leaves out an event, and all that comes after this
  // event gets a position behind the end; so the run is a first part of what happened, without a hole.
  std::uint64_t unset = UINT64_MAX;
  end_position.compare_exchange_strong(unset, next_position.load());
  recording.store(false);
}

inline void say(const char* what, const char* about = "") {
  for (const char* text : {"asio_recorder: ", what, about, "\n"})
    if (::write(STDERR_FILENO, text, std::strlen(text)) < 0) return;
}

// ---------------------------------------------------------------------------------------------------------------------------
// What a thread keeps

// A piece of a thread's events, in a page of memory. Its thread appends; the file's writer takes from the front.
struct chunk {
  static constexpr std::uint32_t size = (4096 - 32) / sizeof(event);
  std::atomic<std::uint32_t> published{0};
  std::uint32_t taken = 0;
  std::atomic<chunk*> next{nullptr};
  event events[size];
};

// Chunks of which all events are in the file. They are used again, and never freed: the file's writer calls no malloc.
class spare_chunks {
 public:
  void put(chunk* added) {
    added->next.store(std::exchange(first_, added), std::memory_order_relaxed);
    ++count_;
  }
  chunk* get() {
    chunk* found = first_;
    if (!found) return nullptr;
    first_ = found->next.exchange(nullptr, std::memory_order_relaxed);
    --count_;
    found->published.store(0, std::memory_order_relaxed);
    found->taken = 0;
    return found;
  }
  std::size_t count() const { return count_; }

 private:
  chunk* first_ = nullptr;
  std::size_t count_ = 0;
};

// What goes on on a thread: an execution of a handler, the run of a strand (a handler of Asio's own, which executes those of
// the strand), or a call that gives a strand a handler. They are objects on the thread's stack.
struct frame {
  enum class what { execution, strand_run, strand_call };
  frame* outer;
  what doing;
  std::uint64_t operation;
};

struct location {
  location(const char* file, int line, const char* function);
  location(const location&) = delete;
  location& operator=(const location&) = delete;
  ~location();

  const char* file;
  int line;
  const char* function;
  location* outer = nullptr;
  bool entered = false;
};

class thread_log {
 public:
  static constexpr std::uint64_t nothing = UINT64_MAX;

  explicit thread_log(unsigned number) : thread(number) {}

  // Begins an event, and draws its position; null where no memory is left. The caller fills it in, and closes it.
  event* open(detail::kind kind) {
    close();
    if (used_ == chunk::size && !add_chunk()) return nullptr;
    drawing_.store(next_position.load(std::memory_order_relaxed));
    opened_ = &last_->events[used_];
    *opened_ = event{};
    opened_->position = next_position.fetch_add(1);
    opened_->kind = kind;
    return opened_;
  }

  // Publishes the event that was opened last, if it isn't yet.
  void close() {
    if (!opened_) return;
    opened_ = nullptr;
    last_->published.store(++used_, std::memory_order_release);
    drawing_.store(nothing, std::memory_order_release);
  }

  event* opened() const { return opened_; }

  // No event with a position below this one is still to be published by this thread, where none below `bound` is drawn.
  std::uint64_t least_unpublished(std::uint64_t bound) const {
    const std::uint64_t drawing = drawing_.load();
    return drawing < bound ? drawing : bound;
  }

  // The oldest event that was published and not taken. For the file's writer alone, who gets the chunks that are through.
  const event* front(spare_chunks& spare) {
    chunk* c = first_.load(std::memory_order_acquire);
    while (c && c->taken == c->published.load(std::memory_order_acquire)) {
      chunk* following = c->taken == chunk::size ? c->next.load(std::memory_order_acquire) : nullptr;
      if (!following) return nullptr;
      first_.store(following, std::memory_order_relaxed);
      spare.put(std::exchange(c, following));
    }
    return c ? &c->events[c->taken] : nullptr;
  }
  void take() { ++first_.load(std::memory_order_relaxed)->taken; }

  const unsigned thread;
  thread_log* next = nullptr;  // the threads that were there before
  frame* innermost = nullptr;
  location* where = nullptr;

 private:
  bool add_chunk();

  event* opened_ = nullptr;
  chunk* last_ = nullptr;
  std::uint32_t used_ = chunk::size;            // events in the last chunk
  std::atomic<chunk*> first_{nullptr};
  std::atomic<std::uint64_t> drawing_{nothing};  // while an event is open: no more than its position
};

inline constinit std::atomic<thread_log*> threads{nullptr};
inline constinit std::atomic<unsigned> thread_count{0};
inline constinit thread_local thread_log* this_thread = nullptr;

// The log of this thread, while events are recorded; it stays until the process ends, since threads may outlive main.
inline thread_log* get_log() {
  if (!recording.load(std::memory_order_acquire)) return nullptr;
  if (!this_thread) {
    auto* log = new (std::nothrow) thread_log(thread_count.fetch_add(1));
    if (!log) {
      stop_recording();
      return nullptr;
    }
    log->next = threads.load();
    while (!threads.compare_exchange_weak(log->next, log)) {}
    this_thread = log;
  }
  return this_thread;
}

// Records an event of which a number is all there is.
inline void record(detail::kind kind, std::uint64_t number) {
  if (thread_log* log = get_log())
    if (event* e = log->open(kind)) {
      e->number = number;
      log->close();
    }
}

inline void record_name(detail::kind kind, std::uint64_t number, const char* text, const char* file = nullptr, int line = 0) {
  if (thread_log* log = get_log())
    if (event* e = log->open(kind)) {
      e->number = number;
      e->text = text;
      e->type = file;
      e->value = static_cast<std::uint64_t>(line);
      log->close();
    }
}

inline void record_context(detail::kind kind, const void* context) {
  if (thread_log* log = get_log())
    if (event* e = log->open(kind)) {
      e->context = context;
      log->close();
    }
}

// ---------------------------------------------------------------------------------------------------------------------------
// The file
//
// What stands here is also run by a handler of fatal signals, perhaps of one that was raised inside malloc; and that handler waits
// until another thread has written its part. So it takes memory from the system alone, and writes by system calls.

class page_resource : public std::pmr::memory_resource {
  void* do_allocate(std::size_t bytes, std::size_t) override {
    void* at = ::mmap(nullptr, bytes, PROT_READ | PROT_WRITE, MAP_PRIVATE | MAP_ANONYMOUS, -1, 0);
    if (at == MAP_FAILED) throw std::bad_alloc();
    return at;
  }
  void do_deallocate(void* at, std::size_t bytes, std::size_t) override { ::munmap(at, bytes); }
  bool do_is_equal(const memory_resource& other) const noexcept override { return this == &other; }
};

// Lines of words, which go to the system by whole lines.
class line_file {
 public:
  explicit line_file(int descriptor) : descriptor_(descriptor) {}

  template <class First, class... Rest>
  void line(First first, Rest... rest) {
    if (sizeof buffer_ - used_ < most_in_line) flush();
    put(first);
    ((put(' '), put(rest)), ...);
    put('\n');
  }

  void flush() {
    for (std::size_t done = 0; done < used_ && !failed_;) {
      const ssize_t count = ::write(descriptor_, buffer_ + done, used_ - done);
      if (count >= 0) {
        done += static_cast<std::size_t>(count);
      } else if (errno != EINTR) {
        failed_ = true;
        stop_recording();
        say("writing failed: the run ends early");
      }
    }
    used_ = 0;
  }

 private:
  static constexpr std::size_t most_in_word = 200, most_in_line = 2048;

  void put(char c) { buffer_[used_++] = c; }
  void put(std::uint64_t number) {
    used_ = static_cast<std::size_t>(std::to_chars(buffer_ + used_, buffer_ + used_ + 20, number).ptr - buffer_);
  }
  void put(unsigned number) { put(std::uint64_t{number}); }
  // What the format has no room for is replaced.
  void put(std::string_view word) {
    if (word.empty()) put('_');
    for (char c : word.substr(0, most_in_word)) put(c >= ' ' && c <= '~' ? c : '_');
  }
  void put(const char* word) { put(std::string_view(word ? word : "")); }

  const int descriptor_;
  bool failed_ = false;
  std::size_t used_ = 0;
  char buffer_[1 << 16];
};

// Writes events as lines, and gives numbers to what Asio names by addresses and handles.
class run_writer {
 public:
  explicit run_writer(int descriptor) : file_(descriptor) { file_.line("run", 1u); }

  void write(const event& e, unsigned thread) {
    switch (e.kind) {
      case kind::call: write_call(e, thread); break;
      case kind::begin: file_.line(thread, "begin", e.number, code_of(e.outcome), e.value); break;
      case kind::end: file_.line(thread, "end", e.number); break;
      case kind::thrown: file_.line(thread, "throw", e.number); break;
      case kind::drop: file_.line(thread, "drop", e.number); break;
      case kind::cancel: write_cancel(e, thread); break;
      case kind::claim: file_.line(thread, "claim", e.number); break;
      case kind::release: file_.line(thread, "release", e.number); break;
      case kind::lock: file_.line(thread, "lock", e.number); break;
      case kind::unlock: file_.line(thread, "unlock", e.number); break;
      case kind::mark: file_.line(thread, "mark", e.number); break;
      case kind::after: file_.line(thread, "after", e.number); break;
      case kind::work: file_.line(thread, "work", number_in(contexts_, e.context)); break;
      case kind::stop: file_.line(thread, "stop", number_in(contexts_, e.context)); break;
      case kind::operation_name: write_operation_name(e); break;
      case kind::thing_name: file_.line("name", "thing", e.number, e.text); break;
      case kind::lock_name: file_.line("name", "lock", e.number, e.text); break;
      case kind::mark_name: file_.line("name", "mark", e.number, e.text); break;
    }
  }

  void flush() { file_.flush(); }

  static bool is_strand(const char* type) { return std::strncmp(type, "strand", 6) == 0; }

 private:
  template <class Key>
  using numbers = std::pmr::unordered_map<Key, std::uint64_t>;

  template <class Key>
  static std::uint64_t number_in(numbers<Key>& numbers, Key key) {
    return numbers.emplace(key, numbers.size()).first->second;
  }

  static const char* code_of(outcome of) {
    constexpr const char* codes[] = {"ok", "aborted", "eof", "not_found", "reset", "refused", "bad", "timed_out", "error"};
    return codes[static_cast<std::size_t>(of)];
  }

  static bool is_executor(const char* type) {
    const std::string_view name = type;
    return name == "io_context" || name == "thread_pool" || name == "system_executor";
  }
  static bool has_handle(const char* type) {
    const std::string_view name = type;
    return name == "socket" || name == "descriptor" || name == "handle" || name == "object_handle";
  }

  // A socket is known by its native handle, until it is closed; a timer, and what has no open handle, by its address, which is
  // even.
  static std::uint64_t key_of(const event& e) {
    constexpr std::uint64_t most = UINT64_MAX >> 1;  // no descriptor is greater; that of a closed socket is
    if (has_handle(e.type) && e.value < most) return 2 * e.value + 1;
    return reinterpret_cast<std::uintptr_t>(e.object);
  }

  std::uint64_t thing_of(const event& e) {
    const auto [entry, is_new] = things_.emplace(key_of(e), 0);
    if (is_new) {
      entry->second = next_thing.fetch_add(1);
      if (entry->first % 2 == 1) {
        char text[64] = {};
        std::strncpy(text, e.type, 32);
        char* at = text + std::strlen(text);
        *at++ = ' ';
        std::to_chars(at, text + sizeof text, e.value);
        file_.line("name", "thing", entry->second, text);
      } else {
        file_.line("name", "thing", entry->second, e.type);
      }
    }
    return entry->second;
  }

  // Asio's executors call all three "execute". What began within its call was dispatched.
  static std::string_view posting_word(const event& e) {
    const std::string_view function = e.text;
    if (e.inside || function == "dispatch") return "dispatch";
    return function == "defer" || function.find("rel=cont") != function.npos ? "defer" : "post";
  }

  static std::string_view operation_word(const event& e) {
    std::string_view function = e.text;
    if (has_handle(e.type)) {
      if (function == "async_receive" || function == "async_read_some" || function == "async_receive_with_flags") return "read";
      if (function == "async_send" || function == "async_write_some") return "write";
    }
    if (function.substr(0, 6) == "async_") function.remove_prefix(6);
    const std::string_view word = function.substr(0, function.find_first_not_of("abcdefghijklmnopqrstuvwxyz_")).substr(0, 32);
    return word.empty() || word.front() == '_' ? "operation" : word;
  }

  void write_call(const event& e, unsigned thread) {
    const auto [context, is_new] = contexts_.emplace(e.context, contexts_.size());
    if (is_executor(e.type)) {
      if (is_new) file_.line("name", "context", context->second, e.type);
      file_.line(thread, "call", e.number, posting_word(e), context->second, '-', '-');
    } else if (is_strand(e.type)) {
      file_.line(thread, "call", e.number, posting_word(e), context->second, number_in(strands_, e.object), '-');
    } else {
      const std::uint64_t thing = thing_of(e);
      file_.line(thread, "call", e.number, operation_word(e), context->second, '-', thing);
    }
  }

  void write_cancel(const event& e, unsigned thread) {
    const auto thing = things_.find(key_of(e));
    if (thing == things_.end()) return;  // it never had an operation
    file_.line(thread, "cancel", thing->second);
    const std::string_view function = e.text;
    if (thing->first % 2 == 1 && (function == "close" || function == "release")) things_.erase(thing);
  }

  // The text, and the place in the source, if there is one.
  void write_operation_name(const event& e) {
    if (!e.type) {
      file_.line("name", "op", e.number, e.text);
      return;
    }
    std::string_view file = e.type, function = e.text ? e.text : "";
    file.remove_prefix(file.rfind('/') + 1);
    if (file.empty()) file = "_";
    file = file.substr(0, 100);
    char place[128];
    std::memcpy(place, file.data(), file.size());
    place[file.size()] = ':';
    *std::to_chars(place + file.size() + 1, place + sizeof place - 1, e.value).ptr = 0;
    if (function.empty() || function.find_first_of(" (") != function.npos)
      file_.line("name", "op", e.number, place);
    else
      file_.line("name", "op", e.number, function, place);
  }

  line_file file_;
  page_resource pages_;
  std::pmr::unsynchronized_pool_resource pool_{&pages_};
  numbers<const void*> contexts_{&pool_}, strands_{&pool_};
  numbers<std::uint64_t> things_{&pool_};
};

// Merges what the threads recorded into the file. There is one, and it is never destroyed: threads may outlive main.
class run_file {
 public:
  run_file(int descriptor, std::size_t most_chunks) : writer_(descriptor), most_chunks_(most_chunks) {}

  // Memory for events of a thread; null if there is none. Past the limit some events go to the file first.
  chunk* get_chunk() {
    if (chunks_.load(std::memory_order_relaxed) >= most_chunks_)
      if (chunk* used = reuse_chunk()) return used;
    chunk* made = new (std::nothrow) chunk;
    if (made) chunks_.fetch_add(1, std::memory_order_relaxed);
    return made;
  }

  // Writes what there is, for the last time.
  void finish() {
    if (::getpid() != process_) return;
    stop_recording();
    const guard only(*this);
    if (!std::exchange(finished_, true)) merge(SIZE_MAX);
  }

 private:
  // One thread at a time writes. Signals that end the process wait until it has, so that their handler finds the file free.
  class guard {
   public:
    explicit guard(run_file& file) : file_(file) {
      ::sigset_t all;
      ::sigfillset(&all);
      ::pthread_sigmask(SIG_SETMASK, &all, &old_);
      while (file_.busy_.test_and_set(std::memory_order_acquire)) {
        const ::timespec pause{0, 20'000};
        ::nanosleep(&pause, nullptr);
      }
    }
    guard(const guard&) = delete;
    guard& operator=(const guard&) = delete;
    ~guard() {
      file_.busy_.clear(std::memory_order_release);
      ::pthread_sigmask(SIG_SETMASK, &old_, nullptr);
    }

   private:
    run_file& file_;
    ::sigset_t old_;
  };

  // An eighth of the memory is written at a time, so that the pause is short.
  chunk* reuse_chunk() {
    if (::getpid() != process_) {  // a child of fork; the file is its parent's
      stop_recording();
      return nullptr;
    }
    const guard only(*this);
    if (spare_.count() == 0 && !finished_) merge(most_chunks_ / 8 + 1);
    return spare_.get();
  }

  // Each event with a lower position has been published: a thread that is in the midst of one shows a bound that it drew before.
  // The counter is read first, so that whoever draws after a look at its thread gets this position at least.
  static std::uint64_t safe_position() {
    std::uint64_t safe = next_position.load();
    for (thread_log* log = threads.load(); log; log = log->next) safe = log->least_unpublished(safe);
    const std::uint64_t end = end_position.load();
    return safe < end ? safe : end;
  }

  // Writes what is safe, in the order of positions, until so many chunks are spare.
  void merge(std::size_t wanted) try {
    const std::uint64_t safe = safe_position();
    for (bool more = true; more && spare_.count() < wanted;) {
      // The thread with the least position goes on until another one's comes.
      thread_log* least = nullptr;
      std::uint64_t least_position = safe, next_least = safe;
      for (thread_log* log = threads.load(); log; log = log->next) {
        const event* e = log->front(spare_);
        if (!e) continue;
        if (e->position < least_position) {
          next_least = std::exchange(least_position, e->position);
          least = log;
        } else if (e->position < next_least) {
          next_least = e->position;
        }
      }
      more = least != nullptr;
      for (const event* e = more ? least->front(spare_) : nullptr; e && e->position < next_least; e = least->front(spare_)) {
        writer_.write(*e, least->thread);
        least->take();
      }
    }
    writer_.flush();
  } catch (const std::bad_alloc&) {
    writer_.flush();
    stop_recording();
    finished_ = true;
    say("no memory: the run ends early");
  }

  run_writer writer_;
  spare_chunks spare_;
  std::atomic<std::size_t> chunks_{0};  // that were made
  const std::size_t most_chunks_;
  const ::pid_t process_ = ::getpid();
  bool finished_ = false;
  std::atomic_flag busy_;
};

inline constinit run_file* file = nullptr;

inline bool thread_log::add_chunk() {
  chunk* added = file->get_chunk();
  if (!added) {
    stop_recording();
    say("no memory: the run ends early");
    return false;
  }
  if (last_)
    last_->next.store(added, std::memory_order_release);
  else
    first_.store(added, std::memory_order_release);
  last_ = added;
  used_ = 0;
  return true;
}

// ---------------------------------------------------------------------------------------------------------------------------
// Begin and end of the process

inline std::terminate_handler former_terminate = nullptr;

inline void finish() {
  if (file) file->finish();
}

// The signal's own action follows: it is the default one again, and the signal is held back until this returns.
inline void finish_on_signal(int signal) {
  finish();
  ::raise(signal);
}

inline std::size_t read_limit() {
  constexpr std::size_t by_default = 256, chunks_in_megabyte = (1 << 20) / sizeof(chunk);
  std::size_t megabytes = by_default;
  if (const char* text = std::getenv("ASIO_RUN_MEMORY")) {
    const char* end = text + std::strlen(text);
    const auto [at, error] = std::from_chars(text, end, megabytes);
    if (error != std::errc() || at != end || megabytes > SIZE_MAX / chunks_in_megabyte) {
      say("ASIO_RUN_MEMORY is no number of megabytes: ", text);
      megabytes = by_default;
    }
  }
  return megabytes * chunks_in_megabyte;
}

// Starts the recording where ASIO_RUN names a file, and ends it with the process.
struct session {
  session() {
    const char* path = std::getenv("ASIO_RUN");
    if (!path || !*path) return;
    const int descriptor = ::open(path, O_WRONLY | O_CREAT | O_TRUNC | O_CLOEXEC, 0666);
    if (descriptor < 0) {
      say("cannot write ", path);
      return;
    }
    file = new run_file(descriptor, read_limit());
    for (int signal : {SIGHUP, SIGINT, SIGQUIT, SIGILL, SIGABRT, SIGBUS, SIGFPE, SIGSEGV, SIGPIPE, SIGALRM, SIGTERM}) {
      struct ::sigaction action;
      if (::sigaction(signal, nullptr, &action) != 0 || (action.sa_flags & SA_SIGINFO) || action.sa_handler != SIG_DFL) continue;
      action.sa_handler = finish_on_signal;
      action.sa_flags = static_cast<int>(SA_RESETHAND);
      ::sigaction(signal, &action, nullptr);
    }
    former_terminate = std::set_terminate([] {
      finish();
      if (former_terminate) former_terminate();
      std::abort();
    });
    recording.store(true);
  }
  ~session() { finish(); }
};
inline session the_session;

// ---------------------------------------------------------------------------------------------------------------------------
// Asio's hooks

inline location::location(const char* in_file, int at_line, const char* in_function)
    : file(in_file), line(at_line), function(in_function) {
  if (!file) return;  // of a coroutine whose compiler or Asio knows no source_location
  if (thread_log* log = get_log()) {
    outer = std::exchange(log->where, this);
    entered = true;
  }
}
inline location::~location() {
  if (entered) this_thread->where = outer;
}

// A base of each operation of Asio.
class tracked_handler {
 public:
  static constexpr std::uint64_t not_recorded = 0, strand_run = UINT64_MAX;
  std::uint64_t number = not_recorded;

 protected:
  ~tracked_handler() = default;
};

// A handler is created. In Asio this object stands until the end of the function that takes the handler, so its end is that of
// the call. What is created meanwhile, or by the run of a strand between its handlers, is a run of the strand.
class creation {
 public:
  creation(boost::asio::execution_context& context, tracked_handler& handler, const char* type, const void* object,
           std::uintmax_t native_handle, const char* function) {
    thread_log* log = get_log();
    if (!log) return;
    if (log->innermost && log->innermost->doing != frame::what::execution) {
      handler.number = tracked_handler::strand_run;
    } else {
      event* e = log->open(kind::call);
      if (!e) return;
      handler.number = e->number = e->position;
      e->object = object;
      e->context = &context;
      e->type = type;
      e->text = function;
      e->value = native_handle;
    }
    if (run_writer::is_strand(type)) {
      // The call stays open: whether its handler begins within it, as one that is dispatched may, isn't known yet.
      frame_ = {std::exchange(log->innermost, &frame_), frame::what::strand_call, handler.number};
      log_ = log;
    } else {
      log->close();
      record_place(*log, handler.number);
    }
  }
  creation(const creation&) = delete;
  creation& operator=(const creation&) = delete;
  ~creation() {
    if (!log_) return;
    log_->innermost = frame_.outer;
    if (!is_open(*log_, frame_.operation)) return;
    log_->close();
    record_place(*log_, frame_.operation);
  }

  static bool is_open(const thread_log& log, std::uint64_t number) { return log.opened() && log.opened()->number == number; }

  // Names the operation by where it was called: in the program if that is known, which is the outermost place, else in Asio.
  static void record_place(const thread_log& log, std::uint64_t number) {
    const location* place = log.where;
    if (!place || number == tracked_handler::strand_run) return;
    while (place->outer) place = place->outer;
    if (std::strstr(place->file, "boost/asio/")) place = log.where;
    record_name(kind::operation_name, number, place->function, place->file, place->line);
  }

 private:
  thread_log* log_ = nullptr;
  frame frame_{};
};

// An operation that has no handler: a cancel, a close.
inline void operation(boost::asio::execution_context& context, const char* type, const void* object,
                      std::uintmax_t native_handle, const char* function) {
  if (thread_log* log = get_log())
    if (event* e = log->open(kind::cancel)) {
      e->object = object;
      e->context = &context;
      e->type = type;
      e->text = function;
      e->value = native_handle;
      log->close();
    }
}

inline outcome outcome_of(const boost::system::error_code& error) {
  namespace errc = boost::system::errc;
  if (!error) return outcome::ok;
  if (error == errc::operation_canceled) return outcome::aborted;
  if (std::strcmp(error.category().name(), "asio.misc") == 0)
    return error.value() == 2 ? outcome::eof : error.value() == 3 ? outcome::not_found : outcome::error;
  if (error == errc::connection_reset || error == errc::broken_pipe) return outcome::reset;
  if (error == errc::connection_refused) return outcome::refused;
  if (error == errc::bad_file_descriptor) return outcome::bad;
  if (error == errc::timed_out) return outcome::timed_out;
  return outcome::error;
}

// A handler is invoked, or destroyed. In Asio this object is destroyed after the handler and what it captured, and before the
// strand is let go.
class completion {
 public:
  explicit completion(const tracked_handler& handler) : number_(handler.number) {}
  completion(const completion&) = delete;
  completion& operator=(const completion&) = delete;
  ~completion() {
    if (log_) {
      log_->innermost = frame_.outer;
      log_->where = where_;
    }
    if (number_ == tracked_handler::not_recorded || number_ == tracked_handler::strand_run) return;
    record(!begun_ ? kind::drop : ended_ ? kind::end : kind::thrown, number_);
  }

  void invocation_begin() { begin(outcome::ok, 0); }
  void invocation_begin(const boost::system::error_code& error) { begin(outcome_of(error), 0); }
  void invocation_begin(const boost::system::error_code& error, std::size_t bytes) { begin(outcome_of(error), bytes); }
  // (a signal's number, and what has no number of bytes)
  void invocation_begin(const boost::system::error_code& error, int) { begin(outcome_of(error), 0); }
  void invocation_begin(const boost::system::error_code& error, const char*) { begin(outcome_of(error), 0); }
  template <class Argument>
  void invocation_begin(const Argument&, const char*) {
    begin(outcome::ok, 0);
  }
  void invocation_end() { ended_ = true; }

 private:
  void begin(outcome how, std::uint64_t bytes) {
    begun_ = true;
    if (number_ == tracked_handler::not_recorded) return;
    thread_log* log = get_log();
    if (!log) return;
    if (number_ != tracked_handler::strand_run) {
      if (creation::is_open(*log, number_)) {
        log->opened()->inside = true;
        log->close();
        creation::record_place(*log, number_);
      }
      event* e = log->open(kind::begin);
      if (!e) return;
      e->number = number_;
      e->outcome = how;
      e->value = bytes;
      log->close();
    }
    const auto doing = number_ == tracked_handler::strand_run ? frame::what::strand_run : frame::what::execution;
    frame_ = {std::exchange(log->innermost, &frame_), doing, number_};
    where_ = std::exchange(log->where, nullptr);  // the handler isn't called from there
    log_ = log;
  }

  const std::uint64_t number_;
  bool begun_ = false, ended_ = false;
  thread_log* log_ = nullptr;
  frame frame_{};
  location* where_ = nullptr;
};

// What a program names: it gets a number when it is made.
class numbered {
 protected:
  numbered(std::atomic<std::uint64_t>& next, detail::kind kind, literal name) {
    if (!recording.load(std::memory_order_acquire)) return;
    number_ = next.fetch_add(1, std::memory_order_relaxed);
    record_name(kind, number_, name.text());
  }
  std::uint64_t number() const { return number_; }

 private:
  std::uint64_t number_ = 0;
};

}  // namespace detail

// ---------------------------------------------------------------------------------------------------------------------------
// What a program may add

// Something that one thread at a time may touch: a member of the object that it stands for. A copy is another thing.
class thing : detail::numbered {
 public:
  explicit thing(literal name) : numbered(detail::next_thing, detail::kind::thing_name, name), name_(name) {}
  thing(const thing& other) : thing(other.name_) {}
  thing& operator=(const thing&) { return *this; }

 private:
  friend class claim;
  literal name_;
};

// Until the end of its block the thing is touched.
class [[nodiscard]] claim {
 public:
  explicit claim(const thing& touched) : number_(touched.number()) { detail::record(detail::kind::claim, number_); }
  claim(const claim&) = delete;
  claim& operator=(const claim&) = delete;
  ~claim() { detail::record(detail::kind::release, number_); }

 private:
  const std::uint64_t number_;
};

// A std::mutex whose holds are recorded; for std::lock_guard, std::unique_lock, std::scoped_lock, std::condition_variable_any.
class mutex : detail::numbered {
 public:
  explicit mutex(literal name) : numbered(detail::next_lock, detail::kind::lock_name, name) {}

  void lock() {
    mutex_.lock();
    detail::record(detail::kind::lock, number());
  }
  bool try_lock() {
    if (!mutex_.try_lock()) return false;
    detail::record(detail::kind::lock, number());
    return true;
  }
  void unlock() {
    detail::record(detail::kind::unlock, number());
    mutex_.unlock();
  }

 private:
  std::mutex mutex_;
};

// A point on one thread, and what the program makes sure comes behind it on another one: by join, a future, a condition variable.
class mark : detail::numbered {
 public:
  explicit mark(literal name) : numbered(detail::next_mark, detail::kind::mark_name, name) {}
  mark(const mark&) = delete;
  mark& operator=(const mark&) = delete;

  void here() { detail::record(detail::kind::mark, number()); }
  void after() { detail::record(detail::kind::after, number()); }
};

// Names the handler that runs here.
inline void label(literal name) {
  detail::thread_log* log = detail::get_log();
  const detail::frame* frame = log ? log->innermost : nullptr;
  while (frame && frame->doing != detail::frame::what::execution) frame = frame->outer;
  if (frame) detail::record_name(detail::kind::operation_name, frame->operation, name.text());
}

// Beside a call of run: this thread executes handlers of the context from here on.
inline void works(boost::asio::execution_context& context) { detail::record_context(detail::kind::work, &context); }

// Beside a call of stop.
inline void stopped(boost::asio::execution_context& context) { detail::record_context(detail::kind::stop, &context); }

}  // namespace asio_recorder

#define BOOST_ASIO_INHERIT_TRACKED_HANDLER : public ::asio_recorder::detail::tracked_handler
#define BOOST_ASIO_ALSO_INHERIT_TRACKED_HANDLER , public ::asio_recorder::detail::tracked_handler
#define BOOST_ASIO_HANDLER_TRACKING_INIT (void)0
#define BOOST_ASIO_HANDLER_LOCATION(args) ::asio_recorder::detail::location tracked_location args
#define BOOST_ASIO_HANDLER_CREATION(args) ::asio_recorder::detail::creation tracked_creation args
#define BOOST_ASIO_HANDLER_COMPLETION(args) ::asio_recorder::detail::completion tracked_completion args
#define BOOST_ASIO_HANDLER_INVOCATION_BEGIN(args) tracked_completion.invocation_begin args
#define BOOST_ASIO_HANDLER_INVOCATION_END tracked_completion.invocation_end()
#define BOOST_ASIO_HANDLER_OPERATION(args) ::asio_recorder::detail::operation args
#define BOOST_ASIO_HANDLER_REACTOR_REGISTRATION(args) (void)0
#define BOOST_ASIO_HANDLER_REACTOR_DEREGISTRATION(args) (void)0
#define BOOST_ASIO_HANDLER_REACTOR_READ_EVENT 0
#define BOOST_ASIO_HANDLER_REACTOR_WRITE_EVENT 0
#define BOOST_ASIO_HANDLER_REACTOR_ERROR_EVENT 0
#define BOOST_ASIO_HANDLER_REACTOR_EVENTS(args) (void)0
#define BOOST_ASIO_HANDLER_REACTOR_OPERATION(args) (void)0

#endif  // BOOST_ASIO_CUSTOM_HANDLER_TRACKING

#endif  // ASIO_RECORDER_HPP
