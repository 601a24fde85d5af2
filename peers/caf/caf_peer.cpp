// caf_peer WORKLOAD WORKERS THROUGHPUT
// The C++ Actor Framework 0.17: event-based actors on its work-stealing scheduler. It runs the workload, and prints the seconds of the
// run and how many messages were handled.
#include <caf/all.hpp>

#include <atomic>
#include <chrono>
#include <condition_variable>
#include <cstdint>
#include <cstdio>
#include <mutex>
#include <string>
#include <thread>
#include <vector>

using namespace caf;
using add_atom = atom_constant<atom("add")>;
using clock_type = std::chrono::steady_clock;

namespace {

// What an actor counts, and what it has to end with.
struct tally {
  int64_t sum = 0;
  uint64_t count = 0;
};

std::mutex mutex;
std::condition_variable all_done;
size_t open_actors = 0;
bool is_wrong = false;
clock_type::time_point finished;

// An actor has handled all its messages.
void done(int64_t sum, int64_t expected) {
  std::lock_guard<std::mutex> guard(mutex);
  is_wrong = is_wrong || sum != expected;
  if (--open_actors == 0) {
    finished = clock_type::now();
    all_done.notify_all();
  }
}

behavior counter(stateful_actor<tally>* self, tally end) {
  return {[=](add_atom, int64_t value) {
    auto& now = self->state;
    now.sum += value;
    if (++now.count == end.count)
      done(now.sum, end.sum);
  }};
}

behavior teller(stateful_actor<tally>* self, tally end, std::vector<actor> others) {
  return {[=](add_atom, int64_t value) {
    for (auto& other : others)
      self->send(other, add_atom::value, value);
    if (++self->state.count == end.count)
      done(0, end.sum);
  }};
}

struct send_block {
  actor to;
  int64_t value;
  uint64_t times;
};

using job = std::vector<send_block>;

void send_all(const job& blocks) {
  for (auto& block : blocks)
    for (uint64_t i = 0; i < block.times; ++i)
      anon_send(block.to, add_atom::value, block.value);
}

// The actors of a workload, the messages that they are to handle, and what each outside sender sends.
class workload {
public:
  explicit workload(actor_system& sys) : sys_(sys) {}

  std::vector<job> jobs;
  uint64_t messages = 0;

  bool make(const std::string& name) {
    if (name == "count") {
      jobs = {{{count(1000000, 1), 1, 1000000}}};
    } else if (name == "fan-in") {
      jobs.assign(4, {{count(1000000, 1), 1, 250000}});
    } else if (name == "spread") {
      std::vector<actor> counters;
      for (size_t i = 0; i < 63; ++i)
        counters.push_back(count(16 * 992, 1));
      jobs.resize(4);
      for (size_t sender = 0; sender < 4; ++sender)
        for (size_t place = 0; place < 4 * 63; ++place)
          jobs[sender].push_back({counters[(16 * sender + place) % 63], 1, 992});
    } else if (name == "chain") {
      auto first = count(20000, 3);
      for (size_t i = 0; i < 62; ++i)
        first = tell(20000, {first});
      jobs = {{{first, 3, 20000}}};
    } else if (name == "fan-out") {
      std::vector<actor> leaves;
      for (size_t i = 0; i < 16; ++i)
        leaves.push_back(count(50000, 3));
      jobs = {{{tell(50000, leaves), 3, 50000}}};
    } else {
      return false;
    }
    return true;
  }

private:
  tally end(uint64_t times, int64_t sum) {
    messages += times;
    ++open_actors;
    return {sum, times};
  }

  actor count(uint64_t times, int64_t value) {
    return sys_.spawn(counter, end(times, static_cast<int64_t>(times) * value));
  }

  actor tell(uint64_t times, std::vector<actor> others) {
    return sys_.spawn(teller, end(times, 0), std::move(others));
  }

  actor_system& sys_;
};

// Runs the jobs, each on a thread of its own, and waits for the last actor.
double seconds_of(const std::vector<job>& jobs) {
  std::atomic<size_t> ready{0};
  std::atomic<bool> start{false};
  std::vector<std::thread> threads;
  for (auto& sends : jobs)
    threads.emplace_back([&] {
      ready.fetch_add(1);
      while (!start.load())
        std::this_thread::yield();
      send_all(sends);
    });
  while (ready.load() != jobs.size())
    std::this_thread::yield();
  auto began = clock_type::now();
  start.store(true);
  for (auto& thread : threads)
    thread.join();
  std::unique_lock<std::mutex> guard(mutex);
  all_done.wait(guard, [] { return open_actors == 0; });
  return std::chrono::duration<double>(finished - began).count();
}

int fail(const char* what) {
  std::fprintf(stderr, "caf_peer: %s\n", what);
  return 1;
}

} // namespace

int main(int argc, char** argv) {
  if (argc != 4)
    return fail("caf_peer WORKLOAD WORKERS THROUGHPUT");
  size_t workers = std::stoul(argv[2]);
  size_t throughput = std::stoul(argv[3]);
  actor_system_config config;
  config.set("scheduler.max-threads", workers);
  config.set("scheduler.max-throughput", throughput);
  actor_system sys{config};
  if (sys.scheduler().num_workers() != workers || sys.scheduler().max_throughput() != throughput)
    return fail("the scheduler did not take its settings");
  workload work{sys};
  if (!work.make(argv[1]))
    return fail("it has no such workload");
  double seconds = seconds_of(work.jobs);
  // The actors end with the last handle.
  work.jobs.clear();
  if (is_wrong)
    return fail("an actor ended with a wrong sum");
  std::printf("%.6f %llu\n", seconds, static_cast<unsigned long long>(work.messages));
  return 0;
}
