// What the C++ programs share: options, drawn sessions (docs/formats.md, "Drawn sessions"), threads and their time.
#pragma once
#include <pthread.h>
#include <chrono>
#include <cstdint>
#include <cstdio>
#include <cstdlib>
#include <cstring>
#include <map>
#include <string>
#include <thread>
#include <vector>

#define SAFE __attribute__((transaction_safe))
#define PURE __attribute__((transaction_pure, noinline))

typedef uint64_t u64;
typedef uint32_t u32;

[[noreturn]] inline void die(const std::string& s) {
  fprintf(stderr, "%s\n", s.c_str());
  exit(1);
}

struct Args {
  std::map<std::string, std::string> values;
  Args(int argc, char** argv) {
    for (int i = 1; i < argc; i++) {
      std::string name = argv[i];
      if (name.rfind("--", 0) != 0) die("unknown word " + name);
      name = name.substr(2);
      if (name != "audit" && i + 1 == argc) die("--" + name + " needs a value");
      values[name] = name == "audit" ? "1" : argv[++i];
    }
  }
  u64 number(const char* name, u64 otherwise) {
    auto i = values.find(name);
    if (i == values.end()) return otherwise;
    char* end;
    u64 v = strtoull(i->second.c_str(), &end, 10);
    if (*end || i->second.empty()) die("--" + std::string(name) + ": not a number");
    return v;
  }
  void only(std::vector<std::string> known) {
    for (auto& e : values) {
      bool ok = false;
      for (auto& name : known) ok |= name == e.first;
      if (!ok) die("unknown option --" + e.first);
    }
  }
};

// PCG32 (XSH RR 64/32).
struct Generator {
  u64 state, inc;
  Generator(u64 seed, u64 stream) {
    inc = (stream << 1) | 1;
    state = seed + inc;
    step();
  }
  void step() { state = state * 6364136223846793005ULL + inc; }
  u64 below(u64 n) {
    u64 s = state;
    step();
    u32 turn = s >> 59, x = (u32)(((s >> 18) ^ s) >> 27);
    u32 drawn = (x >> turn) | (x << ((32 - turn) & 31));
    return ((u64)drawn * n) >> 32;
  }
};

struct Options {
  u64 clients, transactions, relations, queries, percent_queried, percent_user, seed, repeat;
  bool audit;
  Options(Args& a) {
    a.only({"clients", "transactions", "relations", "queries", "percent-queried", "percent-user",
            "seed", "repeat", "audit"});
    clients = a.number("clients", 2);
    transactions = a.number("transactions", 1000);
    relations = a.number("relations", 100);
    queries = a.number("queries", 10);
    percent_queried = a.number("percent-queried", 60);
    percent_user = a.number("percent-user", 90);
    seed = a.number("seed", 1);
    repeat = a.number("repeat", 1);
    audit = a.values.count("audit");
    if (!(clients >= 1 && clients <= 64 && queries >= 1 && queries <= 100 &&
          percent_queried >= 1 && percent_queried <= 100 && relations >= 1 &&
          relations <= 1000000 && transactions >= 1 && transactions <= 100000000 &&
          percent_user <= 100 && repeat >= 1))
      die("an option is outside its range");
  }
  // The greatest id that sessions name.
  u64 last_id() const {
    u64 x = relations * percent_queried / 100;
    return x ? x : 1;
  }
};

enum What : uint8_t { RESERVE, DELETE, UPDATE };

struct Arg {  // one ask of a reservation, or one change of an update
  u64 id;
  u32 price;
  uint8_t kind, add;
};

struct Head {
  What what;
  uint16_t len;
  u32 start;
  u64 customer;
};

struct Sessions {
  std::vector<Head> heads;
  std::vector<Arg> args;
};

inline Arg draw_ask(Generator& g, u64 last) {
  uint8_t kind = g.below(3);
  return {1 + g.below(last), 0, kind, 0};
}

inline Arg draw_change(Generator& g, u64 last) {
  uint8_t kind = g.below(3);
  u64 id = 1 + g.below(last);
  uint8_t add = g.below(2);
  u32 price = add ? 50 + 10 * (u32)g.below(5) : 0;
  return {id, price, kind, add};
}

inline Sessions draw(u64 seed, u64 worker, u64 count, const Options& o) {
  Generator g(seed, worker);
  u64 last = o.last_id();
  Sessions s;
  for (u64 i = 0; i < count; i++) {
    u64 r = g.below(100);
    u32 start = s.args.size();
    What what = r < o.percent_user ? RESERVE : r & 1 ? DELETE : UPDATE;
    u64 customer = what == UPDATE ? 0 : 1 + g.below(last);
    for (u64 q = 0; what != DELETE && q < o.queries; q++)
      s.args.push_back(what == RESERVE ? draw_ask(g, last) : draw_change(g, last));
    s.heads.push_back({what, (uint16_t)(s.args.size() - start), start, customer});
  }
  return s;
}

// What of n the thread w of so many makes.
inline u64 share_of(u64 n, u64 clients, u64 w) { return n / clients + (w < n % clients); }

// A running hash (FNV).
const u64 EMPTY = 0xcbf29ce484222325ULL;
#define MIX(h, x) (((h) ^ (u64)(x)) * 0x100000001b3ULL)

// Nanoseconds that this thread was ready to run and had no core.
inline u64 run_delay() {
  unsigned long run = 0, delay = 0;
  if (FILE* f = fopen("/proc/thread-self/schedstat", "r")) {
    if (fscanf(f, "%lu %lu", &run, &delay) != 2) delay = 0;
    fclose(f);
  }
  return delay;
}

// Runs f(w) in as many threads; the seconds from the first start to the last end. Adds to *delay the seconds that the threads
// together were kept waiting for a core.
template <class F>
double in_threads(u64 clients, double* delay, F f) {
  pthread_barrier_t gate;
  pthread_barrier_init(&gate, nullptr, clients);
  typedef std::chrono::steady_clock Clock;
  std::vector<Clock::time_point> start(clients), end(clients);
  std::vector<u64> waited(clients);
  std::vector<std::thread> threads;
  for (u64 w = 0; w < clients; w++)
    threads.emplace_back([&, w] {
      pthread_barrier_wait(&gate);
      u64 before = run_delay();
      start[w] = Clock::now();
      f(w);
      end[w] = Clock::now();
      waited[w] = run_delay() - before;
    });
  for (auto& t : threads) t.join();
  pthread_barrier_destroy(&gate);
  for (u64 x : waited) *delay += x / 1e9;
  auto first = start[0], last = end[0];
  for (u64 w = 1; w < clients; w++) {
    if (start[w] < first) first = start[w];
    if (end[w] > last) last = end[w];
  }
  return std::chrono::duration<double>(last - first).count();
}

// libitm's method, for the name in the printed line.
inline const char* method() {
  const char* m = getenv("ITM_DEFAULT_METHOD");
  return m ? m : "default";
}
