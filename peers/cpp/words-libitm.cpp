// Transactions on words in GCC's transactional memory.
#include "common.hpp"

static thread_local u64 starts;
PURE static void started() { starts++; }
// The places are fixed before the transaction, so they are read without instrumentation.
PURE static u64 place_of(const u32* places, u64 i) { return places[i]; }

struct WordOptions {
  u64 threads, words, reads, writes, transactions, seed;
  WordOptions(Args& a) {
    a.only({"threads", "words", "reads", "writes", "transactions", "seed"});
    threads = a.number("threads", 2);
    words = a.number("words", 65536);
    reads = a.number("reads", 10);
    writes = a.number("writes", 2);
    transactions = a.number("transactions", 1000000);
    seed = a.number("seed", 1);
    if (threads < 1 || threads > 64 || words < 1 || words > 1 << 24 || reads < 1 || reads > 4096 ||
        writes > reads || transactions < 1)
      die("an option is outside its range (writes is at most reads)");
  }
};

// Answers the sum of all that was read.
static u64 work(u64* words, const WordOptions& o, u64 w) {
  Generator g(o.seed, w + 1);
  std::vector<u32> list(o.reads);
  u32* places = list.data();
  u64 seen = 0, reads = o.reads, writes = o.writes;
  for (u64 i = 0, count = share_of(o.transactions, o.threads, w); i < count; i++) {
    for (u64 r = 0; r < reads; r++) places[r] = g.below(o.words);
    u64 sum;
    __transaction_atomic {
      started();
      sum = 0;
      for (u64 r = 0; r < writes; r++) {
        u64 p = place_of(places, r), x = words[p];
        sum += x;
        words[p] = x + 1;
      }
      for (u64 r = writes; r < reads; r++) sum += words[place_of(places, r)];
    }
    seen += sum;
  }
  return seen;
}

int main(int argc, char** argv) {
  Args a(argc, argv);
  WordOptions o(a);
  u64* words = (u64*)calloc(o.words, sizeof(u64));
  std::vector<u64> seen(o.threads), begun(o.threads);
  double delay = 0;
  double wall = in_threads(o.threads, &delay, [&](u64 w) {
    starts = 0;
    seen[w] = work(words, o, w);
    begun[w] = starts;
  });
  u64 sum = 0, all = 0, tries = 0;
  for (u64 i = 0; i < o.words; i++) sum += words[i];
  for (u64 w = 0; w < o.threads; w++) all += seen[w], tries += begun[w];
  free(words);
  bool right = sum == o.transactions * o.writes;
  printf("peer=libitm-%s threads=%lu words=%lu reads=%lu writes=%lu transactions=%lu wall=%.6f rate=%.0f waited=%.2f "
         "aborts=%lu sum=%s seen=%lu\n",
         method(), o.threads, o.words, o.reads, o.writes, o.transactions, wall, o.transactions / wall,
         delay / (wall * o.threads), tries - o.transactions, right ? "ok" : "WRONG", all);
  return right ? 0 : 3;
}
