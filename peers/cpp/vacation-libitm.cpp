// Sessions of reservations in GCC's transactional memory: each is one __transaction_atomic over plain code, which the compiler
// instruments. Tables are chained hash tables of fixed width, a customer's bookings a list of chunks.
// The method is libitm's (ITM_DEFAULT_METHOD).
#include "common.hpp"

const u64 BUCKETS = 16384, NUMBER_LIMIT = 4294967295ULL, BOOKINGS_LIMIT = 1000, CHANGED = 100;
const int ROOM = 7, FLIGHT = 1;

struct Item {
  u64 id, total, used, free, price;
  Item* next;
};
struct Chunk {
  u64 id[ROOM], pack[ROOM];  // pack: price * 4 + kind
  Chunk* next;
};
struct Customer {
  u64 id, count;
  Chunk *first, *last;
  Customer* next;
};
struct Tables {
  Item* items[3][BUCKETS];
  Customer* customers[BUCKETS];
};

// What a session asks is fixed before the run, so it is read without instrumentation.
PURE static u64 arg_id(const Arg* a, int i) { return a[i].id; }
PURE static u64 arg_rest(const Arg* a, int i) {
  return (u64)a[i].price << 8 | a[i].add << 4 | a[i].kind;
}
PURE static void gone() {
  fprintf(stderr, "a booked item is gone\n");
  abort();
}
static thread_local u64 starts;
PURE static void started() { starts++; }

// ---- the tables

SAFE static Item* find_item(Tables* t, int k, u64 id) {
  Item* p = t->items[k][id & (BUCKETS - 1)];
  while (p && p->id != id) p = p->next;
  return p;
}
SAFE static void add_item(Tables* t, int k, u64 id, u64 n, u64 price) {
  Item* p = (Item*)malloc(sizeof(Item));
  Item** b = &t->items[k][id & (BUCKETS - 1)];
  p->id = id;
  p->total = n;
  p->used = 0;
  p->free = n;
  p->price = price;
  p->next = *b;
  *b = p;
}
SAFE static void drop_item(Tables* t, int k, Item* it) {
  Item** b = &t->items[k][it->id & (BUCKETS - 1)];
  while (*b != it) b = &(*b)->next;
  *b = it->next;
  free(it);
}
SAFE static Customer* find_customer(Tables* t, u64 id) {
  Customer* p = t->customers[id & (BUCKETS - 1)];
  while (p && p->id != id) p = p->next;
  return p;
}
SAFE static Customer* add_customer(Tables* t, u64 id) {
  Customer* c = (Customer*)malloc(sizeof(Customer));
  Customer** b = &t->customers[id & (BUCKETS - 1)];
  c->id = id;
  c->count = 0;
  c->first = c->last = nullptr;
  c->next = *b;
  *b = c;
  return c;
}
SAFE static bool holds(Customer* c, int kind, u64 id) {
  u64 left = c->count;
  for (Chunk* h = c->first; left; h = h->next)
    for (int i = 0; i < ROOM && left; i++, left--)
      if (h->id[i] == id && (h->pack[i] & 3) == (u64)kind) return true;
  return false;
}
SAFE static void add_booking(Customer* c, int kind, u64 id, u64 price) {
  u64 n = c->count;
  int i = n % ROOM;
  Chunk* h = c->last;
  if (i == 0) {
    h = (Chunk*)malloc(sizeof(Chunk));
    h->next = nullptr;
    if (n)
      c->last->next = h;
    else
      c->first = h;
    c->last = h;
  }
  h->id[i] = id;
  h->pack[i] = price << 2 | kind;
  c->count = n + 1;
}

// ---- what a session does

SAFE static u64 book(Customer* c, int k, Item* it, u64 price, u64 h) {
  if (!it) return MIX(h, 0);
  u64 id = it->id;
  if (holds(c, k, id)) return MIX(MIX(h, 2), id);
  u64 left = it->free;
  if (left == 0) return MIX(MIX(h, 3), id);
  if (c->count >= BOOKINGS_LIMIT) return MIX(MIX(h, 4), id);
  it->free = left - 1;
  it->used = it->used + 1;
  add_booking(c, k, id, price);
  return MIX(MIX(MIX(h, 1), id), price);
}

// Of each kind it books the dearest item among those asked for, the first of equals. No array: it would be instrumented.
SAFE static u64 reserve(Tables* t, u64 customer, const Arg* args, int len) {
  Item *c0 = nullptr, *c1 = nullptr, *c2 = nullptr;
  u64 p0 = 0, p1 = 0, p2 = 0;
  for (int i = 0; i < len; i++) {
    int k = arg_rest(args, i) & 15;
    Item* it = find_item(t, k, arg_id(args, i));
    if (!it) continue;
    u64 p = it->price;
    if (k == 0) {
      if (!c0 || p > p0) c0 = it, p0 = p;
    } else if (k == 1) {
      if (!c1 || p > p1) c1 = it, p1 = p;
    } else {
      if (!c2 || p > p2) c2 = it, p2 = p;
    }
  }
  if (!c0 && !c1 && !c2) return MIX(EMPTY, 9);
  Customer* c = find_customer(t, customer);
  if (!c) c = add_customer(t, customer);
  u64 h = book(c, 0, c0, p0, EMPTY);
  h = book(c, 1, c1, p1, h);
  return book(c, 2, c2, p2, h);
}

SAFE static u64 del(Tables* t, u64 customer) {
  Customer** b = &t->customers[customer & (BUCKETS - 1)];
  Customer* c = *b;
  while (c && c->id != customer) b = &c->next, c = *b;
  if (!c) return MIX(EMPTY, 5);
  u64 bill = 0, left = c->count;
  for (Chunk* h = c->first; h;) {
    for (int i = 0; i < ROOM && left; i++, left--) {
      u64 pack = h->pack[i];
      Item* it = find_item(t, pack & 3, h->id[i]);
      if (!it) {
        gone();
        return 0;
      }
      it->used = it->used - 1;
      it->free = it->free + 1;
      bill += pack >> 2;
    }
    Chunk* next = h->next;
    free(h);
    h = next;
  }
  *b = c->next;
  free(c);
  return MIX(MIX(EMPTY, 6), bill);
}

// Whether the change was made.
SAFE static bool add_units(Tables* t, int k, u64 id, Item* it, u64 price) {
  if (!it) {
    add_item(t, k, id, CHANGED, price);
    return true;
  }
  u64 total = it->total;
  if (total + CHANGED > NUMBER_LIMIT) return false;
  it->total = total + CHANGED;
  it->free = it->free + CHANGED;
  it->price = price;
  return true;
}

SAFE static bool take_units(Tables* t, int k, Item* it) {
  if (!it) return false;
  if (k == FLIGHT) {
    if (it->used != 0) return false;
    drop_item(t, k, it);
    return true;
  }
  u64 left = it->free;
  if (left < CHANGED) return false;
  u64 total = it->total;
  if (total == CHANGED) {
    drop_item(t, k, it);
  } else {
    it->total = total - CHANGED;
    it->free = left - CHANGED;
  }
  return true;
}

SAFE static u64 update(Tables* t, const Arg* args, int len) {
  u64 h = EMPTY;
  for (int i = 0; i < len; i++) {
    u64 id = arg_id(args, i), rest = arg_rest(args, i);
    int k = rest & 15;
    Item* it = find_item(t, k, id);
    bool done = rest >> 4 & 1 ? add_units(t, k, id, it, rest >> 8) : take_units(t, k, it);
    h = MIX(h, done ? 7 : 8);
  }
  return h;
}

SAFE static u64 act(Tables* t, int what, u64 customer, const Arg* args, int len) {
  if (what == RESERVE) return reserve(t, customer, args, len);
  if (what == DELETE) return del(t, customer);
  return update(t, args, len);
}

// ---- a run, and what it leaves

static Tables* opening(u64 seed, const Options& o) {
  Tables* t = (Tables*)calloc(1, sizeof(Tables));
  Generator g(seed, 0);
  for (int k = 0; k < 3; k++)
    for (u64 id = 1; id <= o.relations; id++) {
      u64 d = g.below(5), e = g.below(5);
      add_item(t, k, id, 100 * (1 + d), 50 + 10 * e);
    }
  return t;
}

static void release(Tables* t) {
  for (u64 b = 0; b < BUCKETS; b++) {
    for (int k = 0; k < 3; k++)
      for (Item *p = t->items[k][b], *n; p; p = n) n = p->next, free(p);
    for (Customer *c = t->customers[b], *n; c; c = n) {
      n = c->next;
      for (Chunk *h = c->first, *m; h; h = m) m = h->next, free(h);
      free(c);
    }
  }
  free(t);
}

typedef std::pair<u64, u64> Pair;

// The tables in order; a key of bookings is kind and id.
struct Last {
  std::map<u64, Item> items[3];
  std::map<u64, std::vector<Pair>> customers;  // id, pack
  std::map<Pair, u64> held;
  bool fine = true;

  Last(Tables* t) {
    for (u64 b = 0; b < BUCKETS; b++) {
      for (int k = 0; k < 3; k++)
        for (Item* p = t->items[k][b]; p; p = p->next) fine &= items[k].emplace(p->id, *p).second;
      for (Customer* c = t->customers[b]; c; c = c->next) add(c);
    }
  }
  void add(Customer* c) {
    auto& list = customers[c->id];
    fine &= list.empty() && c->count <= BOOKINGS_LIMIT;
    u64 left = c->count;
    std::map<Pair, int> own;
    for (Chunk* h = c->first; h; h = h->next)
      for (int i = 0; i < ROOM && left; i++, left--) {
        list.push_back({h->id[i], h->pack[i]});
        Pair key{h->pack[i] & 3, h->id[i]};
        fine &= ++own[key] == 1;
        held[key]++;
      }
    fine &= left == 0;
  }
  // Whether each item's used units are those that customers hold, and each number is within its limits.
  bool balanced() {
    bool ok = fine;
    u64 found = 0;
    for (int k = 0; k < 3; k++)
      for (auto& e : items[k]) {
        Item& i = e.second;
        auto h = held.find({(u64)k, i.id});
        found += h != held.end();
        ok &= i.used + i.free == i.total && i.used == (h == held.end() ? 0 : h->second);
        ok &= i.total >= 1 && i.total <= NUMBER_LIMIT;
      }
    return ok && found == held.size();
  }
  u64 digest() {
    u64 h = EMPTY;
    for (auto& kind : items)
      for (auto& e : kind) {
        Item& i = e.second;
        for (u64 x : {i.id, i.total, i.used, i.free, i.price}) h = MIX(h, x);
      }
    for (auto& c : customers) {
      h = MIX(h, c.first);
      for (auto& b : c.second) h = MIX(MIX(MIX(h, b.second & 3), b.first), b.second >> 2);
    }
    return h;
  }
};

// Of a session, for --audit: its place in the serial order, which it counts as its last step.
struct Done {
  u64 place, reply;
  u32 worker, session;
};
static u64 place;

struct Sum {
  double wall = 0, delay = 0;
  u64 replies = 0, digest = 0, tries = 0;
  bool balanced = true, audited = true;
};

// Runs the sessions of one thread, and answers the sum of its replies.
static u64 work(Tables* t, const Sessions& s, u32 w, bool audit, std::vector<Done>& log) {
  u64 sum = 0;
  for (size_t i = 0; i < s.heads.size(); i++) {
    Head h = s.heads[i];
    const Arg* a = s.args.data() + h.start;
    u64 reply, at = 0;
    if (audit) {
      __transaction_atomic {
        started();
        reply = act(t, h.what, h.customer, a, h.len);
        at = ++place;
      }
      log.push_back({at, reply, w, (u32)i});
    } else {
      __transaction_atomic {
        started();
        reply = act(t, h.what, h.customer, a, h.len);
      }
    }
    sum += reply;
  }
  return sum;
}

// Whether the sessions one after another in their serial order have these replies and leave these tables.
static bool audited(u64 seed, const Options& o, const std::vector<Sessions>& lists,
                    const std::vector<std::vector<Done>>& logs, u64 digest) {
  std::vector<Done> order(o.transactions + 1);
  u64 n = 0;
  for (auto& log : logs)
    for (auto& e : log) {
      if (e.place < 1 || e.place > o.transactions || order[e.place].place) return false;
      order[e.place] = e;
      n++;
    }
  if (n != o.transactions) return false;
  Tables* t = opening(seed, o);
  bool same = true;
  for (u64 p = 1; same && p <= n; p++) {
    const Sessions& s = lists[order[p].worker];
    Head h = s.heads[order[p].session];
    same = act(t, h.what, h.customer, s.args.data() + h.start, h.len) == order[p].reply;
  }
  same = same && Last(t).digest() == digest;
  release(t);
  return same;
}

static void run(u64 seed, const Options& o, Sum& all) {
  Tables* t = opening(seed, o);
  std::vector<Sessions> lists;
  for (u64 w = 0; w < o.clients; w++)
    lists.push_back(draw(seed, w + 1, share_of(o.transactions, o.clients, w), o));
  std::vector<u64> sums(o.clients), begun(o.clients);
  std::vector<std::vector<Done>> logs(o.clients);
  place = 0;
  all.wall += in_threads(o.clients, &all.delay, [&](u64 w) {
    starts = 0;
    sums[w] = work(t, lists[w], w, o.audit, logs[w]);
    begun[w] = starts;
  });
  for (u64 w = 0; w < o.clients; w++) all.replies += sums[w], all.tries += begun[w];
  Last last(t);
  u64 digest = last.digest();
  all.balanced &= last.balanced();
  all.digest = MIX(all.digest, digest);
  if (o.audit) all.audited &= audited(seed, o, lists, logs, digest);
  release(t);
}

int main(int argc, char** argv) {
  Args args(argc, argv);
  Options o(args);
  Sum all;
  for (u64 k = 0; k < o.repeat; k++) run(o.seed + k, o, all);
  u64 n = o.transactions * o.repeat;
  printf("peer=libitm-%s clients=%lu sessions=%lu wall=%.6f rate=%.0f waited=%.2f aborts=%lu balanced=%s audit=%s "
         "replies=%016lx digest=%016lx\n",
         method(), o.clients, n, all.wall, n / all.wall, all.delay / (all.wall * o.clients),
         all.tries - n, all.balanced ? "yes" : "NO",
         !o.audit ? "none" : all.audited ? "ok" : "FAULT", all.replies, all.digest);
  return all.balanced && all.audited ? 0 : 3;
}
