#!/usr/bin/env python3
"""Runs the programs in turn and prints a line for each run, and a table. scripts/beside_peers.sh calls it, and says what its words and
variables mean.

    in_turn.py needs CONFIG ..                what has to be built: rust, cpp, haskell, wolimevar, measure
    in_turn.py run FOLDER PARTS CONFIG ..     runs what was built of these into this folder
"""
import csv, datetime, os, platform, re, subprocess, sys, tempfile, time
from collections import defaultdict
from statistics import median
from typing import NamedTuple

ROUNDS = int(os.environ.get("ROUNDS", 3))
TRANSACTIONS = int(os.environ.get("TRANSACTIONS", 100_000))
REPEAT = int(os.environ.get("REPEAT", 10))
SEED = int(os.environ.get("SEED", 1))
LIMIT = float(os.environ.get("LIMIT", 120))
# A run is starved where its threads were ready to run and had no processor for more than this share of their time.
STARVED = 0.1


class Peer(NamedTuple):
    name: str
    part: str
    program: str
    options: str = ""
    method: str = ""


def compiled(kind):
    libitm = [Peer(f"libitm-{method}", "cpp", f"{kind}-libitm", "", method) for method in ("ml_wt", "gl_wt", "serialirr")]
    return [*libitm, Peer("ghc-stm", "haskell", f"{kind}-ghc-stm")]


PEERS = {
    "vac": [
        Peer("wolimevar", "wolimevar", "wolimevar"),
        Peer("wolimevar-workers", "measure", "measure"),
        Peer("mutex", "rust", "vacation-mutex"),
        Peer("sharded", "rust", "vacation-sharded"),
        Peer("tl2g-64", "rust", "vacation-tl2g"),
        Peer("tl2g-64w", "rust", "vacation-tl2g", "--wait"),
        Peer("tl2s-4096", "rust", "vacation-tl2s"),
        *compiled("vacation"),
    ],
    "words": [
        Peer("mutex", "rust", "words-mutex"),
        Peer("tl2", "rust", "words-tl2"),
        Peer("tl2-w", "rust", "words-tl2", "--wait"),
        *compiled("words"),
    ],
}
MIXES = {
    "vac-low": "--relations 10000 --queries 2 --percent-queried 90 --percent-user 98",
    "vac-high": "--relations 100 --queries 10 --percent-queried 60 --percent-user 90",
    "words-low": "--words 65536 --reads 10 --writes 2",
    "words-high": "--words 64 --reads 10 --writes 4",
    "words-read": "--words 65536 --reads 10 --writes 0",
}
# The number that `measure sessions` has for a mix, and its items a kind.
MEASURED = {"vac-low": ("0", "10000"), "vac-high": ("3", "100")}


class Config(NamedTuple):
    mix: str
    threads: int

    @property
    def name(self):
        return f"{self.mix}-{self.threads}"

    @property
    def kind(self):
        return self.mix.split("-")[0]

    def peers(self):
        wanted = os.environ.get("PEERS", "").split()
        return [peer for peer in PEERS[self.kind] if not wanted or peer.name in wanted]


def read_configs(words):
    configs = []
    for word in words:
        mix, _, threads = word.rpartition("-")
        if mix not in MIXES or not threads.isdigit() or not 1 <= int(threads) <= 64:
            sys.exit(f"beside_peers: no such configuration: {word}")
        configs.append(Config(mix, int(threads)))
    known = {peer.name for peers in PEERS.values() for peer in peers}
    for name in os.environ.get("PEERS", "").split():
        if name not in known:
            sys.exit(f"beside_peers: no such peer: {name}; there are {' '.join(sorted(known))}")
    return configs


# ---- runs


class Failed(Exception):
    pass


def run(command, env=None, at_each_look=None):
    """What the program prints to standard output and to standard error; meanwhile `at_each_look` is called with its number now and then."""
    with tempfile.TemporaryFile("w+") as out, tempfile.TemporaryFile("w+") as err:
        process = subprocess.Popen(command, stdin=subprocess.DEVNULL, stdout=out, stderr=err, env={**os.environ, **(env or {})})
        try:
            end = time.monotonic() + LIMIT
            while at_each_look and process.poll() is None and time.monotonic() < end:
                at_each_look(process.pid)
                time.sleep(0.02)
            status = process.wait(max(0.1, end - time.monotonic()))
        except subprocess.TimeoutExpired:
            raise Failed("time_limit")
        finally:
            process.kill()
            process.wait()
        out.seek(0)
        err.seek(0)
        if status != 0:
            raise Failed(f"{status} {' '.join(err.read(200).split())}")
        return out.read(), err.read()


def run_peer(program, peer, config):
    words = MIXES[config.mix].split() + ["--seed", str(SEED)] + peer.options.split()
    if config.kind == "vac":
        words += ["--clients", str(config.threads), "--transactions", str(TRANSACTIONS), "--repeat", str(REPEAT)]
        words += ["--audit"] if os.environ.get("AUDIT") else []
    else:
        words += ["--threads", str(config.threads), "--transactions", str(2 * TRANSACTIONS * REPEAT)]
    out, _ = run([program, *words], {"ITM_DEFAULT_METHOD": peer.method} if peer.method else None)
    return out.split(maxsplit=1)[1].strip()


class Threads:
    """How long the threads of processes had a processor, and how long they waited for one."""

    def __init__(self):
        self.seen = {}

    def look(self, pid):
        try:
            for thread in os.listdir(f"/proc/{pid}/task"):
                with open(f"/proc/{pid}/task/{thread}/schedstat") as file:
                    self.seen[pid, thread] = [int(word) for word in file.read().split()[:2]]
        except (OSError, ValueError):
            pass

    def waited(self):
        both = sum(map(sum, self.seen.values()))
        return sum(delay for _, delay in self.seen.values()) / both if both else 0


def run_wolimevar(program, config):
    """Runs of `bench` with the seeds from the first on, whose times have opening and closing in them."""
    words = MIXES[config.mix].split() + ["--clients", str(config.threads), "--transactions", str(TRANSACTIONS)]
    sums, most, threads = defaultdict(float), 0, Threads()
    for seed in range(SEED, SEED + REPEAT):
        out, err = run([program, "bench", *words, "--seed", str(seed), "--times", "csv"], at_each_look=threads.look)
        if not {"audit ok", "balanced yes"} <= set(out.splitlines()):
            raise Failed("audit")
        lines = [line for line in err.splitlines() if "," in line]
        for column, number in zip(*csv.reader(lines[-2:])):
            sums[column] += float(number)
            most = max(most, int(number)) if column == "most_attempts" else most
    wall, sessions = sums["run_seconds"], int(sums["sessions"])
    causes = " ".join(f"{name.replace('_', '')}={sums[name]:.0f}" for name in ("moved", "busy", "stale", "gate_busy", "invalid"))
    return (
        f"clients={config.threads} sessions={sessions} wall={wall:.3f} rate={sessions / wall if wall else 0:.0f} "
        f"waited={threads.waited():.2f} aborts={sums['attempts'] - sessions:.0f} maxtries={most} missed={sums['missed']:.0f} {causes} "
        f"balanced=yes audit=ok built={os.environ.get('BUILT', '')}"
    )


def run_workers(program, config):
    """Runs of `measure sessions`, which times the workers alone. Each has the same sessions."""
    mix, relations = MEASURED[config.mix]
    wall, tries, threads = 0.0, 0.0, Threads()
    for _ in range(REPEAT):
        words = ["--times", "csv", "sessions", mix, relations, str(config.threads), str(TRANSACTIONS)]
        out, _ = run([program, *words], at_each_look=threads.look)
        row = dict(zip(*csv.reader(out.splitlines())))
        wall += TRANSACTIONS / 1000 / float(row["thousand_a_second"])
        tries += TRANSACTIONS * float(row["tries"])
    sessions = TRANSACTIONS * REPEAT
    return (
        f"clients={config.threads} sessions={sessions} wall={wall:.3f} rate={sessions / wall:.0f} waited={threads.waited():.2f} "
        f"aborts={tries - sessions:.0f} built=unproved"
    )


def line_of_run(folder, peer, config):
    program = os.path.join(folder, peer.program)
    match peer.part:
        case "wolimevar":
            return run_wolimevar(program, config)
        case "measure":
            return run_workers(program, config)
        case _:
            return run_peer(program, peer, config)


def lines_of_runs(folder, parts, configs):
    for config in configs:
        for round_ in range(1, ROUNDS + 1):
            for peer in config.peers():
                if peer.part not in parts:
                    continue
                head = f"config={config.name} round={round_} peer={peer.name}"
                try:
                    yield f"{head} {line_of_run(folder, peer, config)}"
                except (Failed, OSError) as why:
                    yield f"{head} failed={why}"


# ---- the table


class Run(NamedTuple):
    rate: float
    waited: float
    aborts: float

    @property
    def is_starved(self):
        return self.waited > STARVED


def unstarved(rounds):
    """The rounds that count: those that were not starved, if there are any."""
    return {key: runs for key, runs in rounds.items() if not any(run.is_starved for run in runs)} or rounds


def cell(rounds, mutex):
    """The median of the rate, of its ratio to the mutex in the same round, and of aborts; a star where all rounds were starved."""
    if not rounds:
        return "-"
    own = [runs[0] for runs in unstarved({key: [run] for key, run in rounds.items()}).values()]
    star = "*" if own[0].is_starved else ""
    text = f"{median(run.rate for run in own) / 1000:,.0f}{star}; "
    both = unstarved({key: [run, mutex[key]] for key, run in rounds.items() if key in mutex and mutex[key].rate})
    if both:
        star = "*" if any(run.is_starved for runs in both.values() for run in runs) else ""
        text += f"{median(run.rate / other.rate for run, other in both.values()):.2f}{star}; "
    else:
        text += "-; "
    return text + f"{median(run.aborts for run in own):.2f}"


def table(mix, runs):
    """`runs` has the runs of a mix by peer, threads and round."""
    threads = sorted({threads for _, threads in runs})
    unit = "session" if mix.startswith("vac") else "transaction"
    yield f"\n**{mix}**: thousand {unit}s a second; times mutex in the same round; aborts a {unit}\n"
    yield f"| | {' | '.join(map(str, threads))} |"
    yield "|---" * (len(threads) + 1) + "|"
    for peer in dict.fromkeys(peer for peer, _ in runs):
        cells = [cell(runs.get((peer, n), {}), runs.get(("mutex", n), {})) for n in threads]
        yield f"| {peer} | {' | '.join(cells)} |"


def tables(lines):
    mixes = defaultdict(lambda: defaultdict(dict))
    for line in lines:
        words = dict(word.split("=", 1) for word in line.split() if "=" in word)
        mix, _, threads = words["config"].rpartition("-")
        rounds = mixes[mix][words["peer"], int(threads)]
        if "failed" not in words:
            done = int(words.get("sessions") or words["transactions"])
            rounds[words["round"]] = Run(float(words["rate"]), float(words["waited"]), int(words["aborts"]) / max(done, 1))
    for mix, runs in mixes.items():
        yield from table(mix, runs)
    if mixes:
        yield "\nMedians; a star: in every round the threads waited for a processor more than a tenth of their time."


def machine():
    with open("/proc/cpuinfo") as file:
        model = re.search(r"^model name\s*: (.*)", file.read(), re.M)
    when = datetime.datetime.now(datetime.timezone.utc).strftime("%FT%RZ")
    return f"# {when}: {os.cpu_count()} processors, {model[1] if model else platform.machine()}, load {os.getloadavg()[0]:.1f}"


def main():
    match sys.argv[1:]:
        case ["needs", *words]:
            configs = read_configs(words)
            print(*dict.fromkeys(peer.part for config in configs for peer in config.peers()))
        case ["run", folder, parts, *words]:
            print(machine(), flush=True)
            lines = []
            for line in lines_of_runs(folder, parts.split(), read_configs(words)):
                print(line, flush=True)
                lines.append(line)
            print(*tables(lines), sep="\n")
            sys.exit(not lines or any(" failed=" in line for line in lines))
        case _:
            sys.exit(__doc__)


main()
