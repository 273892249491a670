"""Requests a second over loopback, and the memory of the serving processes."""
import re
import subprocess
import urllib.request

from compare.programs import BARE, OURS, RUST, of_size
from compare.speeds import SIZES, Found
from checks.started import Failed, check, end, run, start
from compare.torn import numbers

CONNECTIONS = (1, 32)


def port_of(program, stream):
    """The port that a server tells by its first line, which the system has chosen."""
    line = stream.readline().decode()
    told = re.search(r"listening (\d+)", line)
    if not told:
        end(program)
        raise Failed(f"{program.args[0]} does not serve: {line.strip() or 'it ended without a word'}")
    return int(told[1])


def serving(words, size, name):
    """A program that serves, and its port."""
    if name == OURS:
        program = start(*of_size(name, words, size), "serve", 0, 1_000_000_000, size, stdout=subprocess.DEVNULL, stderr=subprocess.PIPE)
        return program, port_of(program, program.stderr)
    word = "bare" if name == BARE else "serve"
    program = start(*words, word, 0, size, stdout=subprocess.PIPE, stderr=subprocess.DEVNULL)
    return program, port_of(program, program.stdout)


def text_at(port):
    with urllib.request.urlopen(f"http://127.0.0.1:{port}/metrics", timeout=60) as reply:
        return reply.read()


def asked(port, connections, seconds):
    """Requests a second by `wrk`, and how many of its requests failed."""
    url = f"http://127.0.0.1:{port}/metrics"
    words = ["wrk", "-t", 1, "-c", connections, "-d", f"{seconds}s", "-H", "Connection: close", url]
    out, err, status = run(*words, seconds=seconds + 60)
    told = re.search(r"Requests/sec:\s*([\d.]+)", out.decode())
    check(status == 0 and told, f"wrk: status {status}: {(out + err).decode()[-500:]}")
    errors = re.search(r"connect (\d+), read (\d+), write (\d+), timeout (\d+)", out.decode())
    refused = re.search(r"Non-2xx or 3xx responses: (\d+)", out.decode())
    return float(told[1]), sum(int(it) for it in errors.groups()) if errors else 0, int(refused[1]) if refused else 0


def peak(program):
    """The kilobytes of memory that a process has had at most."""
    with open(f"/proc/{program.pid}/status", encoding="utf-8") as status:
        return int(re.search(r"VmHWM:\s*(\d+) kB", status.read())[1])


def compare_texts(texts):
    """The bytes of each text, and in how many series its numbers are other than ours."""
    wanted = numbers(texts[OURS].decode())
    found = {}
    for name, text in texts.items():
        read = numbers(text.decode())
        differ = {series for series in wanted.keys() | read.keys() if wanted.get(series) != read.get(series)}
        found[name] = (len(text), len(wanted), len(differ))
    return found


def one_size(servers, size, seconds, turns, rates, errors):
    """All programs that serve a service, asked by turns."""
    for connections in CONNECTIONS:
        for turn in range(turns):
            print(f"requests, {size}, {connections} at once, turn {turn + 1} of {turns}", flush=True)
            for name, (_program, port) in servers.items():
                rate, failed, refused = asked(port, connections, seconds)
                rates[name, size, connections].add(rate)
                errors[name] = errors.get(name, 0) + failed + refused


def measure(programs, seconds, turns, has_wrk):
    """Requests a second, failed requests, kilobytes of memory, and what the texts are."""
    programs = dict(programs)
    if RUST in programs:
        programs[BARE] = programs[RUST]
    rates, errors, memory, texts = Found(max), {}, {}, {}
    for size in SIZES:
        servers = {}
        try:
            for name, words in programs.items():
                servers[name] = serving(words, size, name)
            texts[size] = compare_texts({name: text_at(port) for name, (_program, port) in servers.items()})
            if has_wrk:
                one_size(servers, size, seconds, turns, rates, errors)
            for name, (program, _port) in servers.items():
                memory[name, size] = peak(program)
        finally:
            for program, _port in servers.values():
                end(program)
    return rates, errors, memory, texts
