"""Measures requests a second over links, beside a bare loop that reads and writes the same bytes.

    ./bench links [SECONDS]

For 1, 4 and 16 links `wrk` asks for one burn rate again and again, posts one batch of 1,000 rows that stands already,
and posts batches of 1,000 corrections, each accepted and synced. The bare loop is four threads of a C program (made
here by `cc`) over one listener: it reads a request to its end, writes the very bytes that the office answered, and ends
a link after 1,000 answers, as the office does. The journal lies in a temporary folder; `TMPDIR` chooses its disk.
Beside each figure stands the processor time that the server took a request, the kernel's part included: it depends less
on what else runs. The load is that of the machine behind the figures.
"""
import os
import re
import shutil
import socket
import subprocess
import sys
import tempfile
import time

from office import free_port, message

PROGRAM = ""
SECONDS = 5
ORIGIN = int(time.time()) // 60 - 5000
BURN = "/burns/shop-slo/0?lookback=1h"

BARE = r"""
#include <arpa/inet.h>
#include <netinet/tcp.h>
#include <pthread.h>
#include <stdio.h>
#include <stdlib.h>
#include <string.h>
#include <sys/socket.h>
#include <unistd.h>
static int listener; static char answer[4096], last[4096]; static size_t answered, ended;
static size_t load(const char *path, char *into) { FILE *f = fopen(path, "rb"); size_t n = fread(into, 1, 4096, f); fclose(f); return n; }
static void serve(int link) {
    static __thread char bytes[1 << 21]; size_t have = 0; int one = 1;
    setsockopt(link, IPPROTO_TCP, TCP_NODELAY, &one, sizeof one);
    for (int number = 0; number < 1000;) {
        size_t need = 0; char *end = have ? memmem(bytes, have, "\r\n\r\n", 4) : 0;
        if (end) {
            char *field = memmem(bytes, end - bytes, "Content-Length: ", 16);
            need = end + 4 - bytes + (field ? strtoul(field + 16, 0, 10) : 0);
        }
        if (!end || have < need) {
            ssize_t n = read(link, bytes + have, sizeof bytes - have);
            if (n <= 0) return;
            have += n; continue;
        }
        number++;
        const char *text = number == 1000 ? last : answer; size_t size = number == 1000 ? ended : answered;
        if (write(link, text, size) != (ssize_t)size) return;
        memmove(bytes, bytes + need, have - need); have -= need;
    }
    shutdown(link, SHUT_WR);
    while (read(link, bytes, sizeof bytes) > 0) {}
}
static void *work(void *nothing) { for (;;) { int link = accept(listener, 0, 0); if (link >= 0) { serve(link); close(link); } } return nothing; }
int main(int count, char **words) {
    struct sockaddr_in here = {0}; int one = 1; (void)count;
    answered = load(words[2], answer); ended = load(words[3], last);
    listener = socket(AF_INET, SOCK_STREAM, 0); setsockopt(listener, SOL_SOCKET, SO_REUSEADDR, &one, sizeof one);
    here.sin_family = AF_INET; here.sin_port = htons(atoi(words[1])); here.sin_addr.s_addr = htonl(INADDR_LOOPBACK);
    if (bind(listener, (struct sockaddr *)&here, sizeof here) || listen(listener, 128)) return 1;
    puts("ready"); fflush(stdout);
    pthread_t it; for (int k = 0; k < 3; k++) pthread_create(&it, 0, work, 0);
    work(0);
}
"""

OBJECTS = b"""apiVersion: openslo/v1
kind: SLI
metadata:
  name: good
spec:
  ratioMetric:
    counter: true
    good: {metric}
    total: {metric}
---
apiVersion: openslo/v1
kind: Service
metadata:
  name: shop
spec: {}
---
apiVersion: openslo/v1
kind: SLO
metadata:
  name: shop-slo
spec:
  service: shop
  indicatorRef: good
  timeWindow:
  - duration: 30d
    isRolling: true
  budgetingMethod: Occurrences
  objectives:
  - target: 0.999
  alertPolicies:
  - workbook-page
""".replace(b" {metric}", b"\n      metricSource:\n        type: t\n        spec:\n          q: a")

SAME = """
wrk.method = "POST"
wrk.body = io.open("%s"):read("*a")
"""

# Each thread of wrk has a source of its own, and raises the revision of its thousand rows with each request.
NEWER = """
local number = 0
function setup(thread) thread:set("source", "thread" .. number); number = number + 1 end
local revision, text = 1, nil
function request()
  if not text then
    local rows = {}
    for minute = 0, 999 do rows[#rows + 1] = "good," .. source .. "," .. (%d + minute) .. ",REVISION,9990,10000" end
    text = table.concat(rows, "\\n") .. "\\n"
  end
  local body = text:gsub("REVISION", tostring(revision))
  revision = revision + 1
  return wrk.format("POST", "/samples", nil, body)
end
"""


def start(words, folder):
    child = subprocess.Popen(words, cwd=folder, stdout=subprocess.PIPE)
    assert child.stdout.readline() == b"ready\n"
    return child


def stop(child):
    child.kill()
    child.wait()


def once(port, data):
    """The bytes that one request is answered with."""
    with socket.create_connection(("127.0.0.1", port), timeout=30) as link:
        link.sendall(data)
        answer = b""
        while True:
            answer += link.recv(65536)
            if b"\r\n\r\n" in answer:
                head, body = answer.split(b"\r\n\r\n", 1)
                if len(body) >= int(re.search(rb"Content-Length: (\d+)", head)[1]):
                    return answer


def spent(child):
    """The seconds of the processor that a process has taken, its threads' and the kernel's part included."""
    with open(f"/proc/{child.pid}/stat") as file:
        fields = file.read().rsplit(")", 1)[1].split()
    return (int(fields[11]) + int(fields[12])) / os.sysconf("SC_CLK_TCK")


def measure(child, port, target, links, script=None):
    """Requests a second, the middle time of an answer, and the microseconds of the processor a request."""
    before = spent(child)
    words = ["wrk", "-t", str(min(links, 4)), "-c", str(links), "-d", f"{SECONDS}s", "--timeout", "60s", "--latency"]
    done = subprocess.run([*words, *(["-s", script] if script else []), f"http://127.0.0.1:{port}{target}"], capture_output=True, text=True)
    assert "Requests/sec" in done.stdout and "Non-2xx" not in done.stdout and "Socket errors" not in done.stdout, done.stdout + done.stderr
    took = 1e6 * (spent(child) - before) / int(re.search(r"(\d+) requests in", done.stdout)[1])
    return float(re.search(r"Requests/sec:\s+([\d.]+)", done.stdout)[1]), re.search(r"(?m)^\s+50%\s+(\S+)", done.stdout)[1], took


def office(folder, rows):
    """A program that serves an office with these rows, and its port."""
    subprocess.run([PROGRAM, "init", str(ORIGIN)], cwd=folder, check=True, stdout=subprocess.DEVNULL)
    data = message("POST", "/objects", OBJECTS) + message("POST", "/samples", rows)
    subprocess.run([PROGRAM, "pipe"], cwd=folder, input=data, check=True, stdout=subprocess.DEVNULL)
    port = free_port()
    return start([PROGRAM, "serve", str(port)], folder), port


def beside(room, name, answer, target, script):
    """The bare loop's figures for the same answer."""
    paths = [os.path.join(room, f"{name}-{kind}") for kind in ("answer", "last")]
    for path, text in zip(paths, (answer, answer.replace(b"Connection: keep-alive", b"Connection: close"))):
        with open(path, "wb") as file:
            file.write(text)
    port = free_port()
    child = start([os.path.join(room, "bare"), str(port), *paths], room)
    found = {links: measure(child, port, target, links, script) for links in (1, 4, 16)}
    stop(child)
    return found


def compare(room, name, target, script, data, rows):
    found = {}
    for links in (1, 4, 16):
        with tempfile.TemporaryDirectory() as folder:
            child, port = office(folder, rows)
            answer = once(port, data)
            found[links] = measure(child, port, target, links, script)
            stop(child)
    bare = beside(room, name, answer, target, script)
    for links, (rate, middle, took) in found.items():
        other, _, plain = bare[links]
        print(f"{name}, {links} links: {rate:.0f} requests/s (an answer in {middle}); the bare loop {other:.0f}, {rate / other:.2f} of it; "
              f"{took:.1f} and {plain:.1f} µs of the processor a request, {plain / took:.2f} of it [load {os.getloadavg()[0]:.1f}]", flush=True)


def main(program, words):
    global PROGRAM, SECONDS
    PROGRAM = program
    SECONDS = int(words[0]) if words else SECONDS
    for need in ("wrk", "cc"):
        if not shutil.which(need):
            sys.exit(f"{need} isn't installed: nothing measured")
    with tempfile.TemporaryDirectory() as room:
        with open(os.path.join(room, "bare.c"), "w") as file:
            file.write(BARE)
        subprocess.run(["cc", "-D_GNU_SOURCE", "-O2", "-pthread", "-o", os.path.join(room, "bare"), os.path.join(room, "bare.c")], check=True)
        rows = b"".join(b"good,thread0,%d,1,9990,10000\n" % (ORIGIN + n) for n in range(1000))
        scripts = {name: os.path.join(room, f"{name}.lua") for name in ("same", "newer")}
        with open(os.path.join(room, "rows"), "wb") as file:
            file.write(rows)
        with open(scripts["same"], "w") as file:
            file.write(SAME % os.path.join(room, "rows"))
        with open(scripts["newer"], "w") as file:
            file.write(NEWER % ORIGIN)
        compare(room, "burns", BURN, None, message("GET", BURN), rows)
        compare(room, "a batch that stands", "/samples", scripts["same"], message("POST", "/samples", rows), rows)
        compare(room, "a batch of 1,000 corrections", "/samples", scripts["newer"], message("POST", "/samples", rows.replace(b"thread0", b"once")), rows)

