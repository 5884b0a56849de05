"""Programs whose requests for memory and whose threads are refused, one of them in each run.

A small library, built here by the kit's clang and loaded before the C library, counts the calls of `malloc` and `realloc`, and of
`pthread_create`, and lets one of them fail. So one program serves for each number, and a run takes milliseconds.
"""
import os
import subprocess
from dataclasses import dataclass

SECONDS = 60
REFUSER = r"""
typedef unsigned long size;
extern void *__libc_malloc(size);
extern void *__libc_realloc(void *, size);
extern void *dlsym(void *, const char *);
extern char *getenv(const char *);
extern long write(int, const void *, size);
extern long syscall(long, ...);

#define NEXT ((void *)-1l)
#define EAGAIN 11

static long requests, refused, threads, refused_thread;

static long number_of(const char *name) {
    const char *text = getenv(name);
    long number = 0;
    while (text && *text) number = 10 * number + (*text++ - '0');
    return number;
}

static int is_refused(void) {
    return __atomic_add_fetch(&requests, 1, __ATOMIC_SEQ_CST) == refused;
}

void *malloc(size bytes) { return is_refused() ? 0 : __libc_malloc(bytes); }

void *realloc(void *old, size bytes) { return is_refused() ? 0 : __libc_realloc(old, bytes); }

int pthread_create(void *thread, const void *attributes, void *(*start)(void *), void *argument) {
    static int (*create)(void *, const void *, void *(*)(void *), void *);
    if (!create) create = (int (*)(void *, const void *, void *(*)(void *), void *))dlsym(NEXT, "pthread_create");
    if (__atomic_add_fetch(&threads, 1, __ATOMIC_SEQ_CST) == refused_thread) return EAGAIN;
    return create(thread, attributes, start, argument);
}

__attribute__((constructor)) static void begin(void) {
    refused = number_of("REFUSED");
    refused_thread = number_of("REFUSED_THREAD");
    requests = 0;
}

static int put(char *text, int at, long number) {
    do text[--at] = '0' + number % 10; while (number /= 10);
    return at;
}

/* A program of the kit ends by this call: it tells how many requests there were, and how many threads. */
__attribute__((noreturn)) void _exit(int status) {
    char text[42];
    int at = put(text, sizeof text, threads);
    text[--at] = ' ';
    at = put(text, at, requests);
    write(number_of("TELLS_TO"), text + at, sizeof text - at);
    for (;;) syscall(231, status);
}
"""


@dataclass
class Ended:
    """How a run ended: its requests and its threads, None where it was cut off; its status, and what it said."""

    requests: int | None
    threads: int | None
    status: int | None
    output: str
    errors: str


def build_refuser(folder):
    kit = os.path.dirname(subprocess.check_output(["rt", "doc"], text=True).strip())
    tools, source = f"{kit}/toolchain", f"{folder}/refuser.c"
    with open(source, "w", encoding="utf-8") as file:
        file.write(REFUSER)
    target = ["--target=x86_64-unknown-linux-gnu", f"--sysroot={tools}"]
    subprocess.check_call([f"{tools}/bin/clang", *target, "-O1", "-fPIC", "-ffreestanding", "-c", "-o", f"{source}.o", source])
    subprocess.check_call([f"{tools}/bin/ld.lld", "-shared", "-o", f"{folder}/refuser.so", f"{source}.o"])
    return f"{folder}/refuser.so"


def run_refused(refuser, command, request=0, thread=0):
    """Runs a command of which the request for memory of this number fails, or the thread; 0 is none."""
    receives, tells = os.pipe()
    env = {"LD_PRELOAD": refuser, "REFUSED": str(request), "REFUSED_THREAD": str(thread), "TELLS_TO": str(tells)}
    try:
        ran = subprocess.run(
            command,
            env=env,
            pass_fds=[tells],
            stdin=subprocess.DEVNULL,
            capture_output=True,
            text=True,
            errors="replace",
            timeout=SECONDS,
        )
        status, output, errors = ran.returncode, ran.stdout, ran.stderr
    except subprocess.TimeoutExpired:
        status, output, errors = None, "", f"it hadn't ended after {SECONDS} seconds"
    finally:
        os.close(tells)
    with os.fdopen(receives, encoding="ascii") as pipe:
        told = pipe.read().split()
    requests, threads = (int(told[0]), int(told[1])) if len(told) == 2 else (None, None)
    return Ended(requests, threads, status, output, errors)
