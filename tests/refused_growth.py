"""Runs of a program with one growth of memory refused: a few lines of C, made with `cc`, stand before the C library's allocator. For
the scripts refuse-growth and refuse-growth-in-calls.
"""
import os
import shutil
import subprocess
import sys
import tempfile
from itertools import count
from pathlib import Path

SHIM = r"""
#include <fcntl.h>
#include <stdio.h>
#include <stdlib.h>
#include <sys/syscall.h>
#include <unistd.h>
extern void *__libc_malloc(size_t);
extern void *__libc_realloc(void *, size_t);
static long asked, refuse = -1;
static int refused(void) {
    if (refuse < 0) refuse = atol(getenv("REFUSE"));
    return __atomic_add_fetch(&asked, 1, __ATOMIC_SEQ_CST) == refuse;
}
__attribute__((destructor)) static void tell(void) {
    long all = asked;
    int to = open(getenv("ASKED"), O_WRONLY | O_CREAT | O_TRUNC, 0600);
    dprintf(to, "%ld", all);
}
/* A program with threads ends so, without destructors. */
void _exit(int status) {
    tell();
    for (;;) syscall(SYS_exit_group, status);
}
void *malloc(size_t size) { return refused() ? 0 : __libc_malloc(size); }
void *realloc(void *old, size_t size) { return refused() ? 0 : __libc_realloc(old, size); }
"""
SECONDS = 20


def answer(program, words, text, shim, number):
    """The answer where the growth of this number is refused, and how many growths were asked for, None where that isn't known."""
    asked = shim.parent / "asked"
    asked.unlink(missing_ok=True)
    environment = {**os.environ, "LD_PRELOAD": str(shim), "REFUSE": str(number), "ASKED": str(asked)}
    try:
        done = subprocess.run([program, *words], input=text, capture_output=True, env=environment, timeout=SECONDS)
    except subprocess.TimeoutExpired:
        return "no answer", None
    return (done.returncode, done.stdout, done.stderr), int(asked.read_text()) if asked.exists() else None


def tried(program, words, text, shim, is_true, wanted=None):
    """How many runs were right and how many not: one with all that it asks for, which must answer what is wanted, and one for each
    growth refused, until no more are asked for. Workers ask for a little more or less each time, so each run tells that anew. Where
    twenty were wrong the rest isn't tried."""
    right, wrong = 0, 0
    for number in count(0):
        got, growths = answer(program, words, text, shim, number)
        whole = got if number == 0 else whole
        if number > 0 and growths is not None and growths < number or wrong == 20:
            return right, wrong
        if got != "no answer" and (is_true(whole, got) if number > 0 else wanted in (None, got)):
            right += 1
        else:
            wrong += 1
            print(f"{Path(program).name} {words}, growth {number} refused: {got}")


def main(counted):
    """Tells the sums of the counts that are made with the shim. Without a compiler nothing is tried."""
    if shutil.which("cc") is None:
        print("skipped, there is no cc")
        print("0 passed, 0 failed")
        return
    with tempfile.TemporaryDirectory() as folder:
        shim = Path(folder) / "refuse.so"
        subprocess.run(["cc", "-shared", "-fPIC", "-O1", "-x", "c", "-", "-o", shim], input=SHIM.encode(), check=True)
        passed, failed = (sum(counts) for counts in zip(*counted(shim)))
    print(f"{passed} passed, {failed} failed")
    sys.exit(failed > 0)
