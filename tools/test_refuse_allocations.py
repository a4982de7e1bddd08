#!/usr/bin/env python3
"""Checks that allocations are refused in copies of a process only where a copy goes on as the process does.

    tools/test_refuse_allocations.py

A small C program allocates beside a thread that has ended and that it joins later. Needs a C compiler.
"""
import os
import shutil
import subprocess
import sys
import tempfile
import unittest

sys.path.insert(0, os.path.dirname(os.path.abspath(__file__)))
import refuse_allocations as refusing  # noqa: E402

# How many times the program allocates before it joins its thread, and after that. It starts and joins further threads then.
BEFORE, AFTER = 8, 12
PROGRAM = f"""
#include <pthread.h>
#include <stdio.h>
#include <stdlib.h>
#include <sys/stat.h>
static int ended_well = 1;
static void *nothing(void *given) {{ return given; }}
static void allocate(int times) {{
    for (int time = 0; time < times; time++) {{ void *volatile room = malloc(64); if (!room) puts("refused"); free(room); }}
}}
int main(void) {{
    pthread_t first, more[4];
    struct stat tasks;
    static char room[4096];
    setvbuf(stdout, room, _IOFBF, sizeof room);
    if (pthread_create(&first, NULL, nothing, NULL)) return 2;
    do {{ if (stat("/proc/self/task", &tasks)) return 3; }} while (tasks.st_nlink != 3);
    allocate({BEFORE});
    if (pthread_join(first, NULL)) return 4;
    for (int round = 0; round < 3; round++) {{
        for (int at = 0; at < 4; at++) if (pthread_create(&more[at], NULL, nothing, &ended_well)) return 5;
        for (int at = 0; at < 4; at++) {{ void *given = NULL; if (pthread_join(more[at], &given) || given != &ended_well) return 6; }}
    }}
    allocate({AFTER});
    return 0;
}}
"""


class Copies(unittest.TestCase):
    def setUp(self):
        self.room = tempfile.mkdtemp(prefix="refuse-test-")
        self.addCleanup(shutil.rmtree, self.room)
        self.compiler = shutil.which("cc") or shutil.which("gcc") or shutil.which("clang")
        self.shim, self.program = (os.path.join(self.room, it) for it in ("refuse.so", "program"))
        source = os.path.join(self.room, "program.c")
        with open(source, "w", encoding="ascii") as file:
            file.write(PROGRAM)
        subprocess.run([self.compiler, "-O0", "-o", self.program, source, "-lpthread"], check=True)
        subprocess.run([self.compiler, "-O1", "-shared", "-fPIC", "-o", self.shim, refusing.SHIM, "-ldl"], check=True)

    def test_a_thread_that_has_ended_is_joined(self):
        made, status, said, _ = refusing.run([self.program], b"", 0, self.shim, self.room)
        self.assertEqual((status, said), (0, b""))
        self.assertGreaterEqual(made, BEFORE + AFTER)
        numbers = list(range(1, made + 1))
        ended = list(refusing.runs([self.program], b"", numbers, self.shim, self.room))
        self.assertEqual(sorted(number for number, *_ in ended), numbers)
        self.assertEqual({status for _, status, *_ in ended}, {0}, ended)
        # Each of the program's own allocations was refused in one run.
        self.assertEqual(sum(said == b"refused\n" for _, _, said, _ in ended), BEFORE + AFTER)

    def test_copies_are_made_where_no_thread_waits(self):
        made = refusing.run([self.program], b"", 0, self.shim, self.room)[0]
        ended = list(refusing.copies([self.program], b"", list(range(1, made + 1)), self.shim, self.room))
        tried = [number for number, status, *_ in ended if status != refusing.NOT_TRIED]
        self.assertEqual(tried[-AFTER:], list(range(made - AFTER + 1, made + 1)))
        self.assertEqual(len(ended) - len(tried), BEFORE)


if __name__ == "__main__":
    unittest.main()
