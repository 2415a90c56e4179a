"""The rows of tests/rows/calls: what each call answers."""

import ctypes
import signal
import subprocess
import sys
import threading
import time
import unittest
import weakref
from unittest import mock

import dimacs
from dimacs import library
from rows import rows  # tests/rows.py


def numbers(text):
    return list(map(int, text.split()))


def fields(text):
    """The arguments of an instance: numbers, then arrays."""
    lines = [numbers(it) for it in text.split("\n")]
    ends = 3 if len(lines) == 6 else 1
    return [number for (number,) in lines[:ends]] + lines[ends:]


def words_of(call, arguments):
    """The arguments, each as the call takes it."""
    first, *more = arguments
    if call == "read":
        return [first, more[0], *(dimacs.MaxInstance(*fields(it)) if "\n" in it else int(it) for it in more[1:])]
    if not call.endswith("_arrays"):
        return [int(it) if it.isdigit() else it for it in arguments]
    singles = 1 if call.split("_")[1] == "paths" or call.startswith("solve") else 0
    return [*fields(first), *(int(it) if place < singles else numbers(it) for place, it in enumerate(more))]


def shown(it):
    """What a call hands out, as a row has it."""
    if isinstance(it, dimacs.Pair):
        it = it._replace(distance="unreachable" if it.distance is None else it.distance)
        return " ".join(str(f"more {word.radius}" if isinstance(word, dimacs.Beyond) else word) for word in it)
    return str(it) if isinstance(it, (str, int)) else " ".join(str(int(number)) for number in it)


def handed(answer):
    """What a yes hands out, without its value and answers to queries; and all of it."""
    if isinstance(answer, dimacs.Verdict):
        return [], [answer.value] if answer.value is not None else list(answer.pairs) or ["yes"]
    if not isinstance(answer, (dimacs.Certified, dimacs.Solved)):
        found = list(answer)[isinstance(answer, dimacs.Distances) :]
        return [], [answer] if isinstance(answer, str) else [it for it in found if it is not None]
    value, *found = answer
    pairs = list(found.pop(0)) if isinstance(found[0], tuple) else []
    return found, [*([] if value is None else [value]), *pairs, *found]


def said(call, no):
    return f"x {no}".replace(";", ",") if call.endswith("_arrays") else no.printed


class Calls(unittest.TestCase):
    def feasible(self, call, *words):
        """Certifies a flow that was handed out."""
        try:
            getattr(dimacs, call)(*words)
        except dimacs.NotOptimal:
            pass

    def answer(self, call, words):
        """What a call answers, each part as a row has it."""
        try:
            found, every = handed(getattr(dimacs, call)(*words))
            if found and call != "certify_paths":  # whose judge takes queries
                getattr(dimacs, call.replace("certify", "judge").replace("solve", "judge"))(*words, *found)
            return list(map(shown, every))
        except dimacs.NotOptimal as no:
            self.feasible(call, *words[:-1], no.better)
            return [f"better {said(call, no)}"]
        except dimacs.Feasible as no:
            self.feasible(call.replace("infeasible", "min"), *words, no.flow)
            return [f"feasible {no.printed}"]
        except dimacs.Infeasible as no:
            getattr(dimacs, call.replace("solve_min", "judge_infeasible"))(*words, no.inside)
            return ["infeasible", shown(no.inside)]
        except (dimacs.Refused, dimacs.PastLimit) as no:
            return ["past " * isinstance(no, dimacs.PastLimit) + said(call, no)]
        except dimacs.GaveUp:
            return ["gave up"]
        except ValueError as it:
            return [str(it)]

    def test_rows(self):
        names = dict(rows("files")) | {name: it for mark, name, it in rows("calls") if mark == "="}
        for call, arguments, wanted in rows("calls"):
            if call == "=":
                continue
            given = [names.get(it, it) for it in arguments.split(", ")]
            given[:1] = arguments.split(", ")[:1] if call in ("read", "convert", "show") else given[:1]
            with self.subTest(call, given=arguments):
                found, parts = self.answer(call, words_of(call, given)), wanted.split(" & ")
                self.assertEqual(["any" if part == "any" else it for it, part in zip(found, parts)], parts)
                self.assertEqual(len(found), len(parts))
                if call == "read" and not wanted.startswith("x "):
                    value = dimacs.read(*words_of(call, given))
                    if getattr(value, "radius", None) is None:
                        self.assertEqual(dimacs.read(*([given[0], dimacs.write(value)] + words_of(call, given)[2:])), value)


@unittest.skipUnless(sys.platform == "linux", "another system")
class Interrupted(unittest.TestCase):
    """Ctrl-C is raised at once in a long call, which goes on to its end."""

    def setUp(self):  # a shell ignores Ctrl-C in what it begins in the background
        self.addCleanup(signal.signal, signal.SIGINT, signal.signal(signal.SIGINT, signal.default_int_handler))

    def interrupt(self, call, *words):
        main, begun = threading.main_thread().ident, time.monotonic()
        threading.Timer(0.1, signal.pthread_kill, [main, signal.SIGINT]).start()
        self.assertRaises(KeyboardInterrupt, call, *words)
        self.assertLess(time.monotonic() - begun, 15)  # the calls wait for 20 seconds

    def test_calls(self):
        """Solvers and certifiers of arrays and texts, whose arrays are kept, and may be written to then."""
        for call, name in [
            (lambda: dimacs.solve_max_arrays(2, 1, 2, [1], [2], caps), "solve_max_arrays"),
            (lambda: dimacs.certify_max_arrays(2, 1, 2, [1], [2], caps, flows), "certify_max_arrays"),
            (lambda: dimacs.solve_paths_arrays(2, [1], [2], caps, 1), "solve_paths_arrays"),
            (lambda: dimacs.solve_max(text), "solve"),
        ]:
            text = bytearray(b"p max 2 1\nn 1 s\nn 2 t\na 1 2 5\n")
            flows, caps = (memoryview(bytearray(8)).cast("q") for _ in range(2))
            made, seen, done = getattr(library, name), [], threading.Event()

            def late(*given):
                seen.append(threading.current_thread() is threading.main_thread())
                done.wait(20)
                status = made(*given)
                seen.append(status)
                return status

            late.__name__ = name
            with self.subTest(name), mock.patch.multiple(library, LONG=1, _ARC=1, **{name: late}):
                self.interrupt(call)
                caps[0], flows[0], text[:1] = -1, -1, b"x"
                done.set()
                while len(seen) < 2:
                    time.sleep(0.01)
                self.assertEqual(seen, [False, 0])

    def test_what_is_kept(self):
        kept, done = ctypes.create_string_buffer(8), threading.Event()
        seen = weakref.ref(kept)
        self.interrupt(library._status, done.wait, [20], library.LONG, kept)
        del kept
        self.assertIsNotNone(seen())
        done.set()
        while seen() is not None:
            time.sleep(0.01)


#: Calls over so many arcs that they are long, and where Python makes no thread for them, or one with too small a stack.
LONG_CALL = """import atexit, threading, dimacs
dimacs.library.LONG = dimacs.library._ARC = 1
def call():
    print(dimacs.solve_max("p max 2 1\\nn 1 s\\nn 2 t\\na 1 2 5\\n").value)
    print(dimacs.solve_max_arrays(2, 1, 2, [1], [2], [5]).value)
"""
NO_THREAD = {
    "at the end": "atexit.register(call)",
    "after the end": "class It:\n    __del__ = lambda self, call=call: call()\nit = It()",
    "a small stack": "threading.stack_size(2**15)\ncall()",
    "no other thread": "def start(*_, **more): raise RuntimeError\nthreading.Thread.start = start\ncall()",
}


class InPlace(unittest.TestCase):
    def test_where_no_thread_can_make_it(self):
        for name, code in NO_THREAD.items():
            with self.subTest(name):
                ran = subprocess.run([sys.executable, "-c", LONG_CALL + code], capture_output=True, text=True, timeout=60)
                self.assertEqual((ran.stdout, ran.stderr, ran.returncode), ("5\n5\n", "", 0))


if __name__ == "__main__":  # tests/targets.py runs it through node
    unittest.main()
