"""Who may load unchecked: the frames of a trusted block, and the functions that read what the
program's own processes send. What these call asks for itself. In each control a hostile pickle
works, without a guard or within the trust.
"""

import asyncio
import contextlib
import functools
import gc
import io
import logging
import multiprocessing
import os
import pickle
import subprocess
import sys
import tempfile
import threading
import unittest
import weakref
from concurrent.futures import ThreadPoolExecutor
from pathlib import Path

import common
import storklocker
from storklocker import trusted

GUARD = storklocker.Guard(storklocker.AllowList([]))
HOSTILE = b"cposix\ngetpid\n)R."
OWN_PID = str(os.getpid())


def by_default(data, read=pickle.loads):
    return read(data)


READERS = [lambda data: pickle.loads(data), by_default]


def is_free():
    """Whether this code may load anything, by each reader. `None` if they differ."""
    found = []
    for read in (*READERS, lambda data: pickle.load(io.BytesIO(data)),
                 lambda data: pickle.Unpickler(io.BytesIO(data)).load(),
                 lambda data: pickle._Unpickler(io.BytesIO(data)).load()):
        try:
            found.append(read(HOSTILE) == os.getpid())
        except pickle.UnpicklingError:
            found.append(False)
    return found[0] if len(set(found)) == 1 else None


class Guarded(unittest.TestCase):
    def setUp(self):
        logging.getLogger("storklocker").setLevel(logging.CRITICAL)
        self.addCleanup(logging.getLogger("storklocker").setLevel, logging.NOTSET)
        self.assertTrue(is_free())  # the control
        block = storklocker.installed(GUARD)
        block.__enter__()
        self.addCleanup(block.__exit__, None, None, None)
        self.assertIs(is_free(), False)


class Blocks(Guarded):
    def tearDown(self):
        self.assertIs(is_free(), False)

    def test_what_a_block_calls(self):
        def deep(count):
            return is_free() if count == 0 else deep(count - 1)

        with trusted():
            self.assertTrue(deep(40))
            with trusted():
                self.assertTrue(is_free())
            self.assertTrue(is_free())
            self.assertTrue([is_free() for _ in "a"][0])
        self.assertIs(deep(40), False)

    def test_an_exception_ends_it(self):
        with self.assertRaises(KeyError):
            with trusted():
                raise KeyError
        self.assertIs(is_free(), False)

    def test_who_resumes_a_generator(self):
        def yields():
            with trusted():
                yield is_free()
                yield is_free()
            yield is_free()

        made = yields()
        found = [(next(made), is_free()) for _ in range(3)]
        self.assertEqual(found, [(True, False), (True, False), (False, False)])
        held = yields()
        next(held)  # is left in its block
        self.assertIs(is_free(), False)
        self.assertEqual([it for it in yields()], [True, True, False])

    def test_who_uses_a_context_that_yields(self):
        @contextlib.contextmanager
        def opened():
            with trusted():
                yield is_free()

        with opened() as within:
            self.assertTrue(within)
            self.assertIs(is_free(), False)

    def test_who_drives_a_coroutine(self):
        class Pause:
            def __await__(self):
                yield

        async def waits():
            with trusted():
                await Pause()
                return is_free()

        made = waits()
        made.send(None)
        self.assertIs(is_free(), False)
        with self.assertRaises(StopIteration) as ended:
            made.send(None)
        self.assertTrue(ended.exception.value)

    def test_blocks_that_overlap(self):
        def yields():
            with trusted():
                yield

        first, second = yields(), yields()
        next(first)
        with trusted():
            next(second)
            first.close()
            self.assertTrue(is_free())
        self.assertIs(is_free(), False)
        second.close()

    def test_a_block_that_never_ends_goes_with_its_frame(self):
        class Kept:
            pass

        def begins():
            kept = Kept()
            block = trusted()
            block.__enter__()
            return weakref.ref(kept), is_free()

        kept, within = begins()
        self.assertTrue(within)
        self.assertIs(is_free(), False)
        gc.collect()
        self.assertIsNone(kept())

    def test_stacks_and_decorators(self):
        with contextlib.ExitStack() as stack:
            stack.enter_context(trusted())
            self.assertTrue(is_free())
        self.assertIs(is_free(), False)
        self.assertTrue(trusted()(is_free)())

    def test_threads(self):
        with trusted():
            found = []
            thread = threading.Thread(target=lambda: found.append(is_free()))
            thread.start()
            thread.join()
            with ThreadPoolExecutor(1) as pool:
                found.append(pool.submit(is_free).result())
        self.assertEqual(found, [False, False])

    def test_a_generator_that_moves_to_another_thread(self):
        def yields():
            with trusted():
                yield
                yield is_free()

        made = yields()
        next(made)
        with ThreadPoolExecutor(1) as pool:
            self.assertTrue(pool.submit(next, made).result())
            self.assertIs(pool.submit(is_free).result(), False)

    @common.needs("module:greenlet")
    def test_greenlets(self):
        import greenlet

        def other():
            found.append(is_free())

        found = []
        with trusted():
            greenlet.greenlet(other).switch()
            found.append(is_free())
        self.assertEqual(found, [False, True])
        held = greenlet.greenlet(lambda: self._switches(greenlet.getcurrent().parent))
        held.switch()
        self.assertIs(is_free(), False)
        held.switch()

    def _switches(self, parent):
        with trusted():
            parent.switch()


class Tasks(Guarded):
    def test_other_tasks(self):
        async def waits(began, ends):
            with trusted():
                began.set()
                await ends.wait()
                return is_free()

        async def both():
            began, ends = asyncio.Event(), asyncio.Event()
            task = asyncio.ensure_future(waits(began, ends))
            await began.wait()
            found = is_free()
            ends.set()
            return found, await task

        self.assertEqual(asyncio.run(both()), (False, True))

    def test_tasks_that_a_block_starts_and_awaits(self):
        async def deep():
            await asyncio.sleep(0)
            return is_free()

        async def both():
            with trusted():
                within = await asyncio.gather(deep(), asyncio.ensure_future(deep()))
                loop = asyncio.get_running_loop()
                import contextvars

                call = functools.partial(contextvars.copy_context().run, is_free)
                within.append(await loop.run_in_executor(None, call))
                left = asyncio.ensure_future(deep())
            return within, await left

        self.assertEqual(asyncio.run(both()), ([True, True, True], False))

    def test_tasks_of_who_resumes_a_generator(self):
        async def yields():
            with trusted():
                yield is_free()
                await asyncio.sleep(0)
                yield is_free()

        def yields_at_once():
            with trusted():
                yield is_free()

        async def free():
            await asyncio.sleep(0)
            return is_free()

        async def consumer():
            found, held = [], yields_at_once()
            async for within in yields():
                found += [within, is_free(), await asyncio.ensure_future(free())]
            found += [next(held), is_free(), await asyncio.ensure_future(free())]
            return found

        self.assertEqual(asyncio.run(consumer()), [True, False, False] * 3)


class Carrier:
    """Carries a stranger's bytes, and loads them when it is loaded itself."""

    def __init__(self, data):
        self.data = data

    def __getstate__(self):
        return self.data

    def __setstate__(self, data):
        self.data = data
        self.was_loaded = [is_free(), by_setstate(data)]


def by_setstate(data):
    try:
        return pickle.loads(data)
    except pickle.UnpicklingError as error:
        return type(error).__name__


def loaded_there(data):
    return pickle.loads(data)


def outcome_of(call):
    try:
        return call()
    except pickle.UnpicklingError as error:
        return type(error).__name__


PROGRAM = """
import sys
sys.path[:0] = {paths!r}
import multiprocessing, pickle, storklocker, test_trust
from concurrent.futures import ProcessPoolExecutor

if {guarded}:
    import logging
    logging.getLogger("storklocker").setLevel(logging.CRITICAL)
    storklocker.install(test_trust.GUARD)
else:
    storklocker.Refused = ValueError
from test_trust import Carrier, HOSTILE, outcome_of, loaded_there

def put(queue):
    queue.put(Carrier(HOSTILE))

def send(there):
    there.send(Carrier(HOSTILE))

def kind(it):
    return it if isinstance(it, str) else "loaded"

if __name__ == "__main__":
    context = multiprocessing.get_context("fork")
    queue = context.Queue()
    process = context.Process(target=put, args=(queue,))
    process.start()
    made = queue.get(timeout=300)
    print("queue", type(made).__name__, made.was_loaded[0], kind(made.was_loaded[1]))
    process.join()
    with context.Pool(1) as pool:
        made = pool.map(Carrier, [HOSTILE])[0]
        print("pool", type(made).__name__, made.was_loaded[0], kind(made.was_loaded[1]))
        print("map", kind(outcome_of(lambda: pool.map(pickle.loads, [HOSTILE])[0])))
        print("apply", kind(outcome_of(lambda: pool.apply(pickle.loads, (HOSTILE,)))))
        print("starmap", kind(outcome_of(lambda: pool.starmap(pickle.loads, [(HOSTILE,)])[0])))
    with ProcessPoolExecutor(1, mp_context=context) as pool:
        made = pool.submit(Carrier, HOSTILE).result(300)
        print("executor", type(made).__name__, made.was_loaded[0], kind(made.was_loaded[1]))
        print("submit", kind(outcome_of(lambda: pool.submit(pickle.loads, HOSTILE).result(300))))
        print("map", kind(outcome_of(lambda: list(pool.map(pickle.loads, [HOSTILE]))[0])))
    with context.Manager() as manager:
        held = manager.list([Carrier(HOSTILE)])
        made = held[0]
        print("manager", type(made).__name__, made.was_loaded[0], kind(made.was_loaded[1]))
"""


class OwnProcesses(unittest.TestCase):
    def printed(self, guarded):
        paths = [str(common.IMPORTED_FROM), str(Path(__file__).resolve().parent)]
        with tempfile.TemporaryDirectory() as folder:
            program = Path(folder, "program.py")
            program.write_text(PROGRAM.format(paths=paths, guarded=guarded))
            ran = subprocess.run(
                [sys.executable, str(program)], stdout=subprocess.PIPE, timeout=300, check=True
            )
        return ran.stdout.decode().splitlines()

    @common.needs("semaphores")
    @unittest.skipIf(sys.platform == "win32", "there is no fork")
    def test_what_they_send_loads_strangers_bytes_guarded(self):
        names = ("queue", "pool", "executor", "manager")
        calls = ("map", "apply", "starmap", "submit", "map")
        free = {f"{name} Carrier True loaded" for name in names} | {f"{it} loaded" for it in calls}
        self.assertEqual(set(self.printed(False)), free)  # the control
        held = {f"{name} Carrier False Refused" for name in names}
        self.assertEqual(set(self.printed(True)), held | {f"{it} Refused" for it in calls})

    def test_what_such_a_pickle_asks_for_itself(self):
        """As joblib sends an array: with a call of `pickle.loads`."""
        sent = pickle.dumps(Sent(pickle.dumps(os.getpid)))
        module = {"__name__": "multiprocessing.queues", "loads": pickle.loads}
        exec("def get(data):\n    return loads(data)", module)
        logging.getLogger("storklocker").setLevel(logging.CRITICAL)
        self.addCleanup(logging.getLogger("storklocker").setLevel, logging.NOTSET)
        with storklocker.installed(GUARD):
            self.assertEqual(outcome_of(lambda: pickle.loads(sent)), "Refused")
            module["loads"] = pickle.loads
            self.assertIs(module["get"](sent), os.getpid)
            module["__name__"] = "multiprocessing.pool"
            self.assertEqual(outcome_of(lambda: module["get"](sent)), "Refused")


class Sent:
    def __init__(self, data):
        self.data = data

    def __reduce__(self):
        return pickle.loads, (self.data,)


if __name__ == "__main__":
    unittest.main()
