"""A program that installs a guard and has processes of its own: its queues and pools keep working.

    python programs.py METHOD       fork, spawn or forkserver
"""

import multiprocessing
import pickle
import sys
from concurrent.futures import ProcessPoolExecutor

import storklocker

HOSTILE = b"cposix\ngetpid\n)R."


class Order:
    def __init__(self, number):
        self.number = number


def doubled(order):
    return Order(2 * order.number)


def loaded_there(data):
    try:
        return pickle.loads(data)
    except pickle.UnpicklingError as error:
        return type(error).__name__


def answer(questions, answers):
    answers.put(doubled(questions.get()))


def main(method):
    storklocker.install(storklocker.Guard(storklocker.AllowList([]), on_refusal=lambda _: None))
    context = multiprocessing.get_context(method)
    questions, answers = context.Queue(), context.Queue()
    process = context.Process(target=answer, args=(questions, answers))
    process.start()
    questions.put(Order(1))
    print(answers.get(timeout=60).number)
    process.join()
    with context.Pool(1) as pool:
        print([each.number for each in pool.map(doubled, [Order(2), Order(3)])])
    with ProcessPoolExecutor(1, mp_context=context) as pool:
        print(pool.submit(doubled, Order(4)).result(60).number)
        print(pool.submit(loaded_there, HOSTILE).result(60))
    with context.Manager() as manager:
        held = manager.dict()
        held["order"] = Order(5)
        print(held["order"].number)
    print(loaded_there(HOSTILE))


if __name__ == "__main__":
    main(sys.argv[1])
