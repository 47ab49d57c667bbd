"""Little memory: each command with an address space of some sizes. It answers as it does with all memory, or `no memory`.

The system grows the stack within the same limit. Where there is no room left for it, it ends the program by a signal,
which no program can answer; such runs are counted apart.
"""

import signal

from runs import NO_STACK, Wrong

LEAST, MOST = 4 * 1024, 400 * 1024


def sizes(number):
    """Kilobytes from the least to the most, others at each round."""
    size = LEAST + 149 * number
    while size < MOST:
        yield size
        size = size * (6 + number % 3) // 4


def case(runner, command, size):
    def tried():
        answer = runner.run(command.words, command.data, before=f"ulimit -v {size}")
        if answer and (command.is_right(answer) or (answer.status, answer.text) == (6, b"no memory\n")):
            return None
        if answer and answer.status == -signal.SIGSEGV:
            return NO_STACK
        return Wrong(f"with {size} kilobytes of memory", command.words, command.data, answer)
    return tried


def cases(runner, runs, number):
    for command in runs:
        for size in sizes(number):
            yield case(runner, command, size)
