"""Odd streams: an input that is a folder, closed, without end or slow, an output that is closed, full or read by nobody."""

import os
import subprocess
import threading

from runs import Answer, SECONDS, Wrong

# A pipe that nobody reads. Its other end is closed before any program is started, since each would hold it for a while.
READING, UNREAD = os.pipe()
os.close(READING)


def with_input(runner, command, how):
    if how == "folder":
        folder = os.open("/", os.O_RDONLY)
        try:
            return runner.run(command.words, stdin=folder)
        finally:
            os.close(folder)
    if how == "closed":
        return runner.run(command.words, stdin=subprocess.DEVNULL, before="exec 0<&-")
    with open("/dev/zero", "rb") as zeros:
        return runner.run(command.words, stdin=zeros)


def slowly(runner, command, piece):
    """The answer where the input comes in small pieces."""
    program = subprocess.Popen([runner.program, *command.words], stdin=subprocess.PIPE, stdout=subprocess.PIPE,
                               stderr=subprocess.DEVNULL, bufsize=0)

    def feed():
        try:
            for at in range(0, len(command.data), piece):
                program.stdin.write(command.data[at:at + piece])
            program.stdin.close()
        except BrokenPipeError:
            pass

    feeder = threading.Thread(target=feed)
    feeder.start()
    try:
        text = program.stdout.read()
        return Answer(program.wait(SECONDS), text)
    finally:
        program.kill()
        feeder.join()


def with_output(runner, command, how):
    if how == "full":
        with open("/dev/full", "wb") as full:
            return runner.run(command.words, command.data, stdout=full)
    if how == "closed":
        return runner.run(command.words, command.data, stdout=subprocess.DEVNULL, before="exec 1>&-")
    return runner.run(command.words, command.data, stdout=UNREAD)


def case(run, what, command, is_right):
    def tried():
        answer = run()
        return None if answer and is_right(answer) else Wrong(what, command.words, command.data, answer)
    return tried


def is_read_fault(answer):
    return (answer.status, answer.text) == (4, b"read fault\n")


def cases(runner, runs, number):
    reading = [command for command in runs if command.reads()]
    for command in reading:
        for how in ("folder", "closed"):
            yield case(lambda c=command, h=how: with_input(runner, c, h), f"input {how}", command, is_read_fault)
        piece = 1 + number % 7 if len(command.data) < 5000 else 999 + number
        yield case(lambda c=command, p=piece: slowly(runner, c, p), f"input by {piece} bytes", command, command.is_right)
        if command.words[0] not in ("check", "lower", "resume"):
            yield case(lambda c=command: with_input(runner, c, "endless"), "input without end", command,
                       lambda answer: answer.status == 3 and answer.text.startswith(b"too long "))
    for command in runs:
        for how in ("full", "closed", "unread"):
            yield case(lambda c=command, h=how: with_output(runner, c, h), f"output {how}", command,
                       lambda answer: answer.status == 5)
