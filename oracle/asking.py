"""Asks a program many questions in one run, the next one behind the last on its standard input, a line printed for each. It does not wait for ever: a program
that is silent for too long is stopped, and asked anew from the next question on. So is one that ends in the middle, for want of memory."""
import os
import resource
import select
import subprocess
import tempfile

SILENT = 'not in time'
FAILED = 'failed'
MEMORY = 1 << 30


class Stopped(Exception):
    """A program has ended well without having answered everything."""


def limit_memory():
    resource.setrlimit(resource.RLIMIT_AS, (MEMORY, MEMORY))


def printed(run, seconds):
    """What a program prints, and whether it was stopped since it was silent for so many seconds."""
    parts = []
    while select.select([run.stdout], [], [], seconds)[0]:
        part = os.read(run.stdout.fileno(), 1 << 16)
        if not part:
            return b''.join(parts), False
        parts.append(part)
    run.kill()
    return b''.join(parts), True


def output(command, data, seconds):
    """All bytes that a program prints to these bytes, and how it ended: '', SILENT or FAILED."""
    with tempfile.TemporaryFile() as file:
        file.write(data)
        file.seek(0)
        run = subprocess.Popen(command, stdin=file, stdout=subprocess.PIPE, stderr=subprocess.DEVNULL, preexec_fn=limit_memory)
        with run:
            found, silent = printed(run, seconds)
    return found, SILENT if silent else FAILED if run.returncode else ''


def lines(command, data, seconds):
    """The whole lines that a program prints to these bytes, and how it ended."""
    found, end = output(command, data, seconds)
    return found.decode().split('\n')[:-1], end


def answers(command, questions, seconds, read=lambda found: found):
    """A program's answer to each question; SILENT or FAILED stands for one that it did not give. `read` takes the answers from the lines of one run."""
    found = []
    while len(found) < len(questions):
        answered, end = lines(command, b''.join(questions[len(found):]), seconds)
        found += read(answered)
        if len(found) < len(questions):
            if not end:
                raise Stopped('%s has ended at the input %s' % (' '.join(command), questions[len(found)][:200]))
            found.append(end)
    if len(found) > len(questions):
        raise Stopped('%s has printed %d answers to %d inputs' % (' '.join(command), len(found), len(questions)))
    return found


def line_answers(command, lines, seconds):
    """A program's answer to each line."""
    return answers(command, [line.encode() + b'\n' for line in lines], seconds)
