"""Standard input that cannot be read and standard output that cannot be written: what the programs must do then. For run_list_nodes.py,
run_list_challenges.py and run_report_openings.py."""
import os
import signal
import subprocess
import sys
import time


def only_error(program, stream, what, **options):
    """The program says one line on standard error that names the stream, and writes nothing that is seen."""
    found = subprocess.run([program], stderr=subprocess.PIPE, **options)
    name = os.path.basename(program)
    if found.stdout or not found.stderr.startswith(f'{name}: standard {stream}: '.encode()) or found.stderr.count(b'\n') != 1:
        sys.exit(f'{name}, {what}: standard output has {found.stdout!r}, standard error {found.stderr!r}')


def failed_reads(program, start):
    """A folder, a closed stream, and a pipe that gives `start` and then an error: half an input is not taken for a whole one."""
    folder = os.open('/', os.O_RDONLY)
    only_error(program, 'input', 'a folder as input', stdin=folder, stdout=subprocess.PIPE)
    os.close(folder)
    only_error(program, 'input', 'standard input closed', stdout=subprocess.PIPE, preexec_fn=lambda: os.close(0))
    read, write = os.pipe()
    os.set_blocking(read, False)
    os.write(write, start)
    only_error(program, 'input', 'an input that fails behind its start', stdin=read, stdout=subprocess.PIPE)
    os.close(read)
    os.close(write)


def failed_writes(program, texts):
    """A full device, a closed stream, and a pipe whose reader is gone before anything is written, told by the write and not by a signal."""
    for text in texts:
        with open('/dev/full', 'wb') as full:
            only_error(program, 'output', 'output that cannot be written', input=text, stdout=full)
        only_error(program, 'output', 'standard output closed', input=text, preexec_fn=lambda: os.close(1))
        read, write = os.pipe()
        os.close(read)
        only_error(program, 'output', 'a pipe without a reader', input=text, stdout=write, restore_signals=False,
                   preexec_fn=lambda: signal.signal(signal.SIGPIPE, signal.SIG_IGN))
        os.close(write)


def in_parts(program, parts):
    """What the program writes of an input that arrives in parts."""
    running = subprocess.Popen([program], stdin=subprocess.PIPE, stdout=subprocess.PIPE)
    for part in parts:
        running.stdin.write(part)
        running.stdin.flush()
        time.sleep(0.02)
    return running.communicate()[0]
