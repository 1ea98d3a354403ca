#!/usr/bin/env python3
"""Lets the system refuse the built program memory, reads and writes, one after the other, and asks what it answers then.

    check_faults.py --rd2 PROGRAM [--only COMMAND]

A library that is loaded in front of the C library (made with `cc`) counts what the program asks for, and fails what it is told to. For each
command below, over files of its own:

- each allocation fails, and once more each and all behind it: the status is 8 and the output a front of the whole one; where one alone
  failed, the program may also have done without it, with the whole output and its status;
- each open and read fails, where a read gives 40 bytes at most: the status is 6, and the output what the bytes that were taken say;
- each write fails: the status is 7, and the output the lines in front of it;
- reads and writes of one byte change nothing.

Beside these: a file that isn't there, a folder as a file, a full device, a closed output, and no words at all. Ends with 1 where something differs.
"""
import argparse, ctypes, os, pathlib, subprocess, sys, tempfile

LIBRARY = r'''
#define _GNU_SOURCE
#include <dlfcn.h>
#include <errno.h>
#include <fcntl.h>
#include <stdarg.h>
#include <stdlib.h>
#include <string.h>
#include <sys/syscall.h>
#include <unistd.h>

static long allocations, inputs, writes;
static long number(const char *name) { const char *text = getenv(name); return text ? atol(text) : 0; }

static int is_refused(void) {
    long failing = number("FAIL_ALLOCATION");
    allocations++;
    return failing && (allocations == failing || (allocations > failing && number("FAIL_BEHIND")));
}

#define NEXT(name) static __typeof__(name) *next; if (!next) next = dlsym(RTLD_NEXT, #name)

void *malloc(size_t size) { NEXT(malloc); if (is_refused()) { errno = ENOMEM; return 0; } return next(size); }
void *realloc(void *old, size_t size) { NEXT(realloc); if (is_refused()) { errno = ENOMEM; return 0; } return next(old, size); }
void *aligned_alloc(size_t align, size_t size) { NEXT(aligned_alloc); if (is_refused()) { errno = ENOMEM; return 0; } return next(align, size); }
int posix_memalign(void **out, size_t align, size_t size) { NEXT(posix_memalign); return is_refused() ? ENOMEM : next(out, align, size); }

static void *plain_calloc(size_t count, size_t size) { NEXT(calloc); return next(count, size); }
void *calloc(size_t count, size_t size) { if (is_refused()) { errno = ENOMEM; return 0; } return plain_calloc(count, size); }

static int fails_input(void) { inputs++; if (inputs == number("FAIL_INPUT")) { errno = EIO; return 1; } return 0; }

static int opened(int folder, const char *path, int flags, int mode) {
    return fails_input() ? -1 : (int)syscall(SYS_openat, folder, path, flags, mode);
}
#define MODE(flags) int mode = 0; if ((flags) & O_CREAT) { va_list list; va_start(list, flags); mode = va_arg(list, int); va_end(list); }
int open(const char *path, int flags, ...) { MODE(flags) return opened(AT_FDCWD, path, flags, mode); }
int open64(const char *path, int flags, ...) { MODE(flags) return opened(AT_FDCWD, path, flags, mode); }
int openat(int folder, const char *path, int flags, ...) { MODE(flags) return opened(folder, path, flags, mode); }
int openat64(int folder, const char *path, int flags, ...) { MODE(flags) return opened(folder, path, flags, mode); }

ssize_t read(int file, void *buffer, size_t size) {
    long piece = number("PIECE");
    if (fails_input()) return -1;
    return syscall(SYS_read, file, buffer, piece && (size_t)piece < size ? (size_t)piece : size);
}

ssize_t write(int file, const void *bytes, size_t size) {
    long piece = number("PIECE_OF_WRITES");
    writes++;
    if (writes == number("FAIL_WRITE")) { errno = EIO; return -1; }
    return syscall(SYS_write, file, bytes, piece && (size_t)piece < size ? (size_t)piece : size);
}

// what the names are under which the program may ask for them
#define ALSO(name, also) extern __typeof__(name) also __attribute__((alias(#name)));
ALSO(open, __open) ALSO(open64, __open64) ALSO(read, __read) ALSO(write, __write)

__attribute__((destructor)) static void tell(void) {
    const char *path = getenv("COUNTS");
    char text[96];
    long counts[3] = { allocations, inputs, writes };
    size_t length = 0;
    int file;
    if (!path) return;
    for (int i = 0; i < 3; i++) {
        char digits[24];
        size_t at = 24;
        do { digits[--at] = '0' + counts[i] % 10; counts[i] /= 10; } while (counts[i]);
        memcpy(text + length, digits + at, 24 - at);
        length += 24 - at;
        text[length++] = ' ';
    }
    file = (int)syscall(SYS_openat, AT_FDCWD, path, O_WRONLY | O_CREAT | O_TRUNC, 0600);
    if (file >= 0) { syscall(SYS_write, file, text, length); syscall(SYS_close, file); }
}
'''

TRACE = '''rdtrace 1
thread a
thread b
object d dictionary
call a d put "k" 1 -> nil
call b d put "k" 2 -> 1
fork b c
call c d put "k" 3 -> 2
'''
FLAGS = '''rdtrace 2
thread p
thread q
object f flag
object s set
acquire p l
call p f set true "a longer text" -> true
release p l
share q l
call q f set false "\\x00" -> false
unshare q l
call q s add 1 -> true
'''
KINDS = '''rdspec 1
kind flag
method set value text -> done
commute set set when done@1 = true
'''
QUIET = '''rdtrace 1
thread main
object d dictionary
object s set
object c counter
fork main a
fork main b
call a d put "x" 1 -> nil
call b s add "y" -> true
call a c add 2 -> nil
join main a
join main b
call main d size -> 1
'''
ACCESSES = '''rdmem 1
thread main
write main v
fork main a
fork main b
fork main c
read a v
read b v
read c v
acquire c l
write main v
write main w
read b w
'''
LOG = '''rdlog 1 main
object d dictionary
fork a
acquire l 2
call d put "x" 1 -> nil
release l
join a
'''
OTHER = '''rdlog 1 a
acquire l 1
call d size -> 0
release l
'''
COMMANDS = [
    ['check', 'trace'], ['check', 'flags', 'kinds'], ['check', 'quiet'], ['check-json', 'flags', 'kinds'], ['replay', 'quiet'], ['reorder', 'quiet', '7'],
    ['spec', 'kinds'], ['points', 'kinds'], ['kind', 'dictionary'], ['gen', '2', '40'], ['gen-text', '2', '40'], ['check', 'wrong'], ['epochs', 'accesses'],
    ['weave', 'log', 'other'], ['no-command'],
]
FILES = {'trace': TRACE, 'flags': FLAGS, 'kinds': KINDS, 'quiet': QUIET, 'accesses': ACCESSES, 'log': LOG, 'other': OTHER, 'wrong': 'rdtrace 1\nthread p\njoin p p\n'}

RACES = [
    'race line 6 b d put "k" 2 -> 1 clock b:1\nwith line 5 a d put "k" 1 -> nil clock a:1\n'
    'formula dictionary put put when key@1 != key@2 or value@1 = prev@1 and value@2 = prev@2\n',
    'race line 8 c d put "k" 3 -> 2 clock b:2,c:1\nwith line 5 a d put "k" 1 -> nil clock a:1\n'
    'formula dictionary put put when key@1 != key@2 or value@1 = prev@1 and value@2 = prev@2\n']
# what `check trace` writes where this call of the inputs fails, counted from 1: the open, and reads of 40 of the 131 bytes
TAKEN = ['fault input\n'] + ['races 0\nfault input\n'] * 3 + [
    RACES[0] + 'races 1\nfault input\n', RACES[0] + RACES[1] + 'races 2\nfault input\n']
PIECE = 40

differing, asked = [], 0


class Program:
    def __init__(self, path, folder):
        self.path, self.folder = os.path.abspath(path), folder
        source = folder / 'faults.c'
        source.write_text(LIBRARY)
        self.library = folder / 'faults.so'
        subprocess.run(['cc', '-O1', '-shared', '-fPIC', '-o', self.library, source, '-ldl'], check=True)

    def run(self, words, **failing):
        """The status and the output, and how many allocations, calls of the inputs and writes there were."""
        counts = self.folder / 'counts'
        counts.unlink(missing_ok=True)
        told = {**os.environ, 'LD_PRELOAD': str(self.library), 'COUNTS': str(counts), **{name: str(number) for name, number in failing.items()}}
        done = subprocess.run([self.path, *words], cwd=self.folder, env=told, stdout=subprocess.PIPE)
        return done.returncode, done.stdout.decode(), list(map(int, counts.read_text().split())) if counts.exists() else None


def ask(met, *told):
    global asked
    asked += 1
    if not met:
        differing.append(told)
        print('differs:', *told)


def check_allocations(program, words, status, text, count):
    done_without = 0
    for number in range(1, count + 1):
        for behind in (0, 1):
            failing = {'FAIL_ALLOCATION': number, **({'FAIL_BEHIND': 1} if behind else {})}
            answer, written, _ = program.run(words, **failing)
            without = not behind and (answer, written) == (status, text)
            done_without += without
            ask(without or answer == 8 and text.startswith(written), words, failing, answer, written)
    return done_without


def check_inputs(program, words, status, text):
    _, _, (_, count, _) = program.run(words, PIECE=PIECE)
    for number in range(1, count + 1):
        answer, written, _ = program.run(words, PIECE=PIECE, FAIL_INPUT=number)
        if words == ['check', 'trace']:
            ask((answer, written) == (6, TAKEN[number - 1]), words, 'input', number, answer, written)
        elif words[0] in ('check', 'check-json', 'epochs'):
            # a front of the races' lines, and then the fault
            lines = written.splitlines()
            told = lines[-1] in ('fault input', '{"ending":"fault input"}') or lines[-1].startswith('{"ending":"fault input","races":')
            races = lines[:-1] if words[0] == 'check-json' or len(lines) == 1 else lines[:-2]
            ask(answer == 6 and told and text.startswith(''.join(line + '\n' for line in races)), words, 'input', number, answer, written)
        else:
            ask((answer, written) == (6, 'fault input\n'), words, 'input', number, answer, written)
    if words == ['check', 'trace']:
        ask(count == len(TAKEN), 'calls of the inputs', count)


def check_writes(program, words, text):
    lines = text.splitlines(keepends=True)
    for number in range(1, len(lines) + 1):
        answer, written, _ = program.run(words, FAIL_WRITE=number)
        ask((answer, written) == (7, ''.join(lines[:number - 1])), words, 'write', number, answer, written)


def check_command(program, words):
    status, text, (allocations, _, writes) = program.run(words)
    ask(writes == len(text.splitlines()), words, 'writes', writes)
    without = check_allocations(program, words, status, text, allocations)
    if words[0] not in ('kind', 'gen', 'gen-text', 'no-command') and words[-1] != 'wrong':
        check_inputs(program, words, status, text)
    check_writes(program, words, text)
    answer, written, _ = program.run(words, PIECE=1, PIECE_OF_WRITES=1)
    ask((answer, written) == (status, text), words, 'bytes by themselves', answer, written)
    print(f"{' '.join(words)}: status {status}, {allocations} allocations ({without} done without), {writes} writes")


def check_system(program):
    """What the system itself refuses, without the library."""
    def run(words, out=subprocess.PIPE):
        return subprocess.run([program.path, *words], cwd=program.folder, stdout=out)
    (program.folder / 'folder').mkdir()
    absent, folder = run(['check', 'absent']), run(['check', 'folder'])
    ask((absent.returncode, absent.stdout) == (6, b'fault input\n'), 'absent', absent)
    ask((folder.returncode, folder.stdout) == (6, b'races 0\nfault input\n'), 'folder', folder)
    folder = run(['spec', 'folder'])
    ask((folder.returncode, folder.stdout) == (6, b'fault input\n'), 'folder as a specification', folder)
    odd = run(['check', b'\xff'])
    ask((odd.returncode, odd.stdout) == (6, b'fault input\n'), 'a name that is no text', odd)
    odd = run([b'\xff'])
    ask((odd.returncode, odd.stdout) == (2, b'refused usage\n'), 'a word that is no text', odd)
    for words in COMMANDS:
        with open('/dev/full', 'wb') as full:
            ask(run(words, full).returncode == 7, words, 'full device')
        closed = subprocess.run(['sh', '-c', 'exec "$@" >&-', 'sh', program.path, *words], cwd=program.folder)
        ask(closed.returncode == 7, words, 'closed output', closed.returncode)


def check_no_words(program):
    """A system that gives no words, not even the program's name: status 20. Linux puts an empty one there from 5.18 on, and no word behind it matches no command."""
    output, told = os.pipe()
    child = os.fork()
    if child == 0:
        os.dup2(told, 1)
        system = ctypes.CDLL(None)
        system.execve(program.path.encode(), (ctypes.c_char_p * 1)(None), (ctypes.c_char_p * 1)(None))
        os._exit(127)
    os.close(told)
    with os.fdopen(output, 'rb') as pipe:
        written = pipe.read()
    status = os.waitstatus_to_exitcode(os.waitpid(child, 0)[1])
    ask((status, written) in ((20, b''), (2, b'refused usage\n')), 'no words', status, written)
    print(f'no words: status {status}')


def main():
    options = argparse.ArgumentParser(usage=__doc__)
    options.add_argument('--rd2', required=True)
    options.add_argument('--only')
    given = options.parse_args()
    with tempfile.TemporaryDirectory() as name:
        folder = pathlib.Path(name)
        for file, text in FILES.items():
            (folder / file).write_text(text)
        program = Program(given.rd2, folder)
        for words in COMMANDS:
            if given.only in (None, words[0]):
                check_command(program, words)
        check_system(program)
        check_no_words(program)
    print(f'{asked} asked, {len(differing)} differ')
    sys.exit(1 if differing else 0)


if __name__ == '__main__':
    main()
