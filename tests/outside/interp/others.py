"""What gcc and clang make of a program, under qemu-riscv32."""
import os
import subprocess
import tempfile

HEADER = 'int rv_getbyte(void);\nvoid rv_putbyte(int c);\nvoid rv_exit(int status);\n'
PORT = '''
static long call(long number, long a, long b, long c) {
    register long a7 __asm__("a7") = number, a0 __asm__("a0") = a, a1 __asm__("a1") = b, a2 __asm__("a2") = c;
    __asm__ volatile("ecall" : "+r"(a0) : "r"(a7), "r"(a1), "r"(a2) : "memory");
    return a0;
}
int rv_getbyte(void) { unsigned char c; return call(63, 0, (long)&c, 1) == 1 ? c : -1; }
void rv_putbyte(int c) { unsigned char d = c; call(64, 1, (long)&d, 1); }
void rv_exit(int status) { for (;;) call(93, status & 255, 0, 0); }
int main(void);
void start(void) { rv_exit(main()); }
__asm__(".globl _start\\n_start: .option push\\n.option norelax\\nla gp, __global_pointer$\\n.option pop\\ncall start");
void *memset(void *p, int c, unsigned n) { volatile char *q = p; while (n--) *q++ = c; return p; }
void *memcpy(void *p, const void *s, unsigned n) { volatile char *q = p; const char *t = s; while (n--) *q++ = *t++; return p; }
'''
MACHINE = ['-march=rv32im', '-mabi=ilp32', '-std=c11', '-w', '-ffreestanding', '-fno-builtin']
work = tempfile.mkdtemp()


def path(name):
    return os.path.join(work, name)


def prepare():
    if not os.path.exists(path('rvio.h')):
        for name, text in (('rvio.h', HEADER), ('port.c', PORT)):
            with open(path(name), 'w') as file:
                file.write(text)
        subprocess.run(['riscv64-unknown-elf-gcc', *MACHINE, '-O1', '-c', path('port.c'), '-o', path('port.o')], check=True)


def run(compiler, source, data, option, files=()):
    """Status and output of the program that a compiler makes."""
    prepare()
    for name, text in [('main.c', source), *files]:
        with open(path(name), 'w', encoding='latin-1') as file:
            file.write(text)
    subprocess.run([*compiler, *MACHINE, option, '-I', work, '-c', path('main.c'), '-o', path('main.o')], check=True)
    subprocess.run(['riscv64-unknown-elf-gcc', '-march=rv32im', '-mabi=ilp32', '-nostdlib', '-Wl,--no-warn-rwx-segments', path('main.o'), path('port.o'), '-lgcc', '-o', path('main')], check=True)
    done = subprocess.run(['qemu-riscv32', path('main')], input=data, capture_output=True, timeout=20)
    return done.returncode, done.stdout


def gcc(source, data, option, files=()):
    return run(['riscv64-unknown-elf-gcc', '-funsigned-char'], source, data, option, files)


def clang(source, data, option, files=()):
    return run(['clang', '--target=riscv32', '-funsigned-char'], source, data, option, files)


def all_of_them(source, data, files=()):
    """What gcc without and with optimisation and clang come to, without repetition."""
    found = [gcc(source, data, '-O0', files), gcc(source, data, '-O2', files), clang(source, data, '-O1', files)]
    return sorted(set(found))


def shown(data):
    """Bytes as a word of a row: - for none."""
    return ''.join(chr(b) if 33 <= b < 127 and b not in b'\\|-' else '\\x%02x' % b for b in data) or '-'


def bytes_of(word):
    return b'' if word == '-' else word.encode('latin-1').decode('unicode_escape').encode('latin-1')
