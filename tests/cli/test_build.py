"""build: the set of files, their names and sizes, and where the file is written."""
import os
import stat

from commands import Commands, TOUR

NONE = '551 no int main(void)'


def alone(name):
    """The note on a further C file that nothing includes."""
    return f'note: no file includes {name}, so it is no part of the program, which is one unit: write #include "{name}" in MAIN'


class Build(Commands):
    def setUp(self):
        self.write('main.c', TOUR)
        self.write('other.c', TOUR)
        self.write('rest.c', '/* nothing */\n')

    def test_the_same_source_gives_the_same_file(self):
        self.builds('main.c')
        first = self.program.read('program')
        self.builds('main.c')
        self.expect('another file', self.program.read('program'), first)

    def test_a_sum_past_int_builds(self):
        """It has no meaning in C."""
        self.write('main.c', 'int main(void) { return 2147483647 + 1; }\n')
        self.builds('main.c')

    def test_an_empty_source(self):
        self.write('main.c', '')
        self.refused(f'main.c:1: {NONE}', 'main.c')

    def test_a_refused_main_file_of_another_name(self):
        self.refused(f'{alone("main.c")}\nrest.c:1: {NONE}', 'rest.c', 'main.c')

    def test_a_refusal_leaves_what_stood_there(self):
        self.write('kept', 'kept\n')
        self.ends(('build', 'rest.c', '-o', 'kept'), 1, line=f'rest.c:1: {NONE}')
        self.expect('the old file', self.program.read('kept'), b'kept\n')

    def test_the_mode_of_the_file(self):
        """A new file has 0777 less the mask, and one that is there keeps its mode, whatever the mask."""
        for mask, new in ((0o022, 0o755), (0o077, 0o700)):
            self.program.remove('made')
            self.built_under(mask, 'made', new)
            for kept in (0o600, 0o640, 0o777):
                self.write('kept', 'kept\n')
                os.chmod(self.program.at('kept'), kept)
                self.built_under(mask, 'kept', kept)

    def built_under(self, mask, name, mode):
        """A build with this mask writes the file, which then has this mode."""
        self.ends(('build', 'main.c', '-o', name), 0, before=lambda: os.umask(mask))
        self.holds(f'{name}: no executable file', self.program.read(name).startswith(b'\x7fELF'))
        self.expect(f'the mode of {name}, with the mask {mask:03o}', oct(stat.S_IMODE(os.stat(self.program.at(name)).st_mode)), oct(mode))

    def test_files_that_are_missing(self):
        self.refused('none.c:0: 802 cannot read', 'none.c')
        self.refused('none.c:0: 802 cannot read', 'main.c', 'none.c')
        self.refused('.:0: 802 cannot read', '.')

    def test_names_given_twice(self):
        self.refused('main.c:0: 101 file name given twice', 'main.c', 'main.c')
        self.refused('other.c:0: 101 file name given twice', 'main.c', 'other.c', 'other.c')

    def test_bad_names(self):
        for bad in ('a<b.c', 'a>b.c', 'a"b.c', 'a\\b.c'):
            self.write(bad, TOUR)
            self.refused(f'{bad}:0: 102 bad file name', bad)
            self.refused(f'{bad}:0: 102 bad file name', 'main.c', bad)
        self.refused('<none>:0: 802 cannot read', '<none>', what='a bad name of a missing file')

    def test_a_name_of_255_bytes_and_of_256(self):
        for length in (255, 256):
            name = './' * ((length - 6) // 2) + '/' * ((length - 6) % 2) + 'main.c'
            assert len(name) == length
            if length == 255:
                self.builds(name, what='a name of 255 bytes')
            else:
                self.refused(f'{name}:0: 102 bad file name', name, what='a name of 256 bytes')

    def test_a_file_of_1048576_bytes_and_one_more(self):
        self.write('large.c', bytes(1048576))
        self.refused('large.c:1: 111 file does not end in a newline', 'large.c')
        self.ends(('build', 'main.c', 'large.c', '-o', 'program'), 0, line=alone('large.c'))
        self.write('large.c', bytes(1048576) + b'\n')
        self.refused('large.c:0: 701 limit: file size', 'large.c')
        self.refused('large.c:0: 701 limit: file size', 'main.c', 'large.c')
        self.refused('large.c:0: 701 limit: file size', 'main.c', 'large.c', '<none>')

    def test_256_files_and_one_more(self):
        names = [f'n{number:02x}' for number in range(256)]
        for name in names:
            self.write(name, '')
        self.builds('main.c', *names[1:], what='256 files')
        self.refused('n00:0: 702 limit: files', 'main.c', *names[1:], 'n00', what='257 files')

    def test_where_the_file_may_not_be_written(self):
        self.ends(('build', 'main.c', '-o', 'none/program'), 1, line='none/program:0: 803 cannot write')
        self.ends(('build', 'main.c', '-o', '.'), 1, line='.:0: 803 cannot write')
        if os.path.exists('/dev/full'):
            self.ends(('build', 'main.c', '-o', '/dev/full'), 1, line='/dev/full:0: 803 cannot write')
        else:
            self.skip(1, 'there is no /dev/full')

    def test_the_listing_of_the_very_file(self):
        self.ends(('build', 'main.c', '-o', 'program', '--listing', 'program.lst'), 0)
        alone = self.program.run('list', 'main.c')
        self.expect('the listing', (0, self.program.read('program.lst'), b''), alone)
        listed = self.program.read('program')
        self.builds('main.c')
        self.expect('the file with a listing', listed, self.program.read('program'))
        self.ends(('build', 'main.c', '-o', 'program', '--listing', '-'), 0, alone[1])

    def test_a_listing_that_is_not_written(self):
        taken = 'error: the listing is OUT or one of the files that are read'
        for path in ('program', './program', 'main.c', 'rest.c'):
            self.builds('main.c')
            self.ends(('build', 'main.c', 'rest.c', '-o', 'program', '--listing', path), 2, line=taken)
        self.program.remove('program')
        self.ends(('build', 'rest.c', '-o', 'program', '--listing', 'program.lst'), 1, line=f'rest.c:1: {NONE}')
        self.holds('a listing was written', not os.path.lexists(self.program.at('program.lst')))
        self.ends(('build', 'main.c', '-o', 'program', '--listing', 'none/listing'), 1, line='none/listing:0: 803 cannot write')
        if os.path.exists('/dev/full'):
            self.ends(('build', 'main.c', '-o', 'program', '--listing', '/dev/full'), 1, line='/dev/full:0: 803 cannot write')
        else:
            self.skip(1, 'there is no /dev/full')


class Preprocess(Commands):
    def test_pp_prints_tokens(self):
        self.write('main.c', TOUR)
        self.ends(('pp', 'main.c'), 0, b'void rv_putbyte ( int c ) ; int main ( void ) { rv_putbyte ( 70 + 2 ) ; return 44 - 2 ; }\n')

    def test_pp_of_a_bad_definition(self):
        self.write('bad.c', '#define F(\n')
        self.ends(('pp', 'bad.c'), 1, line='bad.c:1: 202 bad macro definition')
