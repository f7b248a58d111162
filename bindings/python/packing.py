"""The build backend of the wheel (PEP 517), which needs nothing but Python: the module, the shared library and the wheel's own files in a zip."""
import base64
import hashlib
import os
import sysconfig
import zipfile

NAME, VERSION = 'zikorape', '1.1.0'
HERE = os.path.dirname(os.path.abspath(__file__))
INFO = '%s-%s.dist-info' % (NAME, VERSION)


def _library():
    """Where the shared library lies: as ZIKORAPE_LIB says, or where `sh bindings/build.sh bindings/out` left it."""
    for folder in (os.environ.get('ZIKORAPE_LIB'), os.path.join(HERE, '..', 'out'), os.path.join(HERE, NAME)):
        path = folder and os.path.join(folder, 'libzikorape.so')
        if path and os.path.exists(path):
            return path
    raise SystemExit('there is no libzikorape.so: run sh bindings/build.sh bindings/out, or name its folder by ZIKORAPE_LIB')


def _tag():
    return 'py3-none-' + sysconfig.get_platform().replace('-', '_').replace('.', '_')


def _metadata():
    with open(os.path.join(HERE, 'README.md'), encoding='utf-8') as file:
        readme = file.read()
    return ('Metadata-Version: 2.1\nName: %s\nVersion: %s\nSummary: A C compiler for RISC-V RV32IM, its simulator and its interpreter, whose proof a machine has checked\n'
            'License: MIT OR Apache-2.0\nRequires-Python: >=3.9\nDescription-Content-Type: text/markdown\n\n%s' % (NAME, VERSION, readme))


def _files():
    """The files of the wheel, each with its bytes."""
    for name in ('__init__.py', 'magic.py', 'py.typed'):
        with open(os.path.join(HERE, NAME, name), 'rb') as file:
            yield '%s/%s' % (NAME, name), file.read()
    with open(_library(), 'rb') as file:
        yield '%s/libzikorape.so' % NAME, file.read()
    yield INFO + '/METADATA', _metadata().encode()
    yield INFO + '/WHEEL', ('Wheel-Version: 1.0\nGenerator: zikorape\nRoot-Is-Purelib: false\nTag: %s\n' % _tag()).encode()


def build_wheel(wheel_directory, config_settings=None, metadata_directory=None):
    name = '%s-%s-%s.whl' % (NAME, VERSION, _tag())
    records = []
    with zipfile.ZipFile(os.path.join(wheel_directory, name), 'w', zipfile.ZIP_DEFLATED) as wheel:
        for path, content in _files():
            wheel.writestr(path, content)
            digest = base64.urlsafe_b64encode(hashlib.sha256(content).digest()).rstrip(b'=').decode()
            records.append('%s,sha256=%s,%d' % (path, digest, len(content)))
        wheel.writestr(INFO + '/RECORD', '\n'.join(records + [INFO + '/RECORD,,', '']))
    return name


def build_sdist(sdist_directory, config_settings=None):
    raise SystemExit('the library is not built from a source archive of this package: use the repository')
