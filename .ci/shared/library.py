"""Builds libpersist for C, proved or not, and puts it where it is asked for.

The exports are those of the crate persist_c. Proved, `rt lib` makes an archive of them. Without a proof `rt try` compiles programs alone: so a
crate with the same files is made in a folder of its own, whose `main` calls each export once; the module that `rt try` hands to `clang` is set
aside (as in `unproved`), `main` is taken out, and each export gets a function with its name for C. The arguments are those of C already: a slice is
a pointer and a length, and an allocator is nothing.
"""
import os
import re
import shutil
import subprocess
import sys
import sysconfig
import tempfile
from typing import List

from shared import unproved
from shared.repository import TOP

CRATE = f'{TOP}/crates/persist_c'
TRIAL = 'persist_c_trial'
# What a call of an export is given that only has to be compiled.
GIVEN = {'Global': 'rt.alloc()', '&mut Handle': '&mut h', '&[u8]': '&bytes', '&mut [u8]': '&mut out', '&[i64]': '&numbers', '&mut [i64]': '&mut printed',
         'u32': '0', 'usize': '0', '&mut u32': '&mut number', '&mut usize': '&mut size', '&mut Summary': '&mut summary'}
MAIN = '''//! Calls each export.
#![tactic(auto)]

{modules}

fn main(rt: HostRuntime) -> std::process::ExitCode {{
    let mut h = handle::Handle::empty();
    let bytes: [u8; 1] = [0];
    let mut out: [u8; 1] = [0];
    let numbers: [i64; 1] = [0];
    let mut printed: [i64; 1] = [0];
    let mut size: usize = 0;
    let mut number: u32 = 0;
    let mut summary = summary::Summary {{ kind: 0, detail: 0, number: 0, printed: 0, length: 0 }};
{calls}
    std::process::ExitCode::SUCCESS
}}
'''
VERSION_SCRIPT = '{ global: persist_*; local: *; };\n'
PC = '''prefix={prefix}
libdir=${{prefix}}/lib
includedir=${{prefix}}/include

Name: persist
Description: Programs over linked records, fully persistent{unproved}
Version: {version}
Cflags: -I${{includedir}}
Libs: -L${{libdir}} -lpersist
'''


def read(path: str) -> str:
    with open(path, encoding='utf-8') as text:
        return text.read()


def write(path: str, text: str) -> None:
    with open(path, 'w', encoding='utf-8') as file:
        file.write(text)


def exports() -> 'dict[str, List[str]]':
    """The exports of the crate, and the types of their parameters."""
    found = re.findall(r'pub extern "C" fn (persist_\w+)\(([^)]*)\)', read(f'{CRATE}/src/exports.rt'))
    return {name: [it.split(':', 1)[1].strip() for it in parameters.split(',') if it.strip()] for name, parameters in found}


def make_trial(folder: str) -> str:
    """A copy of the crates in which the exports are those of a program. Gives the folder of its crate."""
    shutil.copytree(f'{TOP}/crates', f'{folder}/crates', ignore=shutil.ignore_patterns('out', 'wrong', 'must-fail', 'data'))
    shutil.copy(f'{TOP}/HANDLES', folder)
    write(f'{folder}/crates.txt', re.sub(r'(?m)^persist_c staticlib:', f'{TRIAL}:', read(f'{TOP}/crates.txt')))
    crate = f'{folder}/crates/{TRIAL}'
    os.rename(f'{folder}/crates/persist_c', crate)
    modules = '\n'.join(re.findall(r'(?m)^mod \w+;$', read(f'{crate}/src/lib.rt')))
    calls = '\n'.join(f'    let _ = exports::{name}({", ".join(GIVEN[it] for it in types)});' for name, types in exports().items())
    os.remove(f'{crate}/src/lib.rt')
    write(f'{crate}/src/main.rt', MAIN.format(modules=modules, calls=calls))
    at = f'{crate}/src/exports.rt'
    write(at, read(at).replace('#[unsafe(no_mangle)]\npub extern "C" fn', 'pub fn'))
    at = f'{crate}/src/handle.rt'
    write(at, read(at).replace('    fn empty()', '    pub fn empty()'))
    return crate


def named_for_c(module: str) -> str:
    """A module of the trial as text, with a function of the C name for each export, and without `main`."""
    begin = module.index('define i32 @main()')
    module = module[:begin] + module[module.index('\n}\n', begin) + 3:]
    shown: List[str] = []
    for kind, name, parameters in re.findall(rf'(?m)^define internal (?:noundef )?(\w+) @"{TRIAL}::exports::(persist_\w+)"\(([^)]*)\)', module):
        given = parameters.replace(' noundef', '')
        call = f'call {kind} @"{TRIAL}::exports::{name}"({given})'
        body = f'  {call}\n  ret void' if kind == 'void' else f'  %r = {call}\n  ret {kind} %r'
        shown.append(f'define {kind} @{name}({given}) {{\n{body}\n}}\n')
    if len(shown) != len(exports()):
        sys.exit('not all exports are in the module')
    return module + ''.join(shown)


def unproved_archive(folder: str) -> str:
    """An archive of the exports in a folder, which nothing proves. It has the checks of `rt try` in it."""
    kit, module, lines = unproved.kit(), f'{folder}/module.bc', f'{folder}/module.ll'
    clang = f'{kit}/toolchain/bin/clang'
    rt = unproved.linked(kit, f'{folder}/kit', module)
    ran = subprocess.run([sys.executable, rt, 'try'], cwd=make_trial(f'{folder}/trial'), stdin=subprocess.DEVNULL,
                         stdout=subprocess.PIPE, stderr=subprocess.STDOUT)
    if not os.path.exists(module):
        sys.exit(f'{ran.stdout.decode(errors="replace")}\nthe library could not be compiled')
    subprocess.run([clang, '-x', 'ir', '-S', '-emit-llvm', '-Xclang', '-disable-llvm-passes', module, '-o', lines], check=True)
    write(lines, named_for_c(read(lines)))
    subprocess.run([clang, f'--target={unproved.TARGET}', f'--sysroot={kit}/toolchain', '-march=x86-64', '-ffunction-sections', '-fdata-sections',
                    '--no-default-config', '-no-canonical-prefixes', '-fPIC', '-O2', '-c', '-x', 'ir', lines, '-o', f'{folder}/persist.o'], check=True)
    subprocess.run(['ar', 'rcs', f'{folder}/libpersist_c.a', f'{folder}/persist.o'], check=True)
    return f'{folder}/libpersist_c.a'


def proved_archive() -> str:
    """The archive of the exports, which is proved first where that is not done."""
    if subprocess.run(['rt', 'lib'], cwd=CRATE, stdout=sys.stderr).returncode:
        sys.exit('the library could not be proved and built')
    return f'{CRATE}/out/libpersist_c.a'


def install(archive: str, folder: str, prefix: str, proved: bool) -> None:
    """Makes the two libraries of an archive, in a folder of its own, and puts them under a prefix with the header and the file for pkg-config."""
    kit = unproved.kit()
    for below in ('lib/pkgconfig', 'include'):
        os.makedirs(f'{prefix}/{below}', exist_ok=True)
    parts = f'{folder}/parts'
    os.makedirs(parts)
    for it in (archive, f'{kit}/c/liblibc_c.a'):
        subprocess.run(['ar', 'x', it], cwd=parts, check=True)
    objects = sorted(f'{parts}/{it}' for it in os.listdir(parts))
    # One object, whose other names no program can meet.
    whole = f'{folder}/persist_whole.o'
    subprocess.run(['ld', '-r', '--gc-sections', *(f'-u{name}' for name in exports()), '-o', whole, *objects], check=True)
    subprocess.run(['objcopy', '--wildcard', '--keep-global-symbol=persist_*', whole], check=True)
    made = f'{folder}/libpersist.a'
    subprocess.run(['ar', 'rcs', made, whole], check=True)
    write(f'{folder}/version', VERSION_SCRIPT)
    subprocess.run(['cc', '-shared', f'-Wl,--version-script={folder}/version', '-Wl,-soname,libpersist.so', '-Wl,--gc-sections', '-Wl,-z,relro,-z,now',
                    '-o', f'{folder}/libpersist.so', whole], check=True)
    version = re.findall(r"__version__ = '([^']*)'", read(f'{TOP}/tools/persist/__init__.py'))[0]
    write(f'{folder}/persist.pc', PC.format(prefix=prefix, version=version, unproved='' if proved else ' (built without its proof)'))
    for it, to in (('libpersist.a', 'lib'), ('libpersist.so', 'lib'), ('persist.pc', 'lib/pkgconfig')):
        shutil.copy(f'{folder}/{it}', f'{prefix}/{to}/{it}.new')
        os.replace(f'{prefix}/{to}/{it}.new', f'{prefix}/{to}/{it}')
    shutil.copy(f'{TOP}/tools/c/persist.h', f'{prefix}/include/persist.h')


def install_module(prefix: str) -> None:
    """Makes the module for Python, where there is what it needs, of the library under a prefix."""
    headers = sysconfig.get_paths()['include']
    if not os.path.exists(f'{headers}/Python.h'):
        print('there is no Python.h, so the module for Python is not built', file=sys.stderr)
        return
    to = f'{prefix}/lib/persist'
    os.makedirs(to, exist_ok=True)
    # One that any Python from 3.8 on takes.
    subprocess.run(['cc', '-shared', '-fPIC', '-O2', '-DPy_LIMITED_API=0x03080000', f'-I{headers}', f'-I{prefix}/include', f'{TOP}/tools/c/python.c',
                    f'{prefix}/lib/libpersist.a', '-o', f'{to}/_persist.so.new'], check=True)
    os.replace(f'{to}/_persist.so.new', f'{to}/_persist.so')


def build(prefix: str, proved: bool) -> None:
    """Builds the library and puts it under a prefix."""
    with tempfile.TemporaryDirectory(prefix='persist-') as folder:
        archive = proved_archive() if proved else unproved_archive(folder)
        install(archive, folder, os.path.abspath(prefix), proved)
        install_module(os.path.abspath(prefix))
