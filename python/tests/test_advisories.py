"""Names that advisories, lists of other scanners and write-ups of attacks have: none of them is
without a finding that counts. A name is written as the module, a blank and the name.
"""

import contextlib
import io
import tempfile
import unittest
from pathlib import Path

from storklocker.scanning.command import main
from storklocker.scanning.dangers import import_findings
from storklocker.scanning.severity import KINDS, MILD

ADVISED = {
    "commands": """
os system, os popen, os execv, os execve, os execl, os execlp, os execvp, os spawnl, os spawnv
os spawnvp, os posix_spawn, os posix_spawnp, os startfile, posix system, posix popen, posix execv
nt system, nt popen, nt startfile, subprocess Popen, subprocess call, subprocess check_call
subprocess check_output, subprocess run, subprocess getoutput, subprocess getstatusoutput
commands getoutput, commands getstatusoutput, popen2 popen3, popen2 Popen3, pty spawn, pty fork
platform popen, platform _syscmd_ver, webbrowser open, webbrowser GenericBrowser
pydoc pipepager, pydoc tempfilepager, pydoc getpager, imaplib IMAP4_stream
multiprocessing.util spawnv_passfds, _posixsubprocess fork_exec, _winapi CreateProcess
asyncio create_subprocess_shell, asyncio.subprocess create_subprocess_exec
asyncio.unix_events _UnixSubprocessTransport._start, uuid _get_command_stdout
_osx_support _read_output, _aix_support _read_cmd_output, _pyrepl.pager pipe_pager
_bootsubprocess check_output, distutils.spawn spawn, mailcap findmatch, mailcap subst
ensurepip _run_pip, pip main, pip._internal main, pip._internal.cli.main main
setuptools.sandbox run_setup, setuptools._distutils.spawn spawn, pexpect run, pexpect spawn
sh Command, plumbum local, invoke run, fabric Connection, gevent.subprocess check_output
IPython.utils.process getoutput, IPython.core.interactiveshell InteractiveShell
numpy.distutils.exec_command exec_command, numpy.f2py.diagnose run_command, numpy.f2py compile
torch.utils.collect_env run, torch.utils.cpp_extension load, eventlet.green.subprocess Popen
""",
    "code": """
builtins eval, builtins exec, builtins compile, builtins execfile, builtins breakpoint
__builtin__ eval, __builtin__ exec, __builtin__ execfile, __builtin__ compile, __builtin__ input
code interact, code InteractiveInterpreter.runsource, code InteractiveConsole
codeop compile_command
bdb Bdb.run, bdb Bdb, pdb run, pdb runeval, pdb Pdb, cProfile run, cProfile runctx, profile run
profile Profile.runctx, timeit timeit, timeit main, timeit repeat, trace Trace.run
trace Trace.runctx, doctest debug_script, doctest testmod, doctest debug, runpy run_path
runpy run_module, runpy _run_code, types FunctionType, types CodeType, marshal loads, marshal load
dataclasses _create_fn, dataclasses make_dataclass, collections namedtuple
typing get_type_hints, typing ForwardRef._evaluate, typing _eval_type, typing NamedTuple
inspect get_annotations, inspect _signature_fromstr, annotationlib call_evaluate_function
idlelib.autocomplete AutoComplete.get_entity, idlelib.autocomplete AutoComplete.fetch_completions
idlelib.calltip get_entity, idlelib.calltip Calltip.fetch_tip, idlelib.debugobj ObjectTreeItem
idlelib.pyshell ModifiedInterpreter.runcode, idlelib.run Executive.runcode, rlcompleter Completer
lib2to3.pgen2.pgen ParserGenerator.make_label, lib2to3.pgen2.grammar Grammar.loads
test.support.script_helper assert_python_ok, test.support run_code, logging.config dictConfig
logging.config fileConfig, logging.config _install_handlers, _xxsubinterpreters run_string
_interpreters exec, _testcapi run_in_subinterp, _tkinter create, tkinter Tcl
numpy.testing._private.utils runstring, numpy.testing._private.utils rundocs
numpy.f2py.crackfortran myeval, numpy.f2py.crackfortran _eval_length
numpy.f2py.crackfortran param_eval, numpy.f2py.crackfortran getlincoef
pandas eval, pandas DataFrame.query, pandas DataFrame.eval, pandas.core.computation.eval eval
torch.jit.unsupported_tensor_ops execWrapper, torch.fx.graph_module _exec_with_source
torch.fx.experimental.symbolic_shapes ShapeEnv.evaluate_guards_expression
torch._dynamo.guards GuardBuilder.get, torch._inductor.codecache compile_file
torch.utils.bottleneck.__main__ run_cprofile, torch.utils.bottleneck.__main__ run_autograd_prof
torch.jit._script script, jinja2 Template, jinja2.environment Environment
mako.template Template, sympy sympify, sympy sin, sympy Integral, sympy Poly, sympy S
sympy.core.sympify sympify, sympy.parsing.sympy_parser parse_expr, sympy.polys.polytools Poly
sympy.integrals.integrals Integral, sympy lambdify, sympy.utilities.lambdify lambdify
numexpr evaluate
django.template Template, django.core.management call_command
django.db.models.expressions RawSQL
django.core.management execute_from_command_line, yaml unsafe_load, yaml load, yaml full_load
six exec_, past.builtins execfile, decorator FunctionMaker.create, cffi FFI, cffi verify
sqlalchemy.util.langhelpers _exec_code_in_env, theano.gof.cmodule load, keras.models load_model
tensorflow.keras.models load_model, celery.utils.imports instantiate, numba jit
""",
    "modules and files that are run": """
builtins __import__, builtins help, builtins reload, importlib import_module, importlib reload
importlib.machinery SourceFileLoader, importlib.util spec_from_file_location
importlib._bootstrap _gcd_import, _frozen_importlib __import__, imp load_source, imp load_module
pkgutil resolve_name, pkgutil get_data, pydoc locate, pydoc safeimport, zipimport zipimporter
xml.sax make_parser, unittest.loader TestLoader.loadTestsFromName, unittest main
optparse Values.read_file, optparse Values.read_module, site addsitedir, site addpackage
site execsitecustomize, venv create, zipapp create_archive, warnings _getcategory
pkg_resources EntryPoint.resolve, setuptools.build_meta build_wheel, torch.hub load
torch._utils _import_dotted_name, torch.package PackageImporter, numpy.core _ufunc_reconstruct
numpy.lib.utils lookfor, pandas.compat._optional import_optional_dependency
django.utils.module_loading import_string, kombu.utils.imports symbol_by_name
werkzeug.utils import_string, rq.utils import_attribute, pygments.lexers load_lexer_from_file
pytest main, nltk.data load, nltk.app.wordnet_app main, ctypes CDLL, ctypes PyDLL
ctypes WinDLL, ctypes.util find_library, _ctypes dlopen, cffi.api FFI.dlopen, torch ops.load_library
torch classes.load_library, torch._ops _Ops.load_library, torch._classes _Classes.load_library
torch.utils._config_module ConfigModule.load_config, numpy.ctypeslib load_library
""",
    "pickles in pickles": """
pickle loads, pickle load, pickle Unpickler, pickle _loads, _pickle loads, _pickle Unpickler
cPickle loads, cloudpickle loads, cloudpickle.cloudpickle _builtin_type, dill loads, dill load
dill._dill _create_function, joblib load, joblib.numpy_pickle load, jsonpickle decode
jsonpickle.unpickler decode, shelve open, shelve Shelf, pandas read_pickle, torch load
pandas.io.pickle read_pickle, numpy load, numpy.lib.npyio load, numpy.lib.format read_array
torch.serialization load, torch.storage _load_from_bytes, networkx read_gpickle
torch.utils.data.datapipes.utils.decoder basichandlers, torch.distributed.rpc.internal deserialize
torch.distributed.distributed_c10d _tensor_to_object, networkx.readwrite.gpickle read_gpickle
gensim.utils unpickle, gensim.utils SaveLoad.load, gensim.models.word2vec Word2Vec.load
sklearn.externals.joblib load, scipy.io loadmat, statsmodels.iolib.smpickle load_pickle
multiprocessing.connection Connection.recv, multiprocessing.reduction ForkingPickler.loads
django.contrib.sessions.serializers PickleSerializer, logging.config listen
tracemalloc Snapshot.load, distributed.protocol.pickle loads, zodbpickle loads
""",
    "every object": """
builtins getattr, builtins setattr, builtins delattr, builtins globals, builtins locals
builtins vars, __builtin__ getattr, builtins type, operator attrgetter, operator methodcaller
operator itemgetter, operator call, functools partial, functools reduce, functools partialmethod
functools singledispatch, builtins map, builtins filter, __builtin__ apply, __builtin__ reduce
itertools starmap, inspect getattr_static, inspect currentframe, sys modules, sys _getframe
gc get_objects, gc get_referrers, types MethodType, weakref finalize, string Formatter.get_field
builtins object.__subclasses__, builtins type.mro, builtins dict.__class__
xmlrpc.server resolve_dotted_attribute, xmlrpc.server SimpleXMLRPCDispatcher
copyreg add_extension, copyreg constructor, copyreg pickle, threading Timer, threading Thread
concurrent.futures ThreadPoolExecutor, atexit register, codecs register, sys settrace
signal signal, sched scheduler, contextlib ExitStack, unittest.mock patch
""",
    "files": """
builtins open, io open, io FileIO, _io open, _io FileIO, os open, os remove, os unlink, os rename
os rmdir, os mkdir, os symlink, os chmod, os truncate, shutil rmtree, shutil copyfile, shutil move
shutil unpack_archive, shutil make_archive, tempfile mkstemp, tempfile NamedTemporaryFile
pathlib Path.write_text, pathlib Path.unlink, pathlib Path.write_bytes, codecs open, gzip open
bz2 open, lzma open, zipfile ZipFile, tarfile open, tarfile TarFile, sqlite3 connect
logging FileHandler, distutils.file_util write_file, py_compile compile, compileall compile_dir
numpy save, numpy savetxt, numpy memmap, numpy ndarray.tofile, torch save, joblib dump
pandas.io.common get_handle, linecache getlines, glob glob, os listdir, mmap mmap, dbm open
""",
    "the network": """
socket socket, socket create_connection, socket create_server, _socket socket, ssl SSLSocket
urllib.request urlopen, urllib.request urlretrieve, urllib2 urlopen, urllib urlopen
http.client HTTPConnection, httplib HTTPSConnection, requests get, requests.api get
requests.sessions Session, aiohttp.client ClientSession, httpx get, urllib3 PoolManager
ftplib FTP, smtplib SMTP, telnetlib Telnet, poplib POP3, nntplib NNTP, xmlrpc.client ServerProxy
socketserver TCPServer, http.server HTTPServer, asyncio open_connection, paramiko SSHClient
""",
    "the process": """
os kill, os _exit, os abort, os fork, os putenv, os chdir, os setuid, sys exit
sys setrecursionlimit
sys path.append, sys addaudithook, signal raise_signal, resource setrlimit, faulthandler _sigsegv
posix kill, posix _exit, _thread start_new_thread, _thread interrupt_main, builtins exit
builtins quit, builtins input, time sleep, ssl _create_unverified_context
""",
}
DANGERS = """
dataclasses _create_fn, typing get_type_hints, xmlrpc.server resolve_dotted_attribute
mailcap findmatch, torch ops.load_library, torch classes.load_library
django.core.management call_command, networkx read_gpickle, gensim.utils unpickle, nltk.data load
sympy sin, sympy.integrals.integrals Integral, sympy.polys.polytools Poly
IPython.utils.process getoutput, gevent.subprocess check_output, pexpect run
"""
"""Those of which a call with what a pickle can make is enough."""


def pairs(text):
    """The pairs of a table."""
    words = [it.strip() for it in text.replace("\n", ",").split(",")]
    return [tuple(it.split(" ")) for it in words if it]


def all_pairs():
    """Every pair of all tables, once."""
    return dict.fromkeys(pair for text in ADVISED.values() for pair in pairs(text))


class Advisories(unittest.TestCase):
    def test_none_is_silent(self):
        self.assertGreater(len(all_pairs()), 400)
        self.assertEqual([it for it in all_pairs() if not import_findings([it])], [])

    def test_those_that_do_it_alone_are_dangers(self):
        for pair in pairs(DANGERS):
            self.assertIn(pair, all_pairs())
            kinds = [it.kind for it in import_findings([pair])]
            self.assertEqual(kinds, ["dangerous-import"], pair)

    def test_status_of_a_file_without_a_list(self):
        with tempfile.TemporaryDirectory() as folder:
            for number, (module, name) in enumerate(all_pairs()):
                text = b"".join(b"\x8c%c%s" % (len(it), it.encode()) for it in (module, name))
                Path(folder, f"{number}.pickle").write_bytes(b"\x80\x04" + text + b"\x93.")
            out = io.StringIO()
            with contextlib.redirect_stdout(out):
                self.assertEqual(main(["scan", "--no-config", folder]), 1)
            self.assertNotIn("unjudged  ", out.getvalue())
            calm = [it for it in out.getvalue().splitlines()[-1].split(", ") if "unjudged" in it]
            self.assertEqual(calm, [])

    def test_what_is_known_of_them(self):
        """Most are known by themselves, and not only unknown."""
        found = [it for pair in all_pairs() for it in import_findings([pair])]
        known = [it for it in found if KINDS[it.kind].severity not in MILD]
        self.assertGreater(len(known), len(found) * 9 // 10)


if __name__ == "__main__":
    unittest.main()
