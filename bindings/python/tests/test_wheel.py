"""The packages, built by pip and by the backend itself with no network, and README's example."""
import doctest
import email
import os
import re
import shutil
import subprocess
import sys
import sysconfig
import tarfile
import tempfile
import unittest
import zipfile

import kohiblad

TOP = os.path.dirname(os.path.dirname(os.path.abspath(__file__)))
BACKEND = os.path.join(TOP, "build_backend", "kohiblad_build.py")
PROGRAM = "import kohiblad; print(kohiblad.__file__, kohiblad.dumps(kohiblad.loads('[1.50]')))"
# Reads the paths of a folder as Python's start reads those of site-packages.
EDITABLE = """
import importlib.metadata, site, sys
site.addsitedir(sys.argv[1])
print(importlib.metadata.version("kohiblad"))
"""


PRINTS_NATIVE = "import kohiblad; print(kohiblad.IS_NATIVE)"


def can_compile():
    with tempfile.TemporaryDirectory() as folder:
        return subprocess.run([sys.executable, BACKEND, "--extension", folder],
                              env=dict(os.environ, KOHIBLAD_NATIVE="1"), stdout=subprocess.DEVNULL,
                              stderr=subprocess.DEVNULL).returncode == 0


def has_pip():
    return subprocess.run([sys.executable, "-m", "pip", "--version"], stdout=subprocess.DEVNULL,
                          stderr=subprocess.DEVNULL).returncode == 0


CAN_COMPILE = can_compile()
NEEDS_COMPILER = "the extension module: needs the Debian packages gcc and python3-dev"


class ReadmeTest(unittest.TestCase):
    def test_the_examples_of_readme(self):
        with open(os.path.join(TOP, "README.md"), encoding="utf-8") as file:
            example = "".join(re.findall("```python\n(.*?)```", file.read(), re.S))
        test = doctest.DocTestParser().get_doctest(example, {}, "README.md", None, 0)
        result = doctest.DocTestRunner(verbose=False).run(test)
        self.assertEqual(result.failed, 0)
        self.assertGreater(result.attempted, 16)


class PackageTest(unittest.TestCase):
    """Builds packages in a folder, with neither the package nor the library to be found."""

    def setUp(self):
        folder = tempfile.TemporaryDirectory()
        self.addCleanup(folder.cleanup)
        self.folder = folder.name
        self.path = os.environ["KOHIBLAD_LIBRARY"]
        self.library = os.path.basename(self.path)
        prefix = os.path.dirname(os.path.dirname(self.path))
        self.environment = {name: value for name, value in os.environ.items()
                            if name not in ("KOHIBLAD_LIBRARY", "KOHIBLAD_NATIVE", "PYTHONPATH",
                                            "PKG_CONFIG_PATH")}
        self.environment["PREFIX"] = prefix

    def run_python(self, *arguments, **more):
        environment = dict(self.environment, **more)
        done = subprocess.run([sys.executable, *arguments], env=environment, cwd=self.folder,
                              stdout=subprocess.PIPE, stderr=subprocess.STDOUT)
        self.assertEqual(done.returncode, 0, done.stdout.decode())
        return done.stdout.decode()

    def run_pip(self, *arguments):
        self.run_python("-m", "pip", "--disable-pip-version-check", "--no-cache-dir", *arguments)

    def built(self, ending):
        names = [it for it in os.listdir(self.folder) if it.endswith(ending)]
        self.assertEqual(len(names), 1)
        return os.path.join(self.folder, names[0])

    def wheel(self):
        return self.built(".whl")

    def contents_of_wheel(self):
        """The contents of a wheel's files by their names, and the name of its metadata's folder."""
        with zipfile.ZipFile(self.wheel()) as files:
            contents = {name: files.read(name) for name in files.namelist()}
        return contents, f"kohiblad-{kohiblad.__version__}.dist-info"


class WheelTest(PackageTest):
    def test_the_backend_puts_the_library_in(self):
        self.run_python(BACKEND, self.folder, KOHIBLAD_NATIVE="0")
        wheel = self.wheel()
        self.assertRegex(wheel, r"kohiblad-[\d.]+-py3-none-linux_\w+\.whl$")
        with zipfile.ZipFile(wheel) as files:
            with open(self.path, "rb") as library:
                self.assertEqual(files.read(f"kohiblad/{self.library}"), library.read())
            self.assertIn("kohiblad/py.typed", files.namelist())
            info = re.search(r"\S+\.dist-info", " ".join(files.namelist())).group().split("/")[0]
            recorded = files.read(f"{info}/RECORD").decode()
            self.assertEqual([line.split(",")[0] for line in recorded.splitlines()],
                             files.namelist())
            files.extractall(os.path.join(self.folder, "site"))
        output = self.run_python("-c", PROGRAM, PYTHONPATH="site")
        self.assertTrue(output.endswith("[1.50]\n"))
        self.assertIn("site", output)
        self.assertEqual(self.run_python("-c", PRINTS_NATIVE, PYTHONPATH="site"), "False\n")

    @unittest.skipUnless(CAN_COMPILE, NEEDS_COMPILER)
    def test_the_backend_puts_the_extension_in(self):
        self.run_python(BACKEND, self.folder, KOHIBLAD_NATIVE="1")
        wheel, version = self.wheel(), "{}{}".format(*sys.version_info)
        self.assertRegex(wheel, rf"-cp{version}-cp{version}\w*-linux_\w+\.whl$")
        with zipfile.ZipFile(wheel) as files:
            suffix = sysconfig.get_config_var("EXT_SUFFIX")
            self.assertIn(f"kohiblad/_native{suffix}", files.namelist())
            self.assertIn(f"kohiblad/{self.library}", files.namelist())
            files.extractall(os.path.join(self.folder, "site"))
        self.assertEqual(self.run_python("-c", PRINTS_NATIVE, PYTHONPATH="site"), "True\n")
        self.run_python("-c", PROGRAM, PYTHONPATH="site", KOHIBLAD_NATIVE="1")

    def test_without_a_compiler_the_wheel_has_no_extension(self):
        output = self.run_python(BACKEND, self.folder, CC="false")
        self.assertIn("kohiblad: built without its extension module", output)
        self.assertRegex(self.wheel(), r"-py3-none-linux_\w+\.whl$")
        done = subprocess.run([sys.executable, BACKEND, self.folder], stdout=subprocess.DEVNULL,
                              stderr=subprocess.DEVNULL,
                              env=dict(self.environment, CC="false", KOHIBLAD_NATIVE="1"))
        self.assertEqual(done.returncode, 1)

    def test_without_the_library_the_wheel_is_for_all(self):
        self.environment.pop("PREFIX")
        self.run_python(BACKEND, self.folder, PATH="", PKG_CONFIG_LIBDIR=self.folder)
        wheel = self.wheel()
        self.assertTrue(wheel.endswith("-py3-none-any.whl"), wheel)
        with zipfile.ZipFile(wheel) as files:
            self.assertNotIn(f"kohiblad/{self.library}", files.namelist())
            files.extractall(os.path.join(self.folder, "site"))
        self.run_python("-c", PROGRAM, PYTHONPATH="site",
                        LD_LIBRARY_PATH=os.path.dirname(self.path))

    def test_no_library_is_an_import_error(self):
        source = os.path.join(TOP, "src")
        program = "try: import kohiblad\nexcept ImportError as error: print(error)"
        output = self.run_python("-c", program, PYTHONPATH=source, KOHIBLAD_LIBRARY="/none.so")
        self.assertIn("KOHIBLAD_LIBRARY", output)

    def test_two_builds_are_the_same(self):
        self.run_python(BACKEND, self.folder)
        with open(self.wheel(), "rb") as file:
            first = file.read()
        self.run_python(BACKEND, self.folder)
        with open(self.wheel(), "rb") as file:
            self.assertEqual(file.read(), first)

    def test_the_licence_is_inside_and_named(self):
        self.run_python(BACKEND, self.folder)
        contents, info = self.contents_of_wheel()
        with open(os.path.join(TOP, "LICENSE"), "rb") as file:
            self.assertEqual(contents[f"{info}/licenses/LICENSE"], file.read())
        fields = email.message_from_bytes(contents[f"{info}/METADATA"])
        self.assertEqual((fields["Name"], fields["Version"], fields["License-Expression"],
                          fields.get_all("License-File")),
                         ("kohiblad", kohiblad.__version__, "Apache-2.0", ["LICENSE"]))

    def test_it_names_the_program(self):
        self.run_python(BACKEND, self.folder)
        contents, info = self.contents_of_wheel()
        self.assertEqual(contents[f"{info}/entry_points.txt"].decode(),
                         "[console_scripts]\nkohiblad = kohiblad.__main__:main\n")

    @unittest.skipUnless(has_pip(), "pip is not installed")
    def test_pip_builds_and_installs_it(self):
        self.run_pip("wheel", "--no-build-isolation", "--no-index", "--no-deps", TOP,
                     "--wheel-dir", self.folder)
        self.run_pip("install", "--no-index", "--no-deps", "--target", "site", self.wheel())
        output = self.run_python("-c", PROGRAM, PYTHONPATH="site")
        self.assertTrue(output.endswith("[1.50]\n"))
        script = os.path.join(self.folder, "site", "bin", "kohiblad")
        self.assertTrue(os.access(script, os.X_OK))
        for arguments, said in ((("--version",), f"kohiblad {kohiblad.__version__}"),
                                (("sort", "--help"), "usage: kohiblad sort")):
            self.assertIn(said, self.run_python(script, *arguments, PYTHONPATH="site"))


class SourceTest(PackageTest):
    def test_it_has_what_a_build_reads(self):
        self.run_python(BACKEND, "--sdist", self.folder)
        with tarfile.open(self.built(".tar.gz")) as archive:
            archive.extractall(self.folder)
        top = os.path.join(self.folder, f"kohiblad-{kohiblad.__version__}")
        self.assertEqual(self.built(".tar.gz"), top + ".tar.gz")
        found = {os.path.relpath(os.path.join(folder, name), top)
                 for folder, _, names in os.walk(top) for name in names}
        package = {f"src/kohiblad/{name}" for name in os.listdir(os.path.dirname(kohiblad.__file__))
                   if name.endswith((".html", ".py", ".pyi")) or name == "py.typed"}
        native = {f"src/native/{name}" for name in os.listdir(os.path.join(TOP, "src", "native"))}
        self.assertIn("src/native/module.c", native)
        self.assertEqual(found, package | native | {
            "PKG-INFO", "LICENSE", "README.md", "pyproject.toml", "kohiblad.h", "kohiblad_stack.h",
            "build_backend/kohiblad_build.py"})
        self.run_python(os.path.join(top, "build_backend", "kohiblad_build.py"), self.folder)
        with open(self.wheel(), "rb") as file:
            from_sources = file.read()
        with open(os.path.join(top, "PKG-INFO"), "rb") as file:
            contents, info = self.contents_of_wheel()
            self.assertEqual(file.read(), contents[f"{info}/METADATA"])
        self.run_python(BACKEND, self.folder)
        with open(self.wheel(), "rb") as file:
            self.assertEqual(file.read(), from_sources)

    @unittest.skipUnless(has_pip(), "pip is not installed")
    def test_pip_installs_it(self):
        self.run_python(BACKEND, "--sdist", self.folder)
        self.run_pip("install", "--no-index", "--no-deps", "--target", "site",
                     self.built(".tar.gz"))
        output = self.run_python("-c", PROGRAM, PYTHONPATH="site")
        self.assertTrue(output.endswith("[1.50]\n"))
        self.assertIn("site", output)


class EditableTest(PackageTest):
    def setUp(self):
        super().setUp()
        # A copy, since the library is linked into it.
        self.clone = os.path.join(self.folder, "clone")
        shutil.copytree(TOP, self.clone)
        self.link = os.path.join(self.clone, "src", "kohiblad", self.library)

    def build(self, **more):
        """Builds the editable wheel by its hook and puts its files into site."""
        hook = "import kohiblad_build; print(kohiblad_build.build_editable('.'))"
        self.run_python("-c", hook, PYTHONPATH=os.path.join(self.clone, "build_backend"), **more)
        with zipfile.ZipFile(self.wheel()) as files:
            files.extractall(os.path.join(self.folder, "site"))

    def assert_is_installed(self, site, **more):
        """The package that runs is the clone's, also after it is changed."""
        version, output = self.run_python("-c", EDITABLE + PROGRAM, site, **more).splitlines()
        self.assertEqual(version, kohiblad.__version__)
        source = os.path.join(self.clone, "src", "kohiblad", "__init__.py")
        self.assertEqual(output, f"{source} [1.50]")
        with open(source, "a", encoding="utf-8") as file:
            file.write("\nprint('changed')\n")
        output = self.run_python("-c", EDITABLE + PROGRAM, site, **more)
        self.assertEqual(output.splitlines()[1], "changed")

    def test_the_hook_links_the_library(self):
        self.build()
        self.assertEqual(os.readlink(self.link), self.path)
        self.assert_is_installed("site")

    @unittest.skipUnless(CAN_COMPILE, NEEDS_COMPILER)
    def test_the_hook_compiles_the_extension(self):
        self.build()
        self.assertEqual(self.run_python("-c", EDITABLE + PRINTS_NATIVE, "site").splitlines()[-1],
                         "True")
        self.build(CC="false")
        self.assertEqual(self.run_python("-c", EDITABLE + PRINTS_NATIVE, "site").splitlines()[-1],
                         "False")

    def test_without_the_library_no_link_is_left(self):
        self.build()
        self.environment.pop("PREFIX")
        self.build(PATH="", PKG_CONFIG_LIBDIR=self.folder)
        self.assertFalse(os.path.lexists(self.link))
        self.assert_is_installed("site", LD_LIBRARY_PATH=os.path.dirname(self.path))

    @unittest.skipUnless(has_pip(), "pip is not installed")
    def test_pip_installs_it(self):
        self.run_pip("install", "--no-index", "--prefix", "prefix", "-e", self.clone)
        sites = [folder for folder, _, names in os.walk(os.path.join(self.folder, "prefix"))
                 if "kohiblad.pth" in names]
        self.assertEqual(len(sites), 1)
        self.assert_is_installed(sites[0])


if __name__ == "__main__":
    unittest.main()
