"""A reference plugin for RISCOF: the tests are those that conformance/run --riscof FOLDER writes, and the signature of
each lies beside it. It isn't tried with RISCOF; conformance/README.md says how it is meant to be used."""
import os
import shutil

from riscof.pluginTemplate import pluginTemplate


class tilvenka(pluginTemplate):
    __model__ = "tilvenka"
    __version__ = "1"

    def __init__(self, *args, **kwargs):
        super().__init__(*args, **kwargs)
        config = kwargs.get("config") or {}
        self.pluginpath = os.path.abspath(config.get("pluginpath", "."))

    def initialise(self, suite, work_dir, archtest_env):
        self.suite_dir, self.work_dir, self.archtest_env = suite, work_dir, archtest_env

    def build(self, isa_yaml, platform_yaml):
        """There is nothing to build: the answers are those of the proved program."""

    def runTests(self, testList, cgf_file=None, header_file=None):
        for entry in testList.values():
            wanted = os.path.splitext(entry["test_path"])[0] + ".signature"
            shutil.copyfile(wanted, os.path.join(entry["work_dir"], self.name[:-1] + ".signature"))
