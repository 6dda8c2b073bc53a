"""Makes a folder for Debian's buildbot master (packages buildbot and buildbot-worker): `laid(folder, port)`. The master has one builder, whose
worker never comes, so that what is queued stays queued; one forced scheduler for it; its database is its own, SQLite in the folder,
by its own settings; and its JSON API. Debian has no package of its web pages, without which it starts no
API: an empty folder stands for them."""

import os

CONFIG = """
from buildbot.plugins import schedulers, steps, util, worker

factory = util.BuildFactory([steps.ShellCommand(command=["echo", "hi"])])
BuildmasterConfig = {{
    "workers": [worker.Worker("ours", "word")],
    "protocols": {{"pb": {{"port": "tcp:0:interface=127.0.0.1"}}}},
    "builders": [util.BuilderConfig(name="shop", workernames=["ours"], factory=factory)],
    "schedulers": [schedulers.ForceScheduler(name="force", builderNames=["shop"])],
    "www": {{"port": "tcp:{port}:interface=127.0.0.1", "plugins": {{}}}},
    "db": {{"db_url": "sqlite:///state.sqlite"}},
    "buildbotNetUsageData": None,
    "title": "bench", "titleURL": "http://127.0.0.1:{port}/", "buildbotURL": "http://127.0.0.1:{port}/",
}}
"""
TAC = """
import os
from twisted.application import service
from buildbot.master import BuildMaster

application = service.Application('buildmaster')
BuildMaster(os.getcwd(), "master.cfg", umask=None).setServiceParent(application)
"""
PAGES = "from buildbot.www.plugin import Application\nbase = Application(__name__, 'no pages')\n"
ENTRY = "[buildbot.www]\nbase = no_pages:base\n"


def written(path, text):
    os.makedirs(os.path.dirname(path), exist_ok=True)
    with open(path, "w", encoding="utf-8") as file:
        file.write(text)


def laid(folder, port):
    """The words that start the master in the folder, and its environment."""
    written(f"{folder}/master.cfg", CONFIG.format(port=port))
    written(f"{folder}/buildbot.tac", TAC)
    written(f"{folder}/pages/no_pages/__init__.py", PAGES)
    written(f"{folder}/pages/no_pages/VERSION", "1")
    written(f"{folder}/pages/no_pages/static/index.html", "")
    written(f"{folder}/pages/no_pages-1.egg-info/PKG-INFO", "Metadata-Version: 1.0\nName: no-pages\nVersion: 1\n")
    written(f"{folder}/pages/no_pages-1.egg-info/entry_points.txt", ENTRY)
    upgrade = ["/usr/bin/buildbot", "upgrade-master", "--quiet", "."]
    return upgrade, ["/usr/bin/buildbot", "start", "--nodaemon", "."], {**os.environ, "PYTHONPATH": f"{folder}/pages"}
