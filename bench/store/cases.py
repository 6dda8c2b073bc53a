"""Files, folders and names that are taken over as stores, or refused with words for people; made by Python's sqlite3 in the current folder."""
import contextlib
import os
import random
import sqlite3
import subprocess
import sys

ours = "CREATE TABLE pallwethig_rows_1 (place BLOB NOT NULL PRIMARY KEY, body BLOB NOT NULL) STRICT"
OTHER = "it is another program's database"
VERSION = "its rows are of another version of the service"
COLUMNS = "its table has other columns, keys or rules than the service's"
MORE = "it holds something beside the service's table"
NONE = "it is no database, or its rows break its schema"
NO_NAME = "this is no path of a file"
NO_FOLDER = "its folder is missing"
FOLDER = "it is a folder"
NO_PLAIN = "it is no regular file with one name"
NO_RIGHT = "there is no right to write it, its log or their folder"
NO_LOG = "what has the name of its log is no regular file"
JOURNAL = "another program's journal stands beside it"
LOCKED = "another program has it open"
FULL = "the disk is full"


def made(path, *texts, mode="delete"):
    """A database that Python's sqlite3 makes."""
    db = sqlite3.connect(path)
    db.execute(f"PRAGMA journal_mode={mode}")
    for text in texts:
        db.execute(text)
    db.commit()
    db.close()


def written(path, data):
    with open(path, "wb") as file:
        file.write(data)


@contextlib.contextmanager
def held(path, text):
    """Another process has the database open and ran a text. (This one would let go of its lock by reading the file.)"""
    code = "import sqlite3, sys; db = sqlite3.connect(sys.argv[1], isolation_level=None); db.execute(sys.argv[2]).fetchall(); print(flush=True); input()"
    other = subprocess.Popen([sys.executable, "-c", code, path, text], stdin=subprocess.PIPE, stdout=subprocess.PIPE)
    other.stdout.readline()
    yield
    other.communicate(b"\n")


def openings(taken, refused, told):
    """Each case of an opening: `taken(name, path)` or `refused(name, path, words)` is told of it, and `told(name, holds)` of what holds beside.
    `more` of `refused` has who is to run it."""
    taken("a missing file", "new.db")
    taken("the same file again", "new.db")
    written("empty.db", b"")
    taken("an empty file", "empty.db")
    made("ours.db", ours)
    taken("our table, made by sqlite3", "ours.db")
    made("log.db", ours, mode="wal")
    taken("our table, made by sqlite3 in its log mode", "log.db")
    written("text.db", b"this is a text and no database\n" * 400)
    refused("a text", "text.db", NONE)
    written("bytes.db", random.Random(1).randbytes(65536))
    refused("random bytes", "bytes.db", NONE)
    for mode in ("delete", "wal"):
        made(f"other-{mode}.db", "CREATE TABLE other (a)", "INSERT INTO other VALUES (1)", mode=mode)
        refused(f"another program's database ({mode})", f"other-{mode}.db", OTHER)
        made(f"more-{mode}.db", ours, "CREATE TABLE other (a)", mode=mode)
        refused(f"our table and another one ({mode})", f"more-{mode}.db", MORE)
        made(f"keys-{mode}.db", ours.replace("NOT NULL PRIMARY KEY", "NOT NULL UNIQUE"), mode=mode)
        refused(f"our columns with another key ({mode})", f"keys-{mode}.db", COLUMNS)
        made(f"views-{mode}.db", "CREATE VIEW v AS SELECT 1", mode=mode)
        refused(f"a view alone ({mode})", f"views-{mode}.db", OTHER)
        made(f"trigger-{mode}.db", ours, "CREATE TRIGGER t AFTER INSERT ON pallwethig_rows_1 BEGIN SELECT 1; END", mode=mode)
        refused(f"our table with a trigger ({mode})", f"trigger-{mode}.db", MORE)
        made(f"columns-{mode}.db", "CREATE TABLE pallwethig_rows_1 (place BLOB, body BLOB)", mode=mode)
        refused(f"our name with other columns ({mode})", f"columns-{mode}.db", COLUMNS)
        made(f"view-{mode}.db", ours, "CREATE VIEW v AS SELECT 1", mode=mode)
        refused(f"our table and a view ({mode})", f"view-{mode}.db", MORE)
        made(f"index-{mode}.db", ours, "CREATE INDEX i ON pallwethig_rows_1 (body)", mode=mode)
        refused(f"our table and an index ({mode})", f"index-{mode}.db", MORE)
        made(f"version-{mode}.db", ours.replace("rows_1", "rows_2"), mode=mode)
        refused(f"a later version of the rows ({mode})", f"version-{mode}.db", VERSION)
    with held("ours.db", "BEGIN EXCLUSIVE"):
        refused("a file that another program has locked", "ours.db", LOCKED)
    with held("log.db", "SELECT count(*) FROM pallwethig_rows_1"):
        refused("a file that an idle sqlite3 has open in its log mode", "log.db", LOCKED)
    os.mkdir("folder")
    refused("a folder", "folder", FOLDER)
    refused("a missing folder", "missing/rows.db", NO_FOLDER)
    refused("a file for a folder", "text.db/rows.db", NO_FOLDER)
    refused("a name of memory", ":memory:", NO_NAME)
    refused("a URI", "file:rows.db", NO_NAME)
    refused("no name", "", NO_NAME)
    refused("a device", "/dev/null", NO_PLAIN)
    os.mkfifo("fifo")
    refused("a named pipe", "fifo", NO_PLAIN)
    os.symlink("nowhere.db", "link.db")
    refused("a link that leads nowhere", "link.db", NO_PLAIN)
    told("which made nothing there", not os.path.exists("nowhere.db"))
    made("linked.db", ours)
    os.symlink("linked.db", "leads.db")
    taken("a link to a store", "leads.db")
    os.link("linked.db", "second.db")
    refused("a file with a second name", "second.db", NO_PLAIN)
    made("logged.db", ours)
    os.mkdir("logged.db-wal")
    refused("a folder with the log's name", "logged.db", NO_LOG)
    made("journaled.db", ours)
    written("journaled.db-journal", b"\xd9\xd5\x05\xf9\x20\xa1\x63\xd7" + bytes(504))
    refused("a journal beside the file", "journaled.db", JOURNAL)
    made("locked.db", ours)
    os.chmod("locked.db", 0o444)
    who = {"user": 65534, "group": 65534} if os.geteuid() == 0 else {}
    refused("a file without the right to write", "locked.db", NO_RIGHT, **who)
    os.mkdir("closed")
    made("closed/rows.db", ours)
    os.chmod("closed/rows.db", 0o666)
    os.chmod("closed", 0o555)
    refused("a folder without the right to write", "closed/new.db", NO_RIGHT, **who)
    refused("a file in it whose log can't be made", "closed/rows.db", NO_RIGHT, **who)
