"""A realm of MIT Kerberos in a folder of its own, which the scripts here measure beside kdb_tool. No daemon is started,
and no file outside of that folder is read or written: its programs are told so by KRB5_CONFIG and KRB5_KDC_PROFILE."""
import os, shutil, subprocess, sys, time

REALM = "EXAMPLE.ORG"
# The files of a database, of its policies and of its update log.
FILES = ["principal", "principal.kadm5", "principal.kadm5.lock", "principal.ok", "update.log", "stash"]
PLACES = os.pathsep.join([os.environ.get("PATH", ""), "/usr/sbin", "/usr/local/sbin"])

CLIENT = """[libdefaults]
    default_realm = {realm}
    dns_lookup_kdc = false
    dns_lookup_realm = false
[realms]
    {realm} = {{
        kdc = localhost
        admin_server = localhost
    }}
"""

# The types of keys that kdb_tool makes unless it is told others, and a log as long as its own.
SERVER = """[realms]
    {realm} = {{
        database_name = {folder}/principal
        key_stash_file = {folder}/stash
        acl_file = {folder}/acl
        dict_file = {folder}/words
        master_key_type = aes256-cts
        supported_enctypes = aes256-cts:normal aes128-cts:normal
        iprop_enable = true
        iprop_port = 2121
        iprop_ulogsize = 1000
        iprop_logfile = {folder}/update.log
    }}
[logging]
    kdc = FILE:{folder}/kdc.log
    admin_server = FILE:{folder}/admin.log
    default = FILE:{folder}/default.log
"""


def program(name):
    return shutil.which(name, path=PLACES)


def is_installed():
    return program("kadmin.local") is not None and program("kdb5_util") is not None


class Realm:
    """A realm with the principals of its creation, in this folder."""

    def __init__(self, folder):
        self.folder = os.path.abspath(folder)
        self.tell("krb5.conf", CLIENT)
        self.tell("kdc.conf", SERVER)
        self.environment = dict(os.environ, KRB5_CONFIG=self.path("krb5.conf"), KRB5_KDC_PROFILE=self.path("kdc.conf"))
        self.util("create", "-s", "-P", "secret")

    def path(self, name):
        return os.path.join(self.folder, name)

    def tell(self, name, text):
        with open(self.path(name), "w") as file:
            file.write(text.format(realm=REALM, folder=self.folder))

    def run(self, words, text=b""):
        """What was written, and the seconds that it took by the clock."""
        start = time.monotonic()
        done = subprocess.run(words, env=self.environment, cwd=self.folder, input=text, capture_output=True)
        taken = time.monotonic() - start
        if done.returncode != 0:
            sys.exit("%s: status %d: %r" % (words[0], done.returncode, done.stderr[-200:]))
        return done.stdout, taken

    def util(self, *words, text=b""):
        """The seconds of a run of kdb5_util."""
        return self.run([program("kdb5_util"), "-r", REALM, *words], text)[1]

    def admin(self, lines, mark):
        """The seconds of a run of kadmin.local over these lines. The answer of each has this mark once."""
        text = "".join(line + "\n" for line in lines).encode()
        written, taken = self.run([program("kadmin.local"), "-r", REALM], text)
        found = written.count(mark.encode())
        if found != len(lines):
            sys.exit("kadmin.local answered %d of %d lines: %r" % (found, len(lines), written[-200:]))
        return taken

    def fill(self, sample, count):
        """Loads so many principals n000000, n000001 and so on beside those of the creation, each with the record that
        the option `sample` of addprinc makes. Gives the dump's path."""
        self.admin(["addprinc %s n000000" % sample], "created.")
        dump = self.path("dump")
        self.util("dump", dump)
        with open(dump) as file:
            lines = file.readlines()
        [row] = [line for line in lines if "\tn000000@" in line]
        with open(dump, "w") as file:
            file.writelines(line for line in lines if line != row)
            file.writelines(row.replace("n000000@", "n%06d@" % number) for number in range(count))
        self.util("load", dump)
        return dump

    def save(self):
        """Copies the database as it is."""
        os.makedirs(self.path("saved"), exist_ok=True)
        for name in FILES:
            if os.path.exists(self.path(name)):
                shutil.copy2(self.path(name), self.path(os.path.join("saved", name)))

    def restore(self):
        """Puts the copy in the place of the database."""
        for name in FILES:
            if os.path.exists(self.path(os.path.join("saved", name))):
                shutil.copy2(self.path(os.path.join("saved", name)), self.path(name))
