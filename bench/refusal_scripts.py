"""The scripts of bench/refusals.py: each function gives the requests of one, with the bodies of their plain replies."""
from replay_script import Ask, get, put

VIM = "DISTNAME = vim-${V}\nV = 9.1\n"


def port(name, depends=""):
    """The makefile of a port with this name, and with what it needs to run."""
    return f"DISTNAME = {name}\n{depends and f'RUN_DEPENDS = {depends}'}\n.include <bsd.port.mk>\n".replace("\n\n", "\n")


def makefile(tenant, path, body, tree="/ports", waits=False):
    return put(tenant, f"{tree}/{path}/Makefile", body, waits)


def value(tenant, path, name, wanted):
    return get(tenant, f"/v1/var?path={path}&name={name}", f'{{"defined":true,"value":"{wanted}"}}')


def packages(*names):
    """The list of packages with these names, each of the port t/X with X the stem of its name."""
    shown = ",".join(f'{{"name":"{name}","path":"t/{name[0]}","subpackage":"-"}}' for name in names)
    return f'{{"packages":[{shown}]}}'


def edge(status, item, path):
    """The reply of `rdeps` with one item of the port at this path."""
    return f'{{"rdeps":[{{"item":"{item}","kind":"run","path":"{path}","status":"{status}","subpackage":"-"}}]}}'


def example():
    return [makefile(0, "editors/vim", VIM), value(0, "editors/vim", "DISTNAME", "vim-9.1")]


def tenants():
    """Two tenants store different files under one name, and ask the same, in both orders."""
    return [
        makefile(0, "a/b", "V = 1\n"), makefile(1, "a/b", "V = 2\n"),
        value(0, "a/b", "V", "1"), value(1, "a/b", "V", "2"),
        makefile(1, "a/c", "V = 2\n"), makefile(0, "a/c", "V = 1\n"),
        value(1, "a/c", "V", "2"), value(0, "a/c", "V", "1"),
    ]


def shared():
    """Two tenants store the same file, and one is told from the cache what was evaluated for the other."""
    return [
        makefile(0, "editors/vim", VIM), makefile(1, "editors/vim", VIM),
        value(0, "editors/vim", "DISTNAME", "vim-9.1"), value(1, "editors/vim", "DISTNAME", "vim-9.1"),
        makefile(0, "editors/vim", VIM.replace("9.1", "9.2")),
        value(1, "editors/vim", "DISTNAME", "vim-9.1"), value(0, "editors/vim", "DISTNAME", "vim-9.2"),
    ]


def twice():
    """A variable is asked twice, then the file changes."""
    asked = [value(0, "editors/vim", "DISTNAME", "vim-9.1")] * 2
    changed = makefile(0, "editors/vim", VIM.replace("9.1", "9.2"))
    return [makefile(0, "editors/vim", VIM), *asked, changed, *[value(0, "editors/vim", "DISTNAME", "vim-9.2")] * 2]


def changes():
    """A file is stored, replaced and removed, and shown after each."""
    target, gone = "/v1/file?name=/ports/a", '{"error":"NoFile"}'
    removed = [Ask(0, "DELETE", target, wanted='{"removed":true}'), get(0, target, gone)]
    return [
        get(0, target, gone), put(0, "/ports/a", "one"), get(0, target, "one"), put(0, "/ports/a", "two"),
        get(0, target, "two"), *removed, Ask(0, "DELETE", target, wanted=gone),
    ]


def three_ports():
    b, c = makefile(0, "t/b", port("b-1", "c->=2:t/c")), makefile(0, "t/c", port("c-1"))
    return [makefile(0, "t/a", port("a-1", "t/b")), b, c]


def ports():
    """Three ports are listed, matched, and asked for what they depend on."""
    needs = '{"item":"t/b","kind":"run","status":"Ok","subpackage":"-","target":"t/b"}'
    return three_ports() + [
        get(0, "/v1/list", packages("a-1", "b-1", "c-1")),
        get(0, "/v1/deps?path=t/a", f'{{"deps":[{needs}]}}'),
        get(0, "/v1/rdeps?path=t/c", edge("SpecMismatch", "c->=2:t/c", "t/b")),
        get(0, "/v1/match?spec=b-*", packages("b-1")),
        get(0, "/v1/list?where=stem%3Da", packages("a-1")),
        get(0, "/v1/deps?path=t/a&depth=all", '{"deps":["t/b"]}'),
        get(0, "/v1/rdeps?path=t/b&depth=all", '{"rdeps":["t/a"]}'),
        get(0, "/v1/faults", '{"faults":[]}'),
        get(0, "/v1/port?path=t/b"),
    ]


def under_way():
    """Uploads come between two lists, and while a list is under way; those aren't in it, and are in the next."""
    fourth = makefile(0, "t/d", port("d-1"), waits=True)
    return three_ports() + [
        get(0, "/v1/list", packages("a-1", "b-1", "c-1")), fourth,
        get(0, "/v1/list", packages("a-1", "b-1", "c-1", "d-1")),
        makefile(0, "t/b", port("b-2", "t/c")),
        get(0, "/v1/list", packages("a-1", "b-2", "c-1", "d-1")),
        makefile(0, "t/b", port("b-3")),
        get(0, "/v1/list", packages("a-1", "b-3", "c-1", "d-1")), makefile(0, "t/b", port("b-4"), waits=True),
        get(0, "/v1/list", packages("a-1", "b-4", "c-1", "d-1")),
    ]


def path():
    """Another search path is set, and files and a port are asked before and after it."""
    files = [get(0, f"/v1/file?name={tree}/a/b/Makefile", body) for tree, body in (("/ports", "V = 1\\n"), ("/mystuff", "V = 2\\n"))]
    trees = "/mystuff:/ports"
    return [
        makefile(0, "a/b", "V = 1\n"), makefile(0, "a/b", "V = 2\n", tree="/mystuff"),
        *files, value(0, "a/b", "V", "1"), value(0, "a/b", "PORTSDIR_PATH", "/ports:/mystuff"),
        Ask(0, "PUT", "/v1/path", trees, f'{{"path":"{trees}"}}'),
        *files, value(0, "a/b", "V", "2"), value(0, "a/b", "PORTSDIR_PATH", trees),
    ]


def depends():
    """A port of one tree comes before that of another, and what depends on it is met."""
    asks = []
    for item in ("foo->=2:devel/foo", "devel/foo>=2"):
        asks += [
            makefile(0, "devel/foo", port("foo-1.0"), tree="/mystuff"), makefile(0, "devel/bar", port("bar-1", item)),
            get(0, "/v1/rdeps?path=devel/foo", edge("SpecMismatch", item, "devel/bar")),
            makefile(0, "devel/foo", port("foo-2.0")),
            get(0, "/v1/rdeps?path=devel/foo", edge("Ok", item, "devel/bar")),
            Ask(0, "DELETE", "/v1/file?name=/ports/devel/foo/Makefile", wanted='{"removed":true}'),
        ]
    return asks


SCRIPTS = (example, tenants, shared, twice, changes, ports, under_way, path, depends)
