"""The studio's server: what it refuses, and that it then writes nothing; what it keeps; and that it does what it says."""
import http.client
import json
import os
import random
import signal
import socket
from pathlib import Path

from site_of_studio import BOOK, CHECKOUT, Site, contents, open_site, run_gmr

EXTRUDE = {"rule": "extrude_face_by_2d", "hooks": [8], "values": [[0, 0, 100], [220, 120, 40]]}
HOSTILE_NAMES = ("../out.gmap", "/etc/passwd", "a/../../out.gmap", "..", ".", "", "a//b.gmap", ".hidden.gmap", "a/.b.gmap",
                 "nul\0.gmap", "line\n.gmap", "back\\slash.gmap", "out.gmap/", "link.gmap", "folder/out.gmap", "x" * 300 + ".gmap",
                 ".gmr-studio/1/start.gmap", "deep" + "/deep" * 400 + ".gmap", "\ud800.gmap")


def raw(site: Site, head: str, body: bytes = b"") -> bytes:
    """What is answered to a request that is written by hand."""
    host, port = site.host.split(":")
    with socket.create_connection((host, int(port)), timeout=20) as link:
        link.sendall(head.replace("\n", "\r\n").encode("latin-1") + b"\r\n\r\n" + body)
        link.shutdown(socket.SHUT_WR)
        answer = b""
        while part := link.recv(65536):
            answer += part
    return answer


def post(site: Site, action: str = "save", path: str | None = None, **headers: str) -> str:
    """The head of a request for an action, with headers in the place of the usual ones; an empty one isn't sent."""
    usual = {"Host": site.host, "Content-Type": "application/json", "Content-Length": "2", "Connection": "close"}
    named = {**usual, **{name.replace("_", "-"): value for name, value in headers.items()}}
    lines = [f"{name}: {value}" for name, value in named.items() if value]
    return "\n".join([f"POST {path or f'{site.path}api/{action}'} HTTP/1.1", *lines])


def test_hostile_requests_are_refused_and_write_nothing() -> None:
    with open_site() as site:
        before = contents(site.folder)
        cases = [
            (post(site, path="/api/save"), b"403"),
            (post(site, path=f"/{'x' * (len(site.path) - 2)}/api/save"), b"403"),
            (post(site, path="//api/save"), b"403"),
            (f"GET / HTTP/1.1\nHost: {site.host}\nConnection: close", b"403"),
            (f"GET /static/core.js HTTP/1.1\nHost: {site.host}\nConnection: close", b"403"),
            (post(site, Origin="http://example.org"), b"403"),
            (post(site, Origin="null"), b"403"),
            (post(site, Host="example.org"), b"403"),
            (post(site, Host=""), b"403"),
            (post(site, Sec_Fetch_Site="cross-site"), b"403"),
            (post(site, Sec_Fetch_Site="same-site"), b"403"),
            (post(site, Content_Type="text/plain"), b"415"),
            (post(site, Content_Type=""), b"415"),
            (post(site, Content_Length=str(300 * 2**20)), b"413"),
            (post(site, Content_Length="9" * 40), b"413"),
            (post(site, Content_Length="-5"), b"411"),
            (post(site, Content_Length="", Transfer_Encoding="chunked"), b"411"),
            (post(site).replace("POST", "PUT"), b"405"),
            (post(site).replace("POST", "DELETE"), b"405"),
            (post(site, action="nothing"), b"404"),
            (post(site, action="../show"), b"404"),
        ]
        for head, status in cases:
            answer = raw(site, head, b"{}" if status == b"404" else b"")
            assert answer.split(b" ", 2)[1] == status, f"{head!r} was answered {answer[:120]!r}"
        assert contents(site.folder) == before, "a request that was refused wrote something"
        assert site.ask("show")["state"]["darts"] == 48


def test_broken_bodies_are_refused_and_write_nothing() -> None:
    with open_site() as site:
        before = contents(site.folder)
        bodies = [b"", b"{", b"[]", b"null", b"7", b'"text"', b"\xff\xfe", b"[" * 100_000, b'{"a":' * 50_000, b'{"kind": "\\ud800"}',
                  b'{"kind": "map"}', b'{"kind": 7, "name": "a.gmap"}', b'{"kind": "map", "name": ["a.gmap"]}', b"1" * 100_000,
                  b'{"kind": "map", "name": "a.gmap", "over": ' + b"9" * 10_000 + b"}"]
        for body in bodies:
            for action in ("save", "apply", "script", "book", "open", "restore"):
                if b"over" in body and action == "save":
                    continue
                status, said = site.send(action, body)
                assert status in (400, 409), f"{action} with {body[:40]!r} was answered {status}: {said[:100]!r}"
        short = raw(site, post(site, Content_Length="50") + "\n", b"")
        assert b"200" not in short[:20], short[:100]
        assert contents(site.folder) == before, "a request that was refused wrote something"


def test_wrong_fields_are_refused_and_write_nothing() -> None:
    with open_site() as site:
        version = site.ask("show")["state"]["version"]
        before = contents(site.folder)
        wrong = [{"rule": "no such rule"}, {"rule": "missing"}, {"hooks": [8.5]}, {"hooks": [-1]}, {"hooks": "8"}, {"hooks": [True]},
                 {"values": []}, {"values": [[0, 0], [1, 1, 1]]}, {"values": [[0, 0, 2**63], [1, 1, 1]]}, {"values": [[0, 0, "1"], [1, 1, 1]]},
                 {"values": [[0, 0, 1.5], [1, 1, 1]]}, {"version": version + 1}, {"version": None}]
        for fields in wrong:
            assert site.fault("apply", **{**EXTRUDE, "version": version, **fields}), fields
        assert site.fault("each", version=version, rule="darken_face", labels=[3], values=[])
        assert site.fault("group", version=version, do="anything")
        assert contents(site.folder) == before, "a request that was refused wrote something"


def test_no_name_leads_out_of_the_folder() -> None:
    with open_site() as site:
        outside = site.folder.parent / "gmr-studio-outside"
        outside.mkdir(exist_ok=True)
        (outside / "secret.gmap").write_text("gmap 1 dim 1 darts 0")
        (site.folder / "link.gmap").symlink_to(outside / "secret.gmap")
        (site.folder / "link.ply").symlink_to(outside / "secret.gmap")
        (site.folder / "folder").symlink_to(outside)
        os.mkfifo(site.folder / "pipe.gmap")
        (site.folder / "inner.gmap").mkdir()
        version = site.ask("show")["state"]["version"]
        before, beyond = contents(site.folder), contents(outside)
        for name in (*HOSTILE_NAMES, "pipe.gmap", "inner.gmap"):
            for fields in ({"kind": "map", "name": name, "over": True}, {"kind": "start", "name": name, "over": True}):
                assert site.fault("save", **fields), name
            assert site.fault("open", version=version, kind="map", name=name), name
            assert name.startswith(("pipe", "inner")) or site.fault("export", name=name.replace(".gmap", ".ply"), over=True), name
        assert site.fault("open", version=version, kind="map", name="folder/secret.gmap")
        assert site.fault("import", version=version, name="folder/secret.obj")
        assert site.fault("restore", version=version, session="../../outside")
        assert (contents(site.folder), contents(outside)) == (before, beyond), "something was written"
        names = site.ask("files", kind="map")["names"]
        assert names == [], f"links and folders are listed: {names}"
        (outside / "secret.gmap").unlink()
        outside.rmdir()


def test_it_listens_on_the_loopback_address_alone() -> None:
    with open_site() as site:
        port = int(site.host.split(":")[1])
        lines = [line.split() for table in ("tcp", "tcp6") for line in Path(f"/proc/net/{table}").read_text().splitlines()[1:]]
        listening = {words[1].split(":")[0] for words in lines if words[3] == "0A" and int(words[1].split(":")[1], 16) == port}
        assert listening == {"0100007F"}, listening


def test_answers_forbid_what_the_page_doesnt_need() -> None:
    with open_site() as site:
        connection = http.client.HTTPConnection(site.host)
        connection.request("GET", site.path)
        answer = connection.getresponse()
        assert answer.status == 200
        policy = answer.headers["Content-Security-Policy"]
        assert "default-src 'none'" in policy and "script-src 'self'" in policy and "frame-ancestors 'none'" in policy
        assert answer.headers["Referrer-Policy"] == "no-referrer" and answer.headers["Cache-Control"] == "no-store"
        assert b"http" not in answer.read().replace(b"http-equiv", b""), "the page names an address"


def test_the_saved_map_is_what_a_run_leaves() -> None:
    with open_site() as site:
        version = site.ask("show")["state"]["version"]
        for action, fields in (("apply", EXTRUDE), ("each", {"rule": "triangulate_at_middle", "labels": [0, 1], "values": []}),
                               ("undo", {}), ("apply", {**EXTRUDE, "hooks": [48]}), ("undo", {}), ("redo", {}),
                               ("each_chosen", {"rule": "triangulate_at_middle", "darts": [0, 16], "values": []}),
                               ("apply", {"rule": "extrude_edge_by", "hooks": [0], "values": EXTRUDE["values"]})):
            version = site.ask(action, version=version, **fields)["state"]["version"]
        for kind, name in (("map", "out.gmap"), ("start", "start.gmap"), ("script", "done.gscript"), ("book", "rules.gbook")):
            assert "saved" in site.ask("save", kind=kind, name=name)["answer"][0]
        files = [site.folder / name for name in ("start.gmap", "rules.gbook", "done.gscript", "again.gmap")]
        run_gmr("run", *files)
        assert files[3].read_bytes() == (site.folder / "out.gmap").read_bytes()
        assert "no-match arc a 0 2" in files[2].read_text(), "the refused line isn't in the script as a comment"
        assert site.ask("save", kind="map", name="out.gmap")["asks"], "a file is written over without asking"


def test_a_group_is_one_step_and_a_refusal_leaves_it_whole() -> None:
    with open_site() as site:
        state = site.ask("group", version=site.ask("show")["state"]["version"], do="begin")["state"]
        for hooks in ([8], [16], [999]):
            answer = site.ask("apply", version=state["version"], **{**EXTRUDE, "hooks": hooks})
            state = answer["state"]
        assert "no-dart" in answer["answer"][0] and state["darts"] == 48 + 64 and len(state["group"]) == 2
        state = site.ask("group", version=state["version"], do="end")["state"]
        assert len(state["steps"]) == 1 and state["darts"] == 48 + 64
        assert site.ask("undo", version=state["version"])["state"]["darts"] == 48


def test_a_crash_loses_nothing() -> None:
    with open_site() as site:
        version = site.ask("show")["state"]["version"]
        site.ask("apply", version=version, **EXTRUDE)
        site.end(signal.SIGKILL)
        again = Site(site.folder)
        try:
            first = again.ask("show")
            [offered] = first["offered"]
            assert offered["steps"] == 1 and first["state"]["darts"] == 48
            whole = again.ask("restore", version=first["state"]["version"], session=offered["session"])
            assert whole["state"]["darts"] == 80 and whole["offered"] == []
            again.ask("save", kind="script", name="cube.gscript")
            again.ask("save", kind="book", name="values2.gbook", over=True)
        finally:
            again.end()
        assert not (site.folder / ".gmr-studio").exists(), "a session whose script is saved leaves something"


def test_a_script_runs_to_any_line_and_a_wrong_one_changes_nothing() -> None:
    with open_site() as site:
        version = site.ask("show")["state"]["version"]
        lines = ["apply extrude_face_by_2d 8 with (0 0 100) (1 2 3)", "each <0 1> triangulate_at_middle", "undo"]
        state = site.ask("script", version=version, text="\n".join(lines[:2]), rest=lines[2])["state"]
        assert [step["came"] for step in state["steps"]] == ["done", "done"] and state["rest"] == "undo"
        state = site.ask("script", version=state["version"], text="\n".join(lines), rest="")["state"]
        assert [step["came"] for step in state["steps"]] == ["done", "undone", "undo"] and state["darts"] == 80
        answer = site.ask("script", version=state["version"], text="apply no_such_rule 8", rest="")
        assert answer["answer"] == ["refused SCRIPT unknown-rule 6"] and answer["state"]["darts"] == 80


def test_the_darts_that_fit_are_those_where_the_program_finds_a_match() -> None:
    chance = random.Random(7)
    with open_site() as site:
        rules = [rule for rule in site.ask("show")["book"]["rules"] if sum(node["hook"] for node in rule["nodes"]) == 1]
        version = site.ask("show")["state"]["version"]
        text = "apply extrude_face_by_2d 8 with (0 0 100) (1 2 3)\napply triangulate_at_middle 16\napply unsew_faces_at_points 0"
        state = site.ask("script", version=version, text=text, rest="")["state"]
        for rule in chance.sample(rules, 12):
            fits = {dart for first, last in site.ask("fits", rule=rule["name"], hooks=[])["fits"] for dart in range(first, last + 1)}
            for dart in chance.sample(range(state["next"]), 5):
                said = site.ask("try", rule=rule["name"], hooks=[dart], values=None)
                assert said["refused"] == (dart not in fits), f"{rule['name']} at {dart}: {said}"


def test_the_checked_text_of_a_book_has_its_faults_at_their_places() -> None:
    with open_site() as site:
        text = "book 2\ndim 2\n# ähnlich 𝔸\nrule r\nleft\na <0 1> hook\nright\na <0 _>\nb <_ 2>\na -1- c\n"
        [fault] = site.ask("check", text=text)["faults"]
        place = len(text[:text.index("c\n")].encode("utf-16-le")) // 2
        assert (fault["from"], fault["to"]) == (place, place + 1) and "node of the right side" in fault["why"][0]
        [fault] = site.ask("check", text=text.replace("a -1- c", "a -1- b"))["faults"]
        assert fault["answer"] == "rule r refused arc-missing b 0" and "Give it 0" in fault["why"][1]


def test_a_book_with_a_refused_rule_serves_without_it() -> None:
    with open_site() as site:
        version = site.ask("show")["state"]["version"]
        text = BOOK.read_text() + "\nrule broken\nleft\na <0 1> hook\nright\na <0 _>\n"
        answer = site.ask("book", version=version, text=text)
        assert [rule["name"] for rule in answer["book"]["rules"] if rule["fault"]] == ["broken"]
        assert site.ask("apply", version=answer["state"]["version"], **EXTRUDE)["state"]["darts"] == 80
        assert "without broken" in site.ask("save", kind="book", name="broken.gbook")["answer"][0]


def test_meshes_come_in_and_go_out() -> None:
    with open_site() as site:
        version = site.ask("show")["state"]["version"]
        assert site.ask("import", version=version, name="cube.obj", scale="10")["state"]["darts"] == 48
        assert "points 8 faces 6" in site.ask("export", name="cube.ply", scale="10")["answer"][0]
        assert (site.folder / "cube.ply").read_bytes().startswith(b"ply")
        (site.folder / "no.obj").write_text("nothing\n")
        assert site.ask("import", version=version + 1, name="no.obj", scale="").get("refused")
        assert site.fault("import", version=version + 1, name="scene.gltf", scale="")


def test_wrong_words_end_in_one_line() -> None:
    import subprocess
    with open_site() as site:
        for words, said in ((["cube.obj", "no.gbook"], "no.gbook"), (["../cube.obj", "values2.gbook"], "cube.obj"),
                            (["cube.obj", "cube.obj"], "refused BOOK text"), (["values2.gbook", "values2.gbook"], "values2.gbook")):
            done = subprocess.run([CHECKOUT / "tools" / "studio", *words, "--no-browser"], cwd=site.folder, capture_output=True,
                                  text=True, check=False, timeout=60)
            lines = done.stderr.splitlines()
            assert done.returncode == 1 and len(lines) == 1 and said in lines[0], (words, done)


def test_state_is_json_without_what_the_page_shouldnt_know() -> None:
    with open_site() as site:
        text = json.dumps(site.ask("show"))
        assert str(site.folder) not in text, "the page is told where the folder lies"
