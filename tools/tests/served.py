"""A workbench that runs, for tests: its process, address and calls; and points as the tests write them."""
import contextlib
import http.client
import json
import subprocess
import sys

JSON = "application/json"


def point(what, is_so, details=""):
    print("passed: %s" % what if is_so else "failed: %s (%s)" % (what, str(details).replace("\n", " ")[:300]), flush=True)


class Served:
    """A workbench and its address; it is ended by what `with` ends."""

    def __init__(self, *words):
        self.process = subprocess.Popen([sys.executable, "tools/open", *words], stdout=subprocess.PIPE, stderr=subprocess.DEVNULL)
        self.address = self.process.stdout.readline().decode().strip()
        self.port, self.token = int(self.address.split(":")[2].split("/")[0]), self.address.split("/")[3]
        self.own = "http://127.0.0.1:%d" % self.port

    def __enter__(self):
        return self

    def __exit__(self, *_):
        self.process.terminate()
        self.process.wait(20)
        self.process.stdout.close()

    def call(self, method, path, body=None, **heads):
        """The status, the heads and the body of a call to a path behind the host; a head that is None is left out."""
        heads = {"Host": "127.0.0.1:%d" % self.port, **{name.replace("_", "-"): value for name, value in heads.items()}}
        if body is not None:
            heads.setdefault("Content-Length", str(len(body)))
        with contextlib.closing(http.client.HTTPConnection("127.0.0.1", self.port, timeout=20)) as connection:
            connection.putrequest(method, path, skip_host=True, skip_accept_encoding=True)
            for name, value in heads.items():
                if value is not None:
                    connection.putheader(name, value)
            connection.endheaders(body)
            answer = connection.getresponse()
            return answer.status, dict(answer.getheaders()), answer.read()

    def get(self, name, **heads):
        return self.call("GET", "/%s/%s" % (self.token, name), **heads)

    def post(self, name, asked, **heads):
        body = asked if isinstance(asked, bytes) else json.dumps(asked).encode()
        return self.call("POST", "/%s/%s" % (self.token, name), body, **{"Content_Type": JSON, "Origin": self.own, **heads})

    def asked(self, name, asked=None):
        """The answer to a call of the page as it is meant."""
        return json.loads((self.get(name) if asked is None else self.post(name, asked))[2])
