"""A page in a real browser, on a port of its own, that sends commands and looks to a server of gmbench.

    browser.py PORT BROWSER FOLDER

The page submits a form of plain text, calls fetch without CORS and with it, sends a beacon and wants an image. Prints which of
these the browser sent, as the page's own server is told, so that a test in which nothing was sent fails.
"""

import http.server
import subprocess
import sys
import threading

port, browser, folder = sys.argv[1:4]
COMMAND = '{"key":"%s","words":["label","--mid","7","--did","1","gm0","a.img"]}'
PAGE = """<!doctype html><title>A page</title><body><script>
const url = 'http://127.0.0.1:%s';
const command = key => '%s'.replace('%%s', key);
const told = what => fetch('/told/' + what, {method: 'POST'});
async function send() {
    const form = document.createElement('form');
    const field = document.createElement('input');
    const frame = document.createElement('iframe');
    frame.name = 'frame';
    form.action = url + '/commands';
    form.method = 'post';
    form.enctype = 'text/plain';
    form.target = 'frame';
    [field.name, field.value] = command('form').split(/:(.*)/s);
    form.append(field);
    document.body.append(frame, form);
    form.submit();
    await new Promise(done => { frame.onload = done; setTimeout(done, 3000); });
    await told('form');
    await fetch(url + '/commands', {method: 'POST', mode: 'no-cors', body: command('fetch')}).catch(() => 0);
    await told('fetch');
    await fetch(url + '/status').then(() => told('an-answer-that-is-read'), () => told('a-look'));
    await told(navigator.sendBeacon(url + '/commands', command('beacon')) ? 'beacon' : 'no-beacon');
    await new Promise(done => {
        const image = new Image();
        image.onload = image.onerror = done;
        image.src = url + '/mirrors/gm0';
    });
    await told('image');
    await told('end');
}
send();
</script>""" % (port, COMMAND)

heard = []
ended = threading.Event()


class Page(http.server.BaseHTTPRequestHandler):
    def answer(self, body):
        self.send_response(200)
        self.send_header("Content-Type", "text/html")
        self.send_header("Content-Length", str(len(body)))
        self.end_headers()
        self.wfile.write(body)

    def do_GET(self):
        self.answer(PAGE.encode() if self.path == "/" else b"")

    def do_POST(self):
        heard.append(self.path.removeprefix("/told/"))
        self.answer(b"")
        if self.path == "/told/end":
            ended.set()

    def log_message(self, *_):
        pass


server = http.server.ThreadingHTTPServer(("127.0.0.1", 0), Page)
threading.Thread(target=server.serve_forever, daemon=True).start()
words = [
    browser, "--headless", "--no-sandbox", "--disable-gpu", "--no-first-run", "--disable-background-networking",
    f"--user-data-dir={folder}/profile", f"http://127.0.0.1:{server.server_address[1]}/",
]
run = subprocess.Popen(words, stdout=subprocess.DEVNULL, stderr=subprocess.DEVNULL)
ended.wait(60)
run.kill()
run.wait()
wanted = ["form", "fetch", "a-look", "beacon", "image", "end"]
print("ok a browser sent all that a page can" if heard == wanted else f"failed a browser: it sent {heard}")
