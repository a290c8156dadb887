"""The WebSocket of the page in a browser: what is sent on it, and what comes of a request when it is lost."""
from page_checks import same, true

OPEN = "editor.talk.socket.socket?.readyState === WebSocket.OPEN"
CLOSED = "editor.talk.socket.socket.readyState === WebSocket.CLOSED"
# Names of what was posted since this was asked last.
POSTED = ("const all = performance.getEntriesByType('resource').map(entry => entry.name.split('/').pop()); "
          "performance.clearResourceTimings(); return all.filter(name => ['edit', 'try', 'ask', 'alive'].includes(name))")
# Loses the WebSocket right behind the next request that is sent on it.
LOSES = ("const { socket } = editor.talk.socket, send = socket.send.bind(socket); "
         "socket.send = text => { send(text); socket.close(); }")
# A request of more characters than are sent on the WebSocket.
LONG = "editor.perform(send => send(...Array(9).fill(`rename 0 \"${'x'.repeat(8000)}\"`)))"


def opened(page):
    """Loads the page, and waits for its WebSocket."""
    page.load()
    page.wait(OPEN)
    page.js(POSTED)


def test_socket(page):
    opened(page)
    same("an edit", [page.later("editor.edit('move 10 10 12 12')"), page.last()], [True, ("move 10 10 12 12", "ok")])
    same("one that is refused", page.later("editor.edit('move 1 1 2 2')"), False)
    same("a trial", page.later("editor.talk.attempt('move 12 12 11 11')"), "ok")
    same("a question", page.later("editor.talk.ask('area 0')"), ["240"])
    page.later("editor.talk.alive()")
    same("none is posted", page.js(POSTED), [])
    same("a long request is", [page.later(LONG), page.js(POSTED)], [True, ["edit"]])
    test_closed(page)
    test_lost(page)


def test_closed(page):
    """Once the WebSocket is closed all is posted."""
    count = len(page.log())
    page.js("editor.talk.socket.socket.close()")
    page.wait(CLOSED)
    same("closed: an edit", page.later("editor.edit('move 12 12 11 11')"), True)
    same("a question", page.later("editor.talk.ask('area 0')"), ["220"])
    same("both are posted", page.js(POSTED), ["edit", "ask"])
    same("the edit is made once", page.log()[count:], [("move 12 12 11 11", "ok")])


def test_lost(page):
    """The WebSocket is lost while a request is under way."""
    opened(page)
    page.js(LOSES)
    same("lost: a trial is made again", [page.later("editor.talk.attempt('move 11 11 10 10')"), page.js(POSTED)],
         ["ok", ["try"]])
    opened(page)
    count = len(page.log())
    page.js(LOSES)
    same("an edit is not", [page.later("editor.edit('move 11 11 10 10')"), page.js(POSTED)], [False, []])
    true("the page says that the server can't be reached", "cannot be reached" in page.text("note"), page.text("note"))
    true("and edits no more", page.js("return editor.isClosed"))
    opened(page)
    same("it was made once", page.log()[count:], [("move 11 11 10 10", "ok")])
