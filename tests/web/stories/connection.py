"""The connection breaks, and comes back with the changes made meanwhile."""


def lost_and_back(stage):
    served = stage.serve()
    ann = stage.page(served, "ann", "tables/Painter")
    ann.sees(".rows", "Vermeer")
    stage.allow("WebSocket connection to")
    stage.allow("ERR_CONNECTION_REFUSED")
    served.stop()
    ann.sees("#banner", "The connection is lost")
    ann.sees("#state", "not connected")
    ann.click("[data-key=add]")
    ann.type("#field0", "Nobody")
    ann.press("Enter")
    ann.sees("#dialog .fault", "nothing was sent")
    ann.press("Escape")
    stage.picture(ann, "lost")
    served.says('insert Painter("Steen", "NL")')
    served.start()
    ann.until("it is back by itself", "document.querySelector('#state').className === 'up' && document.querySelector('#banner').hidden")
    ann.sees(".rows", "Steen NL")
    ann.sees(".message", "carol: 6 add Painter Steen")


def a_change_without_a_reply_is_looked_for(stage):
    served = stage.serve()
    ann = stage.page(served, "ann", "tables/Thing")
    # The line breaks as soon as the change is sent.
    ann.js("import('./link.js').then(m => { const ask = m.link.ask; m.link.ask = function (line, rows) { const r = ask.call(this, line, rows); if (line.startsWith('insert')) { m.link.ask = ask; m.link.reopen(); } return r; }; })")
    ann.click("[data-key=add]")
    ann.type("#field0", "7")
    ann.type("#field1", "perhaps")
    ann.press("Enter")
    ann.sees(".message", "one before the connection broke: add Thing 7 · perhaps", "one, the connection broke first: add Thing 7 · perhaps")
    done = "Done before" in ann.text("#messages")
    assert done == ("perhaps" in served.says("show Thing")), (done, served.says("show Thing"))


def another_workspace_at_the_same_place_is_seen(stage):
    served = stage.serve()
    ann = stage.page(served, "ann", "tables/Painting")
    ann.sees(".rows", "The Milkmaid")
    import os
    os.remove(served.file)
    done = served.yt(None, "relation Coin(name)\ninsert Coin(\"Guilder\")\n", curator="dora")
    assert done.returncode == 0, done.stderr
    ann.sees(".message", "The workspace was folded, or is another file now")
    ann.sees(".rows", "Guilder")


STORIES = [lost_and_back, a_change_without_a_reply_is_looked_for, another_workspace_at_the_same_place_is_seen]
