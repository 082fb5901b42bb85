"""Files of comma-separated values go in as one command, and tables come out again."""
import json
import os
import time


def drop(page, name, data):
    """Drops a file on the visible table."""
    page.js("""(() => { const d = new DataTransfer(); d.items.add(new File([Uint8Array.from(%s)], %s));
        document.querySelector('.drop').dispatchEvent(new DragEvent('drop', {dataTransfer: d, bubbles: true, cancelable: true})); })()""" % (
        json.dumps(list(data)), json.dumps(name)))
    page.find("#dialog [data-key=check]")


def a_file_is_one_record(stage):
    served = stage.serve()
    ann, bob = stage.page(served, "ann", "tables/Thing"), stage.page(served, "bob", "log")
    ann.sees("#main h2", "Thing")
    rows = "".join('"row ""%d""",%d\r\n' % (i, 100 + i) for i in range(200))
    drop(ann, "things.csv", ("\ufefftext,code\r\n" + rows + ",999\r\n").encode())
    ann.sees("#dialog", "202 lines, the names of the columns among them.")
    stage.picture(ann, "load")
    ann.click("#dialog [data-key=check]")
    ann.sees("#dialog", "201 rows: 201 inserted, by 6..206")
    before = served.says("status").split("at record ")[1].split(";")[0]
    ann.click("#dialog [data-key=go]")
    ann.sees(".pages", "1 to 50 of 201")
    bob.sees(".log", "and 198 more lines of this record")
    after = served.says("status").split("at record ")[1].split(";")[0]
    assert int(after) == int(before) + 1, (before, after)
    ann.click("[data-key='page Last rows']")
    ann.sees(".rows", "999 ?206.1")
    bob.click(".log button", "Undo all")
    bob.sees("#dialog", "201 rows go")
    bob.click("#dialog button.main")
    ann.sees("#main", "No rows yet")


def what_does_not_fit_is_told_by_line(stage):
    served = stage.serve()
    ann = stage.page(served, "ann", "tables/Painter")
    ann.sees("#main h2", "Painter")
    drop(ann, "painters.csv", "name;country;born\nHals;NL;1582\nSteen;;1626\n".encode())
    ann.sees("#dialog th", "born")
    ann.click("#dialog [data-key=check]")
    ann.sees("#dialog", "2 rows: 2 inserted")
    ann.press("Escape")
    drop(ann, "painters.csv", "name,country\nHals,NL\nSteen\n".encode())
    ann.click("#dialog [data-key=check]")
    ann.sees("#dialog .fault", "nothing was loaded")
    ann.sees("#dialog .fault", "line 3: row 2 has 1 cell, the header has 2")
    ann.press("Escape")
    drop(ann, "painters.csv", "name,country\nD\u00fcrer,DE\n".encode("latin-1"))
    ann.sees("#dialog", "The file is not UTF-8; it is read as Western European text")
    ann.click("#dialog [data-key=check]")
    ann.sees("#dialog", "D\u00fcrer · DE")
    ann.click("#dialog [data-key=go]")
    ann.sees(".rows", "D\u00fcrer DE")


def a_file_makes_a_table(stage):
    served = stage.serve(script=None)
    ann = stage.page(served, "ann")
    ann.sees("h2", "There are no tables yet")
    ann.upload("#first-csv", os.path.join(served.folder, "Coins of 1700.csv"), "Coin No,metal\n007,silver\n8,\n")
    ann.sees("#dialog h2", "Make a table of Coins of 1700.csv")
    ann.click("#dialog [data-key=check]")
    ann.sees("#main h2", "Coins_of_1700")
    ann.sees(".rows", "8 ?2.1")
    ann.click("[data-key=key]")
    ann.click("label[for=key0]")
    ann.click("#dialog button.main")
    ann.sees("th", "Coin_No key")


def a_table_comes_out_as_it_is(stage):
    served = stage.serve()
    served.says('insert Thing(1, "a, \\"b\\""), Thing(2, ?)')
    ann = stage.page(served, "ann", "tables/Thing")
    ann.downloads(served.folder)
    ann.click("[data-key=export]")
    path = os.path.join(served.folder, "Thing.csv")
    wait_for(path)
    with open(path, newline="") as file:
        assert file.read() == served.says("export Thing")
    ann.go("workspace")
    ann.click("[data-key=save-page]")
    wait_for(os.path.join(served.folder, "museum.html"))


def wait_for(path):
    end = time.time() + 60
    while time.time() < end and not (os.path.exists(path) and os.path.getsize(path)):
        time.sleep(0.1)
    time.sleep(0.3)
    assert os.path.exists(path), path


STORIES = [a_file_is_one_record, what_does_not_fit_is_told_by_line, a_file_makes_a_table, a_table_comes_out_as_it_is]
