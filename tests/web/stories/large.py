"""A large table: it opens at once, and is filtered, paged and sorted."""
import os


def a_large_table_stays_usable(stage):
    rows = stage.options.rows
    served = stage.serve()
    path = os.path.join(served.folder, "things.csv")
    with open(path, "w") as file:
        file.write("code,text\n" + "".join("%d,thing number %d\n" % (1000 + i, i * 7919 % rows) for i in range(rows)))
    done = served.yt("load Thing " + path)
    assert done.returncode == 0, done.stderr
    ann = stage.page(served, "ann", "tables/Painter")
    ann.sees("nav.tables", "Thing {:,}".format(rows))

    def opens():
        ann.go("tables/Thing")
        ann.sees(".pages", "1 to 50 of {:,}".format(rows))
    stage.time("opens %d rows" % rows, opens)
    assert ann.js("document.querySelectorAll('.rows tbody tr').length") == 50
    ann.click("[data-key='page Last rows']")
    ann.sees(".rows", str(999 + rows))

    def filters():
        ann.type("[data-key=filter]", "number 77")
        ann.until("it is filtered", "/^1 to [0-9]+ of [0-9,]+$/.test(document.querySelector('.pages span').innerText) && !document.querySelector('.rows').innerText.includes('number 78')")
    stage.time("filters them", filters)
    ann.until("the focus stays in the filter", "document.activeElement.dataset.key === 'filter'")
    ann.click("[data-key='sort 1']")
    ann.until("it is sorted", "document.querySelector('th[aria-sort=ascending]') && document.querySelector('.rows tbody td:nth-child(2)').innerText === 'thing number 77'")
    ann.click("[data-key='sort 1']")
    ann.until("it is sorted the other way", "document.querySelector('th[aria-sort=descending]') && document.querySelector('.rows tbody td:nth-child(2)').innerText !== 'thing number 77'")
    ann.js("(() => { const e = document.querySelector('[data-key=filter]'); e.value = ''; e.dispatchEvent(new Event('input')); })()")
    if rows > 2000:
        ann.sees(".pages", "of {:,}".format(rows))
        ann.click("[data-key='sort 1']")
        ann.sees("#dialog", "Too many rows to sort")
        ann.press("Escape")
    served.says('insert Thing(1, "first")')
    ann.sees(".rows", "1 first")
    ann.sees("tr.fresh", "first")
    stage.picture(ann, "tables")


STORIES = [a_large_table_stays_usable]
